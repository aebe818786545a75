/* Adds 30 and 12 to the server's count, asks for it, and ends with it as the exit word. */
#include "counter.h"

int main(void)
{
    volatile char *console;
    xous_word server, digits[2], count;

    xous_need(xous_open_console(&console));
    xous_need(xous_find_server(COUNTER, &server));
    xous_need(xous_tell(server, ADD, 30, 0));
    xous_need(xous_tell(server, ADD, 12, 0));

    xous_need(xous_ask_two(server, GET_DIGITS, 0, 0, digits));
    *console = '0' + digits[0];
    *console = '0' + digits[1];
    *console = '\n';

    xous_need(xous_ask(server, GET, 0, 0, &count));
    return count;
}
