/* NAME: writes to the console, and ends with the exit word 0. The log of the kit is for more than one program
 * that writes (log.h); all calls are in checked.h. */
#include "checked.h"
#include "text.h"

int main(void)
{
    volatile char *console;

    xous_need(xous_open_console(&console));
    xous_print(console, "hello from NAME, six times seven is ");
    xous_print(console, xous_decimal(6 * 7).text);
    xous_print(console, "\n");
    return 0;
}
