/* Asks for the time and for a sleep of 2000 steps, and writes to the log how long it was. */
#include "log.h"
#include "text.h"

enum { NOW = 1, SLEEP = 2 };

int main(void)
{
    struct xous_identifier name = XOUS_SERVER("time");
    struct xous_log log;
    xous_word timer, before, after;

    xous_need(xous_open_log(&log));
    xous_need(xous_find_server(name, &timer));
    xous_need(xous_ask(timer, NOW, 0, 0, &before));
    xous_need(xous_ask(timer, SLEEP, 2000, 0, &after));
    xous_need(xous_print_log(&log, "slept "));
    xous_need(xous_print_log(&log, xous_decimal(after - before).text));
    xous_need(xous_print_log(&log, " steps\n"));
    return 0;
}
