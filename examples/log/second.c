/* Asks for the console, which the log has, and writes to the log why there is none. */
#include "log.h"
#include "text.h"

int main(void)
{
    struct xous_log log;
    volatile char *console;

    xous_need(xous_open_log(&log));

    enum xous_error error = xous_open_console(&console);

    if (error == XOUS_NO_ERROR)
        return 1;
    xous_need(xous_print_log(&log, "second: the console is refused with error "));
    xous_need(xous_print_log(&log, xous_decimal(error).text));
    xous_need(xous_print_log(&log, "\n"));
    return 0;
}
