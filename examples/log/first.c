/* Writes three lines to the log, with numbers in them. */
#include "log.h"
#include "text.h"

int main(void)
{
    struct xous_log log;

    xous_need(xous_open_log(&log));
    for (xous_word line = 1; line <= 3; line++) {
        xous_need(xous_print_log(&log, "first: line "));
        xous_need(xous_print_log(&log, xous_decimal(line).text));
        xous_need(xous_print_log(&log, "\n"));
    }
    return 0;
}
