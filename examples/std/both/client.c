/* A client in C of the server of text in Rust: the page that it lends comes back in capitals. */
#include "log.h"
#include "memory.h"
#include "text.h"

enum { CAPITALS = 2, ADD = 3, END = 5 };

static const char text[] = "a page from c goes to rust";

int main(void)
{
    struct xous_log log;
    xous_word *page, server, sum, valid = sizeof text - 1;

    xous_need(xous_open_log(&log));
    xous_need(xous_find_server(XOUS_SERVER("text"), &server));
    xous_need(xous_get_pages(XOUS_PAGE_SIZE, &page));

    memcpy(page, text, sizeof text);
    xous_need(xous_lend_to_fill(server, CAPITALS, page, XOUS_PAGE_SIZE, &valid));
    xous_need(xous_print_log(&log, "client: "));
    xous_need(xous_print_log(&log, (const char *)page));
    xous_need(xous_print_log(&log, "\n"));

    xous_need(xous_ask(server, ADD, 40, 2, &sum));
    xous_need(xous_print_log(&log, "client: the sum is "));
    xous_need(xous_print_log(&log, xous_decimal(sum).text));
    xous_need(xous_print_log(&log, "\n"));

    xous_need(xous_tell(server, END, 0, 0));
    return 0;
}
