/* Lends a page to be filled, then stores into it again and writes what is there. */
#include "checked.h"

#define FILL 7

int main(void)
{
    volatile char *console;
    xous_word *page, server, valid = 0;

    xous_need(xous_open_console(&console));
    xous_need(xous_get_pages(XOUS_PAGE_SIZE, &page));
    xous_need(xous_find_server(XOUS_SERVER("fill"), &server));

    xous_need(xous_lend_to_fill(server, FILL, page, XOUS_PAGE_SIZE, &valid));
    *(volatile char *)page = 'O';
    xous_print(console, (const char *)page);
    return 0;
}
