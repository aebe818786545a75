/* Lends a page with the word 41 to the front server, and ends with the word that it then has. */
#include "checked.h"

#define COUNT 1

int main(void)
{
    xous_word *page, server, valid = sizeof *page;

    xous_need(xous_find_server(XOUS_SERVER("front"), &server));
    xous_need(xous_get_pages(XOUS_PAGE_SIZE, &page));

    *page = 41;
    xous_need(xous_lend_to_fill(server, COUNT, page, XOUS_PAGE_SIZE, &valid));
    return *page;
}
