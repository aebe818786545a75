/* A thread makes a page that the first thread uses without waiting for it: where it is late, the store goes to address 0. */
#include "checked.h"

static xous_word *volatile page;
static char stack[4096];

static xous_word make(xous_word unused)
{
    xous_word *made;

    xous_need(xous_get_pages(XOUS_PAGE_SIZE, &made));
    page = made;
    return unused;
}

int main(void)
{
    xous_word thread;

    xous_need(xous_start_thread(make, stack + sizeof stack, 0, &thread));
    xous_yield();
    *page = 1;
    return 0;
}
