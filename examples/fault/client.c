/* Lends a page while its second thread stores into it. */
#include "xous.h"

static xous_word store(volatile xous_word *page)
{
    *page = 1;
    return 0;
}

int main(void)
{
    struct xous_identifier name = XOUS_SERVER("fill");
    xous_word page = xous_map_memory(0, 0, XOUS_PAGE_SIZE, XOUS_R | XOUS_W).word[1];
    xous_word stack = xous_increase_heap(XOUS_PAGE_SIZE).word[1] + XOUS_PAGE_SIZE;
    xous_word server = xous_connect(name).word[1];

    xous_create_thread((xous_word)store, stack, page, 0, 0, 0);
    xous_send_message(server, XOUS_MUTABLE_LEND, 7, page, XOUS_PAGE_SIZE, 0, 0);
    return 0;
}
