/* Lends a page. Ends with 1000 times the first word of the reply, and the word on its page. */
#include "xous.h"

int main(void)
{
    struct xous_identifier name = XOUS_SERVER("hold");
    xous_word server = xous_connect(name).word[1];
    volatile xous_word *page = (volatile xous_word *)xous_map_memory(0, 0, XOUS_PAGE_SIZE, XOUS_R | XOUS_W).word[1];

    struct xous_reply reply = xous_send_message(server, XOUS_MUTABLE_LEND, 1, (xous_word)page, XOUS_PAGE_SIZE, 0, 4);
    *page += 100;
    return 1000 * reply.word[0] + *page;
}
