/* A server that lends a page to another one when it is told to, and gives back what it is lent. It has one thread. */
#include "xous.h"

enum request { GO = 1, FILL = 2 };

int main(void)
{
    struct xous_identifier own = XOUS_SERVER(OWN), others = XOUS_SERVER(OTHERS);

    xous_create_server_with_address(own);
    xous_word page = xous_map_memory(0, 0, XOUS_PAGE_SIZE, XOUS_R | XOUS_W).word[1];
    xous_word other = xous_connect(others).word[1];

    for (;;) {
        struct xous_reply message = xous_receive_message(own);

        if (message.word[XOUS_ID] == GO)
            xous_send_message(other, XOUS_MUTABLE_LEND, FILL, page, XOUS_PAGE_SIZE, 0, 0);
        else
            xous_return_memory(message.word[XOUS_TOKEN], message.word[XOUS_ADDRESS], message.word[XOUS_LENGTH], 0, 0);
    }
}
