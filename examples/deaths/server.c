/* Holds each page that is lent to it for a turn before it gives the page back. */
#include "xous.h"

int main(void)
{
    struct xous_identifier name = XOUS_SERVER("hold");

    xous_create_server_with_address(name);
    for (;;) {
        struct xous_reply message = xous_receive_message(name);

        xous_yield();
        *(xous_word *)message.word[XOUS_ADDRESS] += 1;
        xous_return_memory(message.word[XOUS_TOKEN], message.word[XOUS_ADDRESS], message.word[XOUS_LENGTH], 0, 4);
    }
}
