/* The server of the example lend: fills each page that is lent to it, and gives it back. */
#include "xous.h"

int main(void)
{
    struct xous_identifier name = XOUS_SERVER("fill");

    xous_create_server_with_address(name);
    for (;;) {
        struct xous_reply message = xous_receive_message(name);
        char *page = (char *)message.word[XOUS_ADDRESS];

        page[0] = 'o';
        page[1] = 'k';
        page[2] = '\n';
        xous_return_memory(message.word[XOUS_TOKEN], message.word[XOUS_ADDRESS], message.word[XOUS_LENGTH], 0, 3);
    }
}
