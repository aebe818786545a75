/* Doubles what it is sent. */
#include "xous.h"

int main(void)
{
    struct xous_identifier own = XOUS_SERVER("b");

    xous_create_server_with_address(own);
    for (;;) {
        struct xous_reply message = xous_receive_message(own);

        xous_return_scalar1(message.word[XOUS_TOKEN], 2 * message.word[XOUS_ARGUMENT]);
    }
}
