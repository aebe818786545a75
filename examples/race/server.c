/* A server that answers each blocking scalar with its first argument, doubled. */
#include "xous.h"

int main(void)
{
    struct xous_identifier name = XOUS_SERVER("race");

    xous_create_server_with_address(name);
    for (;;) {
        struct xous_reply message = xous_receive_message(name);

        xous_return_scalar1(message.word[XOUS_TOKEN], 2 * message.word[XOUS_ARGUMENT]);
    }
}
