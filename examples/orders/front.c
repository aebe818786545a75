/* Asks another server for each answer. Where that one is gone it forgets to answer at all. */
#include "xous.h"

int main(void)
{
    struct xous_identifier own = XOUS_SERVER("f"), others = XOUS_SERVER("b");

    xous_create_server_with_address(own);
    xous_word other = xous_connect(others).word[1];

    for (;;) {
        struct xous_reply message = xous_receive_message(own);
        xous_word number = message.word[XOUS_ARGUMENT];
        struct xous_reply answer = xous_send_message(other, XOUS_BLOCKING_SCALAR, 1, number, 0, 0, 0);

        if (answer.word[0] == XOUS_SCALAR1)
            xous_return_scalar1(message.word[XOUS_TOKEN], answer.word[1]);
    }
}
