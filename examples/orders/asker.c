/* Asks the front for twice 21, and ends with it as the exit word. */
#include "xous.h"

int main(void)
{
    struct xous_identifier front = XOUS_SERVER("f");

    return xous_send_message(xous_connect(front).word[1], XOUS_BLOCKING_SCALAR, 1, 21, 0, 0, 0).word[1];
}
