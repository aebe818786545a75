/* Tells both servers to lend to each other. */
#include "xous.h"

int main(void)
{
    struct xous_identifier left = XOUS_SERVER("l"), right = XOUS_SERVER("r");

    xous_send_message(xous_connect(left).word[1], XOUS_SCALAR, 1, 0, 0, 0, 0);
    xous_send_message(xous_connect(right).word[1], XOUS_SCALAR, 1, 0, 0, 0, 0);
    return 0;
}
