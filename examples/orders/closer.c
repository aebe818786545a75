/* Closes the desk. */
#include "desk.h"

int main(void)
{
    xous_word desk;

    xous_need(xous_find_server(DESK, &desk));
    xous_need(xous_tell(desk, CLOSE, 0, 0));
    return 0;
}
