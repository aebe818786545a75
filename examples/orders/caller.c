/* Asks the desk for twice 21, and checks the answer. */
#include "desk.h"

int main(void)
{
    xous_word desk, answer;

    xous_need(xous_find_server(DESK, &desk));
    xous_need(xous_ask(desk, ASK, 21, 0, &answer));
    xous_check(answer == 42);
    return 0;
}
