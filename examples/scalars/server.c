/* A server that counts. */
#include "counter.h"

static enum xous_error serve(struct xous_message *message, xous_word *count)
{
    if (message->kind == XOUS_SCALAR && message->id == ADD)
        *count += message->word[0];
    else if (message->kind == XOUS_BLOCKING_SCALAR && message->id == GET)
        return xous_answer(message, *count);
    else if (message->kind == XOUS_BLOCKING_SCALAR && message->id == GET_DIGITS)
        return xous_answer_two(message, *count / 10, *count % 10);
    return xous_dismiss(message);
}

int main(void)
{
    xous_word connection, count = 0;

    xous_need(xous_make_server(COUNTER, &connection));
    for (;;) {
        struct xous_message message;

        xous_need(xous_take_message(COUNTER, &message));
        xous_need(serve(&message, &count));
    }
}
