/* A store of words by key. Two threads serve it, and share its table without a lock. */
#include "store.h"

#define PLACES 8
#define USERS 2

struct entry {
    xous_word key, value;
};

static volatile struct entry table[PLACES];
static volatile xous_word used, left, leaving[USERS];
static char stack[4096];

/* The entry of a key, which is a new one if the key has none. */
static volatile struct entry *find(xous_word key)
{
    xous_word place = 0;

    while (place < used && table[place].key != key)
        place++;
    if (place == used) {
        table[place].key = key;
        used = place + 1;
    }
    return &table[place];
}

static xous_word serve(struct xous_message *message)
{
    volatile struct entry *entry = find(message->word[0]);

    if (message->id == PUT)
        entry->value = message->word[1];
    return entry->value;
}

/* Keeps the tokens of messages until the last user leaves, and answers them then. */
static void leave(xous_word token)
{
    xous_word place = left;

    left = place + 1;
    leaving[place] = token;
    if (place + 1 == USERS)
        for (place = 0; place < USERS; place++)
            xous_need(xous_error_of(xous_return_scalar1(leaving[place], 0)));
}

static xous_word run(xous_word unused)
{
    for (;;) {
        struct xous_message message;

        xous_need(xous_take_message(STORE, &message));
        if (message.kind != XOUS_BLOCKING_SCALAR)
            xous_need(xous_dismiss(&message));
        else if (message.id == LEAVE)
            leave(message.token);
        else
            xous_need(xous_answer(&message, serve(&message)));
    }
    return unused;
}

int main(void)
{
    xous_word connection, thread;

    xous_need(xous_make_server(STORE, &connection));
    xous_need(xous_start_thread(run, stack + sizeof stack, 0, &thread));
    return run(0);
}
