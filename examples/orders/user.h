/* A user of the store: puts a value under a key of its own, looks whether it is there, and leaves. */
#include "store.h"

int main(void)
{
    xous_word store, answer, value;

    xous_need(xous_find_server(STORE, &store));
    xous_need(xous_ask(store, PUT, OWN, 10 * OWN, &answer));
    xous_need(xous_ask(store, GET, OWN, 0, &value));
    xous_need(xous_ask(store, LEAVE, 0, 0, &answer));
    return value != 10 * OWN;
}
