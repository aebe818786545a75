/* Calls the service five times, and ends with 0 if each answer is right. */
#include "service.h"

#define CALLS 5

int main(void)
{
    xous_word service, call, answer;

    xous_need(xous_find_server(SERVICE, &service));
    for (call = 1; call <= CALLS; call++) {
        xous_need(xous_ask(service, 1, call, 0, &answer));
        if (answer != 2 * call)
            return 1;
    }
    return 0;
}
