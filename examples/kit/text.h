/* Numbers as text: print(console, decimal(42).text), or print_log(&log, hexadecimal(42).text). */
#ifndef XOUS_TEXT_H
#define XOUS_TEXT_H

#include "xous.h"

struct xous_digits {
    char text[11]; /* ends by 0 */
};

static inline struct xous_digits xous_decimal(xous_word number)
{
    struct xous_digits digits;
    char reversed[10];
    int count = 0, place = 0;

    do {
        reversed[count++] = '0' + number % 10;
        number /= 10;
    } while (number);
    while (count)
        digits.text[place++] = reversed[--count];
    digits.text[place] = 0;
    return digits;
}

/* Eight digits, as a transcript has them. */
static inline struct xous_digits xous_hexadecimal(xous_word number)
{
    struct xous_digits digits;

    for (int place = 0; place < 8; place++)
        digits.text[place] = "0123456789abcdef"[number >> (28 - 4 * place) & 15];
    digits.text[8] = 0;
    return digits;
}

#endif
