/* What a compiler calls by itself, and a program may too: bytes copied, set and compared (memory.c). */
#ifndef XOUS_MEMORY_H
#define XOUS_MEMORY_H

#include <stddef.h>

void *memcpy(void *to, const void *from, size_t size);
void *memmove(void *to, const void *from, size_t size); /* also where both overlap */
void *memset(void *to, int byte, size_t size);
int memcmp(const void *left, const void *right, size_t size);
size_t strlen(const char *text);

#endif
