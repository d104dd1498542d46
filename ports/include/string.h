/* What bench/ needs of a C library's string.h, for a compiler that comes without one. */
#ifndef PORT_STRING_H
#define PORT_STRING_H
#include <stddef.h>
void *memcpy(void *to, const void *from, size_t n);
void *memset(void *to, int byte, size_t n);
size_t strlen(const char *text);
#endif
