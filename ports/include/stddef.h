/* What uss.h and bench/ need of the C compiler's own stddef.h, for a compiler that comes without one. */
#ifndef PORT_STDDEF_H
#define PORT_STDDEF_H
typedef __SIZE_TYPE__ size_t;
#define NULL ((void *)0)
#define offsetof(type, field) __builtin_offsetof(type, field)
#endif
