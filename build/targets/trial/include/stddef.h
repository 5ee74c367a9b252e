/* The size, the null pointer and the places of fields that the trial and forth83.h need, for WebAssembly, where there is no C library. */
#ifndef STDDEF_H
#define STDDEF_H
#define NULL ((void *)0)
#define offsetof(type, member) __builtin_offsetof(type, member)
typedef __SIZE_TYPE__ size_t;
#endif
