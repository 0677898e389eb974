/* The headers of this folder declare what the programs in C use of the C library, for x86-64 Linux: the kit has a C library and no headers. */
#ifndef KIT_STDDEF_H
#define KIT_STDDEF_H
typedef unsigned long size_t;
#define NULL ((void *)0)
#endif
