#ifndef KIT_STDINT_H
#define KIT_STDINT_H
typedef unsigned char uint8_t;
typedef unsigned long uint64_t;
#define UINT64_MAX 18446744073709551615UL
#endif
