#ifndef KIT_STDLIB_H
#define KIT_STDLIB_H
void free(void *);
#endif
