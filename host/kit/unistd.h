#ifndef KIT_UNISTD_H
#define KIT_UNISTD_H
#include <stddef.h>
typedef long ssize_t;
typedef unsigned uid_t, gid_t;
int close(int);
int fchown(int, uid_t, gid_t);
int fsync(int);
int getpid(void);
int unlinkat(int, const char *, int);
ssize_t write(int, const void *, size_t);
#endif
