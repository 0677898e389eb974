#ifndef KIT_FCNTL_H
#define KIT_FCNTL_H
#define O_RDONLY 00
#define O_WRONLY 01
#define O_CREAT 0100
#define O_EXCL 0200
#define O_DIRECTORY 0200000
#define O_PATH 010000000
int open(const char *, int, ...);
int openat(int, const char *, int, ...);
#endif
