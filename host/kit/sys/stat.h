#ifndef KIT_SYS_STAT_H
#define KIT_SYS_STAT_H
struct stat {
    unsigned long st_dev, st_ino, st_nlink;
    unsigned st_mode, st_uid, st_gid;
    unsigned char rest[108];
};
#define S_ISREG(mode) (((mode)&0170000) == 0100000)
int fchmod(int, unsigned);
int fstat(int, struct stat *);
int lstat(const char *, struct stat *);
#endif
