#ifndef KIT_STDIO_H
#define KIT_STDIO_H
#include <stddef.h>
typedef struct kit_file FILE;
extern FILE *stdin, *stdout, *stderr;
FILE *fopen(const char *, const char *);
int fileno(FILE *);
int fclose(FILE *);
int fflush(FILE *);
int ferror(FILE *);
size_t fread(void *, size_t, size_t, FILE *);
size_t fwrite(const void *, size_t, size_t, FILE *);
int fputc(int, FILE *);
int fputs(const char *, FILE *);
int printf(const char *, ...) __attribute__((format(printf, 1, 2)));
int fprintf(FILE *, const char *, ...) __attribute__((format(printf, 2, 3)));
int snprintf(char *, size_t, const char *, ...) __attribute__((format(printf, 3, 4)));
int renameat(int, const char *, int, const char *);
FILE *open_memstream(char **, size_t *);
FILE *fmemopen(void *, size_t, const char *);
#endif
