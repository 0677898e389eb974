/* Reading inputs, and writing files that appear whole or not at all. */
#define _GNU_SOURCE
#include <errno.h>
#include <fcntl.h>
#include <signal.h>
#include <string.h>
#include <sys/stat.h>
#include <unistd.h>
#include "host.h"

static uint8_t input[DESK_BYTES + 1];
static struct stat input_file;

int trouble(const char *doing, const char *name, const char *why) {
    fprintf(stderr, "desk: cannot %s ", doing);
    print_word(stderr, name);
    fprintf(stderr, ": %s\n", why);
    return FAILED;
}

/* ─── reading and printing ─── */

int read_input(const char *name, struct text *text) {
    int standard = strcmp(name, "-") == 0;
    FILE *file = standard ? stdin : fopen(name, "rb");
    if (!file) return trouble("read", name, strerror(errno));
    *text = (struct text){input, fread(input, 1, sizeof input, file)};
    int failed = ferror(file) || fstat(fileno(file), &input_file) != 0, why = errno;
    if (!standard) fclose(file);
    return failed ? trouble("read", standard ? "standard input" : name, strerror(why)) : DONE;
}

int flushed(FILE *to) {
    if (fflush(to) == 0 && !ferror(to)) return DONE;
    return trouble("write", to == stdout ? "standard output" : "standard error", strerror(errno));
}

/* ─── writing a whole file ─── */

/* The folder of a file, opened, also where its names may not be read; and the file's own name in it. */
static int open_folder(const char *name, const char **own) {
    char folder[4096] = ".";
    const char *slash = strrchr(name, '/');
    size_t length = slash ? (size_t)(slash - name) + 1 : 0;
    if (length >= sizeof folder) {
        errno = ENAMETOOLONG;
        return -1;
    }
    if (slash) {
        memcpy(folder, name, length);
        folder[length] = 0;
    }
    *own = name + length;
    int opened = open(folder, O_RDONLY | O_DIRECTORY);
    return opened >= 0 ? opened : open(folder, O_PATH | O_DIRECTORY);
}

/* A new file in the folder, whose name is then in `beside`: short, hidden, and unlike that of a message or a
   list. */
static int make_beside(int folder, unsigned rights, char beside[40]) {
    int made = -1;
    for (int i = 0; i < 100 && made < 0; i++) {
        snprintf(beside, 40, ".desk-%ld-%d", (long)getpid(), i);
        made = openat(folder, beside, O_WRONLY | O_CREAT | O_EXCL, rights);
        if (made < 0 && errno != EEXIST) break;
    }
    return made;
}

static int put_bytes(int file, struct text text) {
    for (size_t at = 0; at < text.length;) {
        ssize_t n = write(file, text.bytes + at, text.length - at);
        if (n < 0) return 0;
        at += (size_t)n;
    }
    return fsync(file) == 0;
}

/* The new file gets the owner, the group and the rights of the older one. Only root can give a file away: for
   others the owner is who runs the command, and where the group cannot be kept either, the new one gets no
   right that not everybody had. Access lists and other attributes are not kept. */
static int take_over(int made, const struct stat *older) {
    unsigned rights = older->st_mode & 0777;
    if (fchown(made, older->st_uid, older->st_gid) != 0 && fchown(made, (uid_t)-1, older->st_gid) != 0)
        rights &= 0707 | (rights & 07) << 3;
    return fchmod(made, rights) == 0;
}

/* Writes the bytes beside the file, and gives them its name. Answers null, or why that could not be. */
static const char *put_file(const char *name, struct text text) {
    char beside[40];
    const char *own;
    struct stat older;
    int is_there = lstat(name, &older) == 0;
    if (is_there && !S_ISREG(older.st_mode)) return "it is there, and is no regular file";
    if (is_there && older.st_dev == input_file.st_dev && older.st_ino == input_file.st_ino)
        return "it is the input itself";
    int folder = open_folder(name, &own);
    if (folder < 0) return strerror(errno);
    int made = make_beside(folder, is_there ? 0600 : 0666, beside), why = errno;
    if (made >= 0) {
        int put = put_bytes(made, text) && (!is_there || take_over(made, &older)) &&
                  renameat(folder, beside, folder, own) == 0;
        why = put ? 0 : errno;
        if (put)
            fsync(folder);
        else
            unlinkat(folder, beside, 0);
        close(made);
    }
    close(folder);
    return why == 0 ? 0 : strerror(why);
}

/* Signals wait until the file stands or what was begun is removed, so that none which can be caught leaves a
   file beside it. */
int replace_file(const char *name, struct text text) {
    sigset_t all, before;
    sigfillset(&all);
    sigprocmask(SIG_SETMASK, &all, &before);
    const char *why = put_file(name, text);
    sigprocmask(SIG_SETMASK, &before, 0);
    return why ? trouble("write", name, why) : DONE;
}
