#ifndef KIT_SIGNAL_H
#define KIT_SIGNAL_H
typedef struct { unsigned long bits[16]; } sigset_t;
#define SIG_SETMASK 2
int sigfillset(sigset_t *);
int sigprocmask(int, const sigset_t *, sigset_t *);
#endif
