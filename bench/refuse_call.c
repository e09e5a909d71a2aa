/* A library that is loaded before a program (LD_PRELOAD) and refuses one of its calls, or all from one on.
 *
 *   REFUSE_GROWTH=N    the Nth growth: malloc, calloc, realloc and their aligned kin
 *   REFUSE_CALL=KIND:N the Nth call of the kind: open, read, write, socket, bind, listen, option, accept, connect, poll, pipe,
 *                      spawn or thread
 *   REFUSE_ON=1        that call and all after it
 *   REFUSE_IN=WORD     only in a process whose first word is WORD; elsewhere nothing is refused
 *   REFUSE_LOG=FILE    gets a line for each refusal, so that who runs the program knows that it met one
 *
 * Calls are counted from 1 in each process, over all its threads, from before `main` on. A refusal is the error that the
 * system would give: no memory, too many files, an input or output error, a refused connection, no more processes.
 *
 *   cc -O1 -Wall -shared -fPIC -o refuse_call.so refuse_call.c -ldl */
#define _GNU_SOURCE
#include <dlfcn.h>
#include <errno.h>
#include <fcntl.h>
#include <poll.h>
#include <pthread.h>
#include <spawn.h>
#include <stdarg.h>
#include <stdio.h>
#include <stdlib.h>
#include <string.h>
#include <sys/socket.h>
#include <sys/syscall.h>
#include <sys/uio.h>
#include <unistd.h>

enum kind { GROWTH, OPEN, READ, WRITE, SOCKET, BIND, LISTEN, OPTION, ACCEPT, CONNECT, POLL, PIPE, SPAWN, THREAD, KINDS };
static const char *const names[KINDS] = {"growth", "open", "read", "write", "socket", "bind", "listen", "option", "accept",
                                         "connect", "poll", "pipe", "spawn", "thread"};
static const int faults[KINDS] = {ENOMEM, EMFILE, EIO, EIO, EMFILE, EADDRINUSE, EADDRINUSE, ENOBUFS, EMFILE,
                                  ECONNREFUSED, ENOMEM, EMFILE, EAGAIN, EAGAIN};

static enum kind refused = KINDS;
static long number;
static int all_after;
static const char *log_name;
static long counts[KINDS];

/* Before anything of the program's own runs. */
__attribute__((constructor)) static void read_environment(int argc, char **argv, char **envp)
{
    (void)envp;
    const char *only = getenv("REFUSE_IN"), *growth = getenv("REFUSE_GROWTH"), *call = getenv("REFUSE_CALL");
    if (only && (argc < 2 || strcmp(argv[1], only)))
        return;
    all_after = getenv("REFUSE_ON") != NULL;
    log_name = getenv("REFUSE_LOG");
    if (growth) {
        number = atol(growth);
        refused = GROWTH;
    } else if (call && strchr(call, ':')) {
        size_t length = strchr(call, ':') - call;
        number = atol(call + length + 1);
        for (int kind = OPEN; kind < KINDS; kind++)
            if (strlen(names[kind]) == length && !strncmp(call, names[kind], length))
                refused = kind;
    }
}

/* The log is written past what is refused here. */
static void note(enum kind kind, long count)
{
    char line[64];
    int length = snprintf(line, sizeof line, "%s %ld\n", names[kind], count);
    long file = syscall(SYS_openat, AT_FDCWD, log_name, O_WRONLY | O_APPEND | O_CREAT | O_CLOEXEC, 0600);
    if (file >= 0) {
        syscall(SYS_write, file, line, length);
        syscall(SYS_close, file);
    }
}

static int refuses(enum kind kind)
{
    if (kind != refused)
        return 0;
    long count = __atomic_add_fetch(&counts[kind], 1, __ATOMIC_RELAXED);
    if (all_after ? count < number : count != number)
        return 0;
    if (log_name)
        note(kind, count);
    errno = faults[kind];
    return 1;
}

static void *next(const char *name)
{
    return dlsym(RTLD_NEXT, name);
}

/* Growths. The C library has its own under a second name, so that nothing has to be looked up before the first. */
void *__libc_malloc(size_t);
void *__libc_calloc(size_t, size_t);
void *__libc_realloc(void *, size_t);
void *__libc_memalign(size_t, size_t);

void *malloc(size_t size) { return refuses(GROWTH) ? NULL : __libc_malloc(size); }
void *calloc(size_t count, size_t size) { return refuses(GROWTH) ? NULL : __libc_calloc(count, size); }
void *realloc(void *old, size_t size) { return refuses(GROWTH) ? NULL : __libc_realloc(old, size); }
void *memalign(size_t align, size_t size) { return refuses(GROWTH) ? NULL : __libc_memalign(align, size); }
void *aligned_alloc(size_t align, size_t size) { return refuses(GROWTH) ? NULL : __libc_memalign(align, size); }

int posix_memalign(void **out, size_t align, size_t size)
{
    void *got = refuses(GROWTH) ? NULL : __libc_memalign(align, size);
    if (!got)
        return ENOMEM;
    *out = got;
    return 0;
}

/* Calls that answer -1. */
#define CALL(kind, type, name, parameters, arguments)          \
    type name parameters                                       \
    {                                                          \
        static type(*real) parameters;                         \
        if (!real)                                             \
            real = (type(*) parameters)next(#name);            \
        return refuses(kind) ? -1 : real arguments;            \
    }

CALL(READ, ssize_t, read, (int f, void *b, size_t n), (f, b, n))
CALL(READ, ssize_t, readv, (int f, const struct iovec *v, int n), (f, v, n))
CALL(READ, ssize_t, recv, (int f, void *b, size_t n, int o), (f, b, n, o))
CALL(READ, ssize_t, recvfrom, (int f, void *b, size_t n, int o, struct sockaddr *a, socklen_t *l), (f, b, n, o, a, l))
CALL(READ, ssize_t, recvmsg, (int f, struct msghdr *m, int o), (f, m, o))
CALL(WRITE, ssize_t, write, (int f, const void *b, size_t n), (f, b, n))
CALL(WRITE, ssize_t, writev, (int f, const struct iovec *v, int n), (f, v, n))
CALL(WRITE, ssize_t, send, (int f, const void *b, size_t n, int o), (f, b, n, o))
CALL(WRITE, ssize_t, sendto, (int f, const void *b, size_t n, int o, const struct sockaddr *a, socklen_t l), (f, b, n, o, a, l))
CALL(WRITE, ssize_t, sendmsg, (int f, const struct msghdr *m, int o), (f, m, o))
CALL(SOCKET, int, socket, (int d, int t, int p), (d, t, p))
CALL(BIND, int, bind, (int f, const struct sockaddr *a, socklen_t l), (f, a, l))
CALL(LISTEN, int, listen, (int f, int n), (f, n))
CALL(OPTION, int, setsockopt, (int f, int l, int o, const void *v, socklen_t n), (f, l, o, v, n))
CALL(POLL, int, poll, (struct pollfd *f, nfds_t n, int t), (f, n, t))
CALL(PIPE, int, pipe2, (int f[2], int o), (f, o))
CALL(ACCEPT, int, accept, (int f, struct sockaddr *a, socklen_t *l), (f, a, l))
CALL(ACCEPT, int, accept4, (int f, struct sockaddr *a, socklen_t *l, int o), (f, a, l, o))
CALL(CONNECT, int, connect, (int f, const struct sockaddr *a, socklen_t l), (f, a, l))
CALL(SPAWN, pid_t, fork, (void), ())

/* The mode stands only where a file may be made. */
#define OPENS(name, parameters, arguments)                     \
    int name parameters                                        \
    {                                                          \
        static int (*real)();                                  \
        va_list more;                                          \
        va_start(more, options);                               \
        int mode = va_arg(more, int);                          \
        va_end(more);                                          \
        if (!real)                                             \
            real = (int (*)())next(#name);                     \
        return refuses(OPEN) ? -1 : real arguments;            \
    }

OPENS(open, (const char *path, int options, ...), (path, options, mode))
OPENS(open64, (const char *path, int options, ...), (path, options, mode))
OPENS(openat, (int at, const char *path, int options, ...), (at, path, options, mode))
OPENS(openat64, (int at, const char *path, int options, ...), (at, path, options, mode))

/* Calls that answer the error. */
int posix_spawn(pid_t *child, const char *path, const posix_spawn_file_actions_t *files, const posix_spawnattr_t *attributes,
                char *const words[], char *const environment[])
{
    static int (*real)();
    if (!real)
        real = (int (*)())next("posix_spawn");
    return refuses(SPAWN) ? EAGAIN : real(child, path, files, attributes, words, environment);
}

int posix_spawnp(pid_t *child, const char *file, const posix_spawn_file_actions_t *files, const posix_spawnattr_t *attributes,
                 char *const words[], char *const environment[])
{
    static int (*real)();
    if (!real)
        real = (int (*)())next("posix_spawnp");
    return refuses(SPAWN) ? EAGAIN : real(child, file, files, attributes, words, environment);
}

int pthread_create(pthread_t *thread, const pthread_attr_t *attributes, void *(*body)(void *), void *argument)
{
    static int (*real)();
    if (!real)
        real = (int (*)())next("pthread_create");
    return refuses(THREAD) ? EAGAIN : real(thread, attributes, body, argument);
}
