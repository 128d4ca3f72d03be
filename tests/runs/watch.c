/* A library to be loaded before a program: it stands between the program and the calls that read, write and sync files, and start threads.
 *
 *     cc -O1 -shared -fPIC -o watch.so watch.c -ldl
 *     LD_PRELOAD=watch.so WATCH_LOG=FILE waff run ..
 *
 * WATCH_LOG=FILE     when the program ends, a line for each call: thread, call (r, w or s), file, offset, bytes, and when it began and
 *                    ended, in nanoseconds of the monotonic clock
 * WATCH_MEET=A,B     a read or write of a file whose name ends in /A waits until there is one of a file whose name ends in /B, and the
 *                    other way round; after some seconds it fails
 * WATCH_SLOW=N,A     a read or write of a file whose name ends in /A takes N microseconds more; of any file without A
 * WATCH_THREADS=N    after N threads no more is started */
#define _GNU_SOURCE
#include <dlfcn.h>
#include <errno.h>
#include <pthread.h>
#include <stdint.h>
#include <stdio.h>
#include <stdlib.h>
#include <string.h>
#include <sys/syscall.h>
#include <time.h>
#include <unistd.h>

enum { MOST_CALLS = 400000, MOST_FILES = 1024, LONGEST = 512, PATIENCE = 2000 };

struct call {
    int thread;
    char kind;
    int file;
    long offset, bytes;
    int64_t began, ended;
};

static struct call *calls;
static volatile long count;
static char names[MOST_FILES][LONGEST];
static char met[2][64];
static volatile int here[2];
static char slow[64];
static long slower;
static long threads = -1;
static volatile long started;

static int64_t now(void) {
    struct timespec time;
    syscall(SYS_clock_gettime, CLOCK_MONOTONIC, &time);
    return time.tv_sec * 1000000000LL + time.tv_nsec;
}

__attribute__((constructor)) static void begin(void) {
    const char *meet = getenv("WATCH_MEET"), *most = getenv("WATCH_THREADS"), *late = getenv("WATCH_SLOW");
    if (getenv("WATCH_LOG")) calls = calloc(MOST_CALLS, sizeof *calls);
    if (meet) sscanf(meet, "%63[^,],%63s", met[0], met[1]);
    if (most) threads = atol(most);
    if (late) sscanf(late, "%ld,%63s", &slower, slow);
}

/* The name of an open file, which is asked for at the first call on it. */
static const char *name_of(int file) {
    if (file < 0 || file >= MOST_FILES) return "";
    if (names[file][0] == 0) {
        char link[64], name[LONGEST];
        snprintf(link, sizeof link, "/proc/self/fd/%d", file);
        ssize_t length = readlink(link, name, sizeof name - 1);
        if (length > 0) {
            name[length] = 0;
            memcpy(names[file] + 1, name + 1, (size_t)length);
            names[file][0] = name[0];
        }
    }
    return names[file];
}

static void note(char kind, int file, long offset, long bytes, int64_t began) {
    if (!calls || file < 0 || file >= MOST_FILES) return;
    name_of(file);
    long at = __sync_fetch_and_add(&count, 1);
    static __thread int thread;
    if (!thread) thread = (int)syscall(SYS_gettid);
    if (at < MOST_CALLS) calls[at] = (struct call){thread, kind, file, offset, bytes, began, now()};
}

static int ends_in(const char *name, const char *end) {
    const char *last = strrchr(name, '/');
    return last && strcmp(last + 1, end) == 0;
}

/* Waits for a call on the other file. */
static int meets(int file) {
    for (int side = 0; side < 2; side++) {
        if (!met[side][0] || !ends_in(name_of(file), met[side])) continue;
        here[side] = 1;
        for (int waited = 0; !here[1 - side]; waited++) {
            if (waited == PATIENCE) return 0;
            nanosleep(&(struct timespec){0, 1000000}, 0);
        }
    }
    return 1;
}

static void delay(int file) {
    if (slower && (!slow[0] || ends_in(name_of(file), slow))) nanosleep(&(struct timespec){slower / 1000000, slower % 1000000 * 1000}, 0);
}

ssize_t pread(int file, void *bytes, size_t length, off_t offset) {
    int64_t began = now();
    if (!meets(file)) return errno = EIO, -1;
    delay(file);
    ssize_t done = syscall(SYS_pread64, file, bytes, length, offset);
    note('r', file, offset, (long)length, began);
    return done;
}

ssize_t pwrite(int file, const void *bytes, size_t length, off_t offset) {
    int64_t began = now();
    if (!meets(file)) return errno = EIO, -1;
    delay(file);
    ssize_t done = syscall(SYS_pwrite64, file, bytes, length, offset);
    note('w', file, offset, (long)length, began);
    return done;
}

int fdatasync(int file) {
    int64_t began = now();
    int done = (int)syscall(SYS_fdatasync, file);
    note('s', file, 0, 0, began);
    return done;
}

int pthread_create(pthread_t *thread, const pthread_attr_t *how, void *(*work)(void *), void *with) {
    static int (*own)(pthread_t *, const pthread_attr_t *, void *(*)(void *), void *);
    if (threads >= 0 && __sync_add_and_fetch(&started, 1) > threads) return EAGAIN;
    if (!own) *(void **)&own = dlsym(RTLD_NEXT, "pthread_create");
    return own(thread, how, work, with);
}

static void end(void) {
    const char *name = getenv("WATCH_LOG");
    FILE *log = name && calls ? fopen(name, "w") : 0;
    if (!log) return;
    for (long at = 0; at < count && at < MOST_CALLS; at++) {
        const struct call *it = &calls[at];
        fprintf(log, "%d %c %s %ld %ld %ld %ld\n", it->thread, it->kind, names[it->file], it->offset, it->bytes, (long)it->began, (long)it->ended);
    }
    fclose(log);
}

/* The program ends by this call, and not by exit(). */
void _exit(int status) {
    end();
    syscall(SYS_exit_group, status);
    __builtin_unreachable();
}
