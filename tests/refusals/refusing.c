// Refuses memory to a program, one allocation at a time: loaded before it (LD_PRELOAD). REFUSING has, as numbers:
//
//     FILE FIRST AT SECONDS [ALLOC REALLOC RATTLE_ALLOC RATTLE_REALLOC]
//
// With 0 for AT it forks the program at allocations of its first thread, and refuses that one in the child: all where FIRST is 0, else
// each of the first FIRST, and fewer of the others; where it is negative those whose number is a power of two. The child has SECONDS, and
// outputs of its own, which begin with what was written so far. The open file FILE gets for each a line `number status out err`, and behind
// it so many bytes of standard output and standard error. The status is that of waitpid, or -1: that allocation was made by another thread,
// or while there was one, which a fork does not copy. With another AT that allocation is refused, and no other.
//
// The last four are where in the program these functions stand, if it has them: the first two are what the kit puts in to refuse by. Without
// them it is the program's calls of malloc and realloc that are refused.
#define _GNU_SOURCE
#include <dlfcn.h>
#include <fcntl.h>
#include <link.h>
#include <signal.h>
#include <stdint.h>
#include <stdio.h>
#include <stdlib.h>
#include <string.h>
#include <sys/mman.h>
#include <sys/syscall.h>
#include <sys/wait.h>
#include <unistd.h>

typedef struct {
    void *place;
    uint64_t size;
} Pair;

static Pair (*rattle_alloc)(uint64_t, uint64_t);
static Pair (*rattle_realloc)(uint64_t, uint64_t, uint64_t, uint64_t);
static void *(*libc_malloc)(size_t);
static void *(*libc_realloc)(void *, size_t);

static uintptr_t begin, end;  // of the program's own code
static long file = -1, first, at, seconds;
static int64_t calls, next = 1;
static int is_child;

// How many threads there are, without memory of its own.
static long threads(void) {
    char text[1024];
    int stat = open("/proc/self/stat", O_RDONLY);
    ssize_t length = read(stat, text, sizeof text - 1);
    close(stat);
    if (length <= 0) return 0;
    text[length] = 0;
    long count = 0;
    char *field = strrchr(text, ')');
    return field && sscanf(field, ") %*c %*d %*d %*d %*d %*d %*u %*u %*u %*u %*u %*u %*u %*d %*d %*d %*d %ld", &count) == 1 ? count : 0;
}

static void copy(int from, int to) {
    char bytes[4096];
    off_t place = 0;
    ssize_t length;
    while ((length = pread(from, bytes, sizeof bytes, place)) > 0) {
        if (write(to, bytes, length) != length) return;
        place += length;
    }
}

static long size_of(int output) { return lseek(output, 0, SEEK_END); }

// A line for an allocation, and what was printed where that was refused.
static void tell(int64_t number, int status, int out, int err) {
    dprintf(file, "%lld %d %ld %ld\n", (long long)number, status, out < 0 ? 0 : size_of(out), err < 0 ? 0 : size_of(err));
    if (out >= 0) copy(out, file);
    if (err >= 0) copy(err, file);
}

// Forks; true in the child.
static int forked(int64_t number) {
    if (syscall(SYS_gettid) != getpid() || threads() != 1) {
        tell(number, -1, -1, -1);
        return 0;
    }
    int out = memfd_create("out", 0), err = memfd_create("err", 0), status;
    copy(1, out);
    copy(2, err);
    pid_t child = fork();
    if (child == 0) {
        is_child = 1;
        dup2(out, 1);
        dup2(err, 2);
        close(out);
        close(err);
        signal(SIGALRM, SIG_DFL);
        alarm(seconds);
        return 1;
    }
    if (child < 0 || waitpid(child, &status, 0) != child) status = -1;
    tell(number, status, out, err);
    close(out);
    close(err);
    return 0;
}

// Whether this allocation is to be refused.
static int refused(void) {
    int64_t number = __atomic_add_fetch(&calls, 1, __ATOMIC_SEQ_CST);
    if (at) return number == at;
    if (is_child || file < 0 || number < next) return 0;
    next = first < 0 ? 2 * number : number + 1 + (first ? number / first : 0);
    return forked(number);
}

static Pair alloc(uint64_t size, uint64_t align) {
    return refused() ? (Pair){0, 0x1000} : rattle_alloc(size, align);
}

static Pair realloc_(uint64_t a, uint64_t b, uint64_t c, uint64_t d) {
    return refused() ? (Pair){0, 0x1000} : rattle_realloc(a, b, c, d);
}

static int is_of_program(void *caller) { return begin <= (uintptr_t)caller && (uintptr_t)caller < end; }

#ifdef OF_LIBC
void *malloc(size_t size) {
    if (!libc_malloc) libc_malloc = dlsym(RTLD_NEXT, "malloc");
    return is_of_program(__builtin_return_address(0)) && refused() ? NULL : libc_malloc(size);
}

void *realloc(void *old, size_t size) {
    if (!libc_realloc) libc_realloc = dlsym(RTLD_NEXT, "realloc");
    return is_of_program(__builtin_return_address(0)) && refused() ? NULL : libc_realloc(old, size);
}
#endif

// Puts a jump to a function at a place of the program.
static void jump(uintptr_t place, void *to) {
    uint8_t code[12] = {0x48, 0xb8};
    memcpy(code + 2, &to, 8);
    code[10] = 0xff;
    code[11] = 0xe0;
    mprotect((void *)(place & ~4095ul), 8192, PROT_READ | PROT_WRITE | PROT_EXEC);
    memcpy((void *)place, code, sizeof code);
}

// Of the program, which comes first: where its code stands.
static int found(struct dl_phdr_info *info, size_t size, void *base) {
    (void)size;
    *(uintptr_t *)base = info->dlpi_addr;
    for (int i = 0; i < info->dlpi_phnum; i++) {
        const ElfW(Phdr) *part = &info->dlpi_phdr[i];
        if (part->p_type == PT_LOAD && part->p_flags & PF_X) {
            begin = info->dlpi_addr + part->p_vaddr;
            end = begin + part->p_memsz;
        }
    }
    return 1;
}

typedef int (*Main)(int, char **, char **);
typedef int (*Start)(Main, int, char **, void (*)(void), void (*)(void), void (*)(void), void *);

int __libc_start_main(Main main, int count, char **words, void (*init)(void), void (*fini)(void), void (*loader)(void), void *stack) {
    Start start = (Start)dlsym(RTLD_NEXT, "__libc_start_main");
    char *asked = getenv("REFUSING");
    unsigned long places[4];
    uintptr_t base = 0;
    if (asked) {
        dl_iterate_phdr(found, &base);
        int given = sscanf(asked, "%ld %ld %ld %ld %lx %lx %lx %lx", &file, &first, &at, &seconds, &places[0], &places[1], &places[2], &places[3]);
        if (given == 8) {
            rattle_alloc = (void *)(base + places[2]);
            rattle_realloc = (void *)(base + places[3]);
            jump(base + places[0], alloc);
            jump(base + places[1], realloc_);
        }
        unsetenv("REFUSING");
        unsetenv("LD_PRELOAD");
    }
    return start(main, count, words, init, fini, loader, stack);
}
