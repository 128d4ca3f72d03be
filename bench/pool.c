/* A plain pool of threads, which runs messages on files in the order that `waff run` keeps: bench/pools times both. It is a peer for their
 * time alone: it checks nothing, and ends at the first call that fails.
 *
 *     cc -std=c11 -O2 -pthread -o pool pool.c
 *     pool LIST FOLDER WORKERS
 *
 * LIST is a file of numbers and names, with white space between them. All but the operations are numbered from 0:
 *
 *     AFFINITIES FILES CLIENTS MESSAGES OPERATIONS          how many of each there are
 *     PARENT                                                of each affinity; -1 for the root
 *     NAME                                                  of each file in FOLDER
 *     AFFINITY CLIENT THINK COUNT [KIND FILE OFFSET] ..     of each message, with so many operations: `r` reads the 8 bytes that stand
 *                                                           there in the file, `a` adds 1 to them
 *
 * A message is issued THINK nanoseconds after the one before it of its client has finished, the first of a client so long after the
 * beginning. Two messages exclude each other where they are in one affinity, or one is in an affinity above that of the other. Those that
 * do run in the order of their issues, of equal issues in that of their numbers.
 *
 * A line is printed for each message: its start and its finish, in nanoseconds from the beginning, and its worker, from 1. */
#define _POSIX_C_SOURCE 200809L
#include <fcntl.h>
#include <inttypes.h>
#include <pthread.h>
#include <stdbool.h>
#include <stdint.h>
#include <stdio.h>
#include <stdlib.h>
#include <time.h>
#include <unistd.h>

enum { SECOND = 1000000000, LONGEST_NAME = 255 };

/* Messages, by their numbers. */
struct list {
    int *items;
    int count, room;
};

struct operation {
    char kind;
    int file;
    long offset;
};

struct message {
    int affinity;
    int64_t think;
    int next; /* the one behind it of its client; -1 where there is none */
    int first_operation, operations;
    int awaited;         /* how many have to finish before it may start */
    struct list waiting; /* those that await it */
    bool has_finished;
    int64_t issue, start, finish;
    int worker;
};

struct affinity {
    int parent;
    int last;          /* the message that came into it last; -1 where there is none */
    struct list below; /* the messages that came into affinities below it since then */
};

static struct affinity *affinities;
static int *files;
static struct message *messages;
static struct operation *operations;

/* The mutex guards all that follows, and what the messages await. */
static pthread_mutex_t mutex = PTHREAD_MUTEX_INITIALIZER;
static pthread_cond_t changed;
static pthread_barrier_t all_there;
static int64_t begun, latest;
static struct list coming; /* a heap of the messages that are issued later */
static struct list ready;  /* a heap of those that may start */
static int left, asleep;

static void fail(const char *what) {
    perror(what);
    exit(1);
}

static void *room_for(size_t count, size_t size) {
    void *found = calloc(count + 1, size);
    if (!found) fail("memory");
    return found;
}

static void append(struct list *list, int number) {
    if (list->count == list->room) {
        list->room = list->room ? 2 * list->room : 4;
        list->items = realloc(list->items, list->room * sizeof *list->items);
        if (!list->items) fail("memory");
    }
    list->items[list->count++] = number;
}

static bool is_before(int one, int other) {
    int64_t first = messages[one].issue, second = messages[other].issue;
    return first < second || (first == second && one < other);
}

/* Puts a message into a heap. Its first one is issued before all others. */
static void put(struct list *heap, int number) {
    append(heap, number);
    int at = heap->count - 1;
    while (at > 0 && is_before(number, heap->items[(at - 1) / 2])) {
        heap->items[at] = heap->items[(at - 1) / 2];
        at = (at - 1) / 2;
    }
    heap->items[at] = number;
}

/* Takes the first message out of a heap. */
static int take(struct list *heap) {
    int first = heap->items[0], moved = heap->items[--heap->count], at = 0;
    for (;;) {
        int below = 2 * at + 1;
        if (below >= heap->count) break;
        if (below + 1 < heap->count && is_before(heap->items[below + 1], heap->items[below])) below++;
        if (!is_before(heap->items[below], moved)) break;
        heap->items[at] = heap->items[below];
        at = below;
    }
    heap->items[at] = moved;
    return first;
}

static int64_t monotonic(void) {
    struct timespec time;
    clock_gettime(CLOCK_MONOTONIC, &time);
    return (int64_t)time.tv_sec * SECOND + time.tv_nsec;
}

/* The time since the beginning. It is never the same twice: so what is issued from now on is issued behind all that has been by then. */
static int64_t now(void) {
    int64_t time = monotonic() - begun;
    latest = time > latest ? time : latest + 1;
    return latest;
}

static void issue(int number, int64_t time) {
    messages[number].issue = time;
    put(&coming, number);
}

static void await(int number, int other) {
    if (other < 0 || messages[other].has_finished) return;
    messages[number].awaited++;
    append(&messages[other].waiting, number);
}

/* A message that has been issued comes into its affinity, behind all that exclude it. It awaits the last one there and in each affinity
 * above, which have awaited those before them, and all that came in below since the last one there. */
static void come(int number) {
    struct affinity *own = &affinities[messages[number].affinity];
    await(number, own->last);
    for (int i = 0; i < own->below.count; i++) await(number, own->below.items[i]);
    own->below.count = 0;
    own->last = number;
    for (int above = own->parent; above >= 0; above = affinities[above].parent) {
        await(number, affinities[above].last);
        append(&affinities[above].below, number);
    }
    if (messages[number].awaited == 0) put(&ready, number);
}

/* A message has finished: of those that awaited it some may start, and the next one of its client is issued. */
static void finish(int number, int64_t time) {
    struct message *message = &messages[number];
    message->finish = time;
    message->has_finished = true;
    left--;
    for (int i = 0; i < message->waiting.count; i++) {
        int other = message->waiting.items[i];
        if (--messages[other].awaited == 0) put(&ready, other);
    }
    if (message->next >= 0) issue(message->next, time + messages[message->next].think);
}

/* The operations of a message, for which the mutex is free. */
static void perform(const struct message *message) {
    for (int i = 0; i < message->operations; i++) {
        const struct operation *operation = &operations[message->first_operation + i];
        int file = files[operation->file];
        uint64_t cell;
        if (pread(file, &cell, sizeof cell, operation->offset) != sizeof cell) fail("read");
        if (operation->kind == 'a') {
            cell++;
            if (pwrite(file, &cell, sizeof cell, operation->offset) != sizeof cell) fail("write");
        }
    }
}

/* Sleeps until another worker tells of a change, and no longer than until the next issue. */
static void sleep_for_change(void) {
    asleep++;
    if (coming.count > 0) {
        int64_t due = begun + messages[coming.items[0]].issue;
        struct timespec until = {due / SECOND, due % SECOND};
        pthread_cond_timedwait(&changed, &mutex, &until);
    } else {
        pthread_cond_wait(&changed, &mutex);
    }
    asleep--;
}

/* Runs messages until none is left. Who begins one wakes another worker where there is more to begin, or an issue to be waited for. */
static void *work(void *given) {
    int worker = *(int *)given;
    pthread_barrier_wait(&all_there);
    pthread_mutex_lock(&mutex);
    for (int last = -1; left > 0;) {
        int64_t time = now();
        if (last >= 0) finish(last, time);
        last = -1;
        while (coming.count > 0 && messages[coming.items[0]].issue <= time) come(take(&coming));
        if (ready.count > 0) {
            last = take(&ready);
            messages[last].start = time;
            messages[last].worker = worker;
            if (asleep > 0 && (ready.count > 0 || coming.count > 0)) pthread_cond_signal(&changed);
            pthread_mutex_unlock(&mutex);
            perform(&messages[last]);
            pthread_mutex_lock(&mutex);
        } else if (left > 0) {
            sleep_for_change();
        }
    }
    pthread_cond_broadcast(&changed);
    pthread_mutex_unlock(&mutex);
    return NULL;
}

/* Reads the list, and opens the files. Answers how many messages there are, of which the first of each client is issued. */
static int read_list(const char *path, const char *folder) {
    FILE *list = fopen(path, "r");
    int directory = open(folder, O_RDONLY | O_DIRECTORY);
    int affinity_count, file_count, client_count, message_count, operation_count;
    if (!list || directory < 0) fail("open");
    if (fscanf(list, "%d %d %d %d %d", &affinity_count, &file_count, &client_count, &message_count, &operation_count) != 5) fail("list");
    affinities = room_for(affinity_count, sizeof *affinities);
    files = room_for(file_count, sizeof *files);
    messages = room_for(message_count, sizeof *messages);
    operations = room_for(operation_count, sizeof *operations);
    for (int i = 0; i < affinity_count; i++) {
        affinities[i].last = -1;
        if (fscanf(list, "%d", &affinities[i].parent) != 1) fail("list");
    }
    for (int i = 0; i < file_count; i++) {
        char name[LONGEST_NAME + 1];
        if (fscanf(list, "%255s", name) != 1) fail("list");
        files[i] = openat(directory, name, O_RDWR);
        if (files[i] < 0) fail(name);
    }
    int *last_of = room_for(client_count, sizeof *last_of);
    for (int i = 0; i < client_count; i++) last_of[i] = -1;
    int next_operation = 0;
    for (int i = 0; i < message_count; i++) {
        struct message *message = &messages[i];
        int client;
        if (fscanf(list, "%d %d %" SCNd64 " %d", &message->affinity, &client, &message->think, &message->operations) != 4) fail("list");
        message->next = -1;
        message->first_operation = next_operation;
        for (int j = 0; j < message->operations; j++) {
            struct operation *operation = &operations[next_operation++];
            if (fscanf(list, " %c %d %ld", &operation->kind, &operation->file, &operation->offset) != 3) fail("list");
        }
        if (last_of[client] >= 0) messages[last_of[client]].next = i;
        else issue(i, message->think);
        last_of[client] = i;
    }
    free(last_of);
    fclose(list);
    close(directory);
    return message_count;
}

int main(int count, char **words) {
    if (count != 4) {
        fprintf(stderr, "usage: pool LIST FOLDER WORKERS\n");
        return 2;
    }
    int message_count = read_list(words[1], words[2]), workers = atoi(words[3]);
    left = message_count;

    pthread_condattr_t by_clock;
    pthread_condattr_init(&by_clock);
    pthread_condattr_setclock(&by_clock, CLOCK_MONOTONIC);
    pthread_cond_init(&changed, &by_clock);
    pthread_barrier_init(&all_there, NULL, workers);

    int *numbers = room_for(workers, sizeof *numbers);
    pthread_t *threads = room_for(workers, sizeof *threads);
    for (int i = 0; i < workers; i++) numbers[i] = i + 1;
    for (int i = 1; i < workers; i++) {
        if (pthread_create(&threads[i], NULL, work, &numbers[i])) fail("thread");
    }
    begun = monotonic();
    work(&numbers[0]);
    for (int i = 1; i < workers; i++) pthread_join(threads[i], NULL);

    for (int i = 0; i < message_count; i++) {
        printf("%" PRId64 " %" PRId64 " %d\n", messages[i].start, messages[i].finish, messages[i].worker);
    }
    return 0;
}
