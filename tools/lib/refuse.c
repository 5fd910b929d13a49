// Refuses allocations of a program, and measures what it asks for: a library that is loaded before the C library
// (LD_PRELOAD). It takes no memory itself. Words of the environment say what it does:
//   REFUSE_FROM=N     refuses the Nth allocation, counted from 1 once the program begins; 0 or nothing refuses none
//   REFUSE_COUNT=K    and the K - 1 that come next
//   REFUSE_THREAD=T   counts and refuses those of one thread alone: 0 is the first, and the Kth that thread T makes is 8 T + K
//   REFUSE_SECONDS=S  ends the program by SIGALRM after so many seconds
//   REFUSE_TELL=FILE  writes to this file at the program's end what was counted, a line 'NAME VALUE' for each
//   REFUSE_MEASURE=1  measures bytes too
//   REFUSE_MARKS=1    counts and refuses only between what the program writes to standard error: 'the call begins' and 'the call ends'
#define _GNU_SOURCE
#include <dlfcn.h>
#include <errno.h>
#include <fcntl.h>
#include <pthread.h>
#include <signal.h>
#include <stdint.h>
#include <stdlib.h>
#include <string.h>
#include <sys/syscall.h>
#include <unistd.h>

void *__libc_malloc(size_t);
void *__libc_calloc(size_t, size_t);
void *__libc_realloc(void *, size_t);
void *__libc_memalign(size_t, size_t);
void __libc_free(void *);

#define PLACES (1u << 22)
// Threads that are made by different ones at once so have the same numbers in each run. One may make seven, and so may each of these, and of theirs.
#define CHILDREN 8
#define THREADS 512

typedef unsigned long long number;

static int ready, told, measuring;
static number from, count = 1;
static int only_thread = -1;
static const char *tell_to;
static number allocations, by_thread[THREADS], met, asked, held, most_held, growths, most_beyond, beyond_had;
static number not_made;
// Whether marks say where calls begin and end, and whether one is under way; and how much was held when it began, and what all calls hold.
static int marked, calling;
static number begun, ended, held_before, held_by_calls;
static __thread int thread __attribute__((tls_model("initial-exec"))), made_by_it __attribute__((tls_model("initial-exec")));

// Blocks that are held, by their address: open addressing, and a block that was given back leaves its place marked.
static struct { uintptr_t at; size_t size; } blocks[PLACES];
static number used_places;
static int lock;
// The block that was asked for last, where none was given back since. One of at least so many bytes that is given back then is one that grew.
static void *newest;
static size_t newest_size;
#define LARGE 1024

static void enter(void)
{
    while (__atomic_exchange_n(&lock, 1, __ATOMIC_ACQUIRE))
        sched_yield();
}

static void leave(void)
{
    __atomic_store_n(&lock, 0, __ATOMIC_RELEASE);
}

static uint32_t place_of(uintptr_t at)
{
    uint32_t place = (uint32_t)((at >> 4) * 2654435761u) % PLACES;
    while (blocks[place].at && blocks[place].at != at)
        place = (place + 1) % PLACES;
    return place;
}

// A block of that size is held.
static void hold(void *block, size_t size)
{
    uint32_t place = place_of((uintptr_t)block);
    if (!blocks[place].at && used_places++ > PLACES / 2)
        abort();
    blocks[place].at = (uintptr_t)block;
    blocks[place].size = size;
    asked += size;
    held += size;
    if (held > most_held)
        most_held = held;
}

// A block is given back: how many bytes it had.
static size_t let_go(void *block)
{
    uint32_t place = place_of((uintptr_t)block);
    size_t size = blocks[place].at ? blocks[place].size : 0;
    blocks[place].size = 0;
    held -= size;
    return size;
}

static void measure(void *block, size_t size)
{
    if (!measuring || !block)
        return;
    enter();
    hold(block, size);
    newest = block;
    newest_size = size;
    leave();
}

// Whether the allocation that is asked for now is refused.
static int refused(void)
{
    number it;
    if (!__atomic_load_n(&ready, __ATOMIC_ACQUIRE) || (marked && !__atomic_load_n(&calling, __ATOMIC_ACQUIRE)))
        return 0;
    __atomic_add_fetch(&by_thread[thread], 1, __ATOMIC_RELAXED);
    if (only_thread >= 0 && thread != only_thread)
        return 0;
    it = __atomic_add_fetch(&allocations, 1, __ATOMIC_RELAXED);
    if (!from || it < from || it >= from + count)
        return 0;
    __atomic_add_fetch(&met, 1, __ATOMIC_RELAXED);
    errno = ENOMEM;
    return 1;
}

void *malloc(size_t size)
{
    void *block = refused() ? NULL : __libc_malloc(size);
    measure(block, size);
    return block;
}

void *calloc(size_t items, size_t size)
{
    void *block = refused() ? NULL : __libc_calloc(items, size);
    measure(block, items * size);
    return block;
}

// Something grows: it asks for a block in the place of its own, by realloc or by a new block just before it gives back its own. How many bytes
// it asks for is compared with twice those that it had.
static void grown(size_t old, size_t size)
{
    if (old && size > old) {
        growths++;
        if (size > 2 * old && size - 2 * old > most_beyond) {
            most_beyond = size - 2 * old;
            beyond_had = old;
        }
    }
}

void *realloc(void *block, size_t size)
{
    void *moved;
    if (refused())
        return NULL;
    if (!measuring)
        return __libc_realloc(block, size);
    enter();
    moved = __libc_realloc(block, size);
    if (moved) {
        if (block)
            grown(let_go(block), size);
        hold(moved, size);
    }
    leave();
    return moved;
}

void *memalign(size_t align, size_t size)
{
    void *block = refused() ? NULL : __libc_memalign(align, size);
    measure(block, size);
    return block;
}

void *aligned_alloc(size_t align, size_t size)
{
    return memalign(align, size);
}

int posix_memalign(void **block, size_t align, size_t size)
{
    int saved = errno;
    void *made = memalign(align, size);
    errno = saved;
    if (!made)
        return ENOMEM;
    *block = made;
    return 0;
}

void free(void *block)
{
    if (measuring && block) {
        size_t size;
        enter();
        size = let_go(block);
        if (newest && newest != block && size >= LARGE)
            grown(size, newest_size);
        newest = NULL;
        __libc_free(block);
        leave();
        return;
    }
    __libc_free(block);
}

static int begins_with(const char *bytes, size_t count, const char *mark)
{
    return count >= strlen(mark) && !memcmp(bytes, mark, strlen(mark));
}

ssize_t write(int file, const void *bytes, size_t count)
{
    int begins = marked && file == 2 && begins_with(bytes, count, "the call begins");
    int ends = marked && file == 2 && begins_with(bytes, count, "the call ends");
    ssize_t wrote;
    if (ends) {
        __atomic_store_n(&calling, 0, __ATOMIC_RELEASE);
        held_by_calls += held > held_before ? held - held_before : 0;
    }
    wrote = syscall(SYS_write, file, bytes, count);
    if (begins) {
        held_before = held;
        __atomic_store_n(&calling, 1, __ATOMIC_RELEASE);
    }
    begun += begins;
    ended += ends;
    return wrote;
}

static char *written(char *to, const char *name, number value)
{
    char digits[24];
    int left = sizeof digits;
    do
        digits[--left] = (char)('0' + value % 10);
    while (value /= 10);
    while (*name)
        *to++ = *name++;
    *to++ = ' ';
    memcpy(to, digits + left, sizeof digits - left);
    to += sizeof digits - left;
    *to++ = '\n';
    return to;
}

// Writes what was counted, once.
static void tell(void)
{
    static char text[1024 + 48 * THREADS];
    char name[] = "thread_000", *to = text;
    int file;
    if (!tell_to || __atomic_exchange_n(&told, 1, __ATOMIC_ACQ_REL))
        return;
    to = written(to, "allocations", allocations);
    to = written(to, "refusals", met);
    to = written(to, "asked", asked);
    to = written(to, "most_held", most_held);
    to = written(to, "held", held);
    to = written(to, "held_by_calls", held_by_calls);
    to = written(to, "growths", growths);
    to = written(to, "most_beyond_twice", most_beyond);
    to = written(to, "most_beyond_twice_of", beyond_had);
    to = written(to, "threads_not_made", not_made);
    to = written(to, "calls_begun", begun);
    to = written(to, "calls_ended", ended);
    for (int it = 0; it < THREADS; it++) {
        if (!by_thread[it])
            continue;
        name[7] = (char)('0' + it / 100);
        name[8] = (char)('0' + it / 10 % 10);
        name[9] = (char)('0' + it % 10);
        to = written(to, name, by_thread[it]);
    }
    file = open(tell_to, O_WRONLY | O_CREAT | O_TRUNC | O_CLOEXEC, 0600);
    if (file < 0 || write(file, text, (size_t)(to - text)) != to - text)
        abort();
    close(file);
}

void _exit(int status)
{
    tell();
    syscall(SYS_exit_group, status);
    __builtin_unreachable();
}

// A signal ends the program: what was counted by then is told.
static void end_by(int signal_number)
{
    tell();
    signal(signal_number, SIG_DFL);
    raise(signal_number);
}

// Threads are numbered by who made them.
static struct { void *(*start)(void *); void *given; } starts[THREADS];

static void *begin(void *number_of_it)
{
    int it = (int)(intptr_t)number_of_it;
    thread = it;
    return starts[it].start(starts[it].given);
}

int pthread_create(pthread_t *made, const pthread_attr_t *with, void *(*start)(void *), void *given)
{
    static int (*create)(pthread_t *, const pthread_attr_t *, void *(*)(void *), void *);
    int it = thread * CHILDREN + ++made_by_it;
    if (!create)
        create = (int (*)(pthread_t *, const pthread_attr_t *, void *(*)(void *), void *))dlsym(RTLD_NEXT, "pthread_create");
    if (made_by_it >= CHILDREN || it >= THREADS)
        abort();
    starts[it].start = start;
    starts[it].given = given;
    it = create(made, with, begin, (void *)(intptr_t)it);
    if (it)
        __atomic_add_fetch(&not_made, 1, __ATOMIC_RELAXED);
    return it;
}

static number number_in(const char *name, number standard)
{
    const char *text = getenv(name);
    return text ? strtoull(text, NULL, 10) : standard;
}

__attribute__((constructor)) static void start(void)
{
    from = number_in("REFUSE_FROM", 0);
    count = number_in("REFUSE_COUNT", 1);
    only_thread = (int)number_in("REFUSE_THREAD", (number)-1);
    measuring = number_in("REFUSE_MEASURE", 0) != 0;
    marked = number_in("REFUSE_MARKS", 0) != 0;
    tell_to = getenv("REFUSE_TELL");
    signal(SIGALRM, end_by);
    signal(SIGTERM, end_by);
    alarm((unsigned)number_in("REFUSE_SECONDS", 0));
    __atomic_store_n(&ready, 1, __ATOMIC_RELEASE);
}

__attribute__((destructor)) static void end(void)
{
    tell();
}
