/* Makes requests for memory, and starts of threads, fail on demand. `dev/dev refuse` preloads this library into the
   tests of `llb_refusals`, which control it by the sizes of requests that no allocator grants (ASK, START, ALL and
   TELL, as in `growths.rt` there). A request of ASK + k bytes makes the k-th later request fail, and only that one; a
   request of START + k bytes makes the k-th later start of a thread fail, and only that one; a request of ALL bytes
   makes every later request fail. A request of TELL bytes succeeds if what was asked to fail has failed, and fails if
   it has not; either way nothing further fails. Each failure of a k-th request or thread is counted: one byte is
   written to the descriptor whose number is in the environment variable REFUSED. No headers are included, so that a
   compiler without those of a C library can build it. */

typedef unsigned long size;
typedef int create(size *, const void *, void *(*)(void *), void *);

extern void *__libc_malloc(size);
extern void *__libc_calloc(size, size);
extern void *__libc_realloc(void *, size);
extern void *dlsym(void *, const char *);
extern int *__errno_location(void);
extern char *getenv(const char *);
extern long write(int, const void *, size);

enum { TRY_AGAIN = 11, NO_MEMORY = 12, ORDER = __ATOMIC_SEQ_CST };

#define ASK 0x1000000000000000ul
#define START 0x3000000000000000ul
#define ALL 0x4000000000000000ul
#define MOST 0x100000ul
#define TELL 0x2000000000000000ul
#define NEXT ((void *)-1l)

/* How many requests, and starts of threads, there are up to the one that fails (0: none fails); whether one did; and
   whether every request fails. */
static long requests, threads, refused, all;

static void count(void) {
    const char *digits = getenv("REFUSED");
    int to = 0;
    if (!digits) return;
    for (; *digits >= '0' && *digits <= '9'; digits++) to = to * 10 + (*digits - '0');
    while (write(to, ".", 1) == 0) {}
}

static void arm(long *left, long k) {
    __atomic_store_n(&refused, 0, ORDER);
    __atomic_store_n(left, k, ORDER);
}

/* Decrements the number that is left if it is not 0. Returns whether this was the last one, which is counted. */
static int is_last(long *left) {
    long seen = __atomic_load_n(left, ORDER);
    while (seen > 0)
        if (__atomic_compare_exchange_n(left, &seen, seen - 1, 0, ORDER, ORDER)) break;
    if (seen != 1) return 0;
    __atomic_store_n(&refused, 1, ORDER);
    count();
    return 1;
}

static int fails(size bytes) {
    if (bytes > ASK && bytes < ASK + MOST) {
        arm(&requests, (long)(bytes - ASK));
    } else if (bytes > START && bytes < START + MOST) {
        arm(&threads, (long)(bytes - START));
    } else if (bytes == ALL) {
        arm(&all, 1);
    } else if (__atomic_load_n(&all, ORDER)) {
        __atomic_store_n(&refused, 1, ORDER);
    } else if (!is_last(&requests)) {
        return 0;
    }
    *__errno_location() = NO_MEMORY;
    return 1;
}

void *malloc(size bytes) {
    if (bytes == TELL) {
        __atomic_store_n(&requests, 0, ORDER);
        __atomic_store_n(&threads, 0, ORDER);
        __atomic_store_n(&all, 0, ORDER);
        if (__atomic_exchange_n(&refused, 0, ORDER)) return __libc_malloc(16);
    }
    return fails(bytes) ? 0 : __libc_malloc(bytes);
}

void *calloc(size items, size bytes) { return fails(items * bytes) ? 0 : __libc_calloc(items, bytes); }

void *realloc(void *at, size bytes) { return fails(bytes) ? 0 : __libc_realloc(at, bytes); }

int pthread_create(size *thread, const void *attributes, void *(*start)(void *), void *argument) {
    create *next = (create *)dlsym(NEXT, "pthread_create");
    return !next || is_last(&threads) ? TRY_AGAIN : next(thread, attributes, start, argument);
}
