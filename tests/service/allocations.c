// Refuses a program one of its allocations, or all those of one thread, by LD_PRELOAD. The file that REFUSED names has four numbers, which the program and a test
// share: whether allocations are counted, which of them is refused (0: none), how many were counted, and the thread that is refused each (0: none).
// tests/service/allocations.py builds it.
typedef unsigned long number;

enum { MAY_READ = 1, MAY_WRITE = 2, IS_SHARED = 1, FOR_BOTH = 2 };

struct shared {
    number is_on, refused, count, thread;
};

extern void *__libc_malloc(number);
extern void *__libc_realloc(void *, number);
extern char *getenv(const char *);
extern int gettid(void);
extern int open(const char *, int, ...);
extern int close(int);
extern void *mmap(void *, number, int, int, int, long);

static struct shared *shared;

__attribute__((constructor)) static void begin(void) {
    const char *path = getenv("REFUSED");
    int file = path ? open(path, FOR_BOTH) : -1;
    if (file < 0)
        return;
    void *made = mmap(0, sizeof *shared, MAY_READ | MAY_WRITE, IS_SHARED, file, 0);
    close(file);
    if (made != (void *)-1)
        shared = made;
}

static int is_refused(void) {
    if (!shared || !__atomic_load_n(&shared->is_on, __ATOMIC_SEQ_CST))
        return 0;
    number thread = __atomic_load_n(&shared->thread, __ATOMIC_SEQ_CST);
    if (thread && thread == (number)gettid())
        return 1;
    return __atomic_add_fetch(&shared->count, 1, __ATOMIC_SEQ_CST) == __atomic_load_n(&shared->refused, __ATOMIC_SEQ_CST);
}

void *malloc(number size) { return is_refused() ? 0 : __libc_malloc(size); }

void *realloc(void *old, number size) { return is_refused() ? 0 : __libc_realloc(old, size); }
