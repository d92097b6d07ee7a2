/* Replaces calls of the C library (LD_PRELOAD) and makes one of them fail, by environment variables:

       FAIL_ALLOCATION, FAIL_READ, FAIL_WRITE   the number, from 1, of the allocation, the read of standard input or the
                                                write of standard output that fails
       MOST_READ, MOST_WRITTEN                  the largest number of bytes of a read or a write
       CALLS_FILE                               the file to which the numbers of the three kinds of calls are written

   It declares the functions of the C library that it uses, so that it can be built without the library's headers. */
typedef unsigned long size;
typedef long answer;

extern char *getenv(const char *name);
extern long atol(const char *text);
extern int *__errno_location(void);
extern long syscall(long number, ...);
extern int snprintf(char *text, size most, const char *form, ...);
extern int open(const char *path, int how, ...);
extern int close(int file);
extern void *__libc_malloc(size bytes);
extern void *__libc_calloc(size count, size bytes);
extern void *__libc_realloc(void *old, size bytes);
extern void *__libc_memalign(size align, size bytes);

enum { NO_MEMORY = 12, BROKEN = 5, READ = 0, WRITE = 1, INPUT = 0, OUTPUT = 1, MADE_ANEW = 01 | 0100 | 01000 };

static long allocations, reads, writes;
static long allocation_that_fails, read_that_fails, write_that_fails, most_read, most_written;
static int begun;

static long number(const char *name) {
    char *text = getenv(name);
    return text ? atol(text) : 0;
}

__attribute__((constructor)) static void begin(void) {
    allocation_that_fails = number("FAIL_ALLOCATION");
    read_that_fails = number("FAIL_READ");
    write_that_fails = number("FAIL_WRITE");
    most_read = number("MOST_READ");
    most_written = number("MOST_WRITTEN");
    begun = 1;
}

/* Allocations of the C library before the program begins aren't counted. */
static int refuses(void) {
    if (!begun || ++allocations != allocation_that_fails) return 0;
    *__errno_location() = NO_MEMORY;
    return 1;
}

void *malloc(size bytes) { return refuses() ? 0 : __libc_malloc(bytes); }
void *calloc(size count, size bytes) { return refuses() ? 0 : __libc_calloc(count, bytes); }
void *realloc(void *old, size bytes) { return refuses() ? 0 : __libc_realloc(old, bytes); }
void *aligned_alloc(size align, size bytes) { return refuses() ? 0 : __libc_memalign(align, bytes); }

int posix_memalign(void **made, size align, size bytes) {
    if (refuses()) return NO_MEMORY;
    *made = __libc_memalign(align, bytes);
    return *made ? 0 : NO_MEMORY;
}

static answer broken(void) {
    *__errno_location() = BROKEN;
    return -1;
}

answer read(int file, void *bytes, size most) {
    if (begun && file == INPUT) {
        if (++reads == read_that_fails) return broken();
        if (most_read && most > (size)most_read) most = most_read;
    }
    return syscall(READ, file, bytes, most);
}

answer write(int file, const void *bytes, size most) {
    if (begun && file == OUTPUT) {
        if (++writes == write_that_fails) return broken();
        if (most_written && most > (size)most_written) most = most_written;
    }
    return syscall(WRITE, file, bytes, most);
}

__attribute__((destructor)) static void write_calls(void) {
    char text[80];
    char *path = getenv("CALLS_FILE");
    begun = 0;
    if (!path) return;
    int file = open(path, MADE_ANEW, 0600);
    if (file < 0) return;
    syscall(WRITE, file, text, (size)snprintf(text, sizeof text, "%ld %ld %ld\n", allocations, reads, writes));
    close(file);
}
