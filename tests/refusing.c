/* A library that is loaded in front of the C library, and refuses the program what the environment names:
 *   GROWTH=n   the nth growth of its memory, from 1
 *   READ=n     the nth read from the file descriptor FROM
 *   WRITE=n    the nth write to the file descriptor TO
 *   ONCE=1     that call alone, and not the later ones of its kind
 *   OUTPUT=n   the nth byte of the output, from 1, and all after it
 *   MESSAGES=n the same of the messages
 *   PIECE=n    all but n bytes of each read and write
 *   TOLD=fd    where a byte is written once something was refused
 * It needs no header, so that any compiler for Linux on x86-64 builds it. */
typedef unsigned long size_t;
extern char *getenv(const char *);
extern long atol(const char *);
extern long syscall(long, ...);
extern int *__errno_location(void);
extern void *__libc_malloc(size_t);
extern void *__libc_realloc(void *, size_t);

enum { READ = 0, WRITE = 1, NO_MEMORY = 12, NO_DEVICE = 5 };

static long growth, reads, writes, from, to, once, piece, told, output, messages;

static long number(const char *name) {
    const char *text = getenv(name);
    return text ? atol(text) : 0;
}

__attribute__((constructor)) static void begin(void) {
    growth = number("GROWTH");
    reads = number("READ");
    writes = number("WRITE");
    from = number("FROM");
    to = number("TO");
    once = number("ONCE");
    piece = number("PIECE");
    told = number("TOLD");
    output = number("OUTPUT");
    messages = number("MESSAGES");
}

/* Tells that something was refused, with the number of the error. */
static void tell(int error) {
    syscall(WRITE, told, "!", 1L);
    *__errno_location() = error;
}

/* Counts one call. At 1 it is refused; 0 is for calls that never are. */
static int refuses(long *left, int error) {
    if (*left == 0)
        return 0;
    if (*left > 1) {
        *left -= 1;
        return 0;
    }
    if (once)
        *left = 0;
    tell(error);
    return 1;
}

static size_t part(size_t count) {
    return piece && count > (size_t)piece ? (size_t)piece : count;
}

void *malloc(size_t count) {
    return refuses(&growth, NO_MEMORY) ? 0 : __libc_malloc(count);
}

void *realloc(void *room, size_t count) {
    return refuses(&growth, NO_MEMORY) ? 0 : __libc_realloc(room, count);
}

long read(int file, void *bytes, size_t count) {
    if (file == from && refuses(&reads, NO_DEVICE))
        return -1;
    return syscall(READ, (long)file, bytes, part(count));
}

long write(int file, const void *bytes, size_t count) {
    if (file == to && refuses(&writes, NO_DEVICE))
        return -1;
    count = part(count);
    long *place = file == 1 ? &output : file == 2 ? &messages : 0;
    if (!place || *place == 0)
        return syscall(WRITE, (long)file, bytes, count);
    if (*place == 1 && count) {
        tell(NO_DEVICE);
        return -1;
    }
    long taken = syscall(WRITE, (long)file, bytes, count < (size_t)*place ? count : (size_t)*place - 1);
    if (taken > 0)
        *place -= taken;
    return taken;
}
