/* Loaded into a program by LD_PRELOAD, it watches the program's allocations, if WATCH_PROGRAM is the program's name:
 *
 * - The allocation with the number WATCH_REFUSE, counted from 1, is refused, and a byte is added to the file WATCH_REFUSED.
 *   So is each of more than WATCH_LARGEST bytes.
 * - If a block isn't freed at the end, the program ends with the status 97.
 *
 * It includes no header, so that a compiler without any can build it. */
typedef __SIZE_TYPE__ size_t;
typedef __PTRDIFF_TYPE__ ssize_t;

void *__libc_malloc(size_t size);
void *__libc_calloc(size_t count, size_t size);
void *__libc_realloc(void *block, size_t size);
void *__libc_memalign(size_t alignment, size_t size);
void __libc_free(void *block);

char *getenv(const char *name);
int strcmp(const char *one, const char *other);
unsigned long strtoul(const char *text, char **end, int base);
int open(const char *path, int flags, ...);
ssize_t write(int file, const void *bytes, size_t size);
int close(int file);
void _exit(int status);
extern char *program_invocation_short_name;

enum { WRITE_ONLY = 01, APPEND = 02000, LEAKED = 97 };

static struct {
    int watches;
    unsigned long refuse, requests, largest;
    long held;
} state;

static void say(int file, const char *text) {
    size_t size = 0;
    while (text[size]) size += 1;
    if (write(file, text, size) < 0) _exit(LEAKED);
}

/* Returns whether the next allocation, of this size, is one to refuse. */
static int refused(size_t size) {
    if (!state.watches || (++state.requests != state.refuse && size <= state.largest)) return 0;
    const char *path = getenv("WATCH_REFUSED");
    int file = path ? open(path, WRITE_ONLY | APPEND) : -1;
    if (file < 0) _exit(LEAKED);
    say(file, ".");
    close(file);
    return 1;
}

/* Counts a new block, if there is one, as held, and returns it. */
static void *held(void *block) {
    if (state.watches && block) __atomic_add_fetch(&state.held, 1, __ATOMIC_SEQ_CST);
    return block;
}

void *malloc(size_t size) { return refused(size) ? 0 : held(__libc_malloc(size)); }

void *calloc(size_t count, size_t size) { return refused(count * size) ? 0 : held(__libc_calloc(count, size)); }

void *memalign(size_t alignment, size_t size) { return refused(size) ? 0 : held(__libc_memalign(alignment, size)); }

void *aligned_alloc(size_t alignment, size_t size) { return memalign(alignment, size); }

int posix_memalign(void **block, size_t alignment, size_t size) {
    *block = memalign(alignment, size);
    return *block ? 0 : 12;
}

void free(void *block) {
    if (state.watches && block) __atomic_sub_fetch(&state.held, 1, __ATOMIC_SEQ_CST);
    __libc_free(block);
}

void *realloc(void *block, size_t size) {
    if (!block) return malloc(size);
    if (!size) {
        free(block);
        return 0;
    }
    return refused(size) ? 0 : __libc_realloc(block, size);
}

__attribute__((constructor)) static void begin(void) {
    const char *program = getenv("WATCH_PROGRAM"), *refuse = getenv("WATCH_REFUSE");
    const char *largest = getenv("WATCH_LARGEST");
    state.refuse = refuse ? strtoul(refuse, 0, 10) : 0;
    state.largest = largest ? strtoul(largest, 0, 10) : (size_t)-1;
    state.watches = program && !strcmp(program, program_invocation_short_name);
}

__attribute__((destructor)) static void end(void) {
    if (!state.watches || state.held == 0) return;
    say(2, "memory was asked for and not given back\n");
    _exit(LEAKED);
}
