/*
 * Refuses a program requests for memory. Loaded before the C library (LD_PRELOAD), it answers some requests,
 * as many as REFUSED_COUNT says, from the one on whose number stands in REFUSED_REQUEST, as the C library
 * does where no memory is left. The first request of a program has the number 1. When the program ends,
 * the number of its requests goes as a line to the file descriptor in REFUSED_REPORT.
 *
 * It has no headers and declares what it calls of the C library, so that the toolchain's clang, which
 * comes without headers, compiles it too.
 */
typedef unsigned long size;

void *__libc_malloc(size bytes);
void *__libc_calloc(size count, size bytes);
void *__libc_realloc(void *block, size bytes);
char *getenv(const char *name);
long write(int file, const void *text, size bytes);
int *__errno_location(void);

enum { OUT_OF_MEMORY = 12 };

static long requests;

/* The number in an environment variable, or -1 where there is none. */
static long number_in(const char *name) {
    const char *text = getenv(name);
    long number = 0;
    if (!text || !*text)
        return -1;
    for (; *text >= '0' && *text <= '9'; text++)
        number = 10 * number + (*text - '0');
    return number;
}

/* Counts a request, and says whether it is refused. */
static int is_refused(void) {
    static long first = -2, count;
    if (first == -2) {
        first = number_in("REFUSED_REQUEST");
        count = number_in("REFUSED_COUNT");
    }
    requests++;
    if (first < 0 || requests < first || requests - first >= count)
        return 0;
    *__errno_location() = OUT_OF_MEMORY;
    return 1;
}

void *malloc(size bytes) {
    return is_refused() ? 0 : __libc_malloc(bytes);
}

void *calloc(size count, size bytes) {
    return is_refused() ? 0 : __libc_calloc(count, bytes);
}

void *realloc(void *block, size bytes) {
    return is_refused() ? 0 : __libc_realloc(block, bytes);
}

/* Writes the number of requests. */
__attribute__((destructor)) static void report(void) {
    char line[24];
    size at = sizeof line;
    long file = number_in("REFUSED_REPORT"), rest = requests;
    line[--at] = '\n';
    do
        line[--at] = (char)('0' + rest % 10);
    while (rest /= 10);
    if (file >= 0 && write((int)file, line + at, sizeof line - at) < 0)
        return;
}
