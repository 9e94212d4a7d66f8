/* Preloaded into a program: its Nth request for memory is refused (REFUSE=memory:N), its Nth read or write fails
   (REFUSE=io:N), or its Nth read or write of several bytes moves one byte alone (REFUSE=short:N), or each moves one byte
   and the Nth fails (REFUSE=bytes:N). Where that request came, the file that REFUSED names is made. Under REFUSE=all
   all memory is refused from a request of TO_REFUSE bytes on up to one of TO_GRANT bytes, and the file is made there. */
#define _GNU_SOURCE
#include <dlfcn.h>
#include <errno.h>
#include <fcntl.h>
#include <stdlib.h>
#include <string.h>
#include <sys/uio.h>
#include <unistd.h>

static enum { NOTHING, MEMORY, IO, SHORT, BYTES, ALL } what;
static long nth, count;

/* Sizes that no machine grants: the two words of a test. */
#define TO_REFUSE (((size_t)1 << 62) + 1)
#define TO_GRANT (((size_t)1 << 62) + 2)
static int is_refusing;

__attribute__((constructor)) static void begin(void) {
    const char *refuse = getenv("REFUSE");
    if (refuse && !strncmp(refuse, "memory:", 7)) what = MEMORY, nth = atol(refuse + 7);
    else if (refuse && !strncmp(refuse, "io:", 3)) what = IO, nth = atol(refuse + 3);
    else if (refuse && !strncmp(refuse, "short:", 6)) what = SHORT, nth = atol(refuse + 6);
    else if (refuse && !strncmp(refuse, "bytes:", 6)) what = BYTES, nth = atol(refuse + 6);
    else if (refuse && !strcmp(refuse, "all")) what = ALL;
}

static void tell(void) {
    const char *path = getenv("REFUSED");
    int file = path ? open(path, O_CREAT | O_WRONLY, 0600) : -1;
    if (file >= 0) close(file);
}

static int is_due(int kind) {
    if (what != kind || ++count != nth) return 0;
    tell();
    return 1;
}

/* Whether a request for n bytes is refused. */
static int is_refused(size_t n) {
    if (what != ALL) return is_due(MEMORY);
    if (n == TO_REFUSE) return is_refusing = 1;
    if (n == TO_GRANT) {
        if (is_refusing) tell();
        return is_refusing = 0, 1;
    }
    return is_refusing;
}

#define REAL(name) ((__typeof__(&name))dlsym(RTLD_NEXT, #name))

void *__libc_malloc(size_t);
void *__libc_realloc(void *, size_t);
void *__libc_calloc(size_t, size_t);
void *__libc_memalign(size_t, size_t);

static void *none(void) { errno = ENOMEM; return NULL; }

void *malloc(size_t n) { return is_refused(n) ? none() : __libc_malloc(n); }
void *realloc(void *p, size_t n) { return is_refused(n) ? none() : __libc_realloc(p, n); }
void *calloc(size_t m, size_t n) { return is_refused(m * n) ? none() : __libc_calloc(m, n); }
void *aligned_alloc(size_t a, size_t n) { return is_refused(n) ? none() : __libc_memalign(a, n); }
void *memalign(size_t a, size_t n) { return is_refused(n) ? none() : __libc_memalign(a, n); }
int posix_memalign(void **p, size_t a, size_t n) {
    if (is_refused(n)) return ENOMEM;
    *p = __libc_memalign(a, n);
    return *p ? 0 : ENOMEM;
}

/* Whether a read or write fails. */
static int fails(void) { return is_due(IO) || is_due(BYTES); }

/* How many bytes it moves, of those that are asked for. */
static size_t moved(size_t n) { return n > 1 && (what == BYTES || is_due(SHORT)) ? 1 : n; }

ssize_t read(int file, void *bytes, size_t n) {
    if (fails()) { errno = EIO; return -1; }
    return REAL(read)(file, bytes, moved(n));
}
ssize_t write(int file, const void *bytes, size_t n) {
    if (fails()) { errno = EIO; return -1; }
    return REAL(write)(file, bytes, moved(n));
}
