/* Stands between the program and the C library in tests/odd, by LD_PRELOAD, and does what a system seldom does:
 *   REFUSE=N     the Nth call for memory is refused, counted from 1
 *   REFUSE=N..   and so is each one behind it
 *   REMOVE=PATH  the file PATH is removed behind the first read of any file
 *   UNREAD=N     the Nth read fails
 *   COUNT=PATH   at the end the number of calls for memory is written to the file PATH
 * glibc exports the names with two underscores. */
#include <errno.h>
#include <fcntl.h>
#include <stdio.h>
#include <stdlib.h>
#include <string.h>
#include <unistd.h>

void *__libc_malloc(size_t size);
void *__libc_calloc(size_t count, size_t size);
void *__libc_realloc(void *old, size_t size);
ssize_t __read(int from, void *to, size_t most);

static long refused, calls, unread, reads;
static int refuses_on, is_begun;
static const char *to_remove, *count_file;

__attribute__((constructor)) static void begin(void) {
    const char *word = getenv("REFUSE");
    refused = word ? atol(word) : 0;
    refuses_on = word && strstr(word, "..");
    word = getenv("UNREAD");
    unread = word ? atol(word) : 0;
    to_remove = getenv("REMOVE");
    count_file = getenv("COUNT");
    is_begun = 1;
}

__attribute__((destructor)) static void end(void) {
    char text[32];
    int length = snprintf(text, sizeof text, "%ld\n", calls), file;
    if (count_file && (file = open(count_file, O_WRONLY | O_CREAT | O_TRUNC, 0600)) >= 0) {
        if (write(file, text, length) != length) _exit(99);
        close(file);
    }
}

static int is_refused(void) {
    if (!is_begun) return 0;
    calls++;
    if (!refused || calls < refused || (calls > refused && !refuses_on)) return 0;
    errno = ENOMEM;
    return 1;
}

void *malloc(size_t size) { return is_refused() ? NULL : __libc_malloc(size); }
void *calloc(size_t count, size_t size) { return is_refused() ? NULL : __libc_calloc(count, size); }
void *realloc(void *old, size_t size) { return is_refused() ? NULL : __libc_realloc(old, size); }

ssize_t read(int from, void *to, size_t most) {
    if (++reads == unread) {
        errno = EIO;
        return -1;
    }
    ssize_t got = __read(from, to, most);
    if (to_remove && unlink(to_remove)) _exit(98);
    to_remove = NULL;
    return got;
}
