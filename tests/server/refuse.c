/* Loaded before the C library: refuses one allocation of a program, that with the number REFUSED, from 1 on, of those
   between two allocations of the size MARK. Writes how many there were to the file COUNTED. */
#include <fcntl.h>
#include <stddef.h>
#include <stdio.h>
#include <stdlib.h>
#include <unistd.h>

/* What the C library defines its own by. */
extern void *__libc_malloc(size_t size);
extern void *__libc_realloc(void *block, size_t size);

static long number, refused;
static int is_inside;

/* At each mark: the numbers begin, or end. */
static void pass_mark(void)
{
    is_inside = !is_inside;
    if (is_inside) {
        const char *word = getenv("REFUSED");
        refused = word ? atol(word) : 0;
        return;
    }
    char text[32];
    int file = open(getenv("COUNTED"), O_WRONLY | O_CREAT | O_TRUNC, 0600);
    int length = snprintf(text, sizeof text, "%ld\n", number);
    if (file < 0 || write(file, text, length) != length)
        abort();
    close(file);
}

/* Whether this allocation is refused. */
static int is_refused(size_t size)
{
    if (size == MARK)
        pass_mark();
    else if (is_inside)
        return ++number == refused;
    return 0;
}

void *malloc(size_t size)
{
    return is_refused(size) ? NULL : __libc_malloc(size);
}

void *realloc(void *block, size_t size)
{
    return is_refused(size) ? NULL : __libc_realloc(block, size);
}
