// A library in front of a program: the allocation of the number in NTH finds no memory, and standard error says so.
#include <stddef.h>
#include <stdlib.h>
#include <unistd.h>

extern void *__libc_malloc(size_t);

static unsigned long count, nth;

__attribute__((constructor)) static void begin(void)
{
    const char *word = getenv("NTH");
    nth = word ? strtoul(word, NULL, 10) : 0;
    count = 0;
}

void *malloc(size_t size)
{
    if (__sync_add_and_fetch(&count, 1) == nth) {
        (void)!write(2, "refused\n", 8);
        return NULL;
    }
    return __libc_malloc(size);
}
