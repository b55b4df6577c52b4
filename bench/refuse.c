/* Preloaded into a program, it refuses the allocation whose number the variable REFUSE has, counted from 1, and where REFUSE_REST
   is set all later ones too. Each refusal is told by a byte on the descriptor that REFUSE_TOLD names. */
#include <stdlib.h>
#include <unistd.h>

void *__libc_malloc(size_t size);
void *__libc_realloc(void *old, size_t size);

static long count;

static int is_refused(void) {
    const char *first = getenv("REFUSE");
    count++;
    if (!first || count < atol(first) || (count > atol(first) && !getenv("REFUSE_REST")))
        return 0;
    return write(atoi(getenv("REFUSE_TOLD")), "x", 1) == 1;
}

void *malloc(size_t size) { return is_refused() ? NULL : __libc_malloc(size); }
void *realloc(void *old, size_t size) { return is_refused() ? NULL : __libc_realloc(old, size); }
