/* Linked with the C library in place of malloc and realloc (--wrap=malloc,--wrap=realloc), it grants so many requests
   for memory, and refuses the next one. Below 0 it grants all. */
#include <stdbool.h>
#include <stdlib.h>

long requests_granted = -1;

void *__real_malloc(size_t size);
void *__real_realloc(void *at, size_t size);

static bool is_refused(void)
{
    return requests_granted >= 0 && requests_granted-- == 0;
}

void *__wrap_malloc(size_t size)
{
    return is_refused() ? NULL : __real_malloc(size);
}

void *__wrap_realloc(void *at, size_t size)
{
    return is_refused() ? NULL : __real_realloc(at, size);
}
