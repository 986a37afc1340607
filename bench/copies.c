/*
 * Runs the library's part of the benchmark alone, 1,024 inserts and 1,024 deletes, and says how many bytes a call copies:
 * those of memcpy with 1 KB and more, which the linker sends here (--wrap=memcpy).
 */
#include <stddef.h>
#include <stdint.h>
#include <stdio.h>

enum { ROWS = 1024 };

extern uint64_t workload_run(uint64_t rows);
void *__real_memcpy(void *to, const void *from, size_t size);
void *__wrap_memcpy(void *to, const void *from, size_t size);

static uint64_t copied, copies;

void *__wrap_memcpy(void *to, const void *from, size_t size)
{
    if (size >= 1024) {
        copied += size;
        copies++;
    }
    return __real_memcpy(to, from, size);
}

int main(void)
{
    if (workload_run(ROWS) != 2 * ROWS)
        return 1;
    printf("a call of receive copies %.1f KB, in %.1f copies of 1 KB and more\n", (double)copied / (2 * ROWS) / 1024,
           (double)copies / (2 * ROWS));
    return 0;
}
