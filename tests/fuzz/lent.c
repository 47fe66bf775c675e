#define _DEFAULT_SOURCE
#include "lent.h"

#include <signal.h>
#include <stdio.h>
#include <stdlib.h>
#include <string.h>
#include <sys/mman.h>
#include <sys/wait.h>
#include <unistd.h>

#define MARK 0xa7
#define SEEN 9 /* exit status of a process that touched what it may not */

struct area make_area(size_t size)
{
    size_t page = (size_t)sysconf(_SC_PAGESIZE);
    struct area area;
    uint8_t *whole;
    area.size = (size + MARKED + page - 1) / page * page;
    whole = (uint8_t *)mmap(NULL, area.size + 2 * page, PROT_NONE, MAP_PRIVATE | MAP_ANONYMOUS, -1, 0);
    if (whole == MAP_FAILED || mprotect(whole + page, area.size, PROT_READ | PROT_WRITE) != 0) {
        perror("fuzz: no memory to lend");
        exit(2);
    }
    area.start = whole + page;
    return area;
}

static uint8_t *marks(const struct area *area, size_t size, int at_end)
{
    return at_end ? area->start + area->size - size - MARKED : area->start + size;
}

void *lend(struct area *area, size_t size, int at_end)
{
    memset(marks(area, size, at_end), MARK, MARKED);
    return at_end ? area->start + area->size - size : area->start;
}

int marks_stay(const struct area *area, size_t size, int at_end)
{
    const uint8_t *mark = marks(area, size, at_end);
    size_t i;
    for (i = 0; i < MARKED; i++) {
        if (mark[i] != MARK) {
            return 0;
        }
    }
    return 1;
}

static void seen(int number)
{
    (void)number;
    _exit(SEEN);
}

/* Touches a byte in a process of its own. */
static int is_seen(const volatile uint8_t *byte)
{
    int status = 0;
    pid_t child = fork();
    if (child == 0) {
        signal(SIGSEGV, seen);
        (void)*byte;
        _exit(0);
    }
    return child > 0 && waitpid(child, &status, 0) == child && WIFEXITED(status) && WEXITSTATUS(status) == SEEN;
}

int guarded(const struct area *area)
{
    return is_seen(area->start - 1) && is_seen(area->start + area->size);
}
