#define _DEFAULT_SOURCE /* for MAP_ANONYMOUS and sigsetjmp */
#include "lent.h"

#include <setjmp.h>
#include <signal.h>
#include <stdio.h>
#include <stdlib.h>
#include <string.h>
#include <sys/mman.h>

struct block make_block(size_t room)
{
    struct block block;
    uint8_t *pages = mmap(NULL, room + 2 * BLOCK, PROT_NONE, MAP_PRIVATE | MAP_ANONYMOUS, -1, 0);
    if (pages == MAP_FAILED || mprotect(pages + BLOCK, room, PROT_READ | PROT_WRITE) != 0) {
        perror("no memory between closed pages");
        exit(1);
    }
    block.bytes = pages + BLOCK;
    block.room = room;
    return block;
}

struct lent lend(struct block block, size_t count, int at_end, int byte)
{
    struct lent lent;
    lent.bytes = at_end ? block.bytes + block.room - count : block.bytes;
    lent.beside = at_end ? lent.bytes - GUARD : lent.bytes + count;
    memset(lent.bytes, byte, count);
    memset(lent.beside, byte, GUARD);
    return lent;
}

int all_are(const uint8_t *bytes, size_t count, int byte)
{
    size_t i;
    for (i = 0; i < count; i++)
        if (bytes[i] != byte)
            return 0;
    return 1;
}

static sigjmp_buf before_calls;

/* Nothing is told from here, since an emulator may start a handler on a stack that printing cannot use. */
static void leave_calls(int signal_number)
{
    siglongjmp(before_calls, signal_number);
}

int ends_within_blocks(void (*function)(void))
{
    signal(SIGSEGV, leave_calls);
    signal(SIGBUS, leave_calls);
    if (sigsetjmp(before_calls, 1) != 0)
        return 0;
    function();
    return 1;
}
