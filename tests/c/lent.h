/* Lending. Each block lies between closed pages, which may be neither read nor written, so that a call that leaves what it was lent is
   stopped; on the side where no closed page is near, the guard's bytes must stay. */
#ifndef LENT_H
#define LENT_H

#include <stddef.h>
#include <stdint.h>

enum { BLOCK = 65536, GUARD = 64 };

struct block {
    uint8_t *bytes;
    size_t room;
};

struct lent {
    uint8_t *bytes;
    uint8_t *beside;
};

/* A block with so much room, a multiple of BLOCK. */
struct block make_block(size_t room);

/* So many bytes at the block's end or at its start, with the guard's on their other side, all of them this byte. */
struct lent lend(struct block block, size_t count, int at_end, int byte);

int all_are(const uint8_t *bytes, size_t count, int byte);

/* Whether the function ends with no call of it stopped at a byte that was not lent. */
int ends_within_blocks(void (*function)(void));

#endif
