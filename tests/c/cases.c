#define _DEFAULT_SOURCE /* for getline */
#include "cases.h"

#include "lent.h"

#include <stdio.h>
#include <stdlib.h>
#include <string.h>

enum { TEXT_ROOM = 4 * BLOCK, PLACES_ROOM = 7 * BLOCK };

static const struct calls *calls;
static struct block texts, places;
static unsigned long number_of_answer = 1;

void stop(const char *why)
{
    fprintf(stderr, "%s: answer %lu: %s\n", calls->program, number_of_answer, why);
    exit(1);
}

int answer_calls(const struct calls *answered, void (*function)(void))
{
    calls = answered;
    texts = make_block(TEXT_ROOM);
    places = make_block(PLACES_ROOM);
    if (!ends_within_blocks(function))
        stop("a call leaves what it was lent");
    if (ferror(stdin))
        stop("standard input cannot be read");
    if (fflush(stdout) != 0 || ferror(stdout))
        stop("standard output cannot be written");
    return 0;
}

/* The answers. */

struct answer {
    uint32_t refusal;
    size_t count;
    uint8_t places[PLACES_ROOM];
};

/* What the two calls answer with what they are lent at the blocks' ends or starts; nothing but the filled places is changed. */
static void call(struct answer *answer, const uint8_t *text, size_t length, size_t size, int at_end, int byte)
{
    struct lent lent_text = lend(texts, length, at_end, byte), lent = lend(places, size, at_end, byte);
    size_t filled;
    memcpy(lent_text.bytes, text, length);
    answer->refusal = calls->refusal(lent_text.bytes, length, size);
    answer->count = calls->fill(lent_text.bytes, length, lent.bytes, size);
    if (answer->count > size / calls->place)
        stop("a call answers a greater number than that of places");
    if (answer->refusal != 0 && answer->count != 0)
        stop("a refused call answers a number of places");
    filled = answer->count * calls->place;
    if (!all_are(lent.bytes + filled, size - filled, byte))
        stop("a call changes a byte behind the places that it fills");
    if (memcmp(lent_text.bytes, text, length) != 0)
        stop("a call changes a byte of its text");
    if (!all_are(lent_text.beside, GUARD, byte) || !all_are(lent.beside, GUARD, byte))
        stop("a call changes a byte beside what it was lent");
    memcpy(answer->places, lent.bytes, filled);
}

static void print_answer(const struct answer *answer)
{
    const uint8_t *byte = answer->places, *end = byte + answer->count * calls->place;
    printf("%lu %zu", (unsigned long)answer->refusal, answer->count);
    for (; byte < end; byte += 4)
        printf(" %lu", byte[0] | (unsigned long)byte[1] << 8 | (unsigned long)byte[2] << 16 | (unsigned long)byte[3] << 24);
    printf("\n");
}

size_t answer_text(const uint8_t *text, size_t length, size_t size)
{
    static struct answer late, early;
    if (length > TEXT_ROOM - GUARD || size > PLACES_ROOM - GUARD)
        stop("more bytes than this program lends");
    call(&late, text, length, size, 1, 0);
    call(&early, text, length, size, 0, 0xa5);
    if (late.refusal != early.refusal || late.count != early.count || memcmp(late.places, early.places, late.count * calls->place) != 0)
        stop("a call answers otherwise in another place");
    print_answer(&late);
    number_of_answer++;
    return late.count;
}

/* The cases. */

static uint8_t text_of_case[TEXT_ROOM];
static size_t length_of_case;

static size_t number_in(const char *word)
{
    char *end;
    size_t number = strtoul(word, &end, 10);
    if (end == word || (*end != 0 && *end != '*'))
        stop("no number");
    return number;
}

static unsigned digit_in(char digit)
{
    static const char digits[] = "0123456789abcdef";
    const char *place = digit == 0 ? NULL : strchr(digits, digit);
    if (place == NULL)
        stop("no hexadecimal digit");
    return (unsigned)(place - digits);
}

/* The piece's bytes go behind the text's, as often as it says. */
static void add_piece(const char *word)
{
    const char *star = strchr(word, '*'), *digits = star == NULL ? word : star + 1;
    size_t count = star == NULL ? 1 : number_in(word), bytes = strlen(digits) / 2, i;
    if (strlen(digits) % 2 != 0)
        stop("half a byte");
    if (bytes != 0 && count > (TEXT_ROOM - length_of_case) / bytes)
        stop("more bytes than this program holds");
    for (i = 0; i < count * bytes; i++) {
        const char *pair = digits + i % bytes * 2;
        text_of_case[length_of_case++] = (uint8_t)(digit_in(pair[0]) * 16 + digit_in(pair[1]));
    }
}

static void answer_case(char *line)
{
    const char *word;
    size_t size;
    line[strcspn(line, "\n")] = 0;
    word = strtok(line, ":");
    size = number_in(word == NULL ? "" : word);
    for (length_of_case = 0; (word = strtok(NULL, " ")) != NULL;)
        add_piece(word);
    answer_text(text_of_case, length_of_case, size);
}

void answer_cases(void)
{
    char *line = NULL;
    size_t room = 0;
    while (getline(&line, &room, stdin) > 0)
        answer_case(line);
    free(line);
}
