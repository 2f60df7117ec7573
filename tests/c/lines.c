/* Reads lines from standard input and prints for each what the three calls on a line answer: NUMBER START LENGTH. */
#include "qashmelvit.h"

#include <stdio.h>
#include <stdlib.h>
#include <string.h>

struct text {
    uint8_t *bytes;
    size_t length;
    size_t room;
};

static void stop(const char *why)
{
    fprintf(stderr, "lines: %s\n", why);
    exit(1);
}

static void append(struct text *text, int byte)
{
    if (text->length == text->room) {
        text->room = text->room * 2 + 256;
        text->bytes = realloc(text->bytes, text->room);
        if (text->bytes == NULL)
            stop("no memory");
    }
    text->bytes[text->length++] = (uint8_t)byte;
}

/* Whether there is a line: its bytes go up to a line feed, which is none of them, or to the input's end. */
static int read_line(struct text *line)
{
    int byte = getchar();
    line->length = 0;
    if (byte == EOF)
        return 0;
    for (; byte != EOF && byte != '\n'; byte = getchar())
        append(line, byte);
    return 1;
}

/* The line is lent in a block of its own length, so that tools see a read past its end. */
static void answer_line(const struct text *line)
{
    uint8_t *lent = malloc(line->length);
    if (lent == NULL && line->length > 0)
        stop("no memory");
    if (line->length > 0)
        memcpy(lent, line->bytes, line->length);
    printf("%lu", (unsigned long)qv_line(lent, line->length));
    printf(" %zu", qv_part_start(lent, line->length));
    printf(" %zu\n", qv_part_length(lent, line->length));
    if (line->length > 0 && memcmp(lent, line->bytes, line->length) != 0)
        stop("a call changed a byte of its line");
    free(lent);
}

int main(void)
{
    struct text line = {NULL, 0, 0};
    while (read_line(&line))
        answer_line(&line);
    free(line.bytes);
    if (ferror(stdin))
        stop("standard input cannot be read");
    if (fflush(stdout) != 0 || ferror(stdout))
        stop("standard output cannot be written");
    return 0;
}
