/*
 * Tags dating lines: prints for each line of standard input its day, and the line with the feast word or date in brackets; for a refused
 * line the refusal's number, and the line as it is.
 *
 *     2300824 tue after [quasimodo] 1587 J
 *     3 no such line
 *
 * Build: cc -o tag tag.c $(pkg-config --cflags --libs qashmelvit)
 */
#include <qashmelvit.h>

#include <stdio.h>
#include <stdlib.h>

struct line {
    uint8_t *bytes;
    size_t length;
    size_t room;
};

static void stop(const char *why)
{
    fprintf(stderr, "tag: %s\n", why);
    exit(EXIT_FAILURE);
}

static void append(struct line *line, int byte)
{
    if (line->length == line->room) {
        line->room = line->room * 2 + 128;
        line->bytes = (uint8_t *)realloc(line->bytes, line->room);
        if (line->bytes == NULL)
            stop("no memory for a line");
    }
    line->bytes[line->length++] = (uint8_t)byte;
}

/* Whether there is a line: its bytes go up to a line feed, which is none of them, or to the end of the input. */
static int read_line(struct line *line)
{
    int byte = getchar();
    int found = byte != EOF;
    line->length = 0;
    for (; byte != EOF && byte != '\n'; byte = getchar())
        append(line, byte);
    if (ferror(stdin))
        stop("standard input cannot be read");
    return found;
}

/* A refused line has a part of no bytes, so that nothing of it is marked. */
static void print_line(const struct line *line)
{
    unsigned long answer = qv_line(line->bytes, line->length);
    size_t start = qv_part_start(line->bytes, line->length);
    size_t end = start + qv_part_length(line->bytes, line->length);

    printf("%lu ", answer);
    for (size_t i = 0; i < line->length; i++) {
        if (i == start && start < end)
            putchar('[');
        putchar(line->bytes[i]);
        if (i + 1 == end)
            putchar(']');
    }
    putchar('\n');
}

int main(void)
{
    struct line line = {NULL, 0, 0};
    while (!ferror(stdout) && read_line(&line))
        print_line(&line);
    free(line.bytes);
    if (fflush(stdout) != 0 || ferror(stdout))
        stop("standard output cannot be written");
    return EXIT_SUCCESS;
}
