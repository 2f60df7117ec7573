/* Reads lines from standard input, joins them to pages of 500 lines, and prints for each page what the two calls on it answer: REFUSAL
   COUNT, and NUMBER for each line. A page has fewer lines where the next would make it too long, and the last has those that are left. */
#define _DEFAULT_SOURCE /* for getline */
#include "qashmelvit.h"

#include "cases.h"

#include <stdio.h>
#include <stdlib.h>
#include <string.h>

enum { LINES = 500, LONGEST = 65536, PLACE = 4 };

static uint8_t page[LONGEST];
static size_t length, lines;

/* Every other page lacks its last line feed, unless that ends a blank line. */
static void answer_page(void)
{
    static int open;
    if (lines == 0)
        return;
    open = !open && length > 1 && page[length - 2] != '\n';
    if (answer_text(page, open ? length - 1 : length, lines * PLACE) != lines)
        stop("a page has another number of lines");
    length = lines = 0;
}

/* The line's bytes are counted with its line feed. */
static void add_line(const char *line, size_t bytes)
{
    if (bytes > LONGEST)
        stop("a line is longer than any page");
    if (lines == LINES || bytes > LONGEST - length)
        answer_page();
    memcpy(page + length, line, bytes);
    length += bytes;
    lines++;
}

/* A last line that lacks its line feed has it put behind it, where the line's end is marked by a NUL. */
static void answer_lines(void)
{
    char *line = NULL;
    size_t room = 0;
    ssize_t bytes;
    while ((bytes = getline(&line, &room, stdin)) > 0) {
        if (line[bytes - 1] != '\n')
            line[bytes++] = '\n';
        add_line(line, (size_t)bytes);
    }
    answer_page();
    free(line);
}

int main(void)
{
    static const struct calls calls = {"together", PLACE, qv_page, qv_page_refusal};
    return answer_calls(&calls, answer_lines);
}
