/*
 * Runs the C of the header's comments, which tests/expressions puts into the files in quotes:
 * prints what its functions and lines find, and on standard error each expression that does not
 * hold.
 */
#include <qashmelvit.h>

#include <stdio.h>
#include <string.h>

#include "functions.h"

static void found(uint32_t day, size_t start, size_t length)
{
    printf("day %lu, part %zu %zu\n", (unsigned long)day, start, length);
}

static void refused(uint32_t refusal)
{
    printf("refused, %lu\n", (unsigned long)refusal);
}

static void marked(uint32_t start, uint32_t end, uint32_t answer)
{
    printf("%lu, characters %lu to %lu\n", (unsigned long)answer, (unsigned long)start,
           (unsigned long)end);
}

static void answer_line(const char *text)
{
#include "line.h"
}

static void answer_marks(const char *transcript)
{
    const uint8_t *text = (const uint8_t *)transcript;
    size_t length = strlen(transcript);
#include "marks.h"
}

/* The places that the expressions lend. */
static uint8_t places[40];

static int differs(const char *call, long long answer, long long value)
{
    if (answer != value)
        fprintf(stderr, "%s is %lld, and not %lld\n", call, answer, value);
    return answer != value;
}

#define HOLDS(call, value) failures += differs(#call, (long long)(call), (long long)(value))

int main(void)
{
    int failures = 0;
    char lines[502] = "";

    answer_line("tue after quasimodo 1587 G");
    answer_line("1.1 1 J");
    answer_line("29.2 1900 G");
    print_page("easter 1225 J\n\n29.2 1900 G\n1.1 1 J\n");
    memset(lines, '\n', sizeof lines - 1);
    print_page(lines);
    answer_marks("Ren\303\251: [[easter 1225 J]], not [[29.2 1900 G]]");
    answer_marks("Ren\351: [[easter 1225 J]]");
#include "expressions.h"
    return failures != 0;
}
