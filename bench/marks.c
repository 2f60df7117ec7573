/* Prints for texts of 65,536 bytes the least and the median time of qv_marks over many rounds, and how many marks it finds. */
#define _POSIX_C_SOURCE 199309L /* for clock_gettime */
#include "qashmelvit.h"

#include <stdio.h>
#include <stdlib.h>
#include <string.h>
#include <time.h>

enum { LENGTH = 65536, PLACES = LENGTH / 4 * 20, ROUNDS = 201 };

static uint8_t text[LENGTH], places[PLACES];

/* Fills the text with copies of a piece, the last of them cut. */
static void repeat(const char *piece)
{
    size_t length = strlen(piece), i;
    for (i = 0; i < LENGTH; i++)
        text[i] = (uint8_t)piece[i % length];
}

/* Prose with so many marks, at equal distances. */
static void prose(size_t marks)
{
    const char *mark = "[[tue after quasimodo 1587 J]]";
    size_t i;
    repeat("Gegeben zu Cronberg uff dinstag nach dem sonntag, als man singet in der kirchen; ");
    for (i = 0; i < marks; i++)
        memcpy(text + i * (LENGTH / marks), mark, strlen(mark));
}

static void one_long_mark(void)
{
    repeat("a");
    memcpy(text, "[[", 2);
    memcpy(text + LENGTH - 2, "]]", 2);
}

static int by_value(const void *a, const void *b)
{
    double x = *(const double *)a, y = *(const double *)b;
    return (x > y) - (x < y);
}

static void measure(const char *what)
{
    static double times[ROUNDS];
    size_t marks = 0;
    int i;
    for (i = 0; i < ROUNDS; i++) {
        struct timespec before, after;
        memset(places, 0, sizeof places);
        clock_gettime(CLOCK_MONOTONIC, &before);
        marks = qv_marks(text, LENGTH, places, sizeof places);
        clock_gettime(CLOCK_MONOTONIC, &after);
        times[i] = (double)(after.tv_sec - before.tv_sec) * 1e6 + (double)(after.tv_nsec - before.tv_nsec) / 1e3;
    }
    qsort(times, ROUNDS, sizeof times[0], by_value);
    printf("%-32s %6zu marks, least %7.1f and median %7.1f microseconds\n", what, marks, times[0], times[ROUNDS / 2]);
}

int main(void)
{
    prose(1);
    measure("prose with 1 mark");
    prose(100);
    measure("prose with 100 marks");
    prose(1000);
    measure("prose with 1,000 marks");
    repeat("\xc3\xa9");
    measure("two-byte characters alone");
    repeat("[[");
    measure("[[ alone");
    repeat("]]");
    measure("]] alone");
    repeat("[[]]");
    measure("[[ and ]] in turn");
    repeat("[a]b");
    measure("single brackets");
    one_long_mark();
    measure("one long mark");
    return 0;
}
