/* Reads calls on numbers, 'CALL NUMBER ..', from standard input and prints what each answers: NUMBER of feast and day, and REFUSAL VALUE of
   weekday and distance. */
#include "qashmelvit.h"

#include <errno.h>
#include <inttypes.h>
#include <stdio.h>
#include <stdlib.h>
#include <string.h>

enum { ROOM = 256, MOST = 8 };

static unsigned long number_of_line;

static void stop(const char *why)
{
    fprintf(stderr, "numbers: line %lu: %s\n", number_of_line, why);
    exit(1);
}

static uint64_t number_in(const char *word)
{
    char *end;
    unsigned long long number;
    errno = 0;
    number = strtoull(word, &end, 10);
    if (word[0] < '0' || word[0] > '9' || *end != 0 || errno != 0)
        stop("no number of 64 bits");
    return number;
}

static void answer_call(const char *call, size_t count, const uint64_t *n)
{
    if (strcmp(call, "feast") == 0 && count == 3)
        printf("%" PRIu32 "\n", qv_feast(n[0], n[1], n[2]));
    else if (strcmp(call, "day") == 0 && count == 4)
        printf("%" PRIu32 "\n", qv_day(n[0], n[1], n[2], n[3]));
    else if (strcmp(call, "weekday") == 0 && count == 2)
        printf("%" PRIu32 " %" PRIu32 "\n", qv_weekday_refusal(n[0], n[1]), qv_weekday(n[0], n[1]));
    else if (strcmp(call, "distance") == 0 && count == 8)
        printf("%" PRIu32 " %" PRId32 "\n", qv_distance_refusal(n[0], n[1], n[2], n[3], n[4], n[5], n[6], n[7]),
               qv_distance(n[0], n[1], n[2], n[3], n[4], n[5], n[6], n[7]));
    else
        stop("no call");
}

static void answer_line(char *line)
{
    const char *call = strtok(line, " \n"), *word;
    uint64_t numbers[MOST];
    size_t count = 0;
    while ((word = strtok(NULL, " \n")) != NULL) {
        if (count == MOST)
            stop("too many numbers");
        numbers[count++] = number_in(word);
    }
    answer_call(call == NULL ? "" : call, count, numbers);
}

int main(void)
{
    char line[ROOM];
    while (fgets(line, ROOM, stdin) != NULL) {
        number_of_line++;
        answer_line(line);
    }
    if (ferror(stdin))
        stop("standard input cannot be read");
    if (fflush(stdout) != 0 || ferror(stdout))
        stop("standard output cannot be written");
    return 0;
}
