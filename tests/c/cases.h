/* Two calls on texts, one that fills places and one that tells why it refuses, and the answers to cases of such texts. */
#ifndef CASES_H
#define CASES_H

#include <stddef.h>
#include <stdint.h>

struct calls {
    const char *program; /* whose name is told with what fails */
    size_t place;        /* the bytes of a place */
    size_t (*fill)(const uint8_t *text, size_t length, uint8_t *places, size_t size);
    uint32_t (*refusal)(const uint8_t *text, size_t length, size_t size);
};

/* Makes ready for answers of these two calls, and has the function give them; answers the program's status. */
int answer_calls(const struct calls *calls, void (*function)(void));

/* Tells why the answer at which the program is cannot be given, and ends it. */
void stop(const char *why);

/* Prints what the two calls answer for the text with size bytes of places, which are lent twice: REFUSAL COUNT, and the numbers of each
   place that is filled. Answers the COUNT. */
size_t answer_text(const uint8_t *text, size_t length, size_t size);

/* Prints the answers to the cases 'SIZE: PIECE PIECE ..' of standard input, as second/pieces.rs tells them. */
void answer_cases(void);

#endif
