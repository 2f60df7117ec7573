/* Reads cases of transcripts from standard input, and prints for each what the two calls on it answer: REFUSAL COUNT, and
   START END FIRST PAST NUMBER for each mark. */
#include "qashmelvit.h"

#include "cases.h"

int main(void)
{
    static const struct calls calls = {"marks", 20, qv_marks, qv_marks_refusal};
    return answer_calls(&calls, answer_cases);
}
