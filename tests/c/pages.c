/* Reads cases of pages from standard input, and prints for each what the two calls on it answer: REFUSAL COUNT, and NUMBER for each
   line. */
#include "qashmelvit.h"

#include "cases.h"

int main(void)
{
    static const struct calls calls = {"pages", 4, qv_page, qv_page_refusal};
    return answer_calls(&calls, answer_cases);
}
