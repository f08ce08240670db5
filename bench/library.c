/* The library's checker in the shape of plain_check. */
#include "library.h"

#include <string.h>

#include "gooseoften.h"
#include "plain/plain.h"

size_t library_check(const uint8_t *board, size_t length, size_t *answer)
{
    size_t code = gooseoften_check(board, length, answer);
    if (code != 0) {
        memset(answer, 0, PLAIN_ANSWER * sizeof *answer);
        answer[0] = gooseoften_refusal_record(code);
    }
    return gooseoften_refusal_number(code);
}
