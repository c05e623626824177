/* A caller in C, which asks for one after another.
 *   next SLICE < NUMBERS    v and the words of a clause list; SLICE steps at a time, or, where it is 0, many
 * Prints of each call that is not spent the end and the steps of each kind, the record, values and trail; then what a length
 * beyond v is answered with, and that the record is as it was. */
#include "calls.h"

int main(int count, char **arguments) {
    uint64_t slice = count > 1 ? strtoull(arguments[1], NULL, 10) : 0;
    uint32_t v = 0;
    ptrdiff_t words = read_list(&v);
    if (words < 0) return 1;
    if (slice == 0) slice = 1000000000;

    struct position position = {0, 0, 0, 0};
    struct answer answer;
    do {
        answer = fawnloom_next(list, words, v, values, v, trail, v, &position, slice);
        if (answer.refusal != 0 || answer.end != 3) print_left(answer, position, v);
    } while (answer.refusal == 0 && answer.end != 2);

    position.length = v + 1;
    print_answer(fawnloom_next(list, words, v, values, v, trail, v, &position, 1));
    print_position(position);
    return 0;
}
