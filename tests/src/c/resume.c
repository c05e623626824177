/* A caller in C, which takes a search up again and again.
 *   resume SLICE < NUMBERS    v and the words of a clause list; SLICE steps at a time, or, where it is 0, all in one call
 * Prints the end and the steps of each kind, the record, values and trail; then what a length beyond v is answered with, and
 * that the record is as it was. */
#include "calls.h"

int main(int count, char **arguments) {
    uint64_t slice = count > 1 ? strtoull(arguments[1], NULL, 10) : 0;
    uint32_t v = 0;
    ptrdiff_t words = read_list(&v);
    if (words < 0) return 1;

    struct position position = {0, 0, 0, 0};
    struct answer answer;
    if (slice == 0) {
        answer = fawnloom_search(list, words, v, values, v, trail, v, UINT64_MAX);
        position = (struct position){0, answer.propagations, answer.decisions, answer.backtracks};
        while (position.length < v && trail[position.length] != 0) position.length++;
    } else {
        do {
            answer = fawnloom_resume(list, words, v, values, v, trail, v, &position, slice);
        } while (answer.refusal == 0 && answer.end == 3);
    }
    print_left(answer, position, v);

    position.length = v + 1;
    print_answer(fawnloom_resume(list, words, v, values, v, trail, v, &position, 1));
    print_position(position);
    return 0;
}
