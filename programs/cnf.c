/* The entry of cnf, whose exit status is what the proved function answers. It lends that function the two arrays that
   are too large for a stack; their sizes are those of the function's types (crates/console_cnf/src/lib.rt). */
#include <signal.h>
#include <stdint.h>

uint32_t fawnloom_cnf(int32_t list[262144], uint8_t text[1835022]);

static int32_t list[262144];
static uint8_t text[1835022];

int main(void) {
    /* a reader that went away is a write that fails, and is told, and not a signal */
    signal(SIGPIPE, SIG_IGN);
    return (int)fawnloom_cnf(list, text);
}
