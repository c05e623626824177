/* The entry of every, which prints all cases of a sheet; the exit status is what the proved function answers. */
#include <signal.h>
#include <stdint.h>

uint32_t fawnloom_every(void);

int main(void) {
    /* a reader that went away is a write that fails, and is told, and not a signal */
    signal(SIGPIPE, SIG_IGN);
    return (int)fawnloom_every();
}
