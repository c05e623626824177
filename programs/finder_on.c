/* The entry of the finder that goes on until its search ends; the exit status is what the proved function answers. */
#include <signal.h>
#include <stdint.h>

uint32_t fawnloom_finder_on(void);

int main(void) {
    /* a reader that went away is a write that fails, and is told, and not a signal */
    signal(SIGPIPE, SIG_IGN);
    return (int)fawnloom_finder_on();
}
