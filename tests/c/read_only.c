/* Read-only memory by mprotect. */
#define _DEFAULT_SOURCE
#include "read_only.h"

#include <signal.h>
#include <sys/mman.h>
#include <unistd.h>

static void stored(int signal)
{
    static const char text[] = "FAILED a refused step stored into read-only memory\n";
    (void)signal;
    _exit(write(STDOUT_FILENO, text, sizeof text - 1) < 0 ? 2 : 1);
}

int read_only(void *at, size_t length)
{
    signal(SIGSEGV, stored);
    return mprotect(at, length, PROT_READ) == 0;
}

int writable(void *at, size_t length)
{
    signal(SIGSEGV, SIG_DFL);
    return mprotect(at, length, PROT_READ | PROT_WRITE) == 0;
}
