/* No code runs in a signal handler: signals are blocked and read from a file, where the program waits anyway. */
#include <poll.h>
#include <sys/signalfd.h>

#include "driver.h"

int caught, caught_times;
bool child_ended, lull;
static int signals = -1;
static sigset_t before;

void hold_signals(void) {
    static const int ours[] = {SIGCHLD, SIGINT, SIGTERM, SIGHUP, SIGQUIT};
    struct sigaction set_before;
    sigset_t set;
    sigemptyset(&set);
    for (size_t i = 0; i < sizeof ours / sizeof *ours; i++) /* one that is ignored, as by nohup, stays so */
        if (sigaction(ours[i], NULL, &set_before) == 0 && set_before.sa_handler != SIG_IGN) sigaddset(&set, ours[i]);
    signal(SIGPIPE, SIG_IGN);
    signal(SIGXFSZ, SIG_IGN);
    sigprocmask(SIG_BLOCK, &set, &before);
    signals = signalfd(-1, &set, SFD_CLOEXEC | SFD_NONBLOCK);
    if (signals < 0) fail(FAILED, "cannot wait for signals");
}

void free_signals(void) {
    signal(SIGPIPE, SIG_DFL);
    signal(SIGXFSZ, SIG_DFL);
    if (signals >= 0) sigprocmask(SIG_SETMASK, &before, NULL);
}

bool wait_ready(int file, short events, int milliseconds) {
    struct pollfd both[2] = {{signals, POLLIN, 0}, {file, events, 0}};
    struct signalfd_siginfo came;
    lull = poll(both, 2, milliseconds) == 0;
    if (both[0].revents != 0 && read(signals, &came, sizeof came) == sizeof came) {
        if (came.ssi_signo == SIGCHLD) child_ended = true;
        else caught = (int)came.ssi_signo, caught_times++;
    }
    return both[1].revents != 0;
}
