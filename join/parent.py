"""A program that runs on sockets of this process, and this process as its parent: signals and the status go through."""
import ctypes
import fcntl
import os
import signal
import socket
from collections.abc import Callable

PR_SET_PDEATHSIG = 1
# Signals that a run sees while they are blocked, and then ends with its report.
ENDING = {signal.SIGINT, signal.SIGTERM, signal.SIGHUP}
# The first descriptor that sd_listen_fds(3) passes in, and one above all that a run gets so.
FIRST, ABOVE = 3, 256
LOOK_SECONDS = 1.0


def run(program: str, words: list[str], sockets: dict[str, socket.socket], look: Callable[[], None]) -> int:
    """Runs a program on these sockets to its end, looks once in a second meanwhile, and returns its status. If a
    signal ended it, the same signal ends this process."""
    # Signals that are ignored, as SIGHUP by nohup, stay so. Blocked ones would come all the same.
    waited = {one for one in ENDING if signal.getsignal(one) is not signal.SIG_IGN} | {signal.SIGCHLD}
    signal.pthread_sigmask(signal.SIG_BLOCK, waited)
    parent, child = os.getpid(), os.fork()
    if child == 0:
        become(program, words, sockets, parent)
    while True:
        found = signal.sigtimedwait(waited, LOOK_SECONDS)
        if found is None:
            look()
        elif found.si_signo != signal.SIGCHLD:
            os.kill(child, found.si_signo)
        else:
            ended, status = os.waitpid(child, os.WNOHANG)
            if ended:
                return end_as(os.waitstatus_to_exitcode(status))


def end_as(code: int) -> int:
    """Returns a status, or ends this process by the signal that ended the program."""
    if code >= 0:
        return code
    number = -code
    if number not in (signal.SIGKILL, signal.SIGSTOP):
        signal.signal(number, signal.SIG_DFL)
        signal.pthread_sigmask(signal.SIG_UNBLOCK, {number})
    os.kill(os.getpid(), number)
    return 128 + number


def become(program: str, words: list[str], sockets: dict[str, socket.socket], parent: int) -> None:
    """Becomes the program. Does not return."""
    try:
        # The run ends with its report if this script is killed.
        ctypes.CDLL(None).prctl(PR_SET_PDEATHSIG, signal.SIGTERM)
        if os.getppid() != parent:
            os._exit(1)
        pass_on(sockets)
        # A write past a file-size limit then fails, and ends its file and not the run. The program can't ignore a
        # signal, but one that is ignored stays so over exec, as one that is blocked stays blocked.
        signal.signal(signal.SIGXFSZ, signal.SIG_IGN)
        # Python ignores it, which the program would inherit.
        signal.signal(signal.SIGPIPE, signal.SIG_DFL)
        signal.pthread_sigmask(signal.SIG_BLOCK, ENDING)
        signal.pthread_sigmask(signal.SIG_UNBLOCK, {signal.SIGCHLD})
        os.execv(program, words)
    finally:
        os._exit(127)


def pass_on(sockets: dict[str, socket.socket]) -> None:
    """Puts sockets at the descriptors from 3 on, which stay open in what is run next, and says so in the
    environment."""
    high = [fcntl.fcntl(each, fcntl.F_DUPFD, ABOVE) for each in sockets.values()]
    for place, descriptor in enumerate(high):
        os.dup2(descriptor, FIRST + place)
        os.close(descriptor)
    os.environ.update(LISTEN_PID=str(os.getpid()), LISTEN_FDS=str(len(high)), LISTEN_FDNAMES=":".join(sockets))
