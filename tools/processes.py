"""Commands that run side by side, and what ends them. It needs nothing but Python."""
import contextlib, os, signal, subprocess, sys

# The commands that run, and whether no further one may be started.
running, is_ended = set(), False


def lanes(room):
    """How many commands that take so many bytes of memory run side by side: one a processor, as many as memory holds."""
    with open("/proc/meminfo", encoding="ascii") as text:
        free = next(1024 * int(it.split()[1]) for it in text if it.startswith("MemAvailable:"))
    return max(1, min(len(os.sched_getaffinity(0)), free // room))


def leave_when_told():
    """Has the first signal that ends this process end it by SystemExit, so that it ends what it has started and takes away its
    files; further ones are of no account then."""
    kinds = [it for it in (signal.SIGHUP, signal.SIGINT, signal.SIGTERM) if signal.getsignal(it) != signal.SIG_IGN]

    def leave(number, _):
        for it in kinds:
            signal.signal(it, signal.SIG_IGN)
        sys.exit(128 + number)

    for it in kinds:
        signal.signal(it, leave)


def run(words, **how):
    """Runs a command, with no input: its status, and what it says."""
    if is_ended:
        return 1, ""
    ran = subprocess.Popen(words, stdin=subprocess.DEVNULL, stdout=subprocess.PIPE, stderr=subprocess.STDOUT, text=True,
                           errors="replace", start_new_session=True, **how)
    running.add(ran)
    if is_ended:
        end(ran)
    try:
        said, _ = ran.communicate()
        return ran.returncode, said
    finally:
        end(ran)
        ran.wait()
        running.discard(ran)


def end(ran):
    """Ends a command, with all that it has started."""
    with contextlib.suppress(ProcessLookupError):
        os.killpg(ran.pid, signal.SIGKILL)


def end_all():
    """Ends all that runs, and lets nothing further start."""
    global is_ended
    is_ended = True
    for it in [*running]:
        end(it)
