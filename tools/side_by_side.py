"""Cases of a script of tools/, several at a time: each in a process of its own, so that none has another one's descriptors or folder."""
import os
import signal
import sys
import traceback


def jobs():
    """How many at a time: most cases wait, so that more than one for each processor helps."""
    return 2 * len(os.sched_getaffinity(0))


def tell(line):
    """Prints the line whole, whoever else prints."""
    sys.stdout.write(f"{line}\n")
    sys.stdout.flush()


def all_hold(cases, at_a_time):
    """Calls each of these, which tells whether it came out as it should. Whether all did. Where this is interrupted they are too, and what they undo is awaited."""
    signal.signal(signal.SIGINT, interrupt)
    running, held = set(), True
    try:
        for case in cases:
            if len(running) >= at_a_time:
                held &= one_held(running)
            sys.stdout.flush()
            number = os.fork()
            if number == 0:
                run(case)
            running.add(number)
        while running:
            held &= one_held(running)
        return held
    finally:
        for number in running:
            os.kill(number, signal.SIGINT)
        while running:
            one_held(running)


def interrupt(*_):
    """Once, so that what is undone then isn't interrupted itself: a terminal and timeout(1) signal each process of a group, some of them twice."""
    signal.signal(signal.SIGINT, signal.SIG_IGN)
    raise KeyboardInterrupt


def run(case):
    """Ends this process by what the case tells."""
    status = 1
    try:
        status = 0 if case() else 1
    except KeyboardInterrupt:
        pass
    except BaseException:
        traceback.print_exc()
    finally:
        sys.stdout.flush()
        sys.stderr.flush()
        os._exit(status)


def one_held(running):
    """Waits for one of these processes, and takes it out: whether its case held."""
    number, status = os.wait()
    running.discard(number)
    return status == 0
