"""Processor time of a program's runs, and of work done here."""

import os
import time


def spent(words, stdin="/dev/null"):
    """Processor seconds of one run of a program with its words, on what a file holds."""
    child = os.posix_spawn(
        words[0],
        [str(word) for word in words],
        os.environ,
        file_actions=[
            (os.POSIX_SPAWN_OPEN, 0, stdin, os.O_RDONLY, 0),
            (os.POSIX_SPAWN_OPEN, 1, "/dev/null", os.O_WRONLY, 0),
        ],
    )
    _, status, used = os.wait4(child, 0)
    assert status == 0
    return used.ru_utime + used.ru_stime


def spent_here(work, count):
    """Processor seconds of `work(count)` in this process."""
    start = time.process_time()
    work(count)
    return time.process_time() - start


def nanos(measures, rounds):
    """Nanoseconds of one of what each measure does, by its name.

    A measure is a function that gives the processor seconds of a count, a low count and a high count.
    Of each count the least of the rounds is taken, all measures in turn in each round; the difference
    of the two takes off what does not depend on the count, as the start of a program.
    """
    least = {}
    for _ in range(rounds):
        for name, (seconds, *counts) in measures.items():
            for count in counts:
                took = seconds(count)
                least[name, count] = min(least.get((name, count), took), took)
    return {
        name: (least[name, high] - least[name, low]) / (high - low) * 1e9
        for name, (_, low, high) in measures.items()
    }
