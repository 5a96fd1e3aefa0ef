"""Work that calls itself deep, as the run of a program that does: on a stack with room for some 100,000 calls of it."""

import sys
import threading
from concurrent.futures import ThreadPoolExecutor

STACK = 1 << 30


def deep(work, *given):
    """What the work answers, in a thread of its own, with no limit of calls but its stack. What it uses has to be imported before,
    since some modules set that limit themselves."""
    sys.setrecursionlimit(2**31 - 1)
    threading.stack_size(STACK)
    with ThreadPoolExecutor(1) as pool:
        return pool.submit(work, *given).result()
