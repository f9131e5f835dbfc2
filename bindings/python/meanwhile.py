"""Compares and reads the same locales in two threads, in the finalizers of what these drop, and in a signal handler, for
misuses.py: if a call waited for another, this would not end.

It prints how many calls answered as wanted; the status is 0 if all did."""

import gc
import signal
import sys
import threading

from icu_locale_c import Locale

ROUNDS = 2000
TEXT = "en-GB-aaaaa-bbbbb-ccccc-ddddd-eeeee-u-ca-roc-x-a-b-c-d-e-f"
FIRST = Locale(TEXT).extend_unicode(Locale("und-u-ca-roc"))
SECOND = Locale("de").replace(keywords={"co": "phonebk"})
ANSWERS = []


def compare():
    ANSWERS.append(FIRST != SECOND and SECOND < FIRST and FIRST.normalizing_eq(TEXT) and str(FIRST) == TEXT)


def read_first():
    ANSWERS.append(FIRST.data_locale() == "en-GB-aaaaa")


def read_second():
    ANSWERS.append(SECOND.data_locale() == "de")


class Knot:
    """What only the collector of cycles frees: it then makes a call."""

    def __init__(self, last):
        self.itself, self.last = self, last

    def __del__(self):
        self.last()


def repeat(call, last):
    """Calls, and has the collector make the last call in between, at any point."""
    for _ in range(ROUNDS):
        Knot(last)
        call()


def beside(*works):
    """Does these works in a thread each."""
    threads = [threading.Thread(target=repeat, args=it) for it in works]
    for it in threads:
        it.start()
    for it in threads:
        it.join()


def tick(*_):
    compare()
    signal.setitimer(signal.ITIMER_REAL, 0.0005)


def with_signals():
    """Reads here, where a signal handler compares meanwhile, and compares in another thread."""
    signal.signal(signal.SIGALRM, tick)
    thread = threading.Thread(target=repeat, args=(compare, read_second))
    thread.start()
    tick()
    repeat(read_first, compare)
    thread.join()
    signal.signal(signal.SIGALRM, signal.SIG_IGN)


def main():
    gc.set_threshold(7)
    sys.setswitchinterval(1e-6)
    beside((compare, compare), (read_second, compare))
    beside((read_first, read_second), (read_second, read_first))
    beside((compare, read_first), (compare, read_second), (read_first, compare))
    with_signals()
    print(f"{len(ANSWERS)} calls, {len(ANSWERS) - sum(ANSWERS)} wrong")
    return not all(ANSWERS)


if __name__ == "__main__":
    sys.exit(main())
