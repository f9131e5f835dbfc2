"""What tools/program_ends and tools/locid_ends share: runs of a built program whose streams fail or are closed, and whose
memory is short. Each case says which status and which text on standard error are right. What was written must be a
beginning of the right answer; after status 0 all of it."""
import errno
import os
import pathlib
import resource
import subprocess
import tempfile

from common import TOP, Counts, parser, stop

DONE = (0, b"")

LINES = b"en-us\nEN-latn-us-POSIX-macos-u-foo-ca-true-hc-H12\nen-a-foo-A-!\n\nen-aaaaa-bbbbb-ccccc-ddddd-eeeee\n"
# (each has more parts than are kept in place, and they come out of order)
MANY = b"-".join(b"%05d" % it for it in range(90, 0, -1))
MANY_KEYS = b"-".join(b"%c%c" % (97 + it // 26, 97 + it % 26) for it in range(90, 0, -1))
MANY_PARTS = b"en-" + MANY + b"\nen-u-" + MANY + b"-" + MANY_KEYS + b"-t-de-" + MANY + b"-a-foo\nen-t-de-" + MANY + b"-" + MANY + b"\n"
LONG_LINES = LINES + MANY_PARTS + b"en-x" + b"-a" * 40_000 + b"\nen-u-ca-true-hc-h12-nu-latn-a-foo-t-de-m0-foo\nund"


class Ends(Counts):
    """The cases so far, and how they ended."""

    def __init__(self, program):
        self.program = str(program)

    def run(self, words, **streams):
        """The status, standard error and standard output of a run, each stream as it is given."""
        streams = {"stdin": subprocess.DEVNULL, "stdout": subprocess.PIPE, "stderr": subprocess.PIPE, **streams}
        ran = subprocess.run([self.program, *words], timeout=60, **streams)
        return ran.returncode, ran.stderr or b"", ran.stdout or b""

    def see(self, name, ran, wanted, whole=b""):
        """Counts a case: its status and text are among those wanted, and what it wrote begins the whole answer."""
        status, error, written = ran
        is_right = (status, error) in wanted and whole.startswith(written) and (status != 0 or written == whole)
        super().see(name, is_right, f"status {status}, {error!r}, {len(written)} bytes written: {written[:200]!r}")


def built(script, name):
    """Returns the program that rt ci left."""
    program = TOP / "crates" / name / "out" / name
    if not program.exists():
        stop(script, f"there is no program {program}", "Run `rt ci`, which builds it.")
    return program


def program_to_try(script, doc, name):
    """Returns the program that the script is given, or the one that rt ci left."""
    takes = parser(script, doc)
    takes.add_argument("program", nargs="?", metavar="PROGRAM", help="the program to try")
    given = takes.parse_args().program
    return pathlib.Path(given).resolve() if given else built(script, name)


def answers(ends, words, text, ends_so=DONE):
    """The whole answer to the lines, with ample memory."""
    ran = ends.run(words, stdin=None, input=text)
    ends.see(f"{words}: ample memory", ran, [ends_so], ran[2])
    return ran[2]


def fill_output():
    """Has what is written go to a full disk."""
    os.dup2(os.open("/dev/full", os.O_WRONLY), 1)


def close_output():
    os.close(1)


def streams(ends, words, read, write, left, ends_so=DONE):
    """Standard streams that are at their end, closed, full, no file, or left by their reader. `read(number)` and
    `write(number)` say how the program ends after that error of the system; `left`, after a closed pipe."""
    whole = answers(ends, words, LINES, ends_so)
    folder = os.open("/", os.O_RDONLY)
    ends.see(f"{words}: input is a folder", ends.run(words, stdin=folder), [read(errno.EISDIR)])
    os.close(folder)
    ends.see(f"{words}: input closed", ends.run(words, preexec_fn=lambda: os.close(0)), [read(errno.EBADF)])
    with tempfile.TemporaryFile() as lines:
        lines.write(LINES)
        for before, number in ((close_output, errno.EBADF), (fill_output, errno.ENOSPC)):
            lines.seek(0)
            ran = ends.run(words, stdin=lines, preexec_fn=before)
            ends.see(f"{words}: output, {os.strerror(number)}", ran, [write(number)], whole)
        lines.seek(0)
        unread, written = os.pipe()
        os.close(unread)
        ran = ends.run(words, stdin=lines, stdout=written)
        os.close(written)
        ends.see(f"{words}: nobody reads the output", ran, [left], whole)


def memory(ends, words, shim, refused_so, ends_so=DONE):
    """Too little address space for a long line, and each request for memory refused in turn."""
    limit = lambda: resource.setrlimit(resource.RLIMIT_AS, (64 << 20, 64 << 20))
    long = b"en-us\nen-x" + b"-a" * (48 << 20)
    whole = ends.run(words, stdin=None, input=b"en-us\n")[2]
    ends.see(f"{words}: little address space", ends.run(words, stdin=None, input=long, preexec_fn=limit), [refused_so], whole)
    whole = answers(ends, words, LONG_LINES, ends_so)
    for number in range(1, 10_001):
        shimmed = {"LD_PRELOAD": str(shim), "REFUSE_REQUEST": str(number), "COUNT_REQUESTS": "1"}
        status, error, written = ends.run(words, stdin=None, input=LONG_LINES, env=shimmed)
        lines = error.splitlines(keepends=True)
        refused = int(lines.pop()) >= number
        ran = status, b"".join(lines), written
        ends.see(f"{words}: request {number} refused", ran, [refused_so if refused else ends_so], whole)
        if not refused:
            break
