"""Proves crates by `rt ci` in a folder of its own, beside which all else goes on.

The room has these crates and those below them, without their mutants. `rt ci` keeps what it proves at once beside the
toolchain, crate by crate, and takes it from there in any checkout: a run that is cut off loses only the proofs under way."""
import os
import re
import shutil
import signal
import subprocess
import tempfile
import threading
import time

from common import ROOT, Ending, below, crates_of, write

PREFIX = "icu-locale-proof-"
LEFT_OUT = shutil.ignore_patterns("out", "edits", "*.in")
PROVED = re.compile(r"rt: (\w+) proved$")
# (said of what an earlier run proved)
KEPT = re.compile(r"rt: (\w+) is kept: ")
FAILED = re.compile(r"rt: (\w+)(: its tests are)? NOT PROVED")


def sweep():
    """Removes the rooms of runs that were killed."""
    at = tempfile.gettempdir()
    for name in os.listdir(at):
        of = re.match(rf"{PREFIX}(\d+)-", name)
        if of and not os.path.exists(f"/proc/{of[1]}"):
            shutil.rmtree(f"{at}/{name}", ignore_errors=True)


def furnish(room, names, lines):
    """Copies the crates into the room, which is the top of a repository of its own and can be written."""
    for name in names:
        copy = shutil.copytree(f"{ROOT}/crates/{name}", f"{room}/crates/{name}", ignore=LEFT_OUT, copy_function=shutil.copyfile)
        for at, _, _ in os.walk(copy):
            os.chmod(at, 0o755)
    write(f"{room}/crates.txt", "".join(f"{lines[name]}\n" for name in names))
    shutil.copyfile(f"{ROOT}/HANDLES", f"{room}/HANDLES")
    os.mkdir(f"{room}/.git")


class Proof(Ending):
    """A run of `rt ci` in a room. It says how far it is."""

    def __init__(self, tops, say):
        lines = crates_of(f"{ROOT}/crates.txt")
        self.say, self.names = say, list(dict.fromkeys(it for name in tops for it in below(name, lines)))
        self.done, self.failed, self.said = set(), [], []
        sweep()
        self.top = tempfile.mkdtemp(prefix=f"{PREFIX}{os.getpid()}-")
        self.room, beside = f"{self.top}/room", f"{self.top}/temporary"
        os.mkdir(self.room)
        os.mkdir(beside)
        # (where rt runs as root, it runs the program as nobody, who comes through here)
        os.chmod(self.top, 0o711)
        furnish(self.room, self.names, lines)
        # (what is ended leaves its temporary files, some 100 MB for each crate)
        self.process = subprocess.Popen(
            ["rt", "ci"], cwd=self.room, stdin=subprocess.DEVNULL, stdout=subprocess.PIPE,
            stderr=subprocess.STDOUT, text=True, errors="replace", start_new_session=True,
            preexec_fn=lambda: os.nice(5), env={**os.environ, "TMPDIR": beside},
        )
        self.began = time.time()
        self.reader = threading.Thread(target=self.read, daemon=True)
        self.reader.start()

    def read(self):
        """Follows what the run says, to its end."""
        for line in self.process.stdout:
            self.said.append(line.replace(self.room, "."))
            proved, kept, failed = (it.match(line) for it in (PROVED, KEPT, FAILED))
            if line.startswith("rt: note: ") and "disk" in line:
                self.say(line[len("rt: note: ") :].rstrip())
            if failed:
                self.failed.append(failed[1])
            if proved or kept:
                self.done.add((proved or kept)[1])
            if proved:
                far = f"{len(self.done)} of {len(self.names)} crates proved, {(time.time() - self.began) / 60:.0f} min"
                self.say(f"{far} ({proved[1]})")

    def stopped(self):
        """Returns what to say of a run that was cut off."""
        return f"stopped: {len(self.done)} of {len(self.names)} crates are proved; the same command goes on from what rt ci kept"

    def is_running(self):
        return self.process.poll() is None

    def program(self, name):
        """Waits, and returns the path of the proved program, or None if it is not proved."""
        self.process.wait()
        self.reader.join()
        made = f"{self.room}/crates/{name}/out/{name}"
        return made if self.process.returncode == 0 and os.path.isfile(made) else None

    def why(self):
        """Returns what the run said of what failed: the text of each such crate, or its end."""
        texts = "".join(self.said).split("\n== ")
        failed = [it for it in texts if it.split("\n")[0].split(":")[0].strip("= ") in self.failed]
        return "\n".join(it[-4000:] for it in failed) or texts[-1][-4000:]

    def end(self):
        """Ends the run, if it goes on, with all that it started, and removes the room."""
        if self.is_running():
            os.killpg(self.process.pid, signal.SIGTERM)
            try:
                self.process.wait(5)
            except subprocess.TimeoutExpired:
                os.killpg(self.process.pid, signal.SIGKILL)
                self.process.wait()
        self.reader.join(5)
        shutil.rmtree(self.top, ignore_errors=True)
