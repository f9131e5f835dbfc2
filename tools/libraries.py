"""Has the libraries be there that some crates stand on, in crates/*/out: as `rt ci` kept them, or else proved by it, so that
./run, ./test and every other checkout take them too.

What rt ci keeps of a crate it finds by a sum of the crate's text, of the toolchain, and of the libraries below as they were
built. So these are taken all together, lowest first, in the place of what else stands in crates/*/out. They get the mark of a
built library, by which rt check takes them too. An older toolchain, or one without room, keeps nothing: there rt lib proves
what is lacking, for this checkout."""
import hashlib
import json
import os
import re
import shutil
import subprocess
import sys
import time

from common import ROOT, write
from kit import read, rt, rtlib
from proof_room import Proof
from sources import PROVED_PARTS, files_of, sum_of

AN_HOUR = "up to an hour of CPU time, once"


def texts_of(crate):
    return [path for it in [crate, *crate.below()] for path in files_of(it.name, PROVED_PARTS)]


def is_fresh(crate):
    """Returns whether the crate's library came here after its text and that of the libraries below,
    as is what the gate left; or else is of that text, which takes long to find out. A gate links what its
    toolchain kept, if it keeps anything, so the folder's time shows when it came, and not a file's."""
    came = os.path.getmtime(crate.rlib) if os.path.isfile(f"{crate.rlib}/format") else 0
    return fits(crate) and (came > max(map(os.path.getmtime, texts_of(crate))) or crate.is_built())


def fits(crate):
    """Returns whether the library was proved over those that lie below it now. One of statements alone,
    as rt ci makes them, names what it was proved over, and a check refuses it over any others."""
    over = dict(re.findall(r"(?m)^over (\w+) (\w+)$", read(f"{crate.rlib}/format").decode()))
    return all(over.get(it.name) in (None, sum_of(f"{it.rlib}/format")) for it in crate.below())


def is_usable(crate):
    """Returns whether rt check takes the crate's library."""
    return crate.is_built() and fits(crate)


class KeptByCi:
    """What `rt ci` kept of these libraries, which come lowest first, each after those below it."""

    def __init__(self, crates):
        self.crates, self.keys, self.kept = crates, {}, None
        if hasattr(rt, "Kept"):
            rt.Crate.allowed = rt.handles_of(ROOT)
            self.kept = rt.Kept(crates)
        for it in crates if self.kept and self.kept.at else ():
            if all(dep.name in self.keys for dep in it.below()):
                key = self.kept.key(it)
                made = made_of(self.kept.place(it, False, key))
                if made is not None:
                    self.keys[it.name] = key
                    # (as Kept.is_built has it of the library's files)
                    self.kept.rlibs[it.name] = hashlib.sha256(repr(made).encode()).hexdigest()

    def lacking(self):
        return [it for it in self.crates if it.name not in self.keys]

    def take(self):
        """Puts the libraries that are kept into crates/*/out. Returns whether each could be."""
        held = rtlib.lock(self.crates)
        try:
            return all([self.give(it) for it in self.crates if it.name in self.keys])
        finally:
            for it in held:
                os.close(it)

    def give(self, crate):
        """Gives the crate its library, unless it was given it before, and the mark by which rt check knows it."""
        stamp = crate.stamp()
        if self.is_given(crate):
            # (the folder's time says when it came: is_fresh)
            os.utime(crate.rlib)
        else:
            # (what is given is refused, and no longer kept, if another file stands there)
            shutil.rmtree(f"{crate.folder}/out/rlib", ignore_errors=True)
            if not self.kept.give(crate, False, self.keys[crate.name]):
                return False
        write(f"{crate.folder}/out/rlib/stamp", stamp)
        return True

    def is_given(self, crate):
        """Returns whether the files in the crate's out/ are those that are kept, by another name."""
        place, out = self.kept.place(crate, False, self.keys[crate.name]), f"{crate.folder}/out"
        files = [it for it, _ in made_of(place) or ()]
        try:
            pairs = [(f"{place}/{number}", f"{out}/{it}") for number, it in enumerate(files)]
            return files == self.kept.made(crate, False) and all(os.path.samefile(*it) for it in pairs)
        except OSError:
            return False


def made_of(place):
    """Returns the files of what is kept there, with their sums, or None if nothing is."""
    try:
        return [tuple(row) for row in json.loads(read(f"{place}/made.json"))["files"]]
    except (OSError, ValueError, KeyError, TypeError):
        return None


def with_below(crates):
    """Returns these crates and all below them, each after those below it."""
    every = {it.name: it for crate in crates for it in [*crate.below(), crate]}
    return sorted(every.values(), key=lambda it: len(it.below()))


def have(crates, say, until=None, is_there=is_fresh):
    """Has these libraries, and all below them, be in crates/*/out. Returns whether they are, and the names of those
    that are not proved: none if only the time was out."""
    needed = with_below(crates)
    if all(map(is_there, needed)):
        return True, []
    kept = KeptByCi(needed)
    if kept.lacking() and kept.kept and kept.kept.has_room():
        is_over, failed = prove_by_ci(kept.lacking(), say, until)
        if is_over or failed:
            return False, failed
        kept = KeptByCi(needed)
    if not kept.lacking() and kept.take():
        return True, []
    say(f"proving {len(needed)} libraries by rt lib, for this checkout alone: {AN_HOUR}")
    failed = [it.name for it in needed if subprocess.run(["rt", "lib"], cwd=it.folder, stdout=sys.stderr).returncode]
    return not failed, failed


def take(crates):
    """Puts into crates/*/out what rt ci kept of these libraries, if it kept all that lies below them."""
    wanted = [it for it in crates if not is_fresh(it)]
    kept = KeptByCi(with_below(wanted))
    if wanted and all(it in wanted for it in kept.lacking()):
        kept.take()


def prove_by_ci(crates, say, until):
    """Proves the libraries by rt ci, which keeps them. Returns whether the time was out, and the names of those that
    are not proved."""
    say(f"proving {len(crates)} libraries by rt ci, which keeps them for all checkouts: {AN_HOUR}")
    names = [it.name for it in crates]
    with Proof(names, say) as proof:
        while proof.is_running():
            if until and time.time() > until:
                return True, []
            time.sleep(0.1)
        proof.reader.join(5)  # (it reads apart what the run said last)
        if not proof.process.returncode:
            return False, []
        say(f"NOT PROVED: {' '.join(proof.failed) or 'rt ci failed'}\n{proof.why()}")
        return False, proof.failed or names
