"""How the edits of one crate are tried: many in one check where it can say which of them fail, else alone.

A check with `--only FUNCTION` reads the crate, and proves that function and what it calls. What such a check does not
prove, no check of the crate would: a refusal here is a refusal of the crate. The right body of each function is known to be
proved, of the library that was built of the present text, or of a check of the crate before any edit.

An edit that stands in the body of one function is tried in a batch, which has one edit of each function: no other function's
proof may use a body. After the check of a batch an edit is refused where its function, a closure in it, or its impl is not
proved for a reason of its own. It waits for a later batch where its function only calls one that is not proved, and is tried
alone where its function is still proved. A batch in which anything else is not proved for a reason of its own, or whose text
cannot be read, says nothing, and is split. Every other edit (of a contract, a type, a constant, a definition, a proof, two
places), and one that is not refused so, is tried by a check of the whole crate, judged by rt's own must_fail. Of a named
mutant only the functions of its row are checked, and each must be refused.

The checks of a crate share a folder of what was checked, which begins as that of `rt check`. An edit that is tried alone, and
not refused over it, or only by a limit, is tried again over none, and that verdict counts."""
import os
import re
import shutil
import tempfile
import time
import types

from common import reached
from edit_places import placed
from kit import AT_LIMIT, REFUSALS, read, rt, rtlib
from libraries import is_fresh

REFUSED, WAITS, ALONE = "refused", "waits", "alone"
MOST = 24  # edits in a batch
ENDS = "only="  # how the last line of a check of functions begins
# By what an edit is refused. Only the first says that a contract rules its body out. A batch refuses
# for that reason alone: what cannot be kept apart is tried alone, and judged by rt's words.
GOAL, LIMIT, NAME = "goal", "limit", "name"
WEAKEST = [None, LIMIT, NAME, GOAL]
SEARCHED = "`search` did not prove"
ONLY_NAMES = "only because a proof file names"
# Errors of a proof file that names what is gone, or cites what is not proved: not yet a reason of
# the function's own.
WEAK = re.compile(r"has no field|is not in scope|has no `|was not admitted")
KINDS = "fn|impl|struct|enum|trait|type"
STATUS = re.compile(rf"^({KINDS}) (\S+): ((?:not proved|no proof|could not tell).*)$", re.M)
STATUS_LINE = re.compile(rf"({KINDS}) \S+: ")
# A goal that is left open.
OPEN = re.compile(r"note: \S+:\d+:\d+: it is not proved")
RESTS = re.compile(r"\bit waits for\b|\bit \w+ .*\bwhich (is|are) not proved")


def kind_of(verdict, text):
    """Returns by what an edit was refused that was tried alone, or None where it was not."""
    if verdict not in REFUSALS:
        return None
    if verdict == AT_LIMIT:
        return LIMIT
    return NAME if ONLY_NAMES in text else GOAL


def say(text):
    print(f"edits: {text}", flush=True)


def name_of(crate, path):
    return f"{crate.name}/{os.path.basename(path)[: -len('.edit')]}"


class Edit:
    """An edit, and the function in whose body it stands, where that is one."""

    def __init__(self, crate, path, there):
        self.path, self.name, self.function, self.functions = path, name_of(crate, path), None, ()
        self.texts, self.why = rt.read_edit(path, crate.folder)
        if self.why or len(self.texts) != 1:
            return
        [(self.file, text)] = self.texts.items()
        old, new = read(f"{crate.folder}/{self.file}"), text.encode()
        self.start = len(os.path.commonprefix([old, new]))
        tail = len(os.path.commonprefix([old[self.start :][::-1], new[self.start :][::-1]]))
        self.end, self.new = len(old) - tail, new[self.start : len(new) - tail]
        for file, body, end, name in there:
            if file == self.file and body < self.start and self.end < end:
                self.function, self.functions = name, (name,)
                break


def calls_in(texts, there):
    """Takes a function for a caller of each other that alone has a name which stands in its body
    before a '('. A wrong guess costs time alone."""
    last = [it[3].rpartition("::")[2] for it in there]
    calls = {}
    for file, body, end, name in there:
        inside = re.findall(rb"(\w+)(?:::<[^()]*>)?\(", texts[file][body:end])
        words = {it.decode() for it in inside}
        once = {short for short in words if last.count(short) == 1}
        calls[name] = {it[3] for it, short in zip(there, last) if short in once} - {name}
    return calls


def together(crate, edits):
    texts = {}
    for it in sorted(edits, key=lambda it: (it.file, -it.start)):
        text = texts.get(it.file) or read(f"{crate.folder}/{it.file}")
        texts[it.file] = text[: it.start] + it.new + text[it.end :]
    return {file: text.decode() for file, text in texts.items()}


def edits_at(edits, kind, name):
    """Returns those of the edits that stand in what a line of a check names."""
    plain = name.replace("::fn::", "::") + "::"
    is_mine = lambda it: plain.startswith(it.function + "::")
    return [it for it in edits if is_mine(it) or kind == "impl" and it.function.startswith(plain)]


def goals_of(said, name):
    """Returns the lines on goals of this function that no answer is for, and that stay open: they stand
    between its line and that of the function before it."""
    lines = [at for at, it in enumerate(said) if STATUS_LINE.match(it)]
    end = next((at for at in lines if said[at].split(" ")[1] == f"{name}:"), 0)
    start = max((at for at in lines if at < end), default=-1)
    return [it for it in said[start + 1 : end] if OPEN.match(it)]


def own_reason(said, name, status):
    """Returns why this function itself is not proved, or None where a proof file only names what
    is gone."""
    place = f"proofs/{name.partition('::')[2].replace('::', '/')}/"
    # (an error goes on in the lines below it that begin with a blank)
    errors = re.findall(r"^\S+:\d+:\d+: error.*(?:\n .*)*", "\n".join(said), re.M)
    here = [" ".join(it.split()) for it in errors if place in it.split(" ")[0]]
    own = goals_of(said, name) + [it for it in here if not WEAK.search(it)]
    return (own or [f"{name}: {status}"])[0][:300] if own or not here else None


def names_proved(crate):
    """Returns what a check calls the functions of the crate, by its library, or none if it has no library of
    the present text."""
    listed = read(f"{crate.rlib}/toolchain/checked.json") if crate.makes_rlib() and is_fresh(crate) else b""
    found = re.findall(rf'"(?:part/)?Rattle-{crate.name}-proofs\.TheLinks\.([^"]+)"', listed.decode(errors="replace"))
    return {it.replace("-", "::") for it in found}


def state_of(said, function):
    """Returns by what the prover refused the function, or None, and what to say of it."""
    mine = lambda kind, name: edits_at([types.SimpleNamespace(function=function)], kind, name)
    statuses = [(name, status) for kind, name, status in STATUS.findall("\n".join(said)) if mine(kind, name)]
    # (a function may have an open goal of its own and call another that is not proved)
    is_own = lambda name, status: not RESTS.search(status) or SEARCHED in status or goals_of(said, name)
    own = [it for it in statuses if is_own(*it)]
    for name, status in own:
        reason = own_reason(said, name, status) if status.startswith("no") else None
        if reason:
            return GOAL, reason
    if any(status.startswith("no") for _, status in own):
        return NAME, f"{function}: a proof file names what the mutant took away"
    if own:
        return LIMIT, f"{own[0][0]}: {own[0][1]}"[:300]
    return None, f"{function}: " + (statuses[0][1][:300] if statuses else "still proved")


class Trial:
    """The checks of one crate with its edits made; of `named` mutants, the functions that must be refused for each."""

    flags = ["--jobs", "1"]
    is_alone = False  # whether a check takes nothing of what is kept

    def __init__(self, crate, options, named=None):
        self.crate, self.options, self.named, self.calls = crate, options, named, {}
        self.longest, self.kept = 0.0, f"{crate.folder}/out/incremental"

    def is_over(self):
        return time.time() + self.longest > self.options.until

    def timed(self, call):
        """Has call check over what is kept for it, and notes the longest time."""
        began = time.time()
        given = call(None if self.is_alone else self.kept)
        self.longest = max(self.longest, time.time() - began)
        return given

    def checked(self, texts, functions=()):
        flags = [*self.flags, *(it for name in functions for it in ("--only", name))]
        return self.timed(lambda kept: rt.checked(self.crate, texts, flags, kept))

    def prepare(self):
        """Returns where the crate's functions stand, or None where it, or what is named of it, is not proved as it stands."""
        names, is_named = names_proved(self.crate), self.named is not None
        if not (is_fresh(self.crate) if is_named else names):
            functions = {name for every in self.named.values() for name in every} if is_named else ()
            ran = self.checked({}, sorted(functions))
            if ran.returncode or rtlib.STALE.search(ran.stdout):
                return None
            names = names or {*re.findall(r"^fn (\S+): ", ran.stdout, re.M)}
        self.keep_apart()
        blanked = rtlib.blanked(self.crate.folder)
        there = placed(self.crate, blanked, names)
        self.calls = calls_in({os.path.relpath(it, self.crate.folder): text.encode() for it, text in blanked.items()}, there)
        return there

    def keep_apart(self):
        """Has the checks of edits begin with a copy, by hard links, of what a check of the crate itself keeps."""
        own, self.room = self.kept, tempfile.TemporaryDirectory(prefix="edits-", dir=f"{self.crate.folder}/out")
        self.kept = f"{self.room.name}/kept"
        shutil.copytree(own, self.kept, copy_function=os.link) if os.path.isdir(own) else os.mkdir(self.kept)

    def edit(self, path, there):
        made = Edit(self.crate, path, there)
        if self.named is not None:
            made.functions = self.named[made.name]
            # (one that stands in two files, or is refused in two functions, is tried alone)
            is_simple = hasattr(made, "file") and len(made.functions) == 1
            made.function = made.functions[0] if is_simple else None
        return made

    def batch(self, edits):
        """Checks these edits at once, and returns the verdict on each, or None where that check
        says nothing."""
        texts = together(self.crate, edits)
        ran = self.checked(texts, [it.function for it in edits])
        verdicts, stray = self.judged(edits, texts, ran)
        if rtlib.STALE.search(ran.stdout):
            stray.append("the kept work of a library cannot be used")
        if stray and len(edits) > 1:
            why = f"says nothing, and is split: {stray[0][:200]}"
            say(f"{self.crate.name}: a batch of {len(edits)} {why}")
        return None if stray else verdicts

    def judged(self, edits, texts, ran):
        """Returns the verdict on each edit by what the check of them all said, with its reason,
        and what else was not proved for a reason of its own."""
        said = ran.stdout.rstrip("\n").split("\n")
        stray = [it for it in said if rt.unread(it, texts)]
        if ran.returncode not in (0, 1) or not said[-1].startswith(ENDS):
            stray.append(said[0])
        verdicts = dict.fromkeys(edits, (ALONE, ""))
        for kind, name, status in STATUS.findall(ran.stdout):
            mine = edits_at(edits, kind, name)
            if RESTS.search(status):
                self.note_waiting([it for it in mine if kind == "fn"], status, verdicts)
            elif len(mine) == 1 and status.startswith("no"):
                reason = own_reason(said, name, status)
                if reason:
                    verdicts[mine[0]] = REFUSED, reason
            elif not mine or status.startswith("no"):
                stray.append(f"{kind} {name}: {status}")
        return verdicts, stray

    def note_waiting(self, edits, status, verdicts):
        """Notes that the functions of these edits rest on others that are not proved."""
        for it in edits:
            if verdicts[it][0] == ALONE:
                verdicts[it] = WAITS, ""
            self.calls.setdefault(it.function, set()).update(
                re.findall(r"`([^`]*::[^`]*)`", RESTS.search(status)[0])
            )

    def rests_on(self, function, others):
        """Returns whether the function calls one of the others, if only by way of more, as far as
        is known."""
        return bool({*reached([function], lambda it: self.calls.get(it, ()))} & (others - {function}))

    def next_batch(self, left):
        """Returns one edit of each function that calls no other function with an edit left."""
        first = {it.function: it for it in reversed(left)}
        free = [it for it in first.values() if not self.rests_on(it.function, {*first})]
        return (free or [*first.values()])[:MOST]

    def in_batches(self, left, alone):
        """Yields each edit that a batch refuses with the reason, and puts those to be tried alone
        into the list. What the time left stays in 'left'."""
        split = []
        while left and not self.is_over():
            batch = split.pop() if split else self.next_batch(left)
            given = self.batch(batch)
            if given is None and len(batch) > 1:
                split += [batch[len(batch) // 2 :], batch[: len(batch) // 2]]
                continue
            given = given or dict.fromkeys(batch, (ALONE, ""))
            is_stuck = all(verdict == WAITS for verdict, _ in given.values())
            for it, (verdict, reason) in given.items():
                if verdict == WAITS and not is_stuck:
                    continue
                left.remove(it)
                if verdict == REFUSED:
                    yield it, reason
                else:
                    alone.append(it)

    def verdicts(self, edits):
        """Yields each edit with by what it is refused, or None, and what to say, until the time is
        out."""
        left = [it for it in edits if it.function]
        alone = [it for it in edits if it not in left]
        for it, reason in self.in_batches(left, alone):
            yield it, GOAL, f"{it.name}: refused: {reason}"
        while alone and not self.is_over():
            it = alone.pop(0)
            kind, text = self.alone(it)
            yield it, kind, f"{it.name}: tried alone: {text}"

    def alone(self, edit):
        """Returns by what an edit is refused that is tried alone, or None, and what to say."""
        kind, text = self.twice(edit) if edit.functions else (None, "")
        if kind or self.named is not None:
            return kind, text
        verdict, text = self.timed(lambda kept: rt.must_fail(self.crate, edit.path, self.flags, kept))
        return kind_of(verdict, text), text.partition(": ")[2]

    def twice(self, edit):
        """Returns by what the edit is refused in its functions, over what is kept or else over nothing."""
        kind, text = self.once(edit)
        if kind in (GOAL, NAME):
            return kind, text
        self.is_alone = True
        try:
            return self.once(edit)
        finally:
            self.is_alone = False

    def once(self, edit):
        """Returns by what the edit is refused in one check, the weakest of its functions, and what to say."""
        ran = self.checked(edit.texts, edit.functions)
        said = ran.stdout.rstrip("\n").split("\n")
        bad = next((it for it in said if rt.unread(it, edit.texts)), "")
        if bad or rtlib.STALE.search(ran.stdout) or not said[-1].startswith(ENDS):
            return None, f"BAD EDIT: the prover cannot read it, or was not reached: {(bad or said[0])[:200]}"
        states = [state_of(said, it) for it in edit.functions]
        kind, text = min(states, key=lambda it: WEAKEST.index(it[0]))
        return kind, f"refused: {text}" if kind == GOAL else f"NOT REFUSED by a goal: {text}"
