"""What each call of the table costs this library and the Rust crate: instructions, as callgrind counts them, and time.

A program makes its calls in two runs, of few and of more rounds. The cost of a call is the difference of what its
function took, with all that it called, by the difference of the rounds. Time is the processor time of a program that makes
one call, in the same way: the least of several turns, in each of which both programs run one after the other. Both
programs must give equal sums."""
import pathlib
import re
import resource
import statistics
import subprocess
from collections import namedtuple

from surface_programs import parts_of_calls, program, questions
from written import table

FEW, MORE = 256, 1280
# Where fewer are left on one side, a compiler made the work away.
LEAST = 3
# A timed run takes some this many instructions, and there are so many turns.
LONG, TURNS = 60_000_000, 9
# A ratio of times that is further than this from that of instructions is said.
FAR = 1.5


class Row(namedtuple("Row", "call ours crate times")):
    """A call, and its instructions and nanoseconds in this library and in the Rust crate."""

    def ratio(self):
        return self.ours / max(self.crate, 0.5)

    def time_ratio(self):
        return self.times[0] / max(self.times[1], 0.1)

    def is_removed(self):
        return min(self.ours, self.crate) < LEAST

    def is_odd(self):
        return self.time_ratio() > FAR * max(self.ratio(), 1)


def costs_in(text):
    """Returns what each function `b_NAME` took with all that it called, by NAME in lower case."""
    found, name = {}, None
    for line in text.splitlines():
        if line.startswith("fn="):
            named = re.search(r"\bb_(\w+)", line)
            name = named[1] if named else None
        elif name and re.match(r"[-+*\d]", line):
            found[name] = found.get(name, 0) + int(line.split()[1])
    return found


def run(binary, calls, rounds, folder):
    """Makes the calls, and returns their sums and the costs of their functions."""
    counted = folder / "callgrind"
    tool = ["valgrind", "--tool=callgrind", "--compress-strings=no", "--compress-pos=no"]
    words = [*tool, f"--callgrind-out-file={counted}", binary]
    ran = subprocess.run(words, input=questions(calls, rounds), capture_output=True, text=True, check=True)
    sums = dict(line.rsplit(" ", 1) for line in ran.stdout.splitlines())
    return sums, costs_in(counted.read_text())


def counted(binary, calls, folder):
    """Returns the sum of each call, and what it costs, by its name."""
    sums, few = run(binary, calls, FEW, folder)
    _, more = run(binary, calls, MORE, folder)
    cost = lambda name: (more.get(name.lower(), 0) - few.get(name.lower(), 0)) / (MORE - FEW)
    return {it.name: (sums[it.name], cost(it.name)) for it in calls}


def seconds(binary, call, rounds):
    """Returns the processor time of a run that makes one call."""
    used = lambda: sum(resource.getrusage(resource.RUSAGE_CHILDREN)[:2])
    before = used()
    subprocess.run([binary], input=questions([call], rounds), stdout=subprocess.DEVNULL, text=True, check=True)
    return used() - before


def timed(binaries, call, cost):
    """Returns the nanoseconds of a call in each program: of a long run less those of a short one, the least of all turns."""
    rounds = max(int(LONG / max(cost, 20)), 4096)
    least = {(it, size): float("inf") for it in binaries for size in (FEW, rounds)}
    for _ in range(TURNS):
        for it, size in least:
            least[it, size] = min(least[it, size], seconds(it, call, size))
    return tuple(1e9 * (least[it, rounds] - least[it, FEW]) / (rounds - FEW) for it in binaries)


def rattle_program(at, calls, folder):
    """Returns the Rattle program of a part, built unproved."""
    from surface_build import built
    from unproved import crates

    source = folder / f"part_{at}" / "src" / "main.rt"
    source.parent.mkdir(parents=True, exist_ok=True)
    source.write_text(program(calls, True))
    return built(f"surface_{at}", str(source), crates()["icu_locale_core"])


def rust_sources(folder):
    """Writes the sources of the Rust programs, one for each part, and returns their paths by their names."""
    folder.mkdir(parents=True, exist_ok=True)
    for at, calls in enumerate(parts_of_calls()):
        (folder / f"rust_surface_{at}.rs").write_text(program(calls, False))
    return {f"rust_surface_{at}": folder / f"rust_surface_{at}.rs" for at in range(len(parts_of_calls()))}


def measured(folder, rust, is_timed, say):
    """Returns a row of each call. Ends where the programs do not give the same sum."""
    rows, parts = [], parts_of_calls()
    for at, (calls, theirs) in enumerate(zip(parts, rust)):
        say(f"part {at + 1} of {len(parts)}: building the calls of this library, unproved, and counting both")
        own = rattle_program(at, calls, pathlib.Path(folder))
        found, wanted = counted(own, calls, folder), counted(theirs, calls, folder)
        for call in calls:
            (sum_of_own, cost), (sum_of_theirs, other) = found[call.name], wanted[call.name]
            if sum_of_own != sum_of_theirs or sum_of_own == "call":
                raise SystemExit(f"benchmark: {call.name}: the programs give {sum_of_own} and {sum_of_theirs}")
            times = timed((own, theirs), call, min(cost, other)) if is_timed else (0, 0)
            rows.append(Row(call, cost, other, times))
    return rows


def part(rows, is_timed):
    """Returns the page's part: a summary, the calls with the worst first, and those that say nothing."""
    kept = sorted((it for it in rows if not it.is_removed()), key=lambda it: -it.ratio())
    removed = sorted(it.call.name for it in rows if it.is_removed())
    slower = lambda rows: sum(it.ratio() > 1 for it in rows)
    mean = lambda rows: statistics.geometric_mean(it.ratio() for it in rows)
    names = dict.fromkeys(it.call.module for it in rows)
    by_module = {name: [it for it in kept if it.call.module == name] for name in names}
    modules = [(name, len(own), slower(own), f"{mean(own):.2f}") for name, own in by_module.items() if own]
    head = ["Call", "Module", "Instructions a call: this library", "Rust crate", "Ratio"]
    head += ["Nanoseconds: this library", "Rust crate", "Ratio"] * is_timed
    calls = []
    for it in kept:
        calls.append([it.call.name, it.call.module, f"{it.ours:.0f}", f"{it.crate:.0f}", f"{it.ratio():.2f}"])
        calls[-1] += [*(f"{time:.1f}" for time in it.times), f"{it.time_ratio():.2f}"] if is_timed else []
    said = [
        f"{len(kept)} calls were compared. {slower(kept)} of them take more instructions than the Rust crate's. The"
        f" geometric mean of the ratios is {mean(kept):.2f}.",
        table(("Module", "Calls", "Slower", "Geometric mean"), modules),
        table(head, calls),
    ]
    if is_timed:
        odd = [f"{it.call.name} ({it.time_ratio():.1f})" for it in kept if it.is_odd()]
        longer = sum(it.time_ratio() > 1 for it in kept)
        said.insert(1, f"{longer} take more time. Longer than {FAR} times what their instructions say: {', '.join(odd) or 'none'}.")
    return "\n\n".join(said + [f"Of these calls a compiler removed the work, so they are not compared: {', '.join(removed)}."] * bool(removed))
