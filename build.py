#!/usr/bin/env python3
"""Proves and builds the program that `nofjand` runs: each crate as soon as those that it names are built, as many at once as
there are processors and memory for. Each line on standard error names a crate that is done, how many are left, and about how
long they take. Ends with status 0 where the program is built."""
import functools
import hashlib
import os
import shutil
import signal
import subprocess
import sys
import tempfile
import time
from concurrent.futures import FIRST_COMPLETED, ThreadPoolExecutor, wait

HERE = os.path.dirname(os.path.realpath(__file__))
PROGRAM = "lw_program"
# What the check of a crate may take of memory, in bytes.
ROOM = 3 << 30


def tell(line):
    print(f"nofjand: {line}", file=sys.stderr, flush=True)


def count(number, what):
    return f"{number} {what}" if number == 1 else f"{number} {what}s"


def kit():
    """The kit's own module behind `rt`, whose sums of sources are kept: it makes each anew for every path to a crate, of which
    there are some ten thousand here. No source may change while this runs; one that does is newer than the binary."""
    rt = shutil.which("rt")
    if rt is None:
        sys.exit("nofjand: there is no rt on the path: it comes with the kit")
    sys.path.insert(0, os.path.dirname(os.path.realpath(rt)))
    try:
        import rtlib
    except ImportError:
        sys.exit(f"nofjand: {rt} is no kit's")

    # What ends the checks with this script is begun by the main thread, and Ctrl-C doesn't wait for the others.
    rtlib.guarded()
    signal.signal(signal.SIGINT, signal.SIG_DFL)
    for name in ("stamp", "below"):
        setattr(rtlib.Crate, name, functools.lru_cache(maxsize=None)(getattr(rtlib.Crate, name)))
    return rtlib


def files(crate):
    """The files of a crate, in an order that is always the same."""
    for part in ("src", "specs", "proofs"):
        for folder, folders, names in os.walk(f"{crate.folder}/{part}"):
            folders.sort()
            yield from (f"{folder}/{name}" for name in sorted(names))


def size(crate):
    """What a crate weighs: the bytes of its files, and what every check takes."""
    return 20_000 + sum(map(os.path.getsize, files(crate)))


def own_sum(crate):
    """A sum of the files of a crate."""
    found = hashlib.sha256()
    for name in files(crate):
        with open(name, "rb") as it:
            found.update(repr((name, it.read())).encode())
    return found.digest()


def processors(rt):
    """How many checks go on at once: as many as the kit finds processors and memory for, also within a control group."""
    return max([1, *(number for number in range(2, rt.cores() + 1) if rt.fits(*[ROOM] * number))])


class Build:
    """The crates that are left, each with what it weighs, and how long what is done took."""

    def __init__(self, crates):
        self.left = {*crates}
        self.weights = {crate: size(crate) for crate in crates}
        self.sums = {crate: own_sum(crate) for crate in crates}
        self.all, self.begun = sum(self.weights.values()), time.monotonic()
        self.behind = self.ways(crates)

    def ways(self, crates):
        """By crate the weight of the longest chain of crates that begins with it and ends with the program."""
        longest = {}
        for crate in reversed(crates):
            above = [longest[other] for other in crates if crate in other.deps]
            longest[crate] = self.weights[crate] + max(above, default=0)
        return longest

    def next(self, running):
        """The crate to begin: of those whose libraries stand the one with the longest chain."""
        free = [crate for crate in self.left - running if not self.left.intersection(crate.deps)]
        return max(free, key=self.behind.get, default=None)

    def done(self, crate):
        """Tells that a crate is done, and what is left."""
        self.left.remove(crate)
        undone = sum(self.weights[other] for other in self.left)
        seconds = (time.monotonic() - self.begun) * undone / (self.all - undone)
        tell(f"{crate.name} is proved; left: {count(len(self.left), 'crate')}, about {count(round(seconds / 60), 'minute')}")


def prove(crate, jobs, own):
    """Proves a crate and builds its library; what was said where that failed. The kit's sums are those of the start, so a library
    of sources that changed since then is dropped: `own` is what they were."""
    with tempfile.TemporaryFile("w+", errors="replace") as crate.out:
        try:
            failed = crate.build_rlib(["--jobs", str(jobs)], anew=False)
        except OSError as error:
            return f"{error}\n"
        if not failed and own_sum(crate) == own:
            return None
        shutil.rmtree(f"{crate.folder}/out/rlib", ignore_errors=True)
        crate.out.seek(0)
        return crate.out.read() if failed else "a source changed while the program was built: call it once more\n"


def begin(work, running, pool, at_once):
    """Begins what can begin, by the processors that are free. Where these are more, they are shared out."""
    free = at_once - sum(jobs for jobs, _ in running.values())
    crates = []
    while len(crates) < free and (crate := work.next({*running, *crates})):
        crates.append(crate)
    for crate in crates:
        jobs = free // len(crates)
        running[crate] = jobs, pool.submit(prove, crate, jobs, work.sums[crate])


def libraries(crates, at_once):
    """Builds all libraries. Where one isn't proved all ends, the other checks too."""
    work, running, pool = Build(crates), {}, ThreadPoolExecutor(at_once)
    while work.left:
        begin(work, running, pool, at_once)
        wait([it for _, it in running.values()], return_when=FIRST_COMPLETED)
        for crate in [crate for crate, (_, it) in running.items() if it.done()]:
            said = running.pop(crate)[1].result()
            if said is not None:
                tell(f"{crate.name} is not proved\n{said}")
                os._exit(1)
            work.done(crate)


def program(folder):
    """Proves, links and starts the program, which is handed nothing; whether it could be started."""
    with tempfile.TemporaryFile("w+", errors="replace") as said:
        streams = {"stdin": subprocess.DEVNULL, "stdout": said, "stderr": subprocess.STDOUT}
        subprocess.run([sys.executable, __file__, "--run"], cwd=folder, check=False, **streams)
        said.seek(0)
        lines = said.read()
    if any(line.startswith("rt: running ") for line in lines.splitlines()):
        tell(f"{PROGRAM} is proved and built")
        return True
    sys.stderr.write(lines)
    tell(f"{PROGRAM} is not built")
    return False


def main():
    rt = kit()
    if sys.argv[1:] == ["--run"]:
        return rt.main("run")
    folder = f"{HERE}/crates/{PROGRAM}"
    os.chdir(folder)
    crates = [crate for crate in rt.crates_below(folder) if crate.makes_rlib()]
    held = rt.lock(crates)
    at_once = processors(rt)
    tell(f"the program is proved and built first: {count(len(crates), 'crate')} below it, {at_once} at once")
    libraries(crates, at_once)
    for lock in held:
        os.close(lock)
    return 0 if program(folder) else 1


if __name__ == "__main__":
    sys.exit(main())
