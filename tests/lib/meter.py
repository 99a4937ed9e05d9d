"""Meters the checks of one run of `rt ci`: how many processor seconds and seconds each crate's proofs, tests and edits take.

Each half second it looks at the processes below the run. A check is a process `rattle check --crate-name NAME`, or
`rattle build`, which proves before it builds; it is of an edit where it works in a folder `rt-edit-..`, and of tests
where its words have `--test`. Before a crate's edits, and after them, the crate is checked as it is over what is
kept in a folder `seed`, from nothing the first time: `once more`. What a check used is what was seen last of it and of
the processes below it, so its last half second may be missing.
"""

import os
import threading
import time

TICK = os.sysconf("SC_CLK_TCK")
KINDS = ("proofs", "tests", "once more", "edits")


def processes():
    """Gives parent, start and used ticks, its ended children's included, of each process."""
    found = {}
    for name in os.listdir("/proc"):
        if name.isdigit():
            try:
                with open(f"/proc/{name}/stat") as stat:
                    fields = stat.read().rpartition(")")[2].split()
            except OSError:
                continue
            found[int(name)] = int(fields[1]), int(fields[19]), sum(map(int, fields[11:15]))
    return found


def kind_of(process):
    """Gives the crate and the kind of a check, or None of another process."""
    try:
        with open(f"/proc/{process}/cmdline", "rb") as file:
            words = file.read().decode(errors="replace").split("\0")
        folder = os.readlink(f"/proc/{process}/cwd")
    except OSError:
        return None
    if not {"check", "build"} & set(words[:3]) or "--crate-name" not in words:
        return None
    crate = words[words.index("--crate-name") + 1].removesuffix("_tests")
    kind = "edits" if "/rt-edit-" in folder else "tests" if "--test" in words else "proofs"
    if kind == "edits" and any(word.endswith("/seed") for word in words):
        kind = "once more"
    return crate, kind


class Meter:
    def __init__(self):
        self.seen = {}  # (process, start): crate, kind, ticks, first and last seen
        self.ended = threading.Event()

    def start(self, top):
        self.top = top
        self.thread = threading.Thread(target=self.watch)
        self.thread.start()

    def stop(self):
        self.ended.set()
        self.thread.join()

    def watch(self):
        while not self.ended.wait(0.5):
            self.look(processes(), time.monotonic())

    def look(self, found, now):
        below = {}
        for process, (parent, _, _) in found.items():
            below.setdefault(parent, []).append(process)
        left = [self.top]
        while left:
            process = left.pop()
            key = process, found[process][1] if process in found else 0
            what = self.seen[key][:2] if key in self.seen else kind_of(process)
            if what is None:
                left += below.get(process, [])
                continue
            first = self.seen[key][3] if key in self.seen else now
            ticks = max(self.ticks_below(process, found, below), self.seen[key][2] if key in self.seen else 0)
            self.seen[key] = *what, ticks, first, now

    def ticks_below(self, process, found, below):
        return found[process][2] + sum(self.ticks_below(it, found, below) for it in below.get(process, []))

    def sums(self):
        sums = {}
        for crate, kind, ticks, first, last in self.seen.values():
            seconds, wall = sums.get((crate, kind), (0, 0))
            sums[crate, kind] = seconds + ticks / TICK, wall + last - first + 0.5
        return sums

    def print_table(self, whole):
        """Prints processor seconds and seconds crate by crate; the rest of the whole are builds and what cuts the work up."""
        sums = self.sums()
        crates = sorted({crate for crate, _ in sums})
        print(f"{'crate':<12}" + "".join(f"{kind:>24}" for kind in KINDS))
        print(f"{'':<12}" + f"{'processor':>14}{'clock':>10}" * len(KINDS))
        for crate in [*crates, "all"]:
            line = f"{crate:<12}"
            for kind in KINDS:
                cells = [sums[key] for key in sums if key[1] == kind and crate in (key[0], "all")]
                line += f"{sum(it[0] for it in cells):>12.0f} s{sum(it[1] for it in cells):>8.0f} s"
            print(line)
        print(f"{'builds, runs':<12}{whole - sum(it[0] for it in sums.values()):>12.0f} s")
