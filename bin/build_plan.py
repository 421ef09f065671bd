"""For bin/build: which crates must be proved, which are built already, which are next and with how many jobs, and how
long all take."""

import contextlib
import hashlib
import os
import re

TOP = os.path.dirname(os.path.dirname(os.path.realpath(__file__)))
CRATES = f"{TOP}/crates"
# The most memory that a proof took when it was measured, in bytes.
LANE_MEMORY = 5_000_000_000
MOST_JOBS = 4
# The approximate speed of a proof with this many jobs, relative to one job.
SPEED = {1: 1.0, 2: 1.5, 3: 1.8, 4: 2.0}


def rows_of(file):
    with open(f"{TOP}/{file}", encoding="utf-8") as it:
        rows = (row.partition("#")[0].strip() for row in it)
        return [row for row in rows if row]


class Plan:
    """The crates to prove, with the crates that they use and their times."""

    def __init__(self, target, kit):
        self.kit = kit
        self.lines = {re.match(r"\w+", row)[0]: row for row in rows_of("crates.txt")}
        self.uses = {name: row.partition(":")[2].split() for name, row in self.lines.items()}
        self.below = {}
        self.note_below(target)
        self.digests = {}
        measured = dict(row.split() for row in rows_of("bin/build_times.txt"))
        self.seconds = {name: float(measured.get(name, 60)) for name in self.below}
        self.chain = {}
        for name in reversed(self.below):
            above = [self.chain[it] for it in self.chain if name in self.below[it]]
            self.chain[name] = self.seconds[name] + max(above, default=0)

    def note_below(self, name):
        """Notes which crates of the repository the crate uses, directly or through others, lowest first."""
        found = []
        for dep in (it for it in self.uses[name] if it in self.uses):
            if dep not in self.below:
                self.note_below(dep)
            found += [it for it in [*self.below[dep], dep] if it not in found]
        self.below[name] = found

    def note_digests(self):
        for name in self.below:
            self.digests[name] = self.digest(name)

    def is_program(self, name):
        return os.path.isfile(f"{CRATES}/{name}/src/main.rt")

    def is_static(self, name):
        return "staticlib" in self.lines[name].partition(":")[0].split()

    def is_linked(self, name):
        return self.is_program(name) or self.is_static(name)

    def target(self, name):
        """Returns the file that a build of the crate makes, relative to the crate's folder."""
        if self.is_program(name):
            return f"out/{name}.o"
        return f"out/lib{name}.a" if self.is_static(name) else f"out/built/{name}.rlib"

    def library(self, name):
        return f"{CRATES}/{name}/out/built/{name}.rlib"

    def digest(self, name):
        """Returns a digest of everything that the crate is built from. Needs the digests of the crates that it uses."""
        digest = hashlib.sha256(f"{self.kit}\n{self.lines[name]}\n".encode())
        for part in ("src", "specs", "proofs"):
            for folder, folders, files in os.walk(f"{CRATES}/{name}/{part}"):
                folders.sort()
                for file in sorted(it for it in files if it.endswith((".rt", ".antt"))):
                    path = os.path.join(folder, file)
                    with open(path, "rb") as it:
                        contents = hashlib.sha256(it.read()).hexdigest()
                    digest.update(f"{os.path.relpath(path, CRATES)}\n{contents}\n".encode())
        for dep in self.below[name]:
            digest.update(f"{self.digests[dep]}\n".encode())
        return digest.hexdigest()

    def is_built(self, name):
        """Returns whether the crate's library exists and was built from the present sources. A program is always built
        again."""
        if self.is_linked(name) or not os.path.isdir(self.library(name)):
            return False
        with contextlib.suppress(OSError), open(f"{CRATES}/{name}/out/built/digest", encoding="utf-8") as it:
            return it.read() == self.digests[name]
        return False

    def forget(self, name):
        with contextlib.suppress(FileNotFoundError):
            os.remove(f"{CRATES}/{name}/out/built/digest")

    def note_built(self, name):
        """Notes that the library was built, unless a source has changed since the build began."""
        if not self.is_linked(name) and self.digest(name) == self.digests[name]:
            with open(f"{CRATES}/{name}/out/built/digest", "w", encoding="utf-8") as it:
                it.write(self.digests[name])

    def choose(self, done, running, lanes):
        """Returns the crates to start now, each with its jobs. `running` has the jobs of the crates that are being
        proved."""
        ready = [it for it in self.below if it not in done and it not in running]
        ready = [it for it in ready if all(dep in done for dep in self.below[it])]
        ready.sort(key=lambda it: -self.chain[it])
        idle = lanes - sum(running.values())
        longest = max((self.chain[it] for it in [*ready, *running]), default=0)
        chosen = {}
        for name in ready:
            if idle < 1:
                break
            # Only a crate of the longest chain gets more than one job: the processors that no other crate needs, and at
            # least half of all.
            spare = 1
            if self.chain[name] >= 0.9 * longest:
                spare = max(lanes // 2, idle - (len(ready) - len(chosen) - 1))
            chosen[name] = max(1, min(spare, idle, MOST_JOBS))
            idle -= chosen[name]
        return chosen

    def time_left(self, done, running, lanes, parts):
        """Returns the estimated seconds until everything is proved. `parts` has the finished share of each running
        crate."""
        done, running, now = set(done), dict(running), 0.0
        ends = {it: self.seconds[it] * (1 - parts.get(it, 0)) / SPEED[jobs] for it, jobs in running.items()}
        while True:
            for name, jobs in self.choose(done, running, lanes).items():
                running[name] = jobs
                ends[name] = now + self.seconds[name] / SPEED[jobs]
            if not running:
                return now
            name = min(running, key=ends.get)
            now = ends[name]
            done.add(name)
            del running[name]


def number_in(file, default):
    """Returns the first number in a file, or the default if there is none."""
    with contextlib.suppress(OSError, ValueError, IndexError), open(file, encoding="utf-8") as it:
        return int(it.read().split()[0])
    return default


def lanes():
    """Returns how many proofs run side by side: one for each processor, if there is enough free memory for each."""
    with open("/proc/meminfo", encoding="utf-8") as it:
        free = 1024 * int(re.search(r"MemAvailable:\s+(\d+)", it.read())[1])
    group = "/sys/fs/cgroup"
    used = number_in(f"{group}/memory.current", 0)
    free = min(free, number_in(f"{group}/memory.max", free + used) - used)
    processors = len(os.sched_getaffinity(0))
    # The quota is in microseconds for each tenth of a second, the default period.
    processors = min(processors, number_in(f"{group}/cpu.max", processors * 100_000) // 100_000)
    return max(1, min(processors, free // LANE_MEMORY))
