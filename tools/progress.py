"""How far a build is, by the processor time that each crate took in an earlier one."""

import collections
import heapq
import os
import re

_TICK = os.sysconf("SC_CLK_TCK")
_PRIOR = 20.0   # seconds of a machine as fast as the measured one, before anything is known of this one
_BUSY = 0.9     # the part of a processor that a proof gets, before anything is known
_MEMORY = 120.0  # how many seconds of the past tell how much of the processors the build gets


def crates_below(path, top):
    """The crates that one stands on, itself among them, with what each uses of them, in the order of crates.txt."""
    uses = {}
    with open(path, encoding="utf-8") as file:
        for line in file:
            if re.match(r"[a-z]", line):
                name, _, below = line.partition(":")
                uses[name.split()[0]] = below.split()
    needed, left = set(), [top]
    while left:
        name = left.pop()
        if name in uses and name not in needed:
            needed.add(name)
            left += uses[name]
    return {name: [one for one in uses[name] if one in needed] for name in uses if name in needed}


def measured(path):
    """Seconds of processor time by crate, as a table in a file has them."""
    with open(path, encoding="utf-8") as file:
        return {line.split()[0]: float(line.split()[1]) for line in file if re.match(r"[a-z]\w* [0-9.]+", line)}


def task_times(root, is_counted=lambda words, folder: True):
    """The processor time so far of what runs below a process, with the crate that it proves, as the system tells it; a process that
    has ended is in it no more. is_counted: whether a prover with these words, in this folder, is in it."""
    parents, found = {}, {}
    for entry in os.listdir("/proc"):
        if entry.isdigit():
            try:
                with open("/proc/%s/stat" % entry, "rb") as file:
                    fields = file.read().rpartition(b")")[2].split()
            except OSError:
                continue
            parents[int(entry)] = int(fields[1]), (int(fields[11]) + int(fields[12])) / _TICK
    for process, (_, seconds) in parents.items():
        above = process
        while above in parents and above != root:
            above = parents[above][0]
        name = _crate_of(process, is_counted) if above == root else None
        if name:
            found[process] = name, seconds
    return found


def _crate_of(process, is_counted):
    try:
        with open("/proc/%d/cmdline" % process, "rb") as file:
            words = file.read().decode("utf-8", "replace").split("\0")
        folder = os.readlink("/proc/%d/cwd" % process)
    except OSError:
        return None
    is_prover = words[0].endswith("/rattle") and "--crate-name" in words
    return words[words.index("--crate-name") + 1] if is_prover and is_counted(words, folder) else None


class Progress:
    """The state of a build of crates, each with those that it uses; costs: what each took in an earlier build, in seconds."""

    def __init__(self, crates, costs, processors):
        typical = sorted(costs.values())[len(costs) // 2] if costs else 60.0
        self._uses = crates
        self._costs = {name: costs.get(name, typical) for name in crates}
        self._processors = processors
        self._spent = collections.defaultdict(float)  # by crate, of processes that have ended
        self._alive = {}                              # by process: its crate and its time so far
        self._ended, self._kept = set(), set()
        self._past = collections.deque()              # when, the time of all so far, how many ran, and how many there is room for
        self._chains = self._chain_lengths()
        self._told = 0.0

    @property
    def running(self):
        """The crates that are being proved."""
        return sorted({name for name, _ in self._alive.values()})

    @property
    def spent(self):
        """The processor time of all so far, in seconds."""
        return sum(self._spent.values()) + sum(seconds for _, seconds in self._alive.values())

    def sample(self, now, times):
        """Takes what runs now: by process its crate and its time."""
        for process in [one for one in self._alive if one not in times]:
            name, seconds = self._alive.pop(process)
            self._spent[name] += seconds
        self._alive = dict(times)
        running = len(self.running)
        self._past.append((now, self.spent, running, running if self._is_waiting() else self._processors))
        while self._past[0][0] < now - _MEMORY:
            self._past.popleft()

    def end(self, name, is_kept):
        """A crate is proved, or was kept. Gives its time in seconds, 0 where it was kept."""
        (self._kept if is_kept else self._ended).add(name)
        return 0.0 if is_kept else self._of(name)

    def part(self):
        """How much of the work is done, from 0 to 1, and never less than was told before; what was kept is none of it."""
        speed = self._speed()
        whole = sum(cost for name, cost in self._costs.items() if name not in self._kept)
        done = sum(self._costs[name] for name in self._ended)
        done += sum(min(self._of(name) / speed, 0.95 * self._costs[name]) for name in self.running if name not in self._ended)
        self._told = max(self._told, done / whole if whole else 1.0)
        return self._told

    def left(self):
        """About how many seconds are left: what is left is gone through as the kit does, longest chain first."""
        speed, rate = self._speed(), self._rate()
        ready_at = {name: 0.0 for name in self._ended | self._kept}
        begun = [name for name in self.running if name not in ready_at]
        lanes = [(max(speed * self._costs[name] - self._of(name), 0.1 * speed * self._costs[name]) / rate, name) for name in begun]
        waiting = sorted((name for name in self._costs if name not in ready_at and name not in begun), key=lambda name: -self._chains[name])
        heapq.heapify(lanes)
        now = 0.0
        while lanes or waiting:
            while len(lanes) < self._lanes():
                name = next((one for one in waiting if all(below in ready_at for below in self._uses[one])), None)
                if name is None:
                    break
                waiting.remove(name)
                heapq.heappush(lanes, (now + speed * self._costs[name] / rate, name))
            if not lanes:
                break
            now, name = heapq.heappop(lanes)
            ready_at[name] = now
        return now

    def text(self):
        """How far it is, in words."""
        return "%d %%, %s left" % (100 * self.part(), told_time(self.left()))

    def first_text(self):
        """How long it takes, in words, before anything is known of this machine."""
        return told_time(self.left())

    def _of(self, name):
        return self._spent[name] + sum(seconds for one, seconds in self._alive.values() if one == name)

    def _speed(self):
        """How many seconds here are one of the measured machine."""
        here = sum(self._of(name) for name in self._ended) + _PRIOR
        there = sum(self._costs[name] for name in self._ended) + _PRIOR
        for name in self.running:
            # one that takes longer than it ought to tells that this machine is slower
            if self._of(name) * there > here * self._costs[name]:
                here, there = here + self._of(name), there + self._costs[name]
        return here / there

    def _rate(self):
        """The part of a processor that a proof gets here."""
        if len(self._past) < 2:
            return _BUSY
        (first, before, *_), (last, after, *_) = self._past[0], self._past[-1]
        count = sum(running for _, _, running, _ in self._past) / len(self._past)
        if last - first < 20 or count < 0.5:
            return _BUSY
        return min(max((after - before) / (last - first) / count, 0.1), 1.5)

    def _lanes(self):
        """How many proofs run side by side: as many as there are processors, or fewer, where memory holds no more."""
        if len(self._past) < 2 or self._past[-1][0] - self._past[0][0] < 60:
            return self._processors
        return max(1, min(self._processors, max(room for *_, room in self._past)))

    def _is_waiting(self):
        """Whether a crate waits for room, and not for another crate."""
        proved = self._ended | self._kept
        return any(name not in proved and name not in self.running and all(below in proved for below in self._uses[name]) for name in self._uses)

    def _chain_lengths(self):
        """By crate the longest chain of it and those above it, in seconds."""
        above = collections.defaultdict(list)
        for name, below in self._uses.items():
            for one in below:
                above[one].append(name)
        found = {}

        def length(name):
            if name not in found:
                found[name] = self._costs[name] + max((length(one) for one in above[name]), default=0.0)
            return found[name]

        for name in self._uses:
            length(name)
        return found


def told_time(seconds):
    """A time, in words: no more exact than it is known."""
    if seconds < 90:
        return "about a minute"
    return "about %d minutes" % round(seconds / 60)
