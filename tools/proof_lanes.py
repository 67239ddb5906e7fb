"""Proves crates side by side, by the kit's own `rt`, and tells how far that is. build.py and check use it."""
import contextlib
import os
import signal
import sys
import tempfile
import threading
import time
import types
import typing
from concurrent.futures import FIRST_COMPLETED, Future, ThreadPoolExecutor, wait

from crate_sums import Crate, Kept, built_file
from kit_rt import say
from proof_times import Times, told

SAID = 20  # so many last lines of the prover are shown of a crate that isn't proved
QUIET = 60.0  # after so many seconds with nothing to tell, it is told what goes on


def prove(rt: types.ModuleType, crate: typing.Any, jobs: int) -> tuple[bool, str]:
    """Proves a crate from nothing, and builds its library or the program: whether it did, and what the prover said."""
    with tempfile.TemporaryFile('a+', errors='replace') as crate.out:
        os.makedirs(f'{crate.folder}/out', exist_ok=True)
        call = prove_program if crate.is_program else prove_library
        status = call(rt, crate, jobs)
        if status == -signal.SIGKILL:
            status = call(rt, crate, 1)
        crate.out.seek(0)
        return not status, crate.out.read()


def prove_library(_: types.ModuleType, crate: typing.Any, jobs: int) -> int:
    status: int = crate.build_rlib(['--jobs', str(jobs)], anew=True)
    return status


def prove_program(rt: types.ModuleType, crate: typing.Any, jobs: int) -> int:
    for it in (built_file(crate.name), Kept.place(crate.name)):
        with contextlib.suppress(FileNotFoundError):
            os.remove(it)
    made = f'out/{crate.name}'
    words = ['build', *crate.words(['--jobs', str(jobs)], keeps=False), '--toolchain', f'{rt.KIT}/toolchain', '--backend', 'llvm']
    status: int = crate.prove([*words, '-o', f'{made}.o']) or crate.link(f'{made}.o', made)
    with contextlib.suppress(FileNotFoundError):
        os.remove(f'{crate.folder}/{made}.o')
    return status


def give_way(steps: int) -> None:
    """Lets what this thread starts come so far behind what others start."""
    with contextlib.suppress(OSError):
        os.setpriority(os.PRIO_PROCESS, threading.get_native_id(), steps)


class Lanes:
    """Proves crates side by side, each once those below it are proved: as many as there are processors and as memory holds, and
    of those that could begin first the one with the longest chain of others above it. That one begins at once, gets all
    processors and comes first on each, since the others wait for it in the end; another gets those that are idle. One with a
    much shorter chain comes last on each, so that something is left to do beside the last crates, which wait for each other."""

    def __init__(self, rt: types.ModuleType, crates: list[typing.Any], kept: Kept) -> None:
        self.rt, self.kept, self.begun = rt, kept, time.monotonic()
        self.memory, self.lanes = 0.85 * rt.free(), rt.processors()
        self.left, self.proved = list(crates), set[Crate]()
        self.running: dict[Future[tuple[bool, str]], tuple[Crate, float]] = {}
        self.below, self.needs = {it: it.below() for it in crates}, {it: rt.need(it) for it in crates}
        self.lacking = kept.lacking(it.name for it in crates)
        self.times = Times(self.lacking, kept.below, self.lanes)
        self.seconds = {it: self.times.seconds.get(it.name, 0.0) for it in crates}
        self.behind = {it: 0.0 for it in crates}
        for it in reversed(crates):
            self.behind[it] += self.seconds[it]
            for below in self.below[it]:
                self.behind[below] = max(self.behind[below], self.behind[it])
        self.left.sort(key=lambda it: -self.behind[it])
        self.tell_begin()

    def tell_begin(self) -> None:
        number = len(self.lacking)
        if number:
            every = len(self.left)
            what = f'{number} of {every} crates' if number < every else f'all {every} crates' if every > 1 else 'one crate'
            say(f'{what} {"are" if number > 1 else "is"} to be proved, in about {told(self.times.whole)} on {self.lanes} '
                f'processor{"s" if self.lanes > 1 else ""}')

    def longest(self) -> float:
        """The longest chain above a crate that is left or running."""
        return max(self.behind[it] for it in [*self.left, *[it for it, _ in self.running.values()]])

    def is_late(self, crate: Crate) -> bool:
        """Whether the crate can wait for others."""
        return self.behind[crate] < 0.7 * self.longest()

    def jobs_of(self, crate: Crate, ready: list[Crate]) -> int:
        """How many processors the crate gets if it begins now, or none if it has to wait."""
        running = [it for it, _ in self.running.values()]
        if running and self.needs[crate] + sum(self.needs[it] for it in running) > self.memory:
            return 0
        idle = self.lanes - sum(self.is_late(crate) or not self.is_late(it) for it in running)
        if self.behind[crate] == self.longest():
            # each more reads the libraries anew, which a small crate doesn't gain back
            return min(4, self.lanes) if self.seconds[crate] > 50 or idle >= self.lanes else 1
        return min(4, max(1, idle // len(ready))) if idle > 0 else 0

    def begin(self, first: ThreadPoolExecutor, others: ThreadPoolExecutor, last: ThreadPoolExecutor) -> None:
        """Begins what can begin now, the longest chain by the pool that comes first, and passes over what was proved before."""
        ready = [it for it in self.left if all(below in self.proved for below in self.below[it])]
        for crate in list(ready):
            if self.kept.has(crate.name):
                self.left.remove(crate)
                self.proved.add(crate)
                return self.begin(first, others, last)
            jobs = self.jobs_of(crate, ready)
            if jobs:
                pool = first if self.behind[crate] == self.longest() else last if self.is_late(crate) else others
                ready.remove(crate)
                self.left.remove(crate)
                self.running[pool.submit(prove, self.rt, crate, jobs)] = crate, time.monotonic()
        return None

    def tell(self, what: str) -> None:
        """Tells how far all is, and what is left by the clock."""
        now = time.monotonic()
        proved = {it.name for it in self.proved}
        running = {it.name: now - since for it, since in self.running.values()}
        known = {it: running[it] for it in running if it in self.times.seconds}
        left = self.times.left(proved & set(self.lacking), known, now - self.begun)
        say(f'{len(proved)} of {len(self.behind)} proved: {what}' + (f'; about {told(left)} left' if running or self.left else ''))

    def end(self, done: Future[tuple[bool, str]]) -> bool:
        """Whether the crate that has ended is proved."""
        crate, since = self.running.pop(done)
        is_well, said = done.result()
        if not is_well:
            say(f'{crate.name} is not proved, so nothing that stands on it was built')
            print('\n'.join(said.splitlines()[-SAID:]), file=sys.stderr)
            return False
        self.proved.add(crate)
        self.kept.keep(crate.name)
        self.tell(f'{crate.name}, in {time.monotonic() - since:.0f} s')
        return True

    def run(self) -> bool:
        """Whether all are proved; it stops at the first that isn't."""
        pools = [ThreadPoolExecutor(2 * self.lanes, initializer=give_way, initargs=(steps,)) for steps in (0, 5, 12)]
        with pools[0], pools[1], pools[2]:
            self.begin(*pools)
            while self.running:
                done = wait(self.running, QUIET, return_when=FIRST_COMPLETED).done
                if not done:
                    self.tell(f'at work on {", ".join(it.name for it, _ in self.running.values())}')
                if not all([self.end(it) for it in done]):
                    return False
                self.begin(*pools)
        return True


def by_lanes(rt: types.ModuleType, top: str, order: list[str], kept: Kept) -> bool:
    """Proves these crates of a repository, which no other `rt` works on meanwhile: whether all are proved."""
    crates = [it for it in rt.rtlib.crates_below(top) if it.name in order]
    held = rt.rtlib.lock(crates)
    try:
        return Lanes(rt, sorted(crates, key=lambda it: len(it.below())), kept).run()
    finally:
        for it in held:
            os.close(it)
