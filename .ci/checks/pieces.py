"""Reads and writes in pieces."""
import os
import tempfile
from collections.abc import Iterable

from checks.parts import comparing, scenarios
from checks.parts.running import library, run
from checks.parts.scenarios import Scenario
from checks.parts.steps import Faults, step

# The most octets a call, and each which call is interrupted: 0 for none.
TURNS = [(1, 0), (7, 0), (4096, 0), (7, 2), (4096, 3)]
# A text of 64 MiB an octet a call takes a minute.
LONGEST = 200_000
SOURCE = r'''
#define _GNU_SOURCE
#include <dlfcn.h>
#include <errno.h>
#include <stdio.h>
#include <stdlib.h>
#include <unistd.h>
static size_t cut(size_t count) {
    static size_t piece;
    if (!piece) piece = (size_t) atol(getenv("OCTETS_A_CALL"));
    return count < piece ? count : piece;
}
static long interrupted;
static int is_interrupted(void) {
    static long every = -1, calls;
    if (every < 0) every = atol(getenv("INTERRUPTED_CALL"));
    if (!every || ++calls % every) return 0;
    interrupted++;
    errno = EINTR;
    return 1;
}
__attribute__((destructor)) static void tell(void) {
    if (getenv("TELL_INTERRUPTED")) fprintf(stderr, "%ld", interrupted);
}
ssize_t read(int file, void *into, size_t count) {
    static ssize_t (*next)(int, void *, size_t);
    if (is_interrupted()) return -1;
    if (!next) next = (ssize_t (*)(int, void *, size_t)) dlsym(RTLD_NEXT, "read");
    return next(file, into, cut(count));
}
ssize_t write(int file, const void *from, size_t count) {
    static ssize_t (*next)(int, const void *, size_t);
    if (is_interrupted()) return -1;
    if (!next) next = (ssize_t (*)(int, const void *, size_t)) dlsym(RTLD_NEXT, "write");
    return next(file, from, cut(count));
}
ssize_t __write(int file, const void *from, size_t count) { return write(file, from, count); }
'''


def every_tenth(found: Iterable[Scenario]) -> list[Scenario]:
    return [it for place, it in enumerate(found) if place % 10 == 0]


def chosen() -> list[Scenario]:
    found = [*scenarios.examples(), *scenarios.rows(), *every_tenth(scenarios.corpus()), *every_tenth(scenarios.worked_documents())]
    return [it for it in found if len(it.text) <= LONGEST]


def are_interrupted(program: str, scenario: Scenario, environment: dict[str, str]) -> bool:
    """Whether calls of a run are interrupted, as the library tells."""
    told = run(program, scenario.text, scenario.words, {**environment, 'TELL_INTERRUPTED': '1'})
    return told.stderr.isdigit() and int(told.stderr) > 1


@step(seconds=4, needs=('cc',))
def check(replay: str) -> Faults:
    """The program writes the same of the examples, the worked rows, every tenth scenario of corpus/ and every tenth document over reads and
    writes that move at most 1, 7 and 4,096 octets a call, and over those of which each second or third is interrupted."""
    found = chosen()
    with tempfile.TemporaryDirectory() as folder:
        between = library(SOURCE, os.path.join(folder, 'pieces.so'))
        for piece, every in TURNS:
            env = {**os.environ, 'LD_PRELOAD': between, 'OCTETS_A_CALL': str(piece), 'INTERRUPTED_CALL': str(every)}
            if every and not are_interrupted(replay, found[0], env):
                yield f'no call is interrupted of each {every}'
            for fault in comparing.differences(replay, found, env):
                yield f'{piece} octets a call, each {every} interrupted: {fault}'
    return f'{len(found)} scenarios and documents at {len(TURNS)} kinds of calls'
