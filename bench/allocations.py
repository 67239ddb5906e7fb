"""An allocator that counts, and refuses one allocation: it stands in for that of the C library, in front of the built program."""
import os
import subprocess
from collections.abc import Sequence

SOURCE = r'''
#define _GNU_SOURCE
#include <dlfcn.h>
#include <errno.h>
#include <stdio.h>
#include <stdlib.h>
static long count;
static int fails(void) {
    static long refused = -1;
    if (refused < 0) {
        const char *number = getenv("REFUSED_ALLOCATION");
        refused = number ? atol(number) : 0;
    }
    if (++count != refused) return 0;
    errno = ENOMEM;
    return 1;
}
void *malloc(size_t size) {
    static void *(*next)(size_t);
    if (!next) next = (void *(*)(size_t)) dlsym(RTLD_NEXT, "malloc");
    return fails() ? 0 : next(size);
}
void *realloc(void *block, size_t size) {
    static void *(*next)(void *, size_t);
    if (!next) next = (void *(*)(void *, size_t)) dlsym(RTLD_NEXT, "realloc");
    return fails() ? 0 : next(block, size);
}
__attribute__((destructor)) static void tell(void) {
    const char *path = getenv("COUNTED_ALLOCATIONS");
    long made = count;
    FILE *file = path ? fopen(path, "w") : 0;
    if (!file) return;
    fprintf(file, "%ld", made);
    fclose(file);
}
'''


class Allocator:
    """The allocator in a folder, which `cc` compiles there."""

    def __init__(self, program: str, folder: str) -> None:
        self.program = program
        self.library = os.path.join(folder, 'allocations.so')
        self.counted = os.path.join(folder, 'counted')
        subprocess.run(['cc', '-shared', '-fPIC', '-x', 'c', '-o', self.library, '-', '-ldl'], input=SOURCE.encode(), check=True)

    def run(self, text: bytes, words: Sequence[str] = (), **more: str) -> subprocess.CompletedProcess[bytes]:
        environment = dict({'LD_PRELOAD': self.library}, **more)
        return subprocess.run([self.program, *words], input=text, capture_output=True, env=environment, timeout=60, check=False)

    def refusing(self, text: bytes, number: int) -> subprocess.CompletedProcess[bytes]:
        """A run in which the allocation of this number, from 1, is refused; none is where it is 0."""
        return self.run(text, REFUSED_ALLOCATION=str(number))

    def count(self, text: bytes, words: Sequence[str] = ()) -> int:
        """How many allocations a run with these words makes that ends well."""
        ran = self.run(text, words, COUNTED_ALLOCATIONS=self.counted)
        with open(self.counted, encoding='ascii') as file:
            made = int(file.read())
        if ran.returncode != 0:
            raise ValueError(f'status {ran.returncode}: {ran.stdout[-80:]!r}')
        return made
