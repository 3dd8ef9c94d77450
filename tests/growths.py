"""A small library that stands before the system's allocator in a program (`LD_PRELOAD`), for the scripts beside it.

It counts growths, the calls of `malloc` and `realloc`, and bytes: those that are held, and the most that were. It refuses the growth
with a given number, alone or with all behind it. It needs a C compiler: `cc`, or what `CC` names.
"""
import contextlib
import os
import struct
import subprocess
import tempfile
from typing import NamedTuple

ALLOCATOR = r"""
#define _GNU_SOURCE
#include <dlfcn.h>
#include <errno.h>
#include <fcntl.h>
#include <malloc.h>
#include <stdlib.h>
#include <sys/mman.h>

static void *(*take)(size_t);
static void *(*resize)(void *, size_t);
static void (*give)(void *);
static long first, last;
static long before[3];
/* The number of growths, the bytes that are held, and the most of them. */
static long *counts = before;

static void begin(void) {
    take = (void *(*)(size_t))dlsym(RTLD_NEXT, "malloc");
    resize = (void *(*)(void *, size_t))dlsym(RTLD_NEXT, "realloc");
    give = (void (*)(void *))dlsym(RTLD_NEXT, "free");
}

__attribute__((constructor)) static void open_counts(void) {
    int file = open(getenv("GROWTHS"), O_RDWR);
    void *page = mmap(0, sizeof before, PROT_READ | PROT_WRITE, MAP_SHARED, file, 0);
    if (file < 0 || page == MAP_FAILED) abort();
    first = atol(getenv("FIRST_REFUSED"));
    last = atol(getenv("LAST_REFUSED"));
    counts = page;
}

static int is_refused(void) {
    if (!give) begin();
    long number = __atomic_add_fetch(&counts[0], 1, __ATOMIC_SEQ_CST);
    if (number < first || number > last) return 0;
    errno = ENOMEM;
    return 1;
}

static void hold(long bytes) {
    long held = __atomic_add_fetch(&counts[1], bytes, __ATOMIC_SEQ_CST);
    long most = __atomic_load_n(&counts[2], __ATOMIC_SEQ_CST);
    while (most < held && !__atomic_compare_exchange_n(&counts[2], &most, held, 0, __ATOMIC_SEQ_CST, __ATOMIC_SEQ_CST)) {}
}

void *malloc(size_t size) {
    void *block = is_refused() ? 0 : take(size);
    hold(malloc_usable_size(block));
    return block;
}

void *realloc(void *block, size_t size) {
    long had = malloc_usable_size(block);
    void *moved = is_refused() ? 0 : resize(block, size);
    if (moved) hold((long)malloc_usable_size(moved) - had);
    return moved;
}

void free(void *block) {
    if (!give) begin();
    hold(-(long)malloc_usable_size(block));
    give(block);
}
"""


class Counts(NamedTuple):
    """What a run met: how many growths, how many bytes it held at the end, and at most."""

    growths: int
    held: int
    most: int


def library(folder):
    """Compiles the library into a folder, and gives its path."""
    path = os.path.join(folder, "growths.so")
    words = [os.environ.get("CC", "cc"), "-O2", "-shared", "-fPIC", "-x", "c", "-", "-o", path, "-ldl"]
    subprocess.run(words, input=ALLOCATOR.encode(), check=True)
    return path


@contextlib.contextmanager
def counting(path, first=0, last=0):
    """The environment of a run with the library, which refuses the growths from the first number to the last, none where both are 0;
    and a call for its counts."""
    with tempfile.NamedTemporaryFile() as counts:
        counts.write(bytes(24))
        counts.flush()

        def told():
            counts.seek(0)
            return Counts(*struct.unpack("=3q", counts.read(24)))

        yield {"LD_PRELOAD": path, "GROWTHS": counts.name, "FIRST_REFUSED": str(first), "LAST_REFUSED": str(last)}, told
