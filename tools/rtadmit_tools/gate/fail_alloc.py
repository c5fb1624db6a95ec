"""Refuses each allocation of the program in turn, over each call that the pages make.

The run ends as with ample memory, or with status 9 (no memory) and nothing written, and it gives back all that it took where it did so
before. The pages are those of which examples/compare runs the commands.

With --all every allocation from the refused one on is refused too. Of a call with more than 2000 allocations as many are refused,
spread evenly. It needs a C compiler. It ends with 1 where a run ended otherwise, or where no run ended with no memory."""
import mmap
import os
import subprocess
import tempfile

from .. import comparing
from ..command_line import TOP
from ..comparing import compare, module_of, need, program_to_compare
from ..program import Answer

MOST = 2000
# The file that TOLD names is four counters: what is refused, from where on all is, what was asked for, what is not given back.
SOURCE = r"""
#include <errno.h>
#include <fcntl.h>
#include <stdlib.h>
#include <sys/mman.h>
void *__libc_malloc(size_t), *__libc_calloc(size_t, size_t), *__libc_realloc(void *, size_t), *__libc_memalign(size_t, size_t);
void __libc_free(void *);
static volatile long *told;
__attribute__((constructor)) static void begin(void) {
    int file = open(getenv("TOLD"), O_RDWR);
    told = mmap(0, 32, PROT_READ | PROT_WRITE, MAP_SHARED, file, 0);
}
static int refused(void) {
    if (!told) return 0;
    told[2]++;
    if (told[2] != told[0] && (!told[1] || told[2] < told[1])) return 0;
    errno = ENOMEM;
    return 1;
}
static void *kept(void *p) { if (told && p) told[3]++; return p; }
void *malloc(size_t n) { return refused() ? 0 : kept(__libc_malloc(n)); }
void *calloc(size_t m, size_t n) { return refused() ? 0 : kept(__libc_calloc(m, n)); }
void *realloc(void *p, size_t n) { return refused() ? 0 : p ? __libc_realloc(p, n) : kept(__libc_realloc(p, n)); }
void *aligned_alloc(size_t a, size_t n) { return refused() ? 0 : kept(__libc_memalign(a, n)); }
int posix_memalign(void **p, size_t a, size_t n) { return refused() || !(*p = kept(__libc_memalign(a, n))) ? ENOMEM : 0; }
void free(void *p) { if (told && p) told[3]--; __libc_free(p); }
"""


def each_refused(room, made):
    """Whether every run of the call ends as it is to."""
    words, library, refuse_all = made
    path = room.folder / room.write("told", bytes(32))
    env = dict(os.environ, LD_PRELOAD=library, TOLD=str(path))
    with open(path, "r+b") as file, mmap.mmap(file.fileno(), 32) as shared, memoryview(shared).cast("l") as told:

        def run(refuse=0):
            """The answer, the number of requests, and that of blocks that were never given back."""
            told[0], told[1], told[2], told[3] = refuse, refuse if refuse_all else 0, 0, 0
            return room.run(*words, cwd=TOP, env=env), told[2], told[3]

        ample, count, left = run()
        some, short, wrong = min(count, MOST), 0, []
        for place in (1 + number * count // some for number in range(some)):
            ended, _, kept = run(place)
            short += ended == Answer(9, "")
            if ended not in (ample, Answer(9, "")):
                wrong.append(f"request {place} refused: status {ended.status}, {len(ended.text)} characters")
            if kept > left:
                wrong.append(f"request {place} refused: {kept} blocks are not given back, and {left} with ample memory")
        need(not wrong, "\n".join([f"{b' '.join(words)}: {count} requests", *wrong]))
    return {"requests": count, "refused in turn": some, "ended with no memory": short}


def add_words(parser):
    parser.add_argument("--all", action="store_true", help="refuse all allocations from one on")
    comparing.add_words(parser)


def run(given):
    with tempfile.TemporaryDirectory() as folder:
        library = f"{folder}/refuse.so"
        subprocess.run(["cc", "-O1", "-shared", "-fPIC", "-x", "c", "-", "-o", library], input=SOURCE, text=True, check=True)
        calls = module_of("examples/page.py").words(program_to_compare(given).path)
        made = [(words, library, given.all) for words in calls]
        return int(not compare(given, "calls", each_refused, made, {"ended with no memory": 1}))
