"""Runs of the program, one after another, by a small C program that is made here: it gives each run its input and its journal, or devices that
fail, says how the run ended, what it wrote and kept, how much memory and time it took, and, where it is told to, refuses allocations of the run."""
import collections
import contextlib
import os
import shutil
import struct
import subprocess
import tempfile

import checks

# Makes a run of each of the questions that come by standard input, in the folder where it was started. The words are the library that refuses,
# the program and its words.
RUNNER = r"""
#define _GNU_SOURCE
#include <fcntl.h>
#include <stdint.h>
#include <stdio.h>
#include <stdlib.h>
#include <string.h>
#include <sys/mman.h>
#include <sys/resource.h>
#include <sys/stat.h>
#include <sys/wait.h>
#include <unistd.h>

#define NONE UINT32_MAX
#define JOURNAL "lawdesk.jnl"

/* What fails: standard input is a folder, standard output takes nothing, the journal is a folder. */
enum { SOURCE = 1, SINK = 2, KEEPER = 4 };

struct __attribute__((packed)) asked { uint64_t turn; uint32_t later, failing, given, kept; };
struct __attribute__((packed)) told { int32_t status; uint32_t met; uint64_t memory, micros; uint32_t written, said, kept; };

static char piece[1 << 16];

static int moved(int from, int to, uint64_t size) {
    while (size > 0) {
        ssize_t count = read(from, piece, size < sizeof piece ? size : sizeof piece);
        if (count <= 0) return 0;
        size -= count;
        for (char *at = piece; count > 0;) {
            ssize_t put = write(to, at, count);
            if (put <= 0) return 0;
            at += put;
            count -= put;
        }
    }
    return 1;
}

static uint32_t length(int file) {
    struct stat about;
    return file >= 0 && fstat(file, &about) == 0 ? (uint32_t)about.st_size : NONE;
}

static void become(char **argv, const struct asked *asked, int given, int written, int said, int met) {
    char words[64];
    dup2(asked->failing & SOURCE ? open(".", O_RDONLY) : given, 0);
    dup2(asked->failing & SINK ? open("/dev/full", O_WRONLY) : written, 1);
    dup2(said, 2);
    alarm(120);
    if (asked->turn > 0) {
        snprintf(words, sizeof words, "%llu %u %d", (unsigned long long)asked->turn, asked->later, met);
        setenv("REFUSED", words, 1);
        setenv("LD_PRELOAD", argv[1], 1);
    }
    execv(argv[2], argv + 2);
    _exit(126);
}

int main(int argc, char **argv) {
    struct asked asked;
    while (argc > 2 && read(0, &asked, sizeof asked) == (ssize_t)sizeof asked) {
        int given = memfd_create("given", MFD_CLOEXEC), written = memfd_create("written", MFD_CLOEXEC), said = memfd_create("said", MFD_CLOEXEC);
        int met = memfd_create("met", 0), status, kept = -1;
        unlink(JOURNAL);
        if (!moved(0, given, asked.given) || lseek(given, 0, SEEK_SET) != 0) return 1;
        if (asked.kept != NONE && ((kept = open(JOURNAL, O_RDWR | O_CREAT, 0644)) < 0 || !moved(0, kept, asked.kept) || close(kept) != 0)) return 1;
        if (asked.failing & KEEPER && mkdir(JOURNAL, 0755) != 0) return 1;
        pid_t child = fork();
        if (child == 0) become(argv, &asked, given, written, said, met);
        struct rusage taken;
        if (child < 0 || wait4(child, &status, 0, &taken) != child) return 1;
        kept = rmdir(JOURNAL) == 0 ? -1 : open(JOURNAL, O_RDONLY | O_CLOEXEC);
        struct told told = {
            WIFEXITED(status) ? WEXITSTATUS(status) : -WTERMSIG(status), length(met), (uint64_t)taken.ru_maxrss << 10,
            (taken.ru_utime.tv_sec + taken.ru_stime.tv_sec) * 1000000ull + taken.ru_utime.tv_usec + taken.ru_stime.tv_usec,
            length(written), length(said), length(kept)};
        if (write(1, &told, sizeof told) != (ssize_t)sizeof told) return 1;
        lseek(written, 0, SEEK_SET);
        lseek(said, 0, SEEK_SET);
        if (!moved(written, 1, told.written) || !moved(said, 1, told.said) || (kept >= 0 && !moved(kept, 1, told.kept))) return 1;
        for (int *file = (int[]){given, written, said, met, kept, -1}; *file >= 0; file++) close(*file);
    }
    return 0;
}
"""

# Stands before the C library, and refuses of the allocations that the program's own code asks for the one in turn, or all from that on.
REFUSING = r"""
#define _GNU_SOURCE
#include <errno.h>
#include <link.h>
#include <stdint.h>
#include <stdio.h>
#include <stdlib.h>
#include <unistd.h>

extern void *__libc_malloc(size_t), *__libc_realloc(void *, size_t), *__libc_calloc(size_t, size_t), *__libc_memalign(size_t, size_t);

static uintptr_t first, behind;
static unsigned long long turn, asked;
static int later, met = -1;

static int found(struct dl_phdr_info *object, size_t size, void *none) {
    for (int k = 0; k < object->dlpi_phnum; k++) {
        const ElfW(Phdr) *part = &object->dlpi_phdr[k];
        if (part->p_type == PT_LOAD && part->p_flags & PF_X) {
            first = object->dlpi_addr + part->p_vaddr;
            behind = first + part->p_memsz;
        }
    }
    return 1;
}

__attribute__((constructor)) static void begun(void) {
    const char *words = getenv("REFUSED");
    if (words != NULL && sscanf(words, "%llu %d %d", &turn, &later, &met) == 3) dl_iterate_phdr(found, NULL);
}

static int refused(void *from) {
    if ((uintptr_t)from < first || (uintptr_t)from >= behind) return 0;
    asked++;
    if (asked < turn || (asked > turn && !later)) return 0;
    if (asked == turn && write(met, "", 1) != 1) return 0;
    errno = ENOMEM;
    return 1;
}

void *malloc(size_t size) { return refused(__builtin_return_address(0)) ? NULL : __libc_malloc(size); }
void *calloc(size_t count, size_t size) { return refused(__builtin_return_address(0)) ? NULL : __libc_calloc(count, size); }
void *realloc(void *old, size_t size) { return refused(__builtin_return_address(0)) ? NULL : __libc_realloc(old, size); }
void *aligned_alloc(size_t by, size_t size) { return refused(__builtin_return_address(0)) ? NULL : __libc_memalign(by, size); }
int posix_memalign(void **new, size_t by, size_t size) {
    if (refused(__builtin_return_address(0))) return ENOMEM;
    *new = __libc_memalign(by, size);
    return *new == NULL ? ENOMEM : 0;
}
"""

ASKED, TOLD, NONE = struct.Struct("<QIIII"), struct.Struct("<iIQQIII"), 0xFFFF_FFFF
SOURCE, SINK, KEEPER = 1, 2, 4
NO_CC = "no cc compiles here"

# How a run ended: its status (or less, a signal), what it wrote, said on standard error and kept, whether the allocation in turn came, and what
# it took of memory (bytes) and of the processor (seconds).
Run = collections.namedtuple("Run", "status written said kept met memory seconds")


class Runner:
    """Makes runs of the program with these words in a folder, one after another."""

    def __init__(self, tools, folder, words):
        line = [os.path.join(tools, "runner"), os.path.join(tools, "refusing.so"), checks.PROGRAM, *words]
        self.child = subprocess.Popen(line, stdin=subprocess.PIPE, stdout=subprocess.PIPE, cwd=folder)

    def run(self, given=b"", kept=None, turn=0, later=False, failing=0):
        """A run over this input, and over a journal of these bytes or none, or over devices of which some fail. From 1 on a turn is that of the
        allocation that is refused."""
        self.child.stdin.write(ASKED.pack(turn, later, failing, len(given), NONE if kept is None else len(kept)) + given + (kept or b""))
        self.child.stdin.flush()
        status, met, memory, micros, written, said, left = TOLD.unpack(self.child.stdout.read(TOLD.size))
        told = [self.child.stdout.read(size) if size != NONE else None for size in (written, said, left)]
        return Run(status, *told, bool(met), memory, micros / 1e6)

    def end(self):
        self.child.stdin.close()
        self.child.stdout.close()
        self.child.wait(120)


@contextlib.contextmanager
def tools():
    """A folder with the runner and the library, or none where nothing can be compiled."""
    with tempfile.TemporaryDirectory() as place:
        compiled = [("runner", RUNNER, []), ("refusing.so", REFUSING, ["-shared", "-fPIC"])]
        yield place if all(is_compiled(os.path.join(place, name), source, words) for name, source, words in compiled) else None


def is_compiled(path, source, words):
    """Makes a file of this C source; whether that could be done."""
    if shutil.which("cc") is None:
        return False
    return subprocess.run(["cc", "-O2", *words, "-x", "c", "-", "-o", path], input=source.encode(), timeout=120).returncode == 0


@contextlib.contextmanager
def runner(place, words):
    """A runner in a folder of its own."""
    with checks.folder() as folder:
        made = Runner(place, folder, words)
        try:
            yield made
        finally:
            made.end()
