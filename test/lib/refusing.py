"""A small library that has one call of a program fail, and the runs that test/refuse makes with it."""
import os, subprocess, tempfile

# Counts the calls that take memory, the reads of standard input and the writes to standard output. It has the one call fail
# whose number REFUSE_AT, READ_AT or WRITE_AT says, and at the end writes the three counts to the file REFUSE_COUNT. glibc's
# own names and the system do the work. Threads may call at once.
LIBRARY = r"""
#define _GNU_SOURCE
#include <errno.h>
#include <fcntl.h>
#include <stdatomic.h>
#include <stddef.h>
#include <stdio.h>
#include <stdlib.h>
#include <sys/syscall.h>
#include <unistd.h>
extern void *__libc_malloc(size_t);
extern void *__libc_calloc(size_t, size_t);
extern void *__libc_realloc(void *, size_t);
extern void *__libc_memalign(size_t, size_t);
struct calls { const char *name; atomic_ulong count, failing; atomic_int is_ready; };
static struct calls memory = {"REFUSE_AT"}, reads = {"READ_AT"}, writes = {"WRITE_AT"};
static int fails(struct calls *it, int error) {
    if (!it->is_ready) {
        const char *at = getenv(it->name);
        it->failing = at ? strtoul(at, NULL, 10) : 0;
        it->is_ready = 1;
    }
    if (atomic_fetch_add(&it->count, 1) + 1 != it->failing) return 0;
    errno = error;
    return 1;
}
static int refuses(void) { return fails(&memory, ENOMEM); }
void *malloc(size_t size) { return refuses() ? NULL : __libc_malloc(size); }
void *calloc(size_t n, size_t size) { return refuses() ? NULL : __libc_calloc(n, size); }
void *realloc(void *old, size_t size) { return refuses() ? NULL : __libc_realloc(old, size); }
void *memalign(size_t align, size_t size) { return refuses() ? NULL : __libc_memalign(align, size); }
void *aligned_alloc(size_t align, size_t size) { return refuses() ? NULL : __libc_memalign(align, size); }
int posix_memalign(void **place, size_t align, size_t size) {
    void *found = refuses() ? NULL : __libc_memalign(align, size);
    if (!found) return ENOMEM;
    *place = found;
    return 0;
}
ssize_t read(int file, void *bytes, size_t size) {
    return file == 0 && fails(&reads, EIO) ? -1 : syscall(SYS_read, file, bytes, size);
}
ssize_t write(int file, const void *bytes, size_t size) {
    return file == 1 && fails(&writes, EIO) ? -1 : syscall(SYS_write, file, bytes, size);
}
__attribute__((destructor)) static void tell(void) {
    const char *name = getenv("REFUSE_COUNT");
    char text[96];
    int file = name ? open(name, O_WRONLY | O_CREAT | O_TRUNC, 0600) : -1;
    if (file < 0) return;
    int size = snprintf(text, sizeof text, "%lu %lu %lu\n", (unsigned long) memory.count, (unsigned long) reads.count,
                        (unsigned long) writes.count);
    if (write(file, text, size) < 0) abort();
    close(file);
}
void _exit(int status) {
    tell();
    for (;;) syscall(SYS_exit_group, status);
}
"""

# What a run is made to lack: its variable above, and its name where a fault is told.
MEMORY, READ, WRITE = range(3)
VARIABLES = ["REFUSE_AT", "READ_AT", "WRITE_AT"]
NAMES = ["allocation", "read", "write"]


class Refusing:
    """The library, built in a folder, and what a program is started with so that one of its calls fails."""

    def __init__(self, folder):
        self.folder, self.count_file = folder, f"{folder}/count"
        with open(f"{folder}/refuse.c", "w") as out:
            out.write(LIBRARY)
        self.library = f"{folder}/refuse.so"
        subprocess.run(["gcc", "-O1", "-shared", "-fPIC", "-o", self.library, f"{folder}/refuse.c"], check=True)

    def environment(self, kind, number):
        """That of a run in which the call of this kind and number fails, from 1; 0 is none."""
        if os.path.exists(self.count_file):
            os.remove(self.count_file)
        return {"LD_PRELOAD": self.library, "REFUSE_COUNT": self.count_file, VARIABLES[kind]: str(number)}

    def counted(self, kind):
        """How many calls of this kind the run made that ended last."""
        return int(open(self.count_file).read().split()[kind])

    def each(self, kind, run, is_right):
        """Runs with nothing failing, and then so often as that run makes calls of this kind, each time with one of them failing.
        `run` makes a run in an environment, and gives what is seen of it; `is_right` says of that, and of the number of the
        call, what is wrong with it. Gives what was seen of each run in which one failed, and what was wrong."""
        fault = is_right(run(self.environment(kind, 0)), 0)
        if fault:
            return [], [f"with nothing failing: {fault}"]
        count = self.counted(kind)
        all_seen, faults = [], []
        for number in range(1, count + 1):
            seen = run(self.environment(kind, number))
            all_seen.append(seen)
            fault = is_right(seen, number)
            if fault:
                faults.append(f"{NAMES[kind]} {number} of {count}: {fault}")
        return all_seen, faults


def ended(words, data, environment, seconds=60):
    """How a program ended: its status (negative: the signal that ended it; None: it had no end), and what it wrote. Its input is a
    file, and no pipe, so that it makes as many reads each time."""
    with tempfile.TemporaryFile() as file:
        file.write(data)
        file.seek(0)
        try:
            done = subprocess.run(words, stdin=file, stdout=subprocess.PIPE, stderr=subprocess.DEVNULL, timeout=seconds,
                                  env=environment)
        except subprocess.TimeoutExpired:
            return None, ""
        return done.returncode, done.stdout.decode("latin-1")


def told(status, text):
    return "no end" if status is None else f"status {status}, {text[-60:]!r}"
