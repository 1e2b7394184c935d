"""Runs a program with its calls of the system refused: requests for memory, reads and writes. To give back a part of what is there
is no request: a program may go on where that is refused."""
import os
import subprocess

KINDS = ("memory", "reads", "writes")

REFUSER = r"""
#define _GNU_SOURCE
#include <dlfcn.h>
#include <errno.h>
#include <malloc.h>
#include <stdlib.h>
#include <string.h>
#include <sys/syscall.h>
#include <unistd.h>

/* KIND is memory, reads or writes. REFUSE=N refuses the Nth call of that kind, and REFUSE=N.. all from it on; COUNT=FD gets a byte
   for each. BYTEWISE has reads and writes move one byte. */
enum kind { MEMORY, READS, WRITES, NONE };
static const char *const names[] = {"memory", "reads", "writes"};
static enum kind chosen = NONE;
static long asked, first, last, fd = -1, bytewise, begun;

static void begin(void) {
    const char *word = getenv("KIND");
    begun = 1;
    for (int i = 0; word && i < NONE; i++)
        if (!strcmp(word, names[i])) chosen = i;
    if ((word = getenv("REFUSE"))) {
        first = last = atol(word);
        if (strstr(word, "..")) last = __LONG_MAX__;
    }
    if ((word = getenv("COUNT"))) fd = atol(word);
    bytewise = getenv("BYTEWISE") != 0;
}

static int refused(enum kind kind, int error) {
    if (!begun) begin();
    if (kind != chosen) return 0;
    asked++;
    if (fd >= 0 && syscall(SYS_write, fd, "", 1) != 1) _exit(99);
    if (asked < first || last < asked) return 0;
    errno = error;
    return 1;
}

#define NEXT(name) static __typeof__(&name) next; if (!next) next = (__typeof__(&name))dlsym(RTLD_NEXT, #name)

void *malloc(size_t size) {
    NEXT(malloc);
    return refused(MEMORY, ENOMEM) ? 0 : next(size);
}

void *realloc(void *old, size_t size) {
    NEXT(realloc);
    int less = old && size <= malloc_usable_size(old);
    return !less && refused(MEMORY, ENOMEM) ? 0 : next(old, size);
}

ssize_t read(int from, void *to, size_t size) {
    NEXT(read);
    return refused(READS, EIO) ? -1 : next(from, to, bytewise && size ? 1 : size);
}

ssize_t getdents64(int from, void *to, size_t size) {
    NEXT(getdents64);
    return refused(READS, EIO) ? -1 : next(from, to, size);
}

ssize_t write(int to, const void *from, size_t size) {
    NEXT(write);
    /* what is told on standard error stays */
    return to != 2 && refused(WRITES, EIO) ? -1 : next(to, from, bytewise && size ? 1 : size);
}
"""


class Refuser:
    """A library that is loaded before the C library and refuses calls. It is built in a folder, by a C compiler named `cc`."""

    def __init__(self, place):
        source = os.path.join(place, "refuser.c")
        with open(source, "w") as f:
            f.write(REFUSER)
        self.library = os.path.join(place, "refuser.so")
        subprocess.run(["cc", "-O1", "-shared", "-fPIC", "-o", self.library, source, "-ldl"], check=True)

    def run(self, words, folder, given=os.devnull, **how):
        """A run in a folder that reads the file `given`, with some of KIND, REFUSE, COUNT and BYTEWISE."""
        env = {**os.environ, "LD_PRELOAD": self.library, **how} if how else None
        with open(os.path.join(folder, given), "rb") as text:
            return subprocess.run(words, stdin=text, capture_output=True, cwd=folder, env=env, timeout=60)

    def texts(self, words, folder, kind, given=os.devnull, **how):
        """What is on standard output before each call of a kind that a run makes, in the order of the calls."""
        pieces = self.run(words, folder, given, KIND=kind, COUNT="1", **how).stdout.split(b"\0")
        texts = [b""]
        for piece in pieces[:-1]:
            texts.append(texts[-1] + piece)
        return texts[1:]


def points(count, every=1):
    """What REFUSE says to refuse each of so many calls, alone and with all that follow; or every so many'th, and the last."""
    told = [point for point in range(1, count + 1) if point % every == 1 % every or point == count]
    return [(point, f"{point}{more}") for point in told for more in ("", "..")]
