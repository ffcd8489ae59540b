#!/usr/bin/env python3
"""Makes each call of the built program that asks for memory fail in turn, for each command over the examples and
over texts of the script of `crates/worked_rows`: the answer has to be the right one, or want of memory with
nothing written; by `run` and `exec`, which write window by window, with the first windows of what is right.
Then each start of a thread fails in turn, and then all of them: the answer has to be the right one, since the
other threads drive all groups. Prints a line a command with the number of its calls; ends with status 1 if
an answer is wrong, or if no call for memory or no start of a thread was seen.

A small library in C, compiled with `cc` and loaded before the C
library, lets the Nth call of a kind fail: `malloc`, `calloc`, `realloc`, `aligned_alloc`, `posix_memalign`
and `mmap` ask for memory, `pthread_create` starts a thread. What the C library asks of itself is not seen. The
unproved program of `./build --quick` has an allocator of its own: over it no call for memory is seen, and the
script ends with status 1."""
import concurrent.futures
import os
import subprocess
import sys
import tempfile
import threading

from plain.script import Script

TOP = os.path.dirname(os.path.dirname(os.path.realpath(__file__)))
sys.path.append(f"{TOP}/tools")
from command_line import built_program, need_command, parser, positive, run

# The program that is run, as `main` finds it.
PROGRAM = None
WANT = (9, b"out of memory\n")
WINDOW = 256
LIBRARY = r"""
#define _GNU_SOURCE
#include <dlfcn.h>
#include <errno.h>
#include <fcntl.h>
#include <pthread.h>
#include <stdatomic.h>
#include <stdio.h>
#include <stdlib.h>
#include <string.h>
#include <sys/mman.h>
#include <unistd.h>
/* For each kind the calls so far, and which one fails: 0 for none, -1 for all. Threads may ask at once. */
enum { MEMORY, THREADS };
static const char *const names[] = { "FAILING_CALL", "FAILING_START" };
static atomic_long calls[2];
static int fails(int kind) {
    const char *number = getenv(names[kind]);
    long failing = number ? atol(number) : 0, call = atomic_fetch_add(&calls[kind], 1) + 1;
    return failing < 0 || call == failing;
}
#define NEXT(name) do { if (!next) *(void **)&next = dlsym(RTLD_NEXT, name); } while (0)
/* `dlsym` itself may ask for memory before the call that it looks for is known. */
static char early[8192];
static size_t early_used;
static int looking;
void *malloc(size_t n) {
    static void *(*next)(size_t);
    NEXT("malloc");
    return fails(MEMORY) ? (errno = ENOMEM, NULL) : next(n);
}
void *calloc(size_t count, size_t n) {
    static void *(*next)(size_t, size_t);
    if (!next && looking) {
        char *at = early + early_used;
        if (n && count > (sizeof early - early_used) / n) abort();
        early_used += (count * n + 15) / 16 * 16;
        return at;
    }
    looking = 1;
    NEXT("calloc");
    looking = 0;
    return fails(MEMORY) ? (errno = ENOMEM, NULL) : next(count, n);
}
void free(void *p) {
    static void (*next)(void *);
    if ((char *)p >= early && (char *)p < early + sizeof early) return;
    NEXT("free");
    next(p);
}
void *realloc(void *p, size_t n) {
    static void *(*next)(void *, size_t);
    NEXT("realloc");
    return fails(MEMORY) ? (errno = ENOMEM, NULL) : next(p, n);
}
void *aligned_alloc(size_t a, size_t n) {
    static void *(*next)(size_t, size_t);
    NEXT("aligned_alloc");
    return fails(MEMORY) ? (errno = ENOMEM, NULL) : next(a, n);
}
int posix_memalign(void **p, size_t a, size_t n) {
    static int (*next)(void **, size_t, size_t);
    NEXT("posix_memalign");
    return fails(MEMORY) ? ENOMEM : next(p, a, n);
}
void *mmap(void *p, size_t n, int protection, int flags, int file, off_t at) {
    static void *(*next)(void *, size_t, int, int, int, off_t);
    NEXT("mmap");
    return fails(MEMORY) ? (errno = ENOMEM, MAP_FAILED) : next(p, n, protection, flags, file, at);
}
void *mmap64(void *p, size_t n, int protection, int flags, int file, off_t at) {
    return mmap(p, n, protection, flags, file, at);
}
int pthread_create(pthread_t *thread, const pthread_attr_t *how, void *(*body)(void *), void *given) {
    static int (*next)(pthread_t *, const pthread_attr_t *, void *(*)(void *), void *);
    NEXT("pthread_create");
    return fails(THREADS) ? EAGAIN : next(thread, how, body, given);
}
static void __attribute__((destructor)) tell(void) {
    char text[64];
    const char *path = getenv("CALLS_FILE");
    int file = path ? open(path, O_WRONLY | O_TRUNC | O_CREAT, 0600) : -1;
    if (file >= 0) {
        int n = snprintf(text, sizeof text, "%ld %ld", (long)calls[MEMORY], (long)calls[THREADS]);
        if (write(file, text, n) < 0) abort();
        close(file);
    }
}
/* The program may end by this call, which runs no destructor. */
void _exit(int status) {
    static void (*next)(int);
    tell();
    NEXT("_exit");
    next(status);
    __builtin_unreachable();
}
"""
# An architecture and tables beside those of the script, and what is called: the words, after a call of the script that
# has the files. The first texts have two operators, then come cases with a delay, both over three windows too, a
# repetition over three operators, and a quoted table.
OWN = {
    "cases.one": "architecture 1\noperator P\n" + "".join(
        f"duration {it} P 1\n" for it in ("Sense", "Act", "Same", "Neg", "Add")),
    "quoted.two": 'k,s.0\r\n0,"5"\r\n1,-1\r\n',
    "windows": "k,s.0\n" + "".join(f"{k},{k}\n" for k in range(600)),
}
CALLED = [
    ("syndex exec functions bus code table", [
        "check functions bus", "sim functions table", "flat functions", "chart functions bus", "code functions bus",
        "run functions bus table", "run functions bus windows --workers 3", "exec functions bus code table",
        "exec functions bus code windows --workers 1", "dates functions bus bus 3"]),
    ("syndex sim cases chosen", [
        "check cases cases.one", "sim cases chosen", "flat cases", "run cases cases.one chosen",
        "run cases cases.one windows"]),
    ("syndex run chain three quad", [
        "check chain three", "sim chain quad", "flat chain", "code chain three", "run chain three quad"]),
    ("syndex sim plain table", ["sim plain quoted.two", "sim plain quoted.one"]),
]


def written(room, name, text):
    """The file of this name and text, or where no text is the name itself, which is no file then."""
    if text is None:
        return name
    with open(f"{room}/{name}", "wb") as it:
        it.write(text)
    return f"{room}/{name}"


def code_of(room, name, words):
    """The file of the macro-code that the program writes for an example."""
    file = f"{room}/{name}.code"
    with open(file, "wb") as it:
        subprocess.run([PROGRAM, "code", *words], stdout=it, stdin=subprocess.DEVNULL, check=True)
    return file


def commands(room):
    """The words of each command over each example, and some that are refused."""
    for name in sorted(os.listdir(f"{TOP}/examples")):
        a, h, s = (f"{TOP}/examples/{name}/{it}" for it in ("algorithm.txt", "architecture.txt", "sensors.csv"))
        yield ["check", a]
        yield ["flat", a]
        for other, words in ((h, ["check", a, h]), (s, ["sim", a, s]), (h, ["chart", a, h]), (h, ["code", a, h])):
            if os.path.exists(other):
                yield words
        if os.path.exists(h) and os.path.exists(s):
            yield ["run", a, h, s, "--workers", "2"]
            yield ["exec", a, h, code_of(room, name, [a, h]), s, "--workers", "2"]
            yield ["exec", a, h, h, s]
            yield ["dates", a, h, h, "3"]
            yield ["dates", a, h, a, "3"]
            yield ["sim", a, h]
    yield from (["check", "absent"], ["load", "1"], ["load", "0"], ["help"], [])


def rows(room):
    """The words of each command over texts of the script, with the files of one of its calls."""
    script = Script(f"{TOP}/crates/worked_rows")
    own = {name: text.encode() for name, text in OWN.items()}
    for shown, all_words in CALLED:
        files = {**next(call for call in script.calls if call.shown == shown).files, **own}
        for words in all_words:
            name, *rest = words.split()
            # The script has files whose names look like options; here these are options.
            yield [name, *(it if it.startswith("-") else written(room, it, files.get(it)) for it in rest)]


class Runs:
    """Runs of the program with the library in front."""

    def __init__(self, room, jobs):
        self.room, self.library = room, f"{room}/failing.so"
        self.pool = concurrent.futures.ThreadPoolExecutor(jobs)
        with open(f"{room}/failing.c", "w", encoding="utf-8") as it:
            it.write(LIBRARY)
        subprocess.run(["cc", "-O1", "-shared", "-fPIC", "-o", self.library, f"{room}/failing.c", "-ldl"], check=True)

    def answer(self, words, failing=0, start=0):
        """The status, the output and the line of a run in which these calls fail, and how many it made of each kind."""
        count = f"{self.room}/calls-{threading.get_ident()}"
        env = {**os.environ, "LD_PRELOAD": self.library, "CALLS_FILE": count}
        env.update(FAILING_CALL=str(failing), FAILING_START=str(start))
        done = subprocess.run([PROGRAM, *words], capture_output=True, env=env, stdin=subprocess.DEVNULL, check=False)
        with open(count, encoding="ascii") as it:
            calls, starts = map(int, it.read().split())
        return (done.returncode, done.stdout, done.stderr), calls, starts

    def where_each_fails(self, words, calls):
        """The answer where the first call for memory fails, where the second one does, and so on."""
        return self.pool.map(lambda number: self.answer(words, failing=number)[0], range(1, calls + 1))


def windows(words, output):
    """What may stand where memory ran out: nothing, and by `run` and `exec` the macro-code and whole windows."""
    if words[:1] not in (["run"], ["exec"]):
        return [b""]
    code, empty, rest = output.rpartition(b"\n\n") if words[0] == "run" else (b"", b"", output)
    parts = [b"", code + empty]
    for line in rest.splitlines(keepends=True):
        if len(parts) - 2 < int(line.split()[0]) // WINDOW + 1:
            parts.append(parts[-1])
        parts[-1] += line
    return parts[:-1]


def is_want(words, got, right):
    """Whether this is want of memory, with nothing written but what the command may write before it."""
    status, output, line = got
    return (status, line) == WANT and output in windows(words, right[1])


def shown(words):
    """The words, each file by its last part, or by its place in the examples."""
    top = f"{TOP}/examples"
    return " ".join(os.path.relpath(it, top) if it.startswith(top) else os.path.basename(it) for it in words)


def tried(runs, words):
    """How many answers are wrong where each call of the program fails in turn, how many calls for memory it made,
    and how many threads it started."""
    right, calls, starts = runs.answer(words)
    wants = wrong = 0
    for number, got in enumerate(runs.where_each_fails(words, calls), start=1):
        wanted = is_want(words, got, right)
        wants += wanted
        if got != right and not wanted:
            wrong += 1
            print(f"WRONG where call {number} for memory fails: {shown(words)}: {got}")
    for number in [*range(1, starts + 1), -1] if starts else []:
        got = runs.answer(words, start=number)[0]
        if got != right:
            wrong += 1
            print(f"WRONG where {'each' if number < 0 else number} start of a thread fails: {shown(words)}: {got}")
    print(f"{shown(words)}: status {right[0]}, {calls} calls, {wants} want memory, {calls - wants} answer as ever;"
          f" {starts} threads", flush=True)
    return wrong, calls, starts


def options():
    """The program, how many runs are made side by side, and which commands are tried."""
    words = parser(__doc__)
    program = "the program, the one that ./build makes if left out"
    words.add_argument("program", nargs="?", metavar="PROGRAM", help=program)
    words.add_argument("--jobs", type=positive, default=1, metavar="N", help="how many runs are made side by side")
    words.add_argument("--only", default="", metavar="WORD", help="try only the commands whose line has this word")
    return words.parse_args()


def main():
    global PROGRAM
    given = options()
    PROGRAM = built_program(named=given.program)
    need_command("cc", "a C compiler")
    wrong = calls = threads = 0
    with tempfile.TemporaryDirectory() as room:
        runs = Runs(room, given.jobs)
        for words in [it for it in [*commands(room), *rows(room)] if given.only in shown(it)]:
            bad, asked, starts = tried(runs, words)
            wrong, calls, threads = wrong + bad, calls + asked, threads + starts
    print(f"{wrong} wrong answers, {calls} calls for memory, {threads} starts of threads")
    return 1 if wrong or not calls or not threads else 0


if __name__ == "__main__":
    run(main)
