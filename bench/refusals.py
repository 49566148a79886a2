#!/usr/bin/env python3
"""Each allocation of the program refused in turn, on small inputs: it is to say so, or to answer as ever.

    python3 bench/refusals.py crates/pp_cli/out/pp_cli

The inputs are the files of `examples/`, the input of `pp_cli` and the runs written out below, each under each command
that reads one, the certificates that `swaps` writes of them, under `recheck`, and three drills. On each pair of an
input and a command the program runs once with nothing refused, and its allocations are counted; then once for each of
them, which alone is refused: it is to end with status 6 and no output, or with the status and the output of the first
run. Of more than 4,000 allocations the first 2,000 are refused, the last 2,000, and every 97th between. What differs is
told. The last line has the counts, and the status is 1 where any differ.

The program is to take its memory by `malloc` and the like from a glibc that it loads. LD_PRELOAD puts a library that
`cc` makes here in front, which refuses one. What is allocated before that library's own start is neither counted nor
refused; what libc takes for itself later, as a buffer of its stdio, would be both, but the program has it take none.
"""
import collections
import concurrent.futures
import glob
import os
import subprocess
import sys
import tempfile

from measure import app, begin, cmt, named, program_named, write

SHIM = r"""
#include <errno.h>
#include <fcntl.h>
#include <stdlib.h>
#include <unistd.h>

void *__libc_malloc(size_t), *__libc_calloc(size_t, size_t), *__libc_realloc(void *, size_t);
void *__libc_memalign(size_t, size_t);
static unsigned long made, refused;

static int refuse(void) {
    if (++made == refused) errno = ENOMEM;
    return made == refused;
}

void *malloc(size_t size) { return refuse() ? NULL : __libc_malloc(size); }
void *calloc(size_t count, size_t size) { return refuse() ? NULL : __libc_calloc(count, size); }
void *realloc(void *old, size_t size) { return refuse() ? NULL : __libc_realloc(old, size); }
void *aligned_alloc(size_t alignment, size_t size) { return refuse() ? NULL : __libc_memalign(alignment, size); }
int posix_memalign(void **place, size_t alignment, size_t size) {
    void *block = aligned_alloc(alignment, size);
    if (block) *place = block;
    return block ? 0 : ENOMEM;
}

__attribute__((constructor)) static void start(void) {
    made = 0;
    refused = strtoul(getenv("REFUSED"), NULL, 10);
}
__attribute__((destructor)) static void end(void) {
    if (!refused && write(creat(getenv("COUNTED"), 0600), &made, sizeof made) != sizeof made) abort();
}
"""
COMMANDS = ("certify", "expand", "judge", "quick", "swaps", "views", "recheck", "focus c", "focus m")
DRILLS = ("drill 1", "drill 2", "drill 7")
AT_ONCE, MOST_SECONDS = 2, 60
AT_THE_ENDS, STRIDE = 2_000, 97
ANSWERED, REFUSED = (0, 1, 3), (6, b"")


def run(style, kind, *records):
    """A run over one object of this kind."""
    return [{"run": 1, "style": style, "objects": [{"name": kind[0], "kind": kind}]}, *records]


def op(*call):
    return {**app(*call), "step": "op"}


def of(step, tx):
    return {"step": step, "tx": tx}


def added(number, argument):
    return app("t1", number, "add", [argument], None, "c")


def bodied(body, *records):
    """A run over a counter, whose transaction has this body and adds 1 first."""
    return run("rules", "counter", {**begin("t1"), "body": body}, added(1, 1), *records)


ADD, GET = {"on": "c", "call": "add", "args": [None]}, {"on": "c", "call": "get", "args": []}
GOT, PUSHED = app("t1", 2, "get", [], 1, "c"), named("push", "t1", 1)
WITHDRAWN = [
    begin("t1"), app("t1", 1, "write", [0, 7], None, "m"), PUSHED, begin("t2", "p2"), named("pull", "t2", 1),
    app("t2", 2, "read", [0], 7, "m"), named("unpush", "t1", 1), named("unapp", "t1", 1)]
DEPENDENT = [
    begin("t1"), op("t1", 1, "write", [0, 5], None, "m"), of("publish", "t1"), begin("t2", "p2"),
    {**of("depend", "t2"), "source": "t1"}, op("t2", 2, "read", [0], 5, "m")]
RUNS = {
    "a read of what was withdrawn": run("rules", "mem", *WITHDRAWN, cmt("t2")),
    "a pull of what was withdrawn": run("rules", "mem", *WITHDRAWN, named("unapp", "t2", 2), cmt("t2")),
    "a body of additions": bodied({"star": ADD}, added(2, 2), PUSHED, named("push", "t1", 2), cmt("t1")),
    "a call that a body does not allow": bodied({"star": ADD}, GOT),
    "a body of two ways": bodied(
        {"alt": [{"seq": [ADD, GET]}, {"seq": [ADD, ADD]}]}, GOT, named("unapp", "t1", 2), added(3, 1), PUSHED,
        named("push", "t1", 3), cmt("t1")),
    "a commit before the end of a body": bodied({"seq": [ADD, GET]}, PUSHED, cmt("t1")),
    "an abort of boosted calls": run(
        "boosted", "set", begin("t1"), op("t1", 1, "add", [5], True, "s"), begin("t2", "p2"),
        op("t2", 2, "add", [7], True, "s"), of("commit", "t2"), op("t1", 3, "contains", [7], True, "s"),
        of("abort", "t1")),
    "a hardware transaction tried twice": run(
        "hardware", "mem", begin("t1"), of("xbegin", "t1"), op("t1", 1, "read", [0], 0, "m"), begin("t2", "p2"),
        op("t2", 2, "write", [0, 1], None, "m"), of("commit", "t2"), of("xabort", "t1"), of("xbegin", "t1"),
        op("t1", 3, "read", [0], 1, "m"), of("xend", "t1"), of("commit", "t1")),
    "a commit before its source's": run("dependent", "mem", *DEPENDENT, of("commit", "t2")),
    "a commit behind its source's": run("dependent", "mem", *DEPENDENT, of("commit", "t1"), of("commit", "t2")),
    "a boosted addition": run("boosted", "counter", begin("t1"), {**added(1, 2), "step": "op"}, of("commit", "t1")),
}


def tried(count):
    """The numbers of the allocations that are refused, of so many."""
    if count <= 2 * AT_THE_ENDS:
        return range(1, count + 1)
    first, last = range(1, AT_THE_ENDS + 1), range(count - AT_THE_ENDS + 1, count + 1)
    return [*first, *range(first.stop, last.start, STRIDE), *last]


class Trials:
    """The trials of a program, and how many of its runs answered how."""

    def __init__(self, program, folder, pool):
        self.program, self.pool, self.counts = program, pool, collections.Counter()
        self.shim, self.counted = (os.path.join(folder, name) for name in ("shim.so", "counted"))
        make = ["cc", "-shared", "-fPIC", "-O2", "-x", "c", "-", "-o", self.shim]
        subprocess.run(make, input=SHIM.encode(), check=True)

    def answer(self, words, path, number):
        """The status and the output, the allocation of this number refused."""
        env = {**os.environ, "LD_PRELOAD": self.shim, "REFUSED": str(number), "COUNTED": self.counted}
        with open(path, "rb") as source:
            try:
                ran = subprocess.run([self.program, *words.split()], stdin=source, stdout=subprocess.PIPE, env=env,
                                     timeout=MOST_SECONDS, check=False)
            except subprocess.TimeoutExpired as late:
                return "none in time", late.stdout
        return ran.returncode, ran.stdout

    def unrefused(self, words, path):
        """The answer with nothing refused, and how many allocations were made."""
        open(self.counted, "wb").close()
        answer = self.answer(words, path, 0)
        with open(self.counted, "rb") as source:
            return answer, int.from_bytes(source.read(), sys.byteorder)

    def of_pair(self, name, words, path):
        """Refuses each allocation of a command on an input, and returns its answer where none is."""
        usual, count = self.unrefused(words, path)
        if usual[0] not in ANSWERED or not count:
            sys.exit(f"bench: {name}, {words}: status {usual[0]} and {count} allocations with nothing refused")
        self.counts["pairs"] += 1
        numbers = tried(count)
        answers = self.pool.map(lambda number: self.answer(words, path, number), numbers)
        for number, answer in zip(numbers, answers):
            kind = "refused" if answer == REFUSED else "usual" if answer == usual else "differ"
            self.counts.update(["runs", kind])
            if kind == "differ":
                print(f"{name}, {words}, allocation {number} of {count}:", *answer, "in place of", *usual, flush=True)
        return usual

    def of_input(self, name, path, certificate):
        """Tries each command, and `recheck` also on the certificate, which is written to this file."""
        for command in COMMANDS:
            status, text = self.of_pair(name, command, path)
            if command == "swaps" and status == 0:
                with open(certificate, "wb") as out:
                    out.write(text)
                self.of_pair(f"the certificate of {name}", "recheck", certificate)


def main():
    root = os.path.dirname(os.path.dirname(os.path.abspath(__file__)))
    files = [*sorted(glob.glob(f"{root}/examples/*.jsonl")), f"{root}/crates/pp_cli/stdin"]
    with tempfile.TemporaryDirectory() as folder, concurrent.futures.ThreadPoolExecutor(AT_ONCE) as pool:
        trials = Trials(program_named(), folder, pool)
        path, certificate = (os.path.join(folder, name) for name in ("run.jsonl", "certificate.jsonl"))
        for file in files:
            trials.of_input(os.path.relpath(file, root), file, certificate)
        for name, records in RUNS.items():
            write(path, records)
            trials.of_input(name, path, certificate)
        for words in DRILLS:
            trials.of_pair("no input", words, os.devnull)
    print("{runs} runs, each with one allocation refused, of {pairs} pairs of an input and a command: {refused} ended "
          "with status 6 and no output, {usual} as with none refused, {differ} differ".format_map(trials.counts))
    sys.exit(trials.counts["differ"] > 0)


if __name__ == "__main__":
    main()
