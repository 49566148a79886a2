"""Decides a long run in parts, by several processes of the program.

    checked = check(program, file, jobs)
    checked.output, checked.status
    write_parts(program, file, jobs, folder)        # leaves the parts in files, and judges none

`local_parts.py` makes the parts, and `judge` decides each of them. Here the verdict on the whole is chosen.
"""
import array
import collections
import concurrent.futures
import contextlib
import errno
import itertools
import operator
import os
import queue
import shutil
import stat
import tempfile

from local_parts import LOCAL_STYLES, OF_OBJECT, ByIds, ByObject, NoParts, members_of, read_header
from verified_program import ask, ask_in_pieces, read_report

CHUNK = 1 << 20
# So many chunks may wait for a process.
WAITING = 8
# So many first bytes show how many operations each object has.
SAMPLE = 1 << 22
# The rules of the steps of an `op`, in their order.
ORDER = ("PULL", "APP", "PUSH")
# The last criterion of each rule that speaks of no object.
LAST_OF_BOOKKEEPING = {"START": 1, "BEGIN": 2, "APP": 3, "CMT": 2}


class Whole:
    """The verdict on a run that was judged whole. `why` says why it has no parts."""

    def __init__(self, report, why):
        self.report = report
        self.status = report.answer.status
        self.why = why

    @property
    def output(self):
        is_fault = self.report.verdict == "fault"
        return self.report.answer.output + (b"" if is_fault else f"judged whole: {self.why}\n".encode())


class InParts:
    """The verdict on a run that was judged in parts. `found` is what decides, or None if all parts are accepted."""

    def __init__(self, count, found=None):
        self.count = count
        self.found = found
        self.status = 0 if found is None else found.report.answer.status

    @property
    def output(self):
        parts = f"local: {self.count} parts"
        if self.found is None:
            lines = ["accepted", parts]
        elif self.found.report.verdict == "fault":
            lines = self.found.report.lines
        else:
            lines = [*self.found.rejection, parts, f"rejected: {self.found.place}"]
        return "".join(line + "\n" for line in lines).encode()


class Found:
    """The report on one part. `group` has the names of its objects, or is None for the part of the bookkeeping."""

    def __init__(self, report, group):
        self.report = report
        self.group = group

    @property
    def rejection(self):
        """The lines of a rejection, without the number of the step: it counts the steps of the part."""
        line = "rejected line {line} {rule} {criterion}".format_map(self.report.fields)
        return [line, *self.report.lines[1:]]

    @property
    def is_of_bookkeeping(self):
        return self.report.criterion <= LAST_OF_BOOKKEEPING.get(self.report.rule, 1)

    @property
    def place(self):
        return "the bookkeeping" if self.is_of_bookkeeping else f"the object {' '.join(self.group)}"

    @property
    def order(self):
        """Of two rejections of one `op`, the first step and criterion is the one that counts."""
        rule = self.report.rule
        return ORDER.index(rule) if rule in ORDER else 0, self.report.criterion


class Written:
    """A file in the place of a queue."""

    def __init__(self, file):
        self.put = file.write


class Run:
    """A file with a run, which can be read several times. If the file cannot, it is copied first."""

    def __init__(self, file):
        self.file = file
        if not stat.S_ISREG(os.fstat(file.fileno()).st_mode):
            self.file = tempfile.TemporaryFile()
            shutil.copyfileobj(file, self.file, CHUNK)
            self.file.seek(0)
        self.begin = os.lseek(self.file.fileno(), 0, os.SEEK_CUR)

    def whole(self):
        """The file, at its beginning."""
        os.lseek(self.file.fileno(), self.begin, os.SEEK_SET)
        return self.file

    def first(self, size):
        return os.pread(self.file.fileno(), size, self.begin)

    def lines_after(self, size):
        """All after so many bytes, in texts of whole lines."""
        place, begun = self.begin + size, []
        while data := os.pread(self.file.fileno(), CHUNK, place):
            place += len(data)
            lines, end, rest = data.rpartition(b"\n")
            if end:
                yield b"".join((*begun, lines, end))
                begun = []
            begun.append(rest)
        if any(begun):
            yield b"".join(begun)

    def line(self, number):
        """The line of this number."""
        before = 0
        for text in self.lines_after(0):
            count = text.count(b"\n")
            if number <= before + count or not text.endswith(b"\n"):
                return text.split(b"\n")[number - before - 1]
            before += count
        return b""


def check(program, file, jobs):
    """The verdict on a run, as Whole or InParts. Raises NoProgram and ProgramFailed."""
    run = Run(file)
    try:
        return Checker(program, run, judged_header(program, run)).check(jobs)
    except NoParts as why:
        return Whole(read_report(ask(program, ["judge"], run.whole())), why)


def write_parts(program, file, count, folder):
    """Writes the parts of a run to a folder, and returns their paths. Raises NoParts, NoProgram, ProgramFailed and OSError."""
    run = Run(file)
    checker = Checker(program, run, judged_header(program, run))
    split = ByObject(checker.header, checker.balanced(min(count, len(checker.header.objects))))
    with new_files(folder) as paths:
        paths += [os.path.join(folder, f"part_{place}.jsonl") for place in range(1, len(split.groups) + 1)]
        repeated = repeated_in(checker.write(split, paths))
        if repeated:
            paths.append(os.path.join(folder, "bookkeeping.jsonl"))
            checker.write(ByIds(checker.header, repeated), paths[-1:])
    return paths


@contextlib.contextmanager
def new_files(folder):
    """A list for the paths of new files, in a folder that is made or must be empty.

    If something fails, the files are removed, and so is the folder if it was made. Raises OSError.
    """
    is_new, paths = not os.path.isdir(folder), []
    os.makedirs(folder, exist_ok=True)
    if os.listdir(folder):
        raise OSError(errno.ENOTEMPTY, os.strerror(errno.ENOTEMPTY))
    try:
        yield paths
    except BaseException:
        for path in paths:
            with contextlib.suppress(FileNotFoundError):
                os.unlink(path)
        if is_new:
            os.rmdir(folder)
        raise


def judged_header(program, run):
    """The header of a run, if `judge` finds no fault in it and the law is about its style. Raises NoParts if not."""
    header = read_header(run.first(SAMPLE))
    if header is None or read_report(ask(program, ["judge"], header.data)).verdict == "fault":
        raise NoParts("there is no header without a fault")
    if header.style not in LOCAL_STYLES:
        raise NoParts(f"style {header.style}")
    return header


class Checker:
    """What the parts of one run have in common."""

    def __init__(self, program, run, header):
        self.program = program
        self.run = run
        self.header = header

    def check(self, jobs):
        """The verdict, by at most so many parts. Raises NoParts."""
        groups = self.balanced(min(jobs, len(self.header.objects)))
        if len(groups) < 2:
            raise NoParts("there is one part")
        parts, repeated = self.judge(ByObject(self.header, groups))
        faults = [found for found in parts if found.report.verdict == "fault"]
        if faults:
            return InParts(len(groups), min(faults, key=lambda found: found.report.line))
        bookkeeping = self.judge(ByIds(self.header, repeated))[0] if repeated else []
        found = self.first_rejection(bookkeeping, parts)
        return InParts(len(groups), self.at_object(found, jobs) if found is not None else None)

    def balanced(self, count):
        """So many groups of objects. By the first lines of the run, they have about as many operations each."""
        pieces = self.run.first(SAMPLE).split(b'"on":')[1:]
        counts = collections.Counter(piece[:32].strip().strip(b'"').partition(b'"')[0] for piece in pieces)
        groups, sizes = [[] for _ in range(count)], [0] * count
        for name in sorted(self.header.objects, key=lambda name: -counts[name.encode()]):
            part = sizes.index(min(sizes))
            groups[part].append(name)
            sizes[part] += counts[name.encode()] + 1
        return [[name for name in self.header.objects if name in group] for group in groups]

    def judge(self, split):
        """What `judge` finds in each part, and the ids that come more than once. Raises NoParts."""
        queues = [queue.Queue(WAITING) for _ in split.groups]
        with concurrent.futures.ThreadPoolExecutor(len(queues)) as pool:
            judged = [pool.submit(judge_part, self.program, iter(waiting.get, None)) for waiting in queues]
            try:
                ids, has_unreadable = self.feed(queues, split)
            finally:
                for waiting in queues:
                    waiting.put(None)
        found = [Found(report.result(), group) for report, group in zip(judged, split.groups)]
        if has_unreadable and all(part.report.verdict != "fault" for part in found):
            raise NoParts("a line has no fault, but cannot be read")
        return found, repeated_in(ids)

    def write(self, split, paths):
        """Writes each part to a file. Returns the ids. Raises NoParts."""
        with contextlib.ExitStack() as files:
            ids, has_unreadable = self.feed([Written(files.enter_context(open(path, "wb"))) for path in paths], split)
        if has_unreadable:
            raise NoParts("a line is no record, or on no object of the header")
        return ids

    def feed(self, queues, split):
        """Puts the lines of each part into its queue. Returns the ids, and whether a line is no record."""
        for waiting, text in zip(queues, split.first_lines()):
            waiting.put(text)
        ids, has_unreadable = array.array("I", split.start_ids), False
        for lines in self.run.lines_after(len(self.header.data)):
            pieces = split.pieces(lines)
            ids.extend(pieces.ids)
            has_unreadable |= pieces.has_unreadable
            for waiting, text in zip(queues, pieces.texts):
                waiting.put(text)
        return ids, has_unreadable

    def first_rejection(self, bookkeeping, parts):
        """What is rejected first in the run, or None. Raises NoParts."""
        rejected = [found for found in (*bookkeeping, *parts) if found.report.verdict == "rejected"]
        if not rejected:
            return None
        line = min(found.report.line for found in rejected)
        first = [found for found in rejected if found.report.line == line]
        of_parts = [found for found in first if found.group is not None]
        if len({tuple(found.rejection) for found in of_parts}) > 1:
            of_parts = [self.first_of(of_parts)]
        of_bookkeeping = [found for found in first if found.group is None]
        return min((*of_bookkeeping, *of_parts), key=lambda found: found.order)

    def first_of(self, parts):
        """Which of some parts that are rejected on one line comes first: what all their objects together show."""
        names = [name for found in parts for name in found.group]
        together, = self.judge(ByObject(self.header, [names]))[0]
        for found in parts:
            if together.report.verdict == "rejected" and found.rejection == together.rejection:
                return found
        raise NoParts("the parts do not agree")

    def at_object(self, found, jobs):
        """A rejection of a part, as that of one of its objects. Raises NoParts."""
        if found.is_of_bookkeeping:
            return found
        members = members_of(self.run.line(found.report.line)) or {}
        if found.report.rule != "START" and members.get("step") in OF_OBJECT:
            return Found(found.report, [members["on"]])
        while len(found.group) > 1:
            found = self.at_fewer(found, min(jobs, len(found.group)))
        return found

    def at_fewer(self, found, count):
        """The same rejection, in one of so many parts of the part. Raises NoParts."""
        for part in self.judge(ByObject(self.header, [found.group[place::count] for place in range(count)]))[0]:
            if part.report.verdict == "rejected" and part.rejection == found.rejection:
                return part
        raise NoParts("the parts do not agree")


def judge_part(program, texts):
    """The report of `judge` on these texts."""
    try:
        return read_report(ask_in_pieces(program, ["judge"], texts))
    finally:
        collections.deque(texts, 0)     # if the program failed, the feeder must not wait for it


def repeated_in(ids):
    """The ids that come more than once."""
    if all(map(operator.lt, ids, itertools.islice(ids, 1, None))):
        return set()
    ids = sorted(ids)
    return {number for number, after in zip(ids, ids[1:]) if number == after}
