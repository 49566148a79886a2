"""Which committed transaction must come before which, and why.

A *version* of a place is what one committed transaction left there last. The versions of a place are in the order in
which they were published, after what was there at the beginning. Each transaction that looks at a place read one
version of it. So it comes after who left that version, and before who left the next one.
"""
import bisect
import itertools

from recorded_run import COMMITTED
from sequential import EMPTY_VALUES, found_by, writes, written_value

ORDER_KINDS = ("mem", "map", "set")
READ_FROM, OVERWROTE, WROTE_BEFORE = "read from", "overwrote", "wrote before"


class Committed:
    """A committed transaction: its attempt that committed, and those of its calls that were not taken back.

    `number` counts the committed transactions in commit order, from 0.
    """

    def __init__(self, number, attempt, body):
        self.number = number
        self.name = attempt.transaction
        self.attempt = attempt
        self.body = body
        self.calls = [call for call in attempt.calls if call.taken_back_line is None]


class Version:
    """What a transaction left at a place, by its last call that wrote there.

    `writer` is None for what was there at the beginning. `line` is the line by which others could see the version.
    """

    def __init__(self, value, writer, call):
        self.value = value
        self.writer = writer
        self.call = call
        self.line = 0 if writer is None else published_line(call)


class History:
    """The versions of a place in their order."""

    def __init__(self, first):
        self.versions = [first]
        self.lines = []             # of each version, once they are in their order
        self.own_indexes = {}       # the index of the version of each transaction, by its number
        self.indexes = {}           # the indexes of the versions with a value, in their order

    def finish(self):
        """Puts the versions in their order, when all are there."""
        self.versions[1:] = sorted(self.versions[1:], key=lambda version: version.line)
        self.lines = [version.line for version in self.versions]
        self.own_indexes = {version.writer.number: index for index, version in enumerate(self.versions) if version.writer}
        for index, version in enumerate(self.versions):
            self.indexes.setdefault(version.value, []).append(index)


class Read:
    """All that a transaction found at a place before it wrote there."""

    def __init__(self, reader, history):
        self.reader = reader
        self.history = history
        self.calls = []

    def candidate(self, rank):
        """The index of the version that it may have read, or None if fewer fit. Rank 0 is the likeliest: first come those
        that were published before the read, the latest first, then the others. The reader's own version is never one."""
        return next(itertools.islice(self.candidates(), rank, None), None)

    def candidates(self):
        found = [found_by(call) for call in self.calls]
        exact = next((one for one in found if not one.is_other), None)
        history, own = self.history, self.history.own_indexes.get(self.reader.number)
        indexes = range(len(history.versions)) if exact is None else history.indexes.get(exact.value, [])
        published = bisect.bisect_right(history.lines, self.calls[0].line)
        before = bisect.bisect_left(indexes, published)
        for place in itertools.chain(range(before - 1, -1, -1), range(before, len(indexes))):
            index = indexes[place]
            if index != own and all(one.matches(history.versions[index].value) for one in found):
                yield index


class Edge:
    """`before` must come before `after`: each is a committed transaction. `read` is the read that says so, or None."""

    def __init__(self, before, after, kind, first_call, second_call, read=None):
        self.before = before
        self.after = after
        self.kind = kind
        self.first_call = first_call
        self.second_call = second_call
        self.read = read

    @property
    def words(self):
        first, second = (f"{call.text} (line {call.line})" for call in (self.first_call, self.second_call))
        before, after = self.before.name, self.after.name
        return f"{before} before {after}: " + {
            READ_FROM: f"{after} saw {second}, which {before} left by {first}",
            OVERWROTE: f"{before} saw {first}, and {after} overwrote that by {second}",
            WROTE_BEFORE: f"{before} wrote {first}, and then {after} wrote {second}",
        }[self.kind]


class Dependencies:
    """The committed transactions of a run in commit order, the history of each place, and the reads."""

    def __init__(self, run):
        self.run = run
        self.transactions = committed_transactions(run)
        self.histories = {}
        self.reads = []
        self.add_start()
        for transaction in self.transactions:
            self.add_calls(transaction)
        for history in self.histories.values():
            history.finish()

    def history(self, call):
        if call.place not in self.histories:
            self.histories[call.place] = History(Version(EMPTY_VALUES[call.kind], None, None))
        return self.histories[call.place]

    def add_start(self):
        """The last call of the start that writes at a place leaves the version that is there at the beginning."""
        for call in self.run.start.attempts[0].calls if self.run.start is not None else ():
            if writes(call):
                self.histories[call.place] = History(Version(written_value(call), None, call))

    def add_calls(self, transaction):
        reads, written = {}, {}
        for call in transaction.calls:
            history = self.history(call)
            if call.place not in written and found_by(call) is not None:
                reads.setdefault(call.place, Read(transaction, history)).calls.append(call)
            if writes(call):
                written[call.place] = call
        self.reads.extend(reads.values())
        for call in written.values():
            self.history(call).versions.append(Version(written_value(call), transaction, call))

    def unexplained_read(self):
        """A read that no version fits, or None."""
        return next((read for read in self.reads if read.candidate(0) is None), None)

    def edges(self, ranks):
        """Who must come before whom. `ranks` has the rank of the candidate of each read that does not take the first one,
        by the index of the read."""
        for history in self.histories.values():
            for first, second in zip(history.versions, history.versions[1:]):
                if first.writer is not None:
                    yield Edge(first.writer, second.writer, WROTE_BEFORE, first.call, second.call)
        for number, read in enumerate(self.reads):
            yield from read_edges(read, read.candidate(ranks.get(number, 0)))


def read_edges(read, index):
    """The edges of a read that took the version with this index."""
    version, *later = read.history.versions[index:index + 2]
    if version.writer is not None:
        yield Edge(version.writer, read.reader, READ_FROM, version.call, read.calls[0], read)
    if later and later[0].writer is not read.reader:
        yield Edge(read.reader, later[0].writer, OVERWROTE, read.calls[0], later[0].call, read)


def published_line(call):
    """The line by which others could see a committed call."""
    return call.attempt.end_line if call.published_line is None else call.published_line


def committed_transactions(run):
    """The committed transactions but that of the start, in commit order."""
    bodies = {transaction.name: transaction.body for transaction in run.transactions.values()}
    attempts = [attempt for transaction in run.transactions.values() for attempt in transaction.attempts
                if attempt.end == COMMITTED and attempt.end_step is not None]
    attempts.sort(key=lambda attempt: attempt.end_line)
    return [Committed(number, attempt, bodies[attempt.transaction]) for number, attempt in enumerate(attempts)]


def call_of_other_kind(run):
    """A call of a kind that has no versions, or None."""
    return next((call for call in run.calls if call.kind not in ORDER_KINDS), None)
