"""The local logs and the shared log of a run, as they are before the step that the program rejects.

The steps are those that the program printed (`expand`), or the records themselves in style rules. Nothing is judged
here: every step before the rejected one is taken to meet its criteria, which is what the program said.
"""
import json

UNPUSHED, PUSHED, PULLED = "not published", "published", "taken over"


class Logs:
    """`local` has the local log of each open transaction, and `shared` the shared log, both by id in their order.

    An entry of a local log is a mark, and one of the shared log a call. `calls` has the call of each id that was used.
    `committed` has the ids of committed entries.
    """

    def __init__(self, run, first):
        self.calls = {}
        for call in run.calls:
            self.calls.setdefault(call.id, call)
        self.local = {}
        self.shared = {}
        self.committed = set()
        for call in first:
            self.shared[call.id] = call
            self.committed.add(call.id)
        self.methods = {
            "begin": self.begin, "app": self.app, "unapp": self.leave, "push": self.push, "unpush": self.unpush,
            "pull": self.pull, "unpull": self.leave, "cmt": self.commit, "quit": self.quit, "note": self.note,
        }

    def local_calls(self, transaction):
        """The calls of a transaction's local log, in its order."""
        return [self.calls[number] for number in self.local.get(transaction, {})]

    def shared_calls(self):
        return list(self.shared.values())

    def own_calls(self, transaction):
        """The own calls of a transaction's local log, in its order."""
        log = self.local.get(transaction, {})
        return [self.calls[number] for number, mark in log.items() if mark != PULLED]

    def take(self, step):
        """Does one step."""
        self.methods[step["step"]](step)

    def begin(self, step):
        self.local[step["tx"]] = {}

    def app(self, step):
        self.local[step["tx"]][step["id"]] = UNPUSHED

    def leave(self, step):
        del self.local[step["tx"]][step["id"]]

    def push(self, step):
        self.local[step["tx"]][step["id"]] = PUSHED
        self.shared[step["id"]] = self.calls[step["id"]]

    def unpush(self, step):
        self.local[step["tx"]][step["id"]] = UNPUSHED
        del self.shared[step["id"]]

    def pull(self, step):
        self.local[step["tx"]][step["id"]] = PULLED

    def commit(self, step):
        own = [number for number, mark in self.local.pop(step["tx"]).items() if mark != PULLED]
        self.committed.update(own)

    def quit(self, step):
        del self.local[step["tx"]]

    def note(self, step):
        pass


def expanded_steps(lines):
    """The steps that the program's `expand` printed, without the header."""
    return [json.loads(line) for line in lines[1:]]


def logs_before(run, first, steps):
    """The logs after these steps, from a start with the calls `first`."""
    logs = Logs(run, first)
    for step in steps:
        logs.take(step)
    return logs
