"""Why a call may not move past another one: the two in their order, turned, and the result that then differs."""
from explanation import Explanation
from phrases import named, with_fate
from recorded_run import Call, result_text
from sequential import Objects
from verified_program import operation_members

# Who the two calls of a pair are, in the order in which they must be turned.
STEP_FIRST = ("PUSH", 3)


class Pair(Explanation):
    """Two calls, the second of which may not move past the first, with operations around them that show it."""

    def __init__(self, case):
        super().__init__()
        first, second = (case.call, case.entry) if case.criterion == STEP_FIRST else (case.entry, case.call)
        kind = case.call.kind
        before, after = ([shown_call(text, kind) for text in texts] for texts in (case.evidence.before, case.evidence.after))
        for call in (case.call, case.entry):
            line = f"entry {call.id} is {named(call)}"
            self.add(line if call.transaction == case.transaction else with_fate(line, call, case.line), call)
        start = f"after {', '.join(call.text for call in before)}: " if before else "from the empty state: "
        tail = "".join(f", then {call.text}" for call in after)
        turned, verdict = turned_order(before, [second, first, *after])
        self.add(f"{start}{first.text}, then {second.text}{tail}: each result is right")
        self.add(f"{'turned:'.ljust(len(start))}{turned}: {verdict}")


def shown_call(text, kind):
    """A call that the program printed in its evidence. It is of no transaction."""
    return Call({"id": None, **operation_members(text)}, kind, None, None)


def turned_order(before, calls):
    """The calls in turned order as a text, and the first result that is wrong there."""
    objects = Objects()
    for call in before:
        objects.perform(call)
    shown = ", then ".join(call.text for call in calls)
    for call in calls:
        result = objects.perform(call)
        if result != call.result:
            return shown, f"{call.text.rpartition('=')[0]} returns {result_text(result)} and not {result_text(call.result)}"
    return shown, "a result differs"
