"""Why a call should have returned another result: who left what it found, and who left what it should have found."""
from explanation import Explanation
from phrases import by_whom, named, with_fate
from recorded_run import result_text
from sequential import PUTS, TAKES, Register, addition, changes, found_by, new_place, writes, written_value
from verified_program import result_of

SET_WORDS = {True: "present", False: "absent"}
MOST_NAMED = 3


class WrongResult(Explanation):
    """A call whose recorded result differs from what it returns in its log.

    `whole_log` has the calls of that log, and `removed` is the one that the step withdraws or gives up, or None.
    `log` has those before the call at its place, and `place` is what they leave there.
    """

    def __init__(self, case, whole_log, log_words, removed=None):
        super().__init__()
        self.run, self.line, self.call, self.log_words = case.run, case.line, case.entry, log_words
        self.gives = result_of(case.evidence.gives)
        self.removed = removed
        self.in_log = {call.id for call in whole_log if call is not removed}
        self.log = [call for call in up_to(whole_log, self.call) if call.place == self.call.place and call is not removed]
        self.place = new_place(self.call.kind)
        for call in self.log:
            self.place.perform(call)
        self.explain_call()
        if removed is not None:
            self.add(f"the step {'withdraws' if case.criterion[0] == 'UNPUSH' else 'gives up'} {named(removed)}", removed)
        if isinstance(self.place, Register):
            self.explain_register()
        elif self.call.kind == "counter":
            self.explain_counter()
        else:
            self.explain_items()
        self.explain_undone_change()

    def explain_call(self):
        where = "" if self.call.line == self.line else f" (line {self.call.line})"
        self.add(f"entry {self.call.id} is {self.call.text} of {self.call.transaction}{where}, "
                 f"which should have returned {result_text(self.gives)}", self.call)

    def say(self, what, call):
        """Adds a sentence that ends with a call and what became of it, and says if the log does not have it."""
        is_outside = call.id not in self.in_log and call is not self.removed
        outside = f" (it is not in {self.log_words})" if is_outside else ""
        is_own = call.attempt is self.call.attempt and call.taken_back_line is None
        self.add((what if is_own else with_fate(what, call, self.line)) + outside, call)

    def calls_here(self):
        """The calls of the whole run at this place but for the one that fails, nearest before it first, then those after."""
        here = [call for call in self.run.calls if call.place == self.call.place and call is not self.call]
        before = [call for call in here if call.line <= self.call.line]
        return before[::-1] + [call for call in here if call.line > self.call.line]

    def explain_register(self):
        recorded = found_by(self.call)
        texts = [f"{self.found_text(recorded)} (recorded)", f"{self.value_text(self.place.value)} (right)"]
        width = max(map(len, texts))
        is_first = recorded.matches(new_place(self.call.kind).value)
        writer = next((call for call in self.calls_here() if writes(call) and recorded.matches(written_value(call))), None)
        if is_first and writer is not None and self.is_later(writer):
            writer = None
        self.recorded_by, self.right_by = writer, self.place.left_by
        self.say_writer(texts[0].ljust(width), writer, is_first)
        self.say_writer(texts[1].ljust(width), self.place.left_by, True)

    def is_later(self, call):
        """Whether a call was made after the failing one, so that it cannot be what that found."""
        return call.line > self.call.line and call.id not in self.in_log

    def say_writer(self, value, writer, is_first):
        verb = "left" if self.call.kind == "set" else "written"
        if writer is not None:
            later = "only later " if self.is_later(writer) else ""
            self.say(f"{value} was {verb} {later}by {by_whom(writer, self.call)}", writer)
        elif is_first:
            self.add(f"{value} is what is there before any call")
        else:
            self.add(f"{value} was {verb} by no call of this run")

    def found_text(self, found):
        text = self.value_text(found.value)
        return f"another number than {text}" if found.is_other else text

    def value_text(self, value):
        return SET_WORDS[value] if self.call.kind == "set" else result_text(value)

    def explain_counter(self):
        recorded, right = self.call.result, self.gives
        missed = next((call for before, call in reversed(self.place.changes) if before == recorded), None)
        last = self.right_by = self.place.left_by
        if missed is not None:
            after = f", and {right} (right) after" if last is missed else ""
            self.say(f"{recorded} (recorded) was there before{after} {missed.text} by {by_whom(missed, self.call)}", missed)
        else:
            self.explain_difference(recorded - right)
        if last is None:
            self.add(f"{right} (right) is what is there before any call")
        elif last is not missed:
            self.say(f"{right} (right) was left by {last.text} by {by_whom(last, self.call)}", last)

    def explain_difference(self, difference):
        """Says which calls outside the log make the difference between the recorded number and the right one."""
        outside = [call for call in self.calls_here() if call.id not in self.in_log and addition(call)]
        exact = next((call for call in outside if addition(call) == difference), None)
        if exact is not None:
            self.say(f"the difference of {difference} is {exact.text} by {by_whom(exact, self.call)}", exact)
            return
        whole = next((calls for calls in by_attempt(outside) if sum(map(addition, calls)) == difference), None)
        if whole is not None:
            who = by_whom(whole[0], self.call)
            self.say(f"the difference of {difference} is {len(whole)} additions, the last by {who}", whole[0])
            return
        for call in outside[:MOST_NAMED]:
            self.say(f"not counted: {call.text} by {by_whom(call, self.call)}", call)
        if not outside:
            self.add(f"no call of this run leaves {self.call.result} (recorded) there")

    def explain_items(self):
        self.explain_recorded_item(self.call.result)
        item = self.place.next_item
        if item is not None:
            self.right_by = item[1]
            self.say(f"{result_text(item[0])} (right) was put in by {by_whom(item[1], self.call)}", item[1])
        elif self.place.last_take is not None:
            last = self.place.last_take
            self.say(f"none (right): the last item was taken out by {by_whom(last, self.call)}", last)
        else:
            self.add(f"none (right): nothing is put in before it in {self.log_words}")

    def explain_recorded_item(self, value):
        if value is None:
            self.add("none (recorded) says that it was empty")
            return
        kind, here = self.call.kind, self.calls_here()
        put = next((call for call in here if call.name == PUTS[kind] and call.arguments[0] == value), None)
        self.recorded_by = put
        take = next((call for call in here if call.name == TAKES[kind] and call.result == value), None)
        if put is None:
            self.add(f"{value} (recorded) was put in by no call of this run")
        else:
            later = "only later " if self.is_later(put) else ""
            self.say(f"{value} (recorded) was put in {later}by {by_whom(put, self.call)}", put)
        if take is not None and take.line <= self.line:
            self.say(f"{value} (recorded) was taken out by {by_whom(take, self.call)}", take)

    def explain_undone_change(self):
        """Names the last change here that was undone after the right value was left: perhaps not all of it was undone.

        In style optimistic others do not see such a change, unless the memory has another mistake. So there it is named
        only if nobody before left the recorded value.
        """
        since = 0 if self.right_by is None else self.right_by.line
        undone = [call for call in self.calls_here() if changes(call) and since < (call.taken_back_line or 0) <= self.line]
        last = max(undone, key=lambda call: (call.taken_back_line, call.line), default=None)
        is_explained = self.recorded_by is not None and not self.is_later(self.recorded_by)
        if last is None or (self.run.style == "optimistic" and is_explained):
            return
        if not any(call.attempt is last.attempt for call in self.named):
            self.add(with_fate(f"undone before it: {last.text} by {by_whom(last, self.call)}", last, self.line), last)


def by_attempt(calls):
    """The calls of each attempt, in the order in which the attempts are met."""
    attempts = {}
    for call in calls:
        attempts.setdefault(id(call.attempt), []).append(call)
    return attempts.values()


def up_to(log, entry):
    """The calls of a log before an entry, or all if it does not have it."""
    return log[:log.index(entry)] if entry in log else log


def wrong_result(case):
    """The explanation of APP 4, PUSH 5, PULL 4, UNPUSH 4, UNPULL 3 and START 2."""
    rule = case.criterion[0]
    removed = case.call if rule in ("UNPUSH", "UNPULL") else None
    if rule == "START":
        return WrongResult(case, case.run.start.attempts[0].calls, "the start")
    if rule in ("PUSH", "UNPUSH"):
        return WrongResult(case, case.logs.shared_calls(), "the shared log", removed)
    return WrongResult(case, case.logs.local_calls(case.transaction), f"the local log of {case.transaction}", removed)
