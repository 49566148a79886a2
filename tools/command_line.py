"""The command line of `pozhiqas`. docs/TOOLS.md describes it."""
import argparse
import io
import json
import os
import sys

from check import check, write_parts
from json_fields import fields_of
from local_parts import NoParts
from order import NotTaken, order
from picture import write_page
from recorded_run import UnreadableRun, read_run
from verified_program import NoProgram, ProgramFailed, ask, find_program, read_report
from why import why

# Statuses of this script. Those of the program are 0 to 8.
USAGE, UNREADABLE, NO_FILE, NO_PROGRAM, NO_ANSWER, NO_ORDER, NOT_TAKEN, FAILED, NO_OUTPUT, INTERRUPTED = \
    64, 65, 66, 69, 70, 71, 72, 73, 74, 130

# Objects of a run, and so parts.
MOST_JOBS = 256

# The status of the program for wrong arguments.
WRONG_ARGUMENTS = 2

PROGRAM_COMMANDS = {
    "certify": "decide a run: accepted with its serial run, or rejected with what shows it",
    "judge": "decide a run of any style and length, as `certify` does",
    "quick": "decide a run of style boosted, of any number of steps",
    "expand": "print the steps that the records of a run stand for, as a run of style rules",
    "views": "print for each attempt of an accepted run what it saw",
    "opaque": "decide whether each attempt of an accepted run saw a consistent state",
    "swaps": "print the certificate of an accepted run",
    "recheck": "check a certificate that `swaps` wrote",
}
BRIEF_COMMANDS = ("certify", "judge", "quick", "views", "opaque", "recheck")
STATUS_TEXT = """\
The status is that of the program: 0 accepted, 1 rejected, 3 a fault of the input, 7 too large to print; with several
files it is the greatest. `picture` ends with 0 if it printed a page. Statuses of this script: 64 wrong arguments, 65 a run
that cannot be read, 66 a file that cannot be read, 69 no program, 70 the program gave no answer, 71 no order was found, 72
a run that `order` does not take or `check --parts` cannot split, 73 the script failed, 74 the output cannot be written,
130 interrupted."""


class Problem(Exception):
    """Something that ends the work on one file: a message of one line, and the status."""

    def __init__(self, message, status):
        super().__init__(message)
        self.status = status


class Result:
    """What is to be printed of one file, as bytes, and the status."""

    def __init__(self, output, status):
        self.output = output
        self.status = status


class Source:
    """One file, or standard input if its name is `-`."""

    def __init__(self, name):
        self.name = name

    @property
    def is_standard_input(self):
        return self.name == "-"

    def open(self):
        """The open file. Raises Problem."""
        if self.is_standard_input:
            if sys.stdin is None:
                raise Problem("standard input is closed", NO_FILE)
            return os.fdopen(os.dup(sys.stdin.fileno()), "rb")
        try:
            return open(self.name, "rb")
        except (OSError, ValueError) as error:
            raise Problem(f"{self.name}: {reason(error)}", NO_FILE) from None

    def data(self):
        """All bytes of it. Raises Problem."""
        with self.open() as file:
            try:
                return file.read()
            except OSError as error:
                raise Problem(f"{self.name}: {reason(error)}", NO_FILE) from None


def reason(error):
    return getattr(error, "strerror", None) or str(error)


class Parser(argparse.ArgumentParser):
    """A parser whose status for wrong arguments is not one of the program's."""

    def error(self, message):
        print_problem(f"{message} (pozhiqas --help)")
        sys.exit(USAGE)


def make_parser():
    parser = Parser(prog="pozhiqas", allow_abbrev=False, epilog=STATUS_TEXT,
                    formatter_class=argparse.RawDescriptionHelpFormatter,
                    description="Asks the verified program about recorded runs, and explains what it says.\n"
                    "A verdict is always the program's own line, word for word.")
    commands = parser.add_subparsers(dest="command", metavar="COMMAND", required=True)
    for name, what in PROGRAM_COMMANDS.items():
        command = add_command(commands, name, what, run_program_command)
        if name in BRIEF_COMMANDS:
            add_brief(command)
    drill = commands.add_parser("drill", help="make a run of N transactions, and decide it",
                                description="Make a run of N transactions, and decide it.", epilog=STATUS_TEXT,
                                formatter_class=argparse.RawDescriptionHelpFormatter, allow_abbrev=False)
    drill.add_argument("number", metavar="N", help="from 1 to 20000")
    drill.set_defaults(run=run_drill)
    add_json(drill)
    add_brief(drill)
    add_command(commands, "focus", "print a run restricted to one of its objects, line for line", run_focus, has_json=False, has_name=True)
    checked = add_command(commands, "check", "decide a long run in parts, by several processes", run_check, many=False, has_json=False)
    checked.add_argument("--jobs", metavar="N", type=number_of_jobs, default=min(processors(), MOST_JOBS),
                         help=f"at most so many processes, from 1 to {MOST_JOBS} (default: the number of processors)")
    checked.add_argument("--parts", metavar="FOLDER", help="write the parts to FOLDER, which must be new or empty, and judge none of them")
    add_command(commands, "why", "explain a rejection or a fault", run_why)
    ordered = add_command(commands, "order", "look for another serial order, and certify it", run_order, many=False)
    ordered.add_argument("--output", metavar="OUT", help="write the run in this order to OUT")
    add_command(commands, "picture", "draw a run as one HTML page", run_picture, many=False, has_json=False)
    return parser


def add_command(commands, name, what, run, many=True, has_json=True, has_name=False):
    command = commands.add_parser(name, help=what, description=what[0].upper() + what[1:] + ".", epilog=STATUS_TEXT,
                                  formatter_class=argparse.RawDescriptionHelpFormatter, allow_abbrev=False)
    if has_name:
        command.add_argument("name", metavar="NAME", help="the name of an object; write -- before a name that begins with a dash")
    is_of = "a certificate" if name == "recheck" else "a recorded run"
    command.add_argument("files", metavar="FILE", nargs="+" if many else 1, help=f"{is_of}, or - for standard input")
    command.set_defaults(run=run, output=None, json=False)
    if has_json:
        add_json(command)
    return command


def processors():
    """How many processors this process may use, if the system says it."""
    return len(os.sched_getaffinity(0)) if hasattr(os, "sched_getaffinity") else os.cpu_count() or 1


def number_of_jobs(text):
    if not text.isdecimal() or not 1 <= int(text) <= MOST_JOBS:
        raise argparse.ArgumentTypeError(f"it takes a number from 1 to {MOST_JOBS}")
    return int(text)


def add_json(command):
    command.add_argument("--json", action="store_true", help="print one JSON object with the fields of each report")


def add_brief(command):
    command.add_argument("--brief", action="store_true", help="print the verdict and the state lines alone")


def json_line(fields):
    return json.dumps(fields, separators=(",", ":")).encode() + b"\n"


def shown_report(options, report, name):
    """What is printed of a report: its text, a part of it, or its fields."""
    if options.json:
        return json_line({"file": name, **fields_of(options.command, report)})
    if getattr(options, "brief", False):
        kept = [report.verdict_line, *report.lines_of("state")]
        return "".join(line + "\n" for line in kept).encode()
    return report.answer.output


def report_fields(report):
    return fields_of(report.answer.command, report)


def run_program_command(options, program, source):
    with source.open() as file:
        report = read_report(ask(program, [options.command], file))
    return Result(shown_report(options, report, source.name), report.answer.status)


def run_drill(options, program, _):
    try:
        report = read_report(ask(program, ["drill", options.number]))
    except ProgramFailed as error:
        if error.status == WRONG_ARGUMENTS:
            raise Problem("drill takes a number from 1 to 20000", error.status) from None
        raise
    return Result(shown_report(options, report, None), report.answer.status)


def run_focus(options, program, source):
    try:
        with source.open() as file:
            answer = read_report(ask(program, ["focus", options.name], file)).answer
    except ProgramFailed as error:
        if error.status == WRONG_ARGUMENTS:
            raise Problem("focus takes the name of an object: 1 to 24 characters out of A-Z a-z 0-9 _ . -", error.status) from None
        raise
    return Result(answer.output, answer.status)


def run_check(options, program, source):
    with source.open() as file:
        if options.parts is not None:
            return written_parts(options, program, source, file)
        checked = check(program, file, options.jobs)
    return Result(checked.output, checked.status)


def written_parts(options, program, source, file):
    try:
        paths = write_parts(program, file, options.jobs, options.parts)
    except NoParts as why:
        raise Problem(f"{source.name}: the run has no parts: {why}", NOT_TAKEN) from None
    except OSError as error:
        raise Problem(f"{options.parts}: {reason(error)}", NO_OUTPUT) from None
    return Result("".join(f"{printable(path)}\n" for path in paths).encode(), 0)


def run_why(options, program, source):
    explained = why(program, source.data())
    status = explained.report.answer.status
    if options.json:
        fields = {"file": source.name, **report_fields(explained.report), "command": "why", **explained.fields()}
        return Result(json_line(fields), status)
    return Result(explained.text().encode(), status)


def run_order(options, program, source):
    ordered = order(program, source.data())
    if options.output is not None and ordered.text is not None:
        write_file(options.output, ordered.text)
    if options.json:
        return Result(json_line(order_fields(source, ordered)), ordered_status(ordered))
    return Result("".join(line + "\n" for line in ordered.lines()).encode(), ordered_status(ordered))


def order_fields(source, ordered):
    fields = {"file": source.name, "command": "order", "recorded": report_fields(ordered.recorded)}
    if ordered.reordered is not None:
        fields["reordered"] = report_fields(ordered.reordered)
    return {**fields, **ordered.fields()}


def ordered_status(ordered):
    """The program's status on what it said last, or the script's own if there was nothing to ask it about."""
    if ordered.reordered is not None:
        return ordered.reordered.answer.status
    return ordered.recorded.answer.status if ordered.found is None else NO_ORDER


def write_file(path, data):
    try:
        with open(path, "wb") as file:
            file.write(data)
    except (OSError, ValueError) as error:
        raise Problem(f"{path}: {reason(error)}", NO_OUTPUT) from None


def run_picture(_, program, source):
    data = source.data()
    explained = why(program, data)
    answer = explained.report.answer
    if explained.report.verdict == "fault" and explained.report.cause != "TooManySteps":
        return Result(answer.output, answer.status)
    run = read_run(data) if explained.case is None else explained.case.run
    page = io.StringIO()
    title = "standard input" if source.is_standard_input else os.path.basename(source.name)
    write_page(run, explained, page, title)
    return Result(page.getvalue().encode(), 0)


def main(arguments=None):
    """Does what the arguments say, and returns the status."""
    try:
        return run(make_parser().parse_args(arguments))
    except Problem as problem:
        print_problem(problem)
        return problem.status
    except BrokenPipeError:
        silence_output()
        return NO_OUTPUT
    except KeyboardInterrupt:
        return INTERRUPTED
    except Exception as error:      # Python would end with 1, which is the status of a rejected run
        print_problem(f"the script failed: {type(error).__name__}: {error}")
        return FAILED


def run(options):
    files = getattr(options, "files", [None])
    if files.count("-") > 1:
        raise Problem("standard input can be read only once", USAGE)
    try:
        program = find_program()
    except NoProgram as error:
        raise Problem(error, NO_PROGRAM) from None
    statuses = []
    for name in files:
        try:
            result = result_of(options, program, Source(name))
        except Problem as problem:
            print_problem(problem)
            statuses.append(problem.status)
            continue
        heading = f"== {printable(name)}\n".encode() if len(files) > 1 and not options.json else b""
        write_output(heading + result.output)
        statuses.append(result.status)
    return max(statuses)


def result_of(options, program, source):
    """The result of a command on one file. Raises Problem."""
    try:
        return options.run(options, program, source)
    except UnreadableRun as error:
        raise Problem(f"{source.name}: {error}", UNREADABLE) from None
    except NotTaken as error:
        raise Problem(f"{source.name}: {error}", NOT_TAKEN) from None
    except NoProgram as error:
        raise Problem(error, NO_PROGRAM) from None
    except ProgramFailed as error:
        raise Problem(error, NO_ANSWER if error.status is None else error.status) from None


def write_output(data):
    if sys.stdout is None:
        raise Problem("standard output is closed", NO_OUTPUT)
    try:
        sys.stdout.buffer.write(data)
        sys.stdout.buffer.flush()
    except BrokenPipeError:
        raise
    except OSError as error:
        silence_output()
        raise Problem(f"standard output: {reason(error)}", NO_OUTPUT) from None


def silence_output():
    """Gives standard output another target, so that Python does not try to write it once more at its end."""
    os.dup2(os.open(os.devnull, os.O_WRONLY), sys.stdout.fileno())


def printable(text):
    """A text on one line, whatever bytes a file's name has: a name must not look like a verdict line."""
    return "".join(letter if letter.isprintable() else ascii(letter)[1:-1] for letter in text)


def print_problem(problem):
    """One line on standard error, if it is open."""
    if sys.stderr is not None:
        sys.stderr.buffer.write(printable(f"pozhiqas: {problem}").encode() + b"\n")
        sys.stderr.flush()
