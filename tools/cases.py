"""Cases for the proved `replay` and its answers, as vectors/README.md describes them. Whoever makes cases or reads answers does it here."""

from collections import namedtuple

from common import Trouble, proved
from housetext.records import split_input

LENGTH_BYTES, ARGUMENT_BYTES, BUDGET_BYTES = 2, 8, 4
MOST_LENGTH = (1 << 8 * LENGTH_BYTES) - 1
MOST_ARGUMENTS = 255
TURNS_BUDGET = 100_000

Case = namedtuple("Case", "tables code arguments budget")

# The parts of an answer line; a state is a State, or None where a run has none.
Answer = namedtuple("Answer", "load check run state")
Load = namedtuple("Load", "number place")
Check = namedtuple("Check", "number method offset")
Run = namedtuple("Run", "number method offset steps value")

# Cells stand as `replay` writes them: a letter for the type and the value.
State = namedtuple("State", "frames statics marks heap")
Frame = namedtuple("Frame", "method offset arguments locals stack")
Object = namedtuple("Object", "class_row fields")


def write_case(case):
    """The bytes of a case."""
    parts = [part for buffer in (case.tables, case.code) for part in (len(buffer).to_bytes(LENGTH_BYTES, "little"), buffer)]
    numbers = [len(case.arguments).to_bytes(1, "little")] + [number.to_bytes(ARGUMENT_BYTES, "little", signed=True) for number in case.arguments]
    return b"".join([*parts, *numbers, case.budget.to_bytes(BUDGET_BYTES, "little")])


def read_cases(data):
    """The cases of a stream; one that is cut short is trouble."""
    at = 0

    def taken(count):
        nonlocal at
        at += count
        if at > len(data):
            raise Trouble(f"a case is cut short at byte {len(data)}")
        return data[at - count:at]

    def number(count, signed=False):
        return int.from_bytes(taken(count), "little", signed=signed)

    while at < len(data):
        tables, code = taken(number(LENGTH_BYTES)), taken(number(LENGTH_BYTES))
        arguments = [number(ARGUMENT_BYTES, signed=True) for _ in range(number(1))]
        yield Case(tables, code, arguments, number(BUDGET_BYTES))


def read_answer(line):
    """The parts of an answer line."""
    try:
        load, check, run, state = line.split(" | ")
        words = [part.split() for part in (load, check, run)]
        numbers = [[int(word) for word in part[1:5]] for part in words]
        return Answer(Load(*numbers[0]), Check(*numbers[1]), Run(*numbers[2], words[2][5]), read_state(state))
    except (ValueError, TypeError, IndexError):
        raise Trouble(f"replay printed no answer but {line[:200]!r}") from None


def read_state(text):
    """The state of an answer line."""
    if text == "-":
        return None
    frames, statics, marks, heap = (part.split("=", 1)[1] for part in text.split(" "))
    pairs = [pair.split(":") for pair in listed(statics)]
    objects = [object.split(";") for object in bracketed(heap, "()")]
    return State([read_frame(frame) for frame in bracketed(frames, "[]")], {int(row): cell for row, cell in pairs},
                 [int(row) for row in listed(marks)], [Object(int(row), listed(cells)) for row, cells in objects])


def read_frame(text):
    place, arguments, variables, stack = text.split(";")
    method, offset = place.split(",")
    return Frame(int(method), int(offset), listed(arguments), listed(variables), listed(stack))


def listed(text):
    return text.split(",") if text else []


def bracketed(text, brackets):
    """The texts between brackets that stand one after the other."""
    return text[1:-1].split(brackets[::-1]) if text else []


def state_text(line):
    """The state of an answer line as it stands there; None where a run has none."""
    text = line.rpartition(" | ")[2]
    return None if text == "-" else text


def replay_lines(cases, program=proved):
    """The lines of `replay`, one for each case; `program` takes the name of a program and its input."""
    lines = program("replay", b"".join(map(write_case, cases))).decode("ascii", "replace").splitlines()
    if len(lines) != len(cases):
        raise Trouble(f"replay answered {len(lines)} of {len(cases)} cases")
    return lines


def replayed(cases):
    """The answers of the proved `replay`, one for each case."""
    return [read_answer(line) for line in replay_lines(cases)]


def case_of(data, arguments=(), budget=TURNS_BUDGET):
    """The case of an input of `turn`; None where the input isn't whole or doesn't fit a case, so that `turn` alone has the answer."""
    if len(data) < LENGTH_BYTES:
        return None
    announced, tables, code = split_input(data)
    whole = len(tables) == announced and len(code) <= MOST_LENGTH
    return Case(tables, code, list(arguments), budget) if whole else None


def answers(inputs, arguments=(), budget=TURNS_BUDGET):
    """What the proved programs say of inputs of `turn`: each one's loading, check and run, which doesn't ask the check."""
    cases = [case_of(data, arguments, budget) for data in inputs]
    said = iter(replayed([case for case in cases if case]) if any(cases) else [])
    return [next(said) if case else refused(data) for case, data in zip(cases, inputs)]


def refused(data):
    """The answer for an input that has no case: the proved `turn` says what it lacks."""
    words = proved("turn", data).decode("ascii", "replace").split()
    if len(words) != len(Run._fields) or words[0] == "0" or not words[0].isdigit():
        raise Trouble("the proved turn printed no refusal")
    number = int(words[0])
    return Answer(Load(number, 0), Check(number, 0, 0), Run(number, 0, 0, 0, "-"), None)

