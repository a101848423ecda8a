"""What the second implementation can add to an answer: the stack at that place and what was wanted. Without it the answer is explained
from the bytes alone."""

import pathlib
import sys

BUDGET = 100_000


class SecondOpinion:
    """The check and the run of the second implementation, for one module."""

    def __init__(self, tables, code):
        folder = str(pathlib.Path(__file__).resolve().parents[2] / "second")
        sys.path.insert(0, folder)
        try:
            import check
            import operators
            import state
            import step
            import tables as loader
        finally:
            sys.path.remove(folder)
        self.type_name = operators.type_name
        self.value_text = state.value_text
        self.module = loader.load(tables, code).module
        self.explanation = check.explain(self.module)
        self.run = lambda: step.run(self.module, [], BUDGET)
        self.shapes = lambda row: check.shapes(self.module, row)
        self.find_arrivals = lambda row: check.arrivals(self.module, row)
        self.method_check = lambda row: check.MethodCheck(self.module, self.module.methods[row])
        self.Fault = check.Fault

    def disagrees(self, number, method, offset):
        """What to say of a fault that isn't the one which the check finds; None where it is."""
        said = self.explanation
        if (said.number, said.method, said.offset) == (number, method, offset):
            return None
        return f"The line is not what the check says of this module: that is {said.number} {said.method} {said.offset}."

    def found_lines(self):
        """What stood on the stack at the fault of the check."""
        return [] if self.explanation.shape is None else [f"Found: {self.explanation.found}."]

    def wanted_lines(self):
        """What was wanted at the fault of the check."""
        return [f"Wanted: {self.explanation.wanted}."]

    def arrivals(self, row):
        """Of a fault 16 the target, and for both arrivals there the offset and the types; no offset where no earlier instruction arrives."""
        found = self.find_arrivals(row)
        return [found.target] + [(arrival.offset, self.types_words(arrival.shape)) for arrival in (found.first, found.second)]

    def types_words(self, shape):
        """Types from the bottom of the stack."""
        return ", ".join(self.type_name(type) for type in shape) or "nothing"

    def found(self, row):
        """The offset of each instruction of a method and the types before it from the bottom, as far as the check of that method comes."""
        return [(instruction.offset, [self.type_name(type) for type in shape]) for instruction, shape in self.shapes(row)]

    def fault(self, row):
        """The number, the offset and the words for what was wanted, of the fault of a method; None where it has none."""
        try:
            self.method_check(row).check()
        except self.Fault as fault:
            return fault.number, fault.offset, fault.wanted
        return None

    def run_lines(self, number, method, offset):
        """What stood on the running frame's stack where a run ended; nothing where the run had arguments or another budget."""
        ran = self.run()
        if (ran.number, ran.method, ran.offset) != (number, method, offset) or not ran.state.frames:
            return []
        stack = [self.cell_words(*cell) for cell in ran.state.frames[-1].stack]
        return ["On the stack, from its bottom: " + (", ".join(stack) or "nothing") + "."]

    def cell_words(self, type, value):
        """A value with its type; an object with its class and its number."""
        name = self.type_name(type)
        if name == "null":
            return name
        return f"{name} object {value}" if name.startswith("class ") else f"{name} {self.value_text((type, value))}"


def second_opinion(tables, code):
    """A SecondOpinion, or None where there is none or it can't read this module."""
    try:
        return SecondOpinion(tables, code)
    except Exception:
        return None
