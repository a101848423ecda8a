"""The check (01): decoding, operands and shapes of every method, with the numbers 11 to 17."""

from collections import namedtuple

import needs
from handed_back import (
    CHECK, FALLS_PAST_THE_END, FINE, MEANING, OPERAND, OTHER_SHAPE, TOO_MANY, UNDECODABLE,
)
from operators import type_name
from reading_code import BRANCHES, decode, operand_fault, part_of

# What the check answers: a number, and the method's row and the offset of the fault.
Verdict = namedtuple("Verdict", "number method offset")

# A verdict with its reason: the operation at the fault (None where it can't be
# decoded), the shape found before it (None where shapes weren't reached), and
# in words what stood there and what was wanted.
Explanation = namedtuple("Explanation", "number method offset operation shape found wanted")

# Two arrivals at a target with different shapes. Each has the offset of the
# instruction that goes on there and the shape that it brings; the first has no
# offset where no earlier instruction arrives, so that the shape is empty.
Arrivals = namedtuple("Arrivals", "target first second")
Arrival = namedtuple("Arrival", "offset shape")


class Fault(Exception):
    """A fault of one method, at an instruction."""

    def __init__(self, number, offset, wanted, operation=None, shape=None, arrivals=None):
        super().__init__(MEANING[number])
        self.number = number
        self.offset = offset
        self.operation = operation
        self.shape = shape
        self.wanted = wanted
        self.arrivals = arrivals


def check(module):
    """Check all methods by row; the first fault decides."""
    return Verdict(*explain(module)[:3])


def explain(module):
    """The check's verdict with what was found at the fault and what was wanted there."""
    for row in range(1, module.method_count + 1):
        try:
            MethodCheck(module, module.methods[row]).check()
        except Fault as fault:
            found = shape_words(fault.shape)
            return Explanation(fault.number, row, fault.offset, fault.operation, fault.shape, found, fault.wanted)
    return Explanation(FINE, 0, 0, None, None, "", "")


def shapes(module, row):
    """Pairs of an instruction and the list of types before it, as far as the check of one method comes."""
    work = MethodCheck(module, module.methods[row])
    try:
        work.check()
    except Fault:
        pass
    return [(instruction, work.shapes[instruction.offset])
            for instruction in work.instructions if instruction.offset in work.tested]


def arrivals(module, row):
    """The two arrivals of one method's fault 16; None where it has no such fault."""
    try:
        MethodCheck(module, module.methods[row]).check()
    except Fault as fault:
        return fault.arrivals
    return None


def shape_words(shape):
    """A shape in words, from the bottom of the stack."""
    if shape is None:
        return "shapes not reached"
    if not shape:
        return "an empty stack"
    return "on the stack: " + ", ".join(type_name(type) for type in shape)


def falls_through(instruction):
    return instruction.operation not in ("br", "ret")


class MethodCheck:
    """The check of one method: its instructions, and the shapes found before them so far."""

    def __init__(self, module, method):
        self.module = module
        self.method = method
        self.instructions = []
        self.shapes = {}
        self.came_from = {}
        self.tested = set()

    def check(self):
        self.decode_all()
        self.test_operands()
        for instruction in self.instructions:
            self.test_shape(instruction)

    def decode_all(self):
        """(a) Decode from offset 0."""
        part = part_of(self.module, self.method)
        offset = 0
        while offset < len(part):
            instruction = decode(part, offset)
            if instruction is None:
                raise Fault(CHECK + UNDECODABLE, offset, "a whole instruction of those kept")
            self.instructions.append(instruction)
            offset = instruction.after

    def test_operands(self):
        """(b) Operand faults and targets that start no instruction, at the smallest offset."""
        starts = {instruction.offset for instruction in self.instructions}
        for instruction in self.instructions:
            wanted = operand_fault(self.module, self.method, instruction)
            if not wanted and instruction.operation in BRANCHES and instruction.operand not in starts:
                wanted = "a target that starts an instruction"
            if wanted:
                raise Fault(CHECK + OPERAND, instruction.offset, wanted, instruction.operation)

    def test_shape(self, instruction):
        """(c) One instruction, tested 13, 15, 14, 16, 17; the shape is empty where no earlier one arrives."""
        shape = self.shapes.setdefault(instruction.offset, [])
        self.tested.add(instruction.offset)
        need = needs.of(self.module, self.method, instruction)
        fault = needs.fault(need, shape, self.method.max_stack)
        if fault:
            self.refuse(CHECK + fault, instruction, self.wanted(need, fault))
        brought = needs.shape_after(need, shape)
        for target in self.targets(instruction):
            self.arrive(instruction, target, brought)
        if falls_through(instruction) and instruction.after == self.method.code_length:
            self.refuse(FALLS_PAST_THE_END, instruction, "br, br.s or ret as the last instruction")

    def targets(self, instruction):
        """The offsets inside the code at which an instruction may go on."""
        targets = []
        if falls_through(instruction) and instruction.after < self.method.code_length:
            targets.append(instruction.after)
        if instruction.operation in BRANCHES:
            targets.append(instruction.operand)
        return targets

    def arrive(self, instruction, target, brought):
        """The first arrival from an earlier instruction gives the shape; every other must bring the same."""
        if target not in self.shapes:
            self.shapes[target] = brought
            self.came_from[target] = instruction.offset
        found = self.shapes[target]
        if found != brought:
            wanted = "at offset %d the shape found first (%s), not the one brought (%s)" % (
                target, shape_words(found), shape_words(brought))
            first = Arrival(self.came_from.get(target), found)
            self.refuse(OTHER_SHAPE, instruction, wanted, Arrivals(target, first, Arrival(instruction.offset, brought)))

    def wanted(self, need, fault):
        if fault == TOO_MANY:
            return "room for %d more within max stack %d" % (need.pushes - need.pops, self.method.max_stack)
        return need.words

    def refuse(self, number, instruction, wanted, arrivals=None):
        shape = self.shapes[instruction.offset]
        raise Fault(number, instruction.offset, wanted, instruction.operation, shape, arrivals)
