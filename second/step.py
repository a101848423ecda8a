"""A step (01): one step, the run with its budget, and the refusals 21 and 22."""

from collections import namedtuple

import needs
import operators
from handed_back import (
    BAD_ARGUMENTS, BAD_BUDGET, BUDGET_USED, FINE, FRAMES_FULL, INVALID_CAST, NULL_REFERENCE, OBJECTS_FULL, OPERAND,
    PAST_THE_CODE, STUCK, UNDECODABLE, Ends,
)
from operators import INT32, NULL, NULL_CELL, VOID, class_row, class_type, fits, in_range
from reading_code import decode, operand_fault, part_of
from state import State
from tables import INITIALISER, INSTANCE

MOST_FRAMES = 32
MOST_OBJECTS = 256
MOST_BUDGET = 1000000

# What a run answers: the ending, its place, steps, value (a cell or None) and state (or None).
Run = namedtuple("Run", "number method offset steps value state")

# An instruction found at an offset of a method, with what it needs and does;
# or the number with which the machine is stuck there.
Site = namedtuple("Site", "stuck instruction need act")


def run(module, arguments, budget):
    """Run a loaded module's entry. Arguments come as int64; running doesn't check."""
    if not arguments_admitted(module, arguments):
        return Run(BAD_ARGUMENTS, 0, 0, 0, None, None)
    if not 0 <= budget <= MOST_BUDGET:
        return Run(BAD_BUDGET, 0, 0, 0, None, None)
    machine = Machine(module)
    machine.begin(arguments)
    state = machine.state
    steps = 0
    while True:
        method, offset = state.running.method, state.running.offset
        if steps == budget:
            return Run(BUDGET_USED, method, offset, steps, None, state)
        try:
            machine.step()
        except Ends as ends:
            return Run(ends.number, method, offset, steps, None, state)
        steps += 1
        if not state.frames:
            return Run(FINE, method, offset, steps, machine.value, state)


def arguments_admitted(module, arguments):
    """As many arguments as the entry has parameters, each int32 within its range."""
    types = module.methods[module.entry].parameters
    return len(arguments) == len(types) and all(in_range(type, value) for type, value in zip(types, arguments))


class Machine:
    """A module with the state of one run, and what has been found out about its code so far."""

    def __init__(self, module):
        self.module = module
        self.state = State(module)
        self.value = None
        self.sites = {}
        self.initialisers = [None] + [module.initialiser(row) for row in range(1, module.class_count + 1)]
        self.cell_of = [None] + [self._cells_by_field(row) for row in range(1, module.class_count + 1)]
        self.by_root = {(module.methods[row].owner, module.methods[row].root): row
                        for row in range(1, module.method_count + 1)}

    def _cells_by_field(self, row):
        """For each field that a class has, in the order of an object's cells, which cell it is."""
        return {field: cell for cell, field in enumerate(self.module.instance_fields(row))}

    def begin(self, arguments):
        """The entry's class is marked, and its initialiser, if any, stands above the entry frame, for no step."""
        entry = self.module.methods[self.module.entry]
        self.state.push_frame(self.module, self.module.entry, list(zip(entry.parameters, arguments)))
        self.state.marks.add(entry.owner)
        initialiser = self.initialisers[entry.owner]
        if initialiser is not None:
            self.state.push_frame(self.module, initialiser, [])

    def step(self):
        """Carry one step out, or raise Ends with the number, having changed nothing."""
        frame = self.state.running
        site = self.site(frame.method, frame.offset)
        if site.stuck:
            raise Ends(site.stuck)
        shape = [type for type, _ in frame.stack]
        fault = needs.fault(site.need, shape, self.module.methods[frame.method].max_stack)
        if fault:
            raise Ends(STUCK + fault)
        frame.offset = site.act(self, frame, site.instruction)

    def site(self, row, offset):
        """The Site at an offset, worked out once. A branch may land inside an instruction, so any offset has one."""
        site = self.sites.get((row, offset))
        if site is None:
            site = self.sites[row, offset] = self.find_site(row, offset)
        return site

    def find_site(self, row, offset):
        method = self.module.methods[row]
        if offset >= method.code_length:
            return Site(PAST_THE_CODE, None, None, None)
        instruction = decode(part_of(self.module, method), offset)
        if instruction is None:
            return Site(STUCK + UNDECODABLE, None, None, None)
        if operand_fault(self.module, method, instruction):
            return Site(STUCK + OPERAND, None, None, None)
        return Site(0, instruction, needs.of(self.module, method, instruction), ACTS[instruction.operation])

    # Starting classes.

    def must_wait_for_start(self, row):
        """Whether a class is still to be started by an initialiser of its own."""
        return row not in self.state.marks and self.initialisers[row] is not None

    def start(self, row):
        """Mark the class and push its initialiser's frame: one step, and the instruction is tried again later."""
        self.require_frame()
        self.state.marks.add(row)
        self.state.push_frame(self.module, self.initialisers[row], [])

    def require_frame(self):
        if len(self.state.frames) == MOST_FRAMES:
            raise Ends(FRAMES_FULL)

    def chosen(self, object_class, named_row):
        """Which method a callvirt takes: the first of the named one's root, going up from the object's class."""
        named = self.module.methods[named_row]
        if named.sort == INSTANCE:
            return named_row
        row = object_class
        while (row, named.root) not in self.by_root:
            row = self.module.parents[row]
        return self.by_root[row, named.root]


# Each act below carries out an instruction whose operand and values are right.
# It answers the offset at which its frame goes on or waits.


def pop_many(stack, count):
    """Take the topmost values off, lowest first."""
    height = len(stack) - count
    taken = stack[height:]
    del stack[height:]
    return taken


def act_nop(machine, frame, instruction):
    return instruction.after


def act_ldarg(machine, frame, instruction):
    frame.stack.append(frame.arguments[instruction.operand])
    return instruction.after


def act_starg(machine, frame, instruction):
    frame.arguments[instruction.operand] = frame.stack.pop()
    return instruction.after


def act_ldloc(machine, frame, instruction):
    frame.stack.append(frame.locals[instruction.operand])
    return instruction.after


def act_stloc(machine, frame, instruction):
    frame.locals[instruction.operand] = frame.stack.pop()
    return instruction.after


def act_ldnull(machine, frame, instruction):
    frame.stack.append(NULL_CELL)
    return instruction.after


def act_ldc(machine, frame, instruction):
    frame.stack.append((needs.CONSTANTS[instruction.operation], instruction.operand))
    return instruction.after


def act_dup(machine, frame, instruction):
    frame.stack.append(frame.stack[-1])
    return instruction.after


def act_pop(machine, frame, instruction):
    frame.stack.pop()
    return instruction.after


def act_binary(machine, frame, instruction):
    stack = frame.stack
    result = operators.binary(instruction.operation, stack[-2], stack[-1])
    stack[-2:] = [result]
    return instruction.after


def act_unary(machine, frame, instruction):
    frame.stack[-1] = operators.unary(instruction.operation, frame.stack[-1])
    return instruction.after


def act_compare(machine, frame, instruction):
    left, right = pop_many(frame.stack, 2)
    says_yes = operators.compare(instruction.operation, left, right)
    frame.stack.append((INT32, int(says_yes)))
    return instruction.after


def act_br(machine, frame, instruction):
    return instruction.operand


def act_compare_branch(machine, frame, instruction):
    left, right = pop_many(frame.stack, 2)
    says_yes = operators.compare(instruction.operation, left, right)
    return instruction.operand if says_yes else instruction.after


def act_truth_branch(machine, frame, instruction):
    says_yes = operators.truth(frame.stack.pop()) == (instruction.operation == "brtrue")
    return instruction.operand if says_yes else instruction.after


def act_isinst(machine, frame, instruction):
    """Null on a miss and on null."""
    wanted = class_type(instruction.operand.row)
    if not fits(machine.module.parents, frame.stack[-1][0], wanted):
        frame.stack[-1] = NULL_CELL
    return instruction.after


def act_castclass(machine, frame, instruction):
    """Null and a fitting object go through; a miss is 35."""
    wanted = class_type(instruction.operand.row)
    if not fits(machine.module.parents, frame.stack[-1][0], wanted):
        raise Ends(INVALID_CAST)
    return instruction.after


def object_cell(machine, reference, field_row):
    """The object's cells and which of them the field is; 34 where the reference is null."""
    if reference[0] == NULL:
        raise Ends(NULL_REFERENCE)
    made = machine.state.object(reference[1])
    return made.cells, machine.cell_of[made.class_row][field_row]


def act_ldfld(machine, frame, instruction):
    """The start of the field's class comes before the null test."""
    row = instruction.operand.row
    owner = machine.module.fields[row].owner
    if machine.must_wait_for_start(owner):
        machine.start(owner)
        return instruction.offset
    cells, cell = object_cell(machine, frame.stack[-1], row)
    machine.state.marks.add(owner)
    frame.stack[-1] = cells[cell]
    return instruction.after


def act_stfld(machine, frame, instruction):
    row = instruction.operand.row
    owner = machine.module.fields[row].owner
    if machine.must_wait_for_start(owner):
        machine.start(owner)
        return instruction.offset
    cells, cell = object_cell(machine, frame.stack[-2], row)
    machine.state.marks.add(owner)
    reference, value = pop_many(frame.stack, 2)
    cells[cell] = value
    return instruction.after


def act_ldsfld(machine, frame, instruction):
    row = instruction.operand.row
    owner = machine.module.fields[row].owner
    if machine.must_wait_for_start(owner):
        machine.start(owner)
        return instruction.offset
    machine.state.marks.add(owner)
    frame.stack.append(machine.state.statics[row])
    return instruction.after


def act_stsfld(machine, frame, instruction):
    row = instruction.operand.row
    owner = machine.module.fields[row].owner
    if machine.must_wait_for_start(owner):
        machine.start(owner)
        return instruction.offset
    machine.state.marks.add(owner)
    machine.state.statics[row] = frame.stack.pop()
    return instruction.after


def enter(machine, frame, instruction, row):
    """A call pops its arguments and pushes a frame; the caller waits at the call's offset."""
    method = machine.module.methods[row]
    if machine.must_wait_for_start(method.owner):
        machine.start(method.owner)
        return instruction.offset
    machine.require_frame()
    machine.state.marks.add(method.owner)
    arguments = pop_many(frame.stack, len(method.arguments))
    machine.state.push_frame(machine.module, row, arguments)
    return instruction.offset


def act_call(machine, frame, instruction):
    """`call` makes no null test."""
    return enter(machine, frame, instruction, instruction.operand.row)


def act_callvirt(machine, frame, instruction):
    """callvirt makes its null test before the start of a class."""
    named = instruction.operand.row
    receiver = frame.stack[-len(machine.module.methods[named].arguments)]
    if receiver[0] == NULL:
        raise Ends(NULL_REFERENCE)
    return enter(machine, frame, instruction, machine.chosen(class_row(receiver[0]), named))


def act_newobj(machine, frame, instruction):
    """Pops the values of the parameters, pushes the new reference and calls the constructor with it as `this`."""
    row = instruction.operand.row
    constructor = machine.module.methods[row]
    state = machine.state
    if machine.must_wait_for_start(constructor.owner):
        machine.start(constructor.owner)
        return instruction.offset
    if len(state.heap) == MOST_OBJECTS:
        raise Ends(OBJECTS_FULL)
    machine.require_frame()
    state.marks.add(constructor.owner)
    values = pop_many(frame.stack, len(constructor.parameters))
    types = [machine.module.fields[field].type for field in machine.cell_of[constructor.owner]]
    reference = state.make_object(constructor.owner, types)
    frame.stack.append(reference)
    state.push_frame(machine.module, row, [reference] + values)
    return instruction.offset


def act_ret(machine, frame, instruction):
    """The caller gets the return value, if any, and moves past its call; after an initialiser it stays."""
    method = machine.module.methods[frame.method]
    frames = machine.state.frames
    frames.pop()
    value = None if method.returns == VOID else frame.stack[-1]
    if not frames:
        machine.value = value
    elif method.sort != INITIALISER:
        caller = frames[-1]
        if value is not None:
            caller.stack.append(value)
        caller.offset = machine.site(caller.method, caller.offset).instruction.after
    return instruction.offset


ACTS = {
    "nop": act_nop, "ldarg": act_ldarg, "starg": act_starg, "ldloc": act_ldloc, "stloc": act_stloc,
    "ldnull": act_ldnull, "ldc.i4": act_ldc, "ldc.i8": act_ldc, "ldc.r8": act_ldc,
    "dup": act_dup, "pop": act_pop, "br": act_br, "isinst": act_isinst, "castclass": act_castclass,
    "ldfld": act_ldfld, "stfld": act_stfld, "ldsfld": act_ldsfld, "stsfld": act_stsfld,
    "call": act_call, "callvirt": act_callvirt, "newobj": act_newobj, "ret": act_ret,
}
for _operation in operators.WHOLE_OPERATORS:
    ACTS[_operation] = act_binary
for _operation in ("neg", "not", "conv.i4", "conv.i8", "conv.r8"):
    ACTS[_operation] = act_unary
for _operation in ("ceq", "cgt", "cgt.un", "clt", "clt.un"):
    ACTS[_operation] = act_compare
for _operation in operators.ORDER_BRANCHES + operators.EQUALITY_BRANCHES:
    ACTS[_operation] = act_compare_branch
for _operation in operators.TRUTH_BRANCHES:
    ACTS[_operation] = act_truth_branch
