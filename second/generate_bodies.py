"""Bodies of methods that pass the check: statements and values grown at random, every type right."""

import needs
from assemble import Label, Line, class_token, field_token, method_token
from operators import F, INT32, INT64, VOID, WHOLE, class_row, class_type, fits, is_reference
from reading_code import Instruction
from tables import CONSTRUCTOR, INITIALISER, INSTANCE, VIRTUAL

INT32_EDGES = [0, 1, -1, 2, -2, 3, 5, 7, -7, 8, 9, 31, 32, 33, 63, 64, 127, 128, -128, -129, 255, 256, 32767, 65535,
               65536, 46340, 46341, 0x55555555, 2**30, 2**31 - 1, -2**31, -2**31 + 1]
INT64_EDGES = INT32_EDGES + [2**31, -2**31 - 1, 2**32 - 1, 2**32, 2**32 + 1, 3037000499, 3037000500, 2**53, 2**53 + 1,
                             2**62, 2**63 - 1, -2**63, -2**63 + 1]
# Zeros, ones, infinities, three NaN patterns, the largest, the smallest normal
# and denormal numbers, a third, 2 to the 53rd, and int32's ends as F.
F_EDGES = [0, 1 << 63, 0x3FF0000000000000, 0xBFF0000000000000, 0x7FF0000000000000, 0xFFF0000000000000,
           0x7FF8000000000000, 0x7FF0000000000001, 0xFFFFFFFFFFFFFFFF, 0x7FEFFFFFFFFFFFFF, 0xFFEFFFFFFFFFFFFF,
           0x0010000000000000, 0x000FFFFFFFFFFFFF, 1, 0x8000000000000001, 0x3FD5555555555555, 0x4340000000000000,
           0x4340000000000001, 0x3CA0000000000000, 0x41DFFFFFFFC00000, 0xC1E0000000000000, 0x4000000000000000]

NUMERIC_BINARY = ("add", "sub", "mul", "div")
WHOLE_BINARY = ("add", "sub", "mul", "and", "or", "xor", "add", "sub", "mul", "add.ovf", "sub.ovf", "mul.ovf")
DIVISIONS = ("div", "div.un", "rem", "rem.un")
SHIFTS = ("shl", "shr", "shr.un")
EQUALITIES = ("beq", "bne.un")
COMPARE_BRANCHES = ("beq", "bne.un", "bge", "bgt", "ble", "blt", "bge.un", "bgt.un", "ble.un", "blt.un")
COMPARE_VALUES = ("ceq", "cgt", "cgt.un", "clt", "clt.un")


def constant_value(dice, type):
    """A constant's operand: mostly an edge value, else a small number or any bits."""
    if type == F:
        if dice.chance(60):
            return dice.choice(F_EDGES)
        return int.from_bytes(dice.bytes(8), "little")
    edges = INT32_EDGES if type == INT32 else INT64_EDGES
    if dice.chance(60):
        return dice.choice(edges)
    if dice.chance(60):
        return dice.between(-10, 10)
    return int.from_bytes(dice.bytes(4 if type == INT32 else 8), "little", signed=True)


CONSTANT_OPERATIONS = {INT32: "ldc.i4", INT64: "ldc.i8", F: "ldc.r8"}


def constant_line(dice, type):
    return Line(CONSTANT_OPERATIONS[type], constant_value(dice, type))


class Plan:
    """A module to be written: its rows, the bodies of its methods, and what callers should know of them."""

    def __init__(self, module):
        self.module = module
        # Rows of methods that call nothing, so that anyone may call them.
        self.simple = set()
        # For methods that call themselves: the number of the argument that counts down.
        self.recursive = {}
        # By row, the lines and labels of a method's body.
        self.bodies = {}


class BodyWriter:
    """Grows the body of one method. `shape` holds the types on the stack at the place being written."""

    def __init__(self, dice, plan, row, size):
        self.dice = dice
        self.plan = plan
        self.module = plan.module
        self.row = row
        self.method = plan.module.methods[row]
        self.size = size
        self.items = []
        self.shape = []
        self.deepest = 0
        self.counters = set()
        self.known = {}

    def body(self, statements):
        """Statements, and at the end the return value and `ret`."""
        self.guard_recursion()
        self.fill_locals()
        for _ in range(statements):
            self.statement(3)
        self.leave(3)
        return self.items

    # Writing lines.

    def emit(self, operation, operand=None):
        need = needs.of(self.module, self.method, Instruction(0, operation, operand, 0))
        self.shape = needs.shape_after(need, self.shape)
        self.deepest = max(self.deepest, len(self.shape))
        self.items.append(Line(operation, operand))

    def bind(self, label, shape):
        self.items.append(label)
        self.shape = shape

    def long_enough(self):
        return len(self.items) >= self.size or len(self.shape) > 20

    def fits(self, type, wanted):
        return fits(self.module.parents, type, wanted)

    # Values.

    def value(self, type, fuel):
        """Leave one value that fits a type on the stack."""
        choices = self.leaves(type)
        if fuel > 0 and not self.long_enough():
            choices = choices + self.deep_values(type, fuel - 1)
        self.dice.weighted(choices)()

    def once(self, find, type):
        """What a search for a type finds, searched for once in this body."""
        if (find, type) not in self.known:
            self.known[find, type] = find(type)
        return self.known[find, type]

    def leaves(self, type):
        choices = [(2, lambda line=line: self.emit(*line)) for line in self.once(self.find_loads, type)]
        if not is_reference(type):
            return choices + [(5, lambda: self.constant(type))]
        makers = self.once(self.find_makers, type)
        if makers:
            choices.append((4, lambda: self.make(self.dice.choice(makers), 0)))
        return choices + [(1, lambda: self.constant(type))]

    def find_loads(self, type):
        """Lines that load something declared with a fitting type."""
        lines = [Line("ldarg", number) for number, declared in enumerate(self.method.arguments)
                 if self.fits(declared, type)]
        lines += [Line("ldloc", number) for number, declared in enumerate(self.method.locals)
                  if self.fits(declared, type)]
        lines += [Line("ldsfld", field_token(row)) for row in self.module.static_fields()
                  if self.fits(self.module.fields[row].type, type)][:4]
        return lines

    def constant(self, type):
        if is_reference(type):
            self.emit("ldnull")
        else:
            self.emit(*constant_line(self.dice, type))

    def find_fields(self, type):
        """Instance fields of a fitting type."""
        return [row for row, field in enumerate(self.module.fields)
                if row and not field.static and self.fits(field.type, type)]

    def find_givers(self, type):
        """Methods that may be called and return a fitting type."""
        return self.callable_methods(lambda method: method.sort != CONSTRUCTOR and self.fits(method.returns, type))

    def find_constructors(self, type):
        return self.callable_methods(
            lambda method: method.sort == CONSTRUCTOR and self.fits(class_type(method.owner), type))

    def find_makers(self, type):
        """Constructors without parameters that call nothing."""
        return [row for row in self.once(self.find_constructors, type)
                if row in self.plan.simple and not self.module.methods[row].parameters]

    def find_void(self, type):
        return self.callable_methods(lambda method: method.returns == VOID)

    def callable_methods(self, wanted):
        """Methods that may be called without the calls going round: later ones, and simple ones."""
        return [row for row, method in enumerate(self.module.methods)
                if row and (row > self.row or row in self.plan.simple)
                and method.sort != INITIALISER and wanted(method)]

    def deep_values(self, type, fuel):
        choices = [(1, lambda: self.conditional(type, fuel)), (1, lambda: self.over_statement(type, fuel))]
        fields = self.once(self.find_fields, type)
        if fields:
            choices.append((2, lambda: self.field_value(self.dice.choice(fields), fuel)))
            choices.append((1, lambda: self.guarded_field(self.dice.choice(fields), type, fuel)))
        methods = self.once(self.find_givers, type)
        if methods:
            choices.append((4, lambda: self.call(self.dice.choice(methods), fuel)))
        if is_reference(type):
            return choices + self.deep_references(type, fuel)
        return choices + self.deep_numbers(type, fuel)

    def deep_numbers(self, type, fuel):
        choices = [(5, lambda: self.binary(type, fuel)), (1, lambda: self.negation(type, fuel)),
                   (2, lambda: self.conversion(type, fuel)), (1, lambda: self.doubled(type, fuel))]
        if type in WHOLE:
            choices += [(2, lambda: self.shift(type, fuel)), (2, lambda: self.division(type, fuel))]
        if type == INT32:
            choices += [(3, lambda: self.comparison(fuel))]
        return choices

    def deep_references(self, type, fuel):
        choices = [(1, lambda: self.isinst(type, fuel)), (1, lambda: self.castclass(type, fuel))]
        constructors = self.once(self.find_constructors, type)
        if constructors:
            choices.append((6, lambda: self.make(self.dice.choice(constructors), fuel)))
        return choices

    def binary(self, type, fuel):
        self.value(type, fuel)
        self.value(type, fuel)
        self.emit(self.dice.choice(NUMERIC_BINARY if type == F else WHOLE_BINARY))

    def division(self, type, fuel):
        """Mostly by a constant that can't end the run."""
        self.value(type, fuel)
        if self.dice.chance(90):
            self.emit(CONSTANT_OPERATIONS[type], self.dice.choice([1, 2, -2, 3, 5, 7, -7, 10, 1000, 2**31 - 1]))
        else:
            self.value(type, fuel)
        self.emit(self.dice.choice(DIVISIONS))

    def shift(self, type, fuel):
        self.value(type, fuel)
        self.value(INT32, fuel)
        self.emit(self.dice.choice(SHIFTS))

    def negation(self, type, fuel):
        self.value(type, fuel)
        self.emit("neg" if type == F else self.dice.choice(("neg", "not")))

    def conversion(self, type, fuel):
        source = self.dice.choice((INT32, F)) if type == F else self.dice.choice(WHOLE)
        self.value(source, fuel)
        self.emit({INT32: "conv.i4", INT64: "conv.i8", F: "conv.r8"}[type])

    def doubled(self, type, fuel):
        self.value(type, fuel)
        self.emit("dup")
        self.emit(self.dice.choice(NUMERIC_BINARY if type == F else WHOLE_BINARY))

    def comparison(self, fuel):
        if self.dice.chance(20):
            self.reference(fuel)
            self.reference(fuel)
            self.emit("ceq")
        else:
            type = self.dice.choice((INT32, INT64, F))
            self.value(type, fuel)
            self.value(type, fuel)
            self.emit(self.dice.choice(COMPARE_VALUES))

    def conditional(self, type, fuel):
        """One of two values. Both arms must bring the same type, so references are cast to theirs."""
        other, end, base = Label(), Label(), self.shape
        self.branch(other, fuel)
        self.arm(type, fuel)
        joined = self.shape
        self.emit("br", end)
        self.bind(other, base)
        self.arm(type, fuel)
        self.bind(end, joined)

    def arm(self, type, fuel):
        self.value(type, fuel)
        if self.shape[-1] != type:
            self.emit("castclass", class_token(class_row(type)))

    def over_statement(self, type, fuel):
        """A value, and above it statements that leave it alone."""
        self.value(type, fuel)
        self.statement(fuel)

    def make(self, row, fuel):
        """A new object, by the constructor of a row."""
        for number, type in enumerate(self.module.methods[row].parameters):
            self.argument(row, number + 1, type, fuel)
        self.emit("newobj", method_token(row))

    def any_class(self):
        return class_type(self.dice.between(1, self.module.class_count))

    def reference(self, fuel):
        self.value(self.any_class(), fuel)

    def isinst(self, type, fuel):
        self.reference(fuel)
        self.emit("isinst", class_token(class_row(type)))

    def castclass(self, type, fuel):
        """Mostly of a value that is known to fit."""
        if self.dice.chance(85):
            self.value(type, fuel)
        else:
            self.reference(fuel)
        self.emit("castclass", class_token(class_row(type)))

    def receiver(self, owner, fuel):
        """An object to work on, seldom null."""
        wanted = class_type(owner)
        choices = [(1, lambda: self.value(wanted, fuel))]
        if self.method.has_this and self.fits(class_type(self.method.owner), wanted):
            choices.append((8, lambda: self.emit("ldarg", 0)))
        for number, declared in enumerate(self.method.locals):
            if self.fits(declared, wanted):
                choices.append((3, lambda number=number: self.emit("ldloc", number)))
        makers = self.once(self.find_makers, wanted)
        if makers:
            choices.append((4, lambda: self.make(self.dice.choice(makers), 0)))
        self.dice.weighted(choices)()

    def field_value(self, row, fuel):
        self.receiver(self.module.fields[row].owner, fuel)
        self.emit("ldfld", field_token(row))

    def guarded_field(self, row, type, fuel):
        """A field of an object that may be null; null gives a constant."""
        field, missing, end = self.module.fields[row], Label(), Label()
        base = self.shape
        self.value(class_type(field.owner), fuel)
        self.emit("dup")
        under = self.shape[:-1]
        self.emit("brfalse", missing)
        self.emit("ldfld", field_token(row))
        self.cast_to(type)
        self.emit("br", end)
        self.bind(missing, under)
        self.emit("pop")
        self.constant(type)
        self.cast_to(type)
        self.bind(end, base + [type])

    def cast_to(self, type):
        if self.shape[-1] != type:
            self.emit("castclass", class_token(class_row(type)))

    # Calls.

    def call(self, row, fuel):
        """Call a method of any sort but an initialiser."""
        method = self.module.methods[row]
        if method.has_this:
            self.receiver(method.owner, fuel)
        for number, type in enumerate(method.parameters):
            self.argument(row, number + int(method.has_this), type, fuel)
        self.emit(self.calling(method.sort), method_token(row))

    def calling(self, sort):
        if sort == VIRTUAL:
            return "callvirt" if self.dice.chance(85) else "call"
        if sort == INSTANCE:
            return self.dice.choice(("call", "callvirt"))
        return "call"

    def argument(self, row, number, type, fuel):
        """A value for an argument; one that counts a recursion down gets a small constant."""
        if self.plan.recursive.get(row) == number:
            self.emit("ldc.i4", self.dice.choice([0, 1, 2, 3, 5, 8, 12, 29, 30, 31, 40]))
        else:
            self.value(type, fuel)

    def recurse(self, fuel):
        """Call the method itself with its counting argument less by one."""
        counting = self.plan.recursive[self.row]
        for number, type in enumerate(self.method.arguments):
            if number == counting:
                self.emit("ldarg", number)
                self.emit("ldc.i4", 1)
                self.emit("sub")
            elif number == 0 and self.method.has_this:
                self.emit("ldarg", 0)
            else:
                self.value(type, 0)
        virtual = self.method.sort == VIRTUAL
        self.emit("callvirt" if virtual else "call", method_token(self.row))
        if self.method.returns != VOID:
            self.emit("pop")

    def guard_recursion(self):
        """Return at once where the counting argument has come down to 0."""
        if self.row not in self.plan.recursive:
            return
        go_on = Label()
        self.emit("ldarg", self.plan.recursive[self.row])
        self.emit("ldc.i4", 0)
        self.emit("bgt", go_on)
        self.leave(0)
        self.bind(go_on, [])
        if self.dice.chance(80):
            self.recurse(0)

    def leave(self, fuel):
        if self.method.returns != VOID:
            self.value(self.method.returns, fuel)
        self.emit("ret")

    # Statements.

    def statement(self, fuel):
        """Something that leaves the stack as it found it."""
        if self.long_enough():
            self.emit("nop")
            return
        choices = [(1, lambda: self.emit("nop")), (1, lambda: self.discard(fuel)), (4, lambda: self.store(fuel))]
        void = self.once(self.find_void, VOID)
        if void:
            choices.append((3, lambda: self.call(self.dice.choice(void), fuel)))
        if fuel > 0:
            choices += [(2, lambda: self.if_else(fuel - 1)), (3, lambda: self.counted_loop(fuel - 1))]
        if fuel > 0 and not self.shape:
            choices += [(1, lambda: self.return_early(fuel - 1)), (1, lambda: self.tested_loop(fuel - 1))]
        if self.row in self.plan.recursive:
            choices.append((1, lambda: self.recurse(0)))
        self.dice.weighted(choices)()

    def discard(self, fuel):
        self.value(self.dice.choice((INT32, INT64, F, self.any_class())), fuel)
        self.emit("pop")

    def store(self, fuel):
        """Store into a local, argument, static field or field of an object."""
        stores = [(3, Line("stloc", number)) for number in range(len(self.method.locals))
                  if number not in self.counters]
        stores += [(1, Line("starg", number)) for number in range(len(self.method.arguments))
                   if number != self.plan.recursive.get(self.row)]
        stores += [(3, Line("stsfld" if field.static else "stfld", field_token(row)))
                   for row, field in enumerate(self.module.fields) if row]
        if not stores:
            self.discard(fuel)
            return
        line = self.dice.weighted(stores)
        if line.operation == "stfld":
            self.receiver(self.module.fields[line.operand.row].owner, fuel)
        self.value(self.stored_type(line), fuel)
        self.emit(*line)

    def stored_type(self, line):
        if line.operation == "stloc":
            return self.method.locals[line.operand]
        if line.operation == "starg":
            return self.method.arguments[line.operand]
        return self.module.fields[line.operand.row].type

    def fill_locals(self):
        """Give locals of class types an object to begin with."""
        for number, type in enumerate(self.method.locals):
            makers = self.once(self.find_makers, type) if is_reference(type) else []
            if makers and self.dice.chance(85):
                self.make(self.dice.choice(makers), 0)
                self.emit("stloc", number)

    def branch(self, label, fuel):
        """A conditional branch of any kind."""
        kind = self.dice.below(10)
        if kind < 4:
            type = self.dice.choice((INT32, INT64, self.any_class()))
            self.value(type, fuel)
            self.emit(self.dice.choice(("brtrue", "brfalse")), label)
        elif kind < 9:
            type = self.dice.choice((INT32, INT64, F))
            self.value(type, fuel)
            self.value(type, fuel)
            self.emit(self.dice.choice(COMPARE_BRANCHES), label)
        else:
            self.reference(fuel)
            self.reference(fuel)
            self.emit(self.dice.choice(EQUALITIES), label)

    def block(self, fuel):
        for _ in range(self.dice.between(1, 2)):
            self.statement(fuel)

    def if_else(self, fuel):
        other, end, base = Label(), Label(), self.shape
        self.branch(other, fuel)
        self.block(fuel)
        if self.dice.chance(50):
            self.bind(other, base)
            return
        self.emit("br", end)
        self.bind(other, base)
        self.block(fuel)
        self.bind(end, base)

    def return_early(self, fuel):
        go_on = Label()
        self.branch(go_on, fuel)
        self.leave(fuel)
        self.bind(go_on, [])

    def free_counter(self):
        free = [number for number, type in enumerate(self.method.locals)
                if type == INT32 and number not in self.counters]
        return self.dice.choice(free) if free else None

    def counted_loop(self, fuel):
        """A loop that a local counts, up to a limit or down to 0."""
        counter = self.free_counter()
        if counter is None:
            self.discard(fuel)
            return
        again, base = Label(), self.shape
        turns = self.dice.weighted([(6, self.dice.between(1, 5)), (3, self.dice.between(6, 30)), (1, 300)])
        down = self.dice.chance(40)
        self.counters.add(counter)
        self.emit("ldc.i4", turns if down else 0)
        self.emit("stloc", counter)
        self.bind(again, base)
        self.block(fuel)
        self.emit("ldloc", counter)
        self.emit("ldc.i4", -1 if down else 1)
        self.emit("add")
        self.emit("stloc", counter)
        self.emit("ldloc", counter)
        if down:
            self.emit("brtrue", again)
        else:
            self.emit("ldc.i4", turns)
            self.emit(self.dice.choice(("blt", "blt.un", "bne.un")), again)
        self.counters.remove(counter)

    def tested_loop(self, fuel):
        """A loop with its test at the end. Only a backward branch reaches its body, so the stack is empty there."""
        counter = self.free_counter()
        if counter is None:
            self.discard(fuel)
            return
        again, test = Label(), Label()
        self.counters.add(counter)
        if self.dice.chance(85):
            self.emit("ldc.i4", 0)
            self.emit("stloc", counter)
        self.emit("br", test)
        self.bind(again, [])
        self.block(fuel)
        self.bind(test, [])
        self.emit("ldloc", counter)
        self.emit("ldc.i4", 1)
        self.emit("add")
        self.emit("dup")
        self.emit("stloc", counter)
        self.emit("ldc.i4", self.dice.between(1, 12))
        self.emit(self.dice.choice(("ble", "ble.un", "blt")), again)
        self.counters.remove(counter)
