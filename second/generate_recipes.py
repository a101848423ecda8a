"""Modules built for one purpose each: operators on edge values, full frames and heap, class starts, tall stacks."""

from assemble import Label, Line, class_token, field_token, method_token
from generate_bodies import CONSTANT_OPERATIONS, BodyWriter, Plan, constant_line, constant_value
from generate_modules import new_method, new_module
from operators import F, INT32, INT64, NUMERIC, RULES, VOID, WHOLE, class_type
from tables import CONSTRUCTOR, INITIALISER, MOST_STACK, OBJECT, STATIC, VIRTUAL, Field

ORDERED = ("cgt", "cgt.un", "clt", "clt.un", "bge", "bgt", "ble", "blt", "bge.un", "bgt.un", "ble.un", "blt.un")


def lines(*pairs):
    """Items from pairs of operation and operand; labels stay as they are."""
    return [item if isinstance(item, Label) else Line(*item) for item in pairs]


# Operators.


def operand_types(dice, operation):
    """Types that an operator takes."""
    if operation in ("shl", "shr", "shr.un"):
        return [dice.choice(WHOLE), INT32]
    if operation == "conv.r8":
        return [dice.choice((INT32, F))]
    if RULES[operation].pops == 1:
        return [dice.choice(NUMERIC if operation == "neg" else WHOLE)]
    numeric = operation in ("add", "sub", "mul", "div", "ceq", "beq", "bne.un") + ORDERED
    return [dice.choice(NUMERIC if numeric else WHOLE)] * 2


def pick_operand(dice, operation, number, type):
    """A constant line; divisors are mostly kept from ending the run at once, and may be -1."""
    if number == 1 and operation in ("div", "rem", "div.un", "rem.un") and type in WHOLE and dice.chance(85):
        return Line(CONSTANT_OPERATIONS[type], dice.choice([1, -1, 2, -2, 3, -3, 7, 10, -10, 2**31 - 1, -2**31]))
    return constant_line(dice, type)


def edge_pair(dice, type):
    """Two constants whose sum, difference, product or quotient lies at the edge of the type's range."""
    smallest = -2**31 if type == INT32 else -2**63
    largest, half = -1 - smallest, smallest // 2
    root = 46340 if type == INT32 else 3037000499
    pair = dice.choice((
        (smallest, 1), (smallest, -1), (smallest, 0), (largest, 1), (largest, -1), (smallest, smallest),
        (smallest, largest), (half, 2), (half, -2), (half, half), (-half, -half), (root, root), (root + 1, root + 1),
        (-root - 1, root + 1), (0, smallest), (-1, smallest), (-1, largest), (-1, -1), (-7, 5), (7, -5), (-7, -5),
    ))
    return [Line(CONSTANT_OPERATIONS[type], value) for value in (pair if dice.chance(70) else reversed(pair))]


def operands(dice, operation, types):
    """Lines that leave values of these types: a value twice, a pair at an edge, or any constants."""
    alike = len(types) == 2 and types[0] == types[1]
    if alike and dice.chance(10):
        return [pick_operand(dice, operation, 1, types[0]), Line("dup")]
    if alike and types[0] in WHOLE and dice.chance(40):
        return edge_pair(dice, types[0])
    return [pick_operand(dice, operation, number, type) for number, type in enumerate(types)]


def operators_plan(dice):
    """Operators on constants, each result kept in a static field of its own, so that the state shows them all."""
    fields, body = [], []
    for row in range(1, dice.between(1, 12) + 1):
        operation = dice.choice(sorted(RULES))
        types = operand_types(dice, operation)
        if dice.chance(2):
            types = [dice.choice(NUMERIC) for _ in types]
        body += operands(dice, operation, types) + apply_operator(operation)
        brought = RULES[operation].brings(types) or [INT32]
        fields.append(Field(OBJECT, True, brought[0]))
        body.append(Line("stsfld", field_token(row)))
    if dice.chance(40):
        body += trap(dice)
    body.append(Line("ret"))
    plan = Plan(new_module([0], fields, [new_method(OBJECT, STATIC)]))
    plan.bodies[1] = body
    plan.module.methods[1].max_stack = 2
    return plan


def trap(dice):
    """An operator on values with which it ends the run: 31, 32 or 33."""
    type = dice.choice(WHOLE)
    smallest = -2**31 if type == INT32 else -2**63
    largest = -1 - smallest
    load = CONSTANT_OPERATIONS[type]
    left, right, operation = dice.weighted([
        (4, (constant_value(dice, type), 0, dice.choice(("div", "div.un", "rem", "rem.un")))),
        (4, (smallest, -1, dice.choice(("div", "rem")))),
        (1, (smallest, dice.choice((-1, -2)), "add.ovf")),
        (1, (largest, dice.choice((1, 2)), "add.ovf")),
        (1, (smallest, dice.choice((1, 2)), "sub.ovf")),
        (1, (largest, dice.choice((-1, smallest)), "sub.ovf")),
        (1, (smallest, dice.choice((-1, 2)), "mul.ovf")),
        (1, (largest, dice.choice((2, -2, smallest)), "mul.ovf")),
    ])
    return lines((load, left), (load, right), (operation,), ("pop",))


def apply_operator(operation):
    """The operator; for a branch, lines that leave 1 where it was taken and else 0."""
    if not operation.startswith("b"):
        return [Line(operation)]
    taken, end = Label(), Label()
    return lines((operation, taken), ("ldc.i4", 0), ("br", end), taken, ("ldc.i4", 1), end)


# Full frames and a full heap. Class 2 derives from Object, 3 too, and 4 from 2.
# The entry may leave an object of class 4 in KEPT, which starts class 4 and not class 2.

KEPT, STATIC_FIELD, INSTANCE_FIELD = field_token(1), field_token(2), field_token(3)
(RECURSION, MAKE_OBJECT, MAKE_2, STATIC_2, VIRTUAL_2, VIRTUAL_4, MAKE_4) = (method_token(row) for row in range(2, 9))


def deep_actions(dice):
    """Things to do at the bottom of a recursion; each leaves an int32."""
    one = ("ldc.i4", 1)
    return dice.choice([
        [("ldsfld", STATIC_FIELD)],
        [one, ("stsfld", STATIC_FIELD), one],
        [("ldnull",), ("ldfld", INSTANCE_FIELD)],
        [("ldnull",), one, ("stfld", INSTANCE_FIELD), one],
        [("ldsfld", KEPT), ("ldfld", INSTANCE_FIELD)],
        [("ldsfld", KEPT), one, ("stfld", INSTANCE_FIELD), one],
        [("call", STATIC_2)],
        [("ldsfld", KEPT), ("callvirt", VIRTUAL_2)],
        [("ldnull",), ("callvirt", VIRTUAL_2)],
        [("ldnull",), ("call", VIRTUAL_2)],
        [("ldsfld", KEPT), ("call", VIRTUAL_2)],
        [("newobj", MAKE_2), ("pop",), one],
        [("newobj", MAKE_4), ("callvirt", VIRTUAL_2)],
        [("ldsfld", KEPT), ("castclass", class_token(4)), ("pop",), one],
        [("ldsfld", KEPT), ("isinst", class_token(3)), ("pop",), one],
    ])


def deep_methods(dice):
    """The entry, the methods named above in their order, and initialisers for some classes."""
    methods = [
        new_method(dice.choice((1, 3)), STATIC, INT32, [], [INT32]), new_method(OBJECT, STATIC, INT32, [INT32]),
        new_method(OBJECT, CONSTRUCTOR), new_method(2, CONSTRUCTOR), new_method(2, STATIC, INT32),
        new_method(2, VIRTUAL, INT32), new_method(4, VIRTUAL, INT32), new_method(4, CONSTRUCTOR),
    ]
    methods[VIRTUAL_4.row - 1].overridden = VIRTUAL_2.row if dice.chance(60) else 0
    return methods + [new_method(owner, INITIALISER) for owner in (2, 3, 4) if dice.chance(50)]


def deep_end_plan(dice):
    """Objects made up to the limit or near it, then a recursion down to the last frames, and an action there."""
    fields = [Field(1, True, class_type(2)), Field(2, True, INT32), Field(2, False, INT32)]
    module = new_module([0, 1, 1, 2], fields, deep_methods(dice))
    plan = Plan(module)
    objects, depth = dice.choice((0, 0, 1, 253, 254, 255, 256)), dice.choice((28, 29, 29, 30, 30, 30, 30, 31, 32))
    again, bottom = Label(), Label()
    keep = [("newobj", MAKE_4), ("stsfld", KEPT)] if dice.chance(70) else []
    fill = [] if not objects else [
        again, ("newobj", MAKE_OBJECT), ("pop",), ("ldloc", 0), ("ldc.i4", 1), ("add",), ("dup",), ("stloc", 0),
        ("ldc.i4", objects), ("blt", again)]
    plan.bodies[1] = lines(*keep, *fill, ("ldc.i4", depth), ("call", RECURSION), ("ret",))
    plan.bodies[RECURSION.row] = lines(
        ("ldarg", 0), ("brfalse", bottom), ("ldarg", 0), ("ldc.i4", 1), ("sub",), ("call", RECURSION), ("ret",),
        bottom, *deep_actions(dice), ("ret",))
    for row in range(MAKE_OBJECT.row, module.method_count + 1):
        plan.bodies[row] = deep_body(dice, module.methods[row])
    for method in module.methods[1:]:
        method.max_stack = 3
    return plan


def deep_body(dice, method):
    if method.sort == INITIALISER and dice.chance(50):
        return lines(("newobj", MAKE_OBJECT), ("pop",), ("ret",))
    if method.returns == INT32:
        return lines(("ldc.i4", dice.between(0, 9)), ("ret",))
    return lines(("ret",))


# Chains of class starts.


def chain_plan(dice):
    """Classes whose initialisers touch one another, in a row or in a ring."""
    count = dice.choice((2, 3, 5, 8, 20, 30, 31, 32))
    parents = [0] + [dice.between(1, row - 1) for row in range(2, count + 1)]
    fields = [Field(row, True, INT32) for row in range(1, count + 1)]
    entry = new_method(dice.choice((1, 2, count)), STATIC, INT32)
    methods = [entry] + [new_method(row, CONSTRUCTOR) for row in range(1, count + 1)]
    methods += [new_method(row, INITIALISER) for row in range(2, count + 1) if dice.chance(92)]
    plan = Plan(new_module(parents, fields, methods))
    for row, method in enumerate(plan.module.methods):
        if row:
            following = method.owner + 1 if method.owner < count else dice.choice((1, 2, count))
            plan.bodies[row] = chain_body(dice, row, method, following)
            method.max_stack = 2
    return plan


def chain_body(dice, row, method, following):
    """Touch the class that follows, then count in the static field of the method's own class."""
    own = field_token(method.owner)
    touch = dice.choice((
        [("ldsfld", field_token(following)), ("pop",)],
        [("newobj", method_token(following + 1)), ("pop",)],
        [("ldc.i4", row), ("stsfld", field_token(following))],
        [],
    ))
    count = [("ldsfld", own), ("ldc.i4", row), ("add",), ("stsfld", own)]
    if method.sort == CONSTRUCTOR:
        return lines(*(touch if dice.chance(15) else []), ("ret",))
    if method.sort == INITIALISER:
        touch = touch or [("ldsfld", field_token(following)), ("pop",)]
        return lines(*touch, *count, ("ret",))
    return lines(("ldsfld", field_token(dice.choice((2, following)))), ("pop",), *touch, ("ldsfld", own), ("ret",))


# Relations between classes.


def relations_plan(dice):
    """A tree of classes with a virtual method and overrides: casts, tests and calls on objects, results kept."""
    count = dice.between(2, 9)
    parents = [0] + [row - 1 if dice.chance(50) else dice.between(1, row - 1) for row in range(2, count + 1)]
    makers = [new_method(row, CONSTRUCTOR) for row in range(1, count + 1)]
    methods = [new_method(OBJECT, STATIC)] + makers + [new_method(OBJECT, VIRTUAL, INT32)]
    root = len(methods)
    module = new_module(parents, [], methods)
    for row in range(2, count + 1):
        if dice.chance(50):
            module.methods.append(override_of(dice, module, row, root))
    module.methods += [new_method(row, INITIALISER) for row in range(2, count + 1) if dice.chance(45)]
    plan = Plan(module)
    body = []
    for _ in range(dice.between(2, 14)):
        body += relation(dice, module, root, dice.between(1, count), dice.between(1, count))
    plan.bodies[1] = body + [Line("ret")]
    for row, method in enumerate(module.methods):
        if row > 1:
            plan.bodies[row] = lines(("ldc.i4", row), ("ret",)) if method.returns == INT32 else lines(("ret",))
            method.max_stack = 1
    module.methods[1].max_stack = 2
    return plan


def override_of(dice, module, owner, root):
    """A method that overrides one of an ancestor: mostly the nearest."""
    override = new_method(owner, VIRTUAL, INT32)
    above = [row for row in range(root, module.method_count + 1)
             if module.methods[row].owner != owner and module.descends(owner, module.methods[row].owner)]
    override.overridden = above[-1] if dice.chance(70) else dice.choice(above)
    override.root = root
    return override


def relation(dice, module, root, made, asked):
    """One question about an object of a class, and a static field of Object added for its answer."""
    make = ("newobj", method_token(made + 1)) if dice.chance(92) else ("ldnull",)
    kind = dice.below(6)
    if kind == 0 and not module.descends(made, asked) and dice.chance(70):
        asked = made
    virtual = dice.choice([row for row in range(root, module.method_count + 1)
                           if module.methods[row].sort == VIRTUAL and module.descends(made, module.methods[row].owner)])
    question, type = (
        ([make, ("castclass", class_token(asked))], class_type(asked)),
        ([make, ("isinst", class_token(asked))], class_type(asked)),
        ([make, ("dup",), ("isinst", class_token(asked)), ("ceq",)], INT32),
        ([make, ("newobj", method_token(asked + 1)), ("ceq",)], INT32),
        ([make, (dice.choice(("callvirt", "callvirt", "call")), method_token(virtual))], INT32),
        ([make], class_type(made)),
    )[kind]
    module.fields.append(Field(OBJECT, True, type))
    return lines(*question, ("stsfld", field_token(module.field_count)))


# Tall stacks.


def tall_plan(dice):
    """Values piled up to about max stack, with a call among them, and taken down again."""
    max_stack = dice.choice((0, 1, 2, 8, 31, 32, 32))
    height = max(1, max_stack + dice.choice((-1, 0, 0, 0, 1)))
    called = new_method(OBJECT, STATIC, dice.choice((VOID, INT32)), [INT32] * dice.choice((0, 1, 2)))
    entry = new_method(OBJECT, STATIC, INT32, [], [INT32])
    plan = Plan(new_module([0], [], [entry, called]))
    writer = BodyWriter(dice, plan, 1, 200)
    call_at = dice.between(len(called.parameters), height)
    while len(writer.shape) < height or call_at == height:
        if len(writer.shape) == call_at:
            call_at = None
            writer.emit("call", method_token(2))
        elif writer.shape and dice.chance(30):
            writer.emit("dup")
        else:
            writer.emit("ldc.i4", constant_value(dice, INT32))
    while len(writer.shape) > 1:
        writer.emit(dice.choice(("add", "xor", "sub", "pop")))
    plan.bodies[1] = writer.items + [Line("ret")]
    plan.bodies[2] = lines(*([("ldc.i4", 7)] if called.returns == INT32 else []), ("ret",))
    entry.max_stack, called.max_stack = max_stack, 1
    return plan


# Arguments.


def argument_plan(dice):
    """Arithmetic on the arguments, so that their edge values meet every operator."""
    parameters = [dice.choice(WHOLE) for _ in range(dice.between(1, 8))]
    entry = new_method(OBJECT, STATIC, dice.choice((INT32, INT64, F)), parameters, [INT32, INT64, F])
    plan = Plan(new_module([0], [Field(OBJECT, True, INT64)], [entry]))
    writer = BodyWriter(dice, plan, 1, 120)
    for _ in range(dice.between(1, 5)):
        writer.store(3)
    writer.leave(4)
    plan.bodies[1] = writer.items
    entry.max_stack = min(MOST_STACK, writer.deepest)
    return plan
