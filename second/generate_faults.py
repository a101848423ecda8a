"""Modules with faults: bodies that fail the check, damaged tables and code, counts at their limits, garbage."""

import needs
from assemble import Label, Line, records
from generate_bodies import BodyWriter, constant_line
from generate_modules import new_method, new_module
from operators import F, INT32, INT64, RULES, VOID, class_type
from reading_code import BRANCHES, LENGTHS, PREFIX, TOKEN_KINDS, Instruction, Token, operand_fault
from tables import (
    BODY_BYTES, CLASS, CONSTRUCTOR, ENTRY, INITIALISER, INSTANCE, MOST_STACK, OBJECT, STATIC, VIRTUAL, Field,
)

PLAIN_OPERATIONS = ["nop", "ldnull", "dup", "pop", "ret"] + sorted(set(RULES) - set(BRANCHES))


def random_token(dice, module, operation):
    """Mostly a token of the right kind with a row that exists."""
    kind = TOKEN_KINDS[operation]
    count = {2: module.class_count, 4: module.field_count, 6: module.method_count}[kind]
    if dice.chance(3):
        return Token(dice.choice((2, 4, 6, 0, 1, 10)), dice.between(0, count + 1))
    if dice.chance(2):
        return Token(kind, dice.choice((0, count + 1, 0xFFFFFF, 0x010001)))
    return Token(kind, dice.between(1, max(1, count)))


def random_line(dice, module, method, labels):
    """Any instruction, whatever stands on the stack."""
    kind = dice.below(10)
    if kind < 2:
        return constant_line(dice, dice.choice((INT32, INT32, INT64, F)))
    if kind < 4:
        operation = dice.choice(("ldarg", "starg", "ldloc", "stloc"))
        count = len(method.arguments if operation.endswith("arg") else method.locals)
        return Line(operation, dice.below(count) if count and dice.chance(97) else dice.between(count, 255))
    if kind < 7:
        return Line(dice.choice(PLAIN_OPERATIONS))
    if kind < 9 or not labels:
        operation = dice.choice(sorted(TOKEN_KINDS))
        return Line(operation, random_token(dice, module, operation))
    return Line(dice.choice(BRANCHES), dice.choice(labels))


# Bodies that fail the check.


def soup(dice, plan, row, count):
    """Instructions that mostly suit the stack they meet, with branches to anywhere."""
    writer = BodyWriter(dice, plan, row, count)
    method, labels = writer.method, [Label() for _ in range(3)]
    tries = 0
    while len(writer.items) < count and tries < 40 * count:
        tries += 1
        line = random_line(dice, plan.module, method, labels)
        if line.operation == "ret" and dice.chance(80):
            continue
        fault = soup_fault(plan.module, method, line, writer.shape)
        if fault is None:
            writer.emit(*line)
        elif dice.chance(1):
            writer.items.append(line)
    for label in labels:
        writer.items.insert(dice.below(len(writer.items) + 1), label)
    if dice.chance(80):
        writer.leave(1)
    return writer.items


def soup_fault(module, method, line, shape):
    """None where a line suits the stack; else something true."""
    instruction = Instruction(0, line.operation, line.operand, 0)
    if line.operation not in BRANCHES and operand_fault(module, method, instruction):
        return "operand"
    return needs.fault(needs.of(module, method, instruction), shape, MOST_STACK) or None


def stir_soup(dice, plan):
    """Replace some bodies, the entry's among them, by soup."""
    module = plan.module
    for row in range(1, module.method_count + 1):
        if row == module.entry or dice.chance(30):
            plan.bodies[row] = soup(dice, plan, row, dice.choice((5, 15, 40, 100)))
            module.methods[row].max_stack = dice.choice((2, 8, MOST_STACK, MOST_STACK))


def disturb(dice, plan):
    """One change to a body or a declaration of a module that passed."""
    row = plan.module.entry if dice.chance(50) else dice.between(1, plan.module.method_count)
    change = dice.weighted([
        (4, replace_line), (2, delete_line), (2, insert_line), (1, swap_lines), (2, retarget), (2, lower_stack),
        (1, drop_ret), (3, change_type), (1, repeat_line), (1, change_sort), (2, drop_cast), (1, change_entry),
        (2, wrong_member), (2, unknown_bytes),
    ])
    change(dice, plan, row)


def line_places(plan, row):
    return [index for index, item in enumerate(plan.bodies[row]) if isinstance(item, Line)]


def pick_line(dice, plan, row):
    """The index of a line, mostly one of the first, which a run surely reaches."""
    places = line_places(plan, row)
    return dice.choice(places[:12] if dice.chance(60) else places)


def body_labels(plan, row):
    return [item for item in plan.bodies[row] if isinstance(item, Label)]


def any_line(dice, plan, row):
    return random_line(dice, plan.module, plan.module.methods[row], body_labels(plan, row))


def replace_line(dice, plan, row):
    """Another operator, another operand of the same kind, or any other line."""
    index = pick_line(dice, plan, row)
    line = plan.bodies[row][index]
    if line.operation in RULES and line.operation not in BRANCHES and dice.chance(70):
        plan.bodies[row][index] = Line(dice.choice(sorted(set(RULES) - set(BRANCHES))))
    elif line.operation in TOKEN_KINDS and dice.chance(70):
        operation = dice.choice(sorted(TOKEN_KINDS)) if dice.chance(30) else line.operation
        plan.bodies[row][index] = Line(operation, random_token(dice, plan.module, operation))
    elif line.operation.startswith("ldc") and dice.chance(70):
        plan.bodies[row][index] = constant_line(dice, dice.choice((INT32, INT64, F)))
    else:
        plan.bodies[row][index] = any_line(dice, plan, row)


def wrong_member(dice, plan, row):
    """Let a token name a field or method that exists but that its instruction doesn't take."""
    module, method, body = plan.module, plan.module.methods[row], plan.bodies[row]
    places = [index for index in line_places(plan, row) if body[index].operation in TOKEN_KINDS]
    if not places:
        return
    index = dice.choice(places)
    operation = body[index].operation
    if operation in ("call", "callvirt", "newobj"):
        operation = dice.choice(("call", "callvirt", "callvirt", "newobj"))
    count = max(module.class_count, module.field_count, module.method_count)
    tokens = [Token(TOKEN_KINDS[operation], each) for each in range(1, count + 1)]
    wrong = [token for token in tokens if operand_fault(module, method, Instruction(0, operation, token, 0))]
    if wrong:
        body[index] = Line(operation, dice.choice(wrong))


NOT_KEPT = [first for first in range(256) if LENGTHS[first] == 0]


def unknown_bytes(dice, plan, row):
    """Put in a byte that starts no instruction kept, or FE before a byte that it may not stand before."""
    if dice.chance(50):
        unknown = bytes([PREFIX, dice.choice((0x00, 0x06, 0x06, 0x07, 0xFE, 0xFF))])
    else:
        unknown = bytes([dice.choice(NOT_KEPT)])
    plan.bodies[row].insert(pick_line(dice, plan, row), Line("raw", unknown))


def delete_line(dice, plan, row):
    del plan.bodies[row][pick_line(dice, plan, row)]
    if not line_places(plan, row):
        plan.bodies[row].append(Line("nop"))


def insert_line(dice, plan, row):
    plan.bodies[row].insert(pick_line(dice, plan, row), any_line(dice, plan, row))


def drop_cast(dice, plan, row):
    """Leave out a castclass, without which two shapes may no longer agree."""
    casts = [(method, index) for method in plan.bodies for index in line_places(plan, method)
             if plan.bodies[method][index].operation == "castclass"]
    if casts:
        method, index = dice.choice(casts)
        del plan.bodies[method][index]


def repeat_line(dice, plan, row):
    index = pick_line(dice, plan, row)
    plan.bodies[row].insert(index, plan.bodies[row][index])


def swap_lines(dice, plan, row):
    body = plan.bodies[row]
    one, other = pick_line(dice, plan, row), pick_line(dice, plan, row)
    body[one], body[other] = body[other], body[one]


def retarget(dice, plan, row):
    """Send a branch, or a new one, elsewhere: to another label, inside an instruction, or outside the code."""
    body = plan.bodies[row]
    branches = [index for index in line_places(plan, row) if body[index].operation in BRANCHES]
    labels = body_labels(plan, row)
    goal = dice.choice(labels) if labels and dice.chance(40) else dice.choice(
        (dice.between(0, 3 * len(body)), dice.between(0, 12), -1, -3, 5000, 2**31 - 1))
    if branches and dice.chance(70):
        index = dice.choice(branches)
        body[index] = Line(body[index].operation, goal)
    else:
        body.insert(pick_line(dice, plan, row), Line(dice.choice(("br", "br", "brtrue", "beq")), goal))


def lower_stack(dice, plan, row):
    method = plan.module.methods[row]
    method.max_stack = dice.below(method.max_stack + 1)


def drop_ret(dice, plan, row):
    """Let the last instruction fall past the end."""
    if plan.bodies[row][-1] == Line("ret"):
        plan.bodies[row][-1] = Line(dice.choice(("nop", "pop", "nop")))


def change_type(dice, plan, row):
    """Another declared type for a local, a parameter, a return or a field."""
    module = plan.module
    method = module.methods[row]
    type = dice.choice((INT32, INT64, F, class_type(dice.between(1, module.class_count))))
    lists = [types for types in (method.locals, method.parameters) if types]
    if lists and dice.chance(60):
        types = dice.choice(lists)
        types[dice.below(len(types))] = type
    elif module.field_count and dice.chance(50):
        field = dice.between(1, module.field_count)
        module.fields[field] = module.fields[field]._replace(type=type)
    else:
        method.returns = dice.choice((VOID, type))


def change_sort(dice, plan, row):
    plan.module.methods[row].sort = dice.between(0, 4)


def change_entry(dice, plan, row):
    plan.module.entry = dice.between(1, plan.module.method_count)


def move_end(dice, plan):
    """Let a method's part end some bytes earlier or later than its code does; answers the tables anew."""
    module = plan.module
    method = module.methods[module.entry if dice.chance(50) else dice.between(1, module.method_count)]
    length = method.code_length + dice.choice((-1, -2, -3, -4, -5, -6, -8, 1, 2, 5))
    method.code_length = max(1, min(length, len(module.code) - method.code_offset))
    return b"".join(records(module))


# Damaged tables and code.

EDGE_BYTES = (0, 1, 2, 3, 4, 5, 6, 7, 31, 32, 33, 34, 35, 64, 65, 127, 128, 129, 200, 255)


def damage_records(dice, module):
    """Whole records dropped, doubled, moved or changed in one byte."""
    parts = records(module)
    for _ in range(dice.between(1, 2)):
        at = dice.below(len(parts))
        kind = dice.below(10)
        if kind == 0:
            del parts[at]
        elif kind == 1:
            parts.insert(dice.below(len(parts) + 1), parts[at])
        elif kind == 2:
            other = dice.below(len(parts))
            parts[at], parts[other] = parts[other], parts[at]
        elif kind == 3:
            parts.append(dice.bytes(dice.between(1, 3)))
        else:
            parts[at] = changed_byte(dice, parts[at], 1 if kind < 9 else 0)
        if not parts:
            break
    return b"".join(parts)


def changed_byte(dice, data, first):
    """One byte, from a first index on, set to an edge value or moved by one."""
    at = dice.between(first, len(data) - 1)
    value = dice.choice(EDGE_BYTES) if dice.chance(70) else (data[at] + dice.choice((-1, 1))) & 0xFF
    return data[:at] + bytes([value]) + data[at + 1:]


def damage_bytes(dice, data):
    """Bits flipped, bytes changed, left out or put in, or the end cut off."""
    for _ in range(dice.between(1, 3)):
        if not data:
            return data
        at = dice.below(len(data))
        kind = dice.below(6)
        if kind == 0:
            data = data[:at]
        elif kind == 1:
            data = data[:at] + dice.bytes(dice.between(1, 3)) + data[at:]
        elif kind == 2:
            data = data[:at] + data[at + dice.between(1, 3):]
        elif kind == 3:
            data = data[:at] + dice.bytes(1) + data[at + 1:]
        else:
            data = data[:at] + bytes([data[at] ^ (1 << dice.below(8))]) + data[at + 1:]
    return data


def break_override(dice, plan):
    """Break a rule about overriding: mostly 7, else 6."""
    overriding = [method for method in plan.module.methods[1:] if method.overridden]
    if overriding and dice.chance(70):
        change_signature(dice, dice.choice(overriding))
    elif plan.module.method_count:
        add_override(dice, plan)


def add_override(dice, plan):
    """One more method, which overrides a row that it mostly may not: any, or one its class overrides already."""
    module = plan.module
    like = dice.choice(module.methods[1:])
    owner = like.owner if dice.chance(60) else dice.between(1, module.class_count)
    method = new_method(owner, like.sort if dice.chance(80) else VIRTUAL, like.returns, like.parameters)
    any_row = dice.between(0, module.method_count + 2)
    method.overridden = like.overridden if like.overridden and dice.chance(60) else any_row
    module.methods.append(method)
    plan.bodies[module.method_count] = [Line("br", 0)]


def change_signature(dice, method):
    """Another return type or other parameters."""
    if dice.chance(40):
        method.returns = dice.choice((VOID, INT32, INT64, F, class_type(OBJECT)))
    elif method.parameters and dice.chance(50):
        method.parameters.pop()
    else:
        method.parameters.append(dice.choice((INT32, INT64, F)))


def break_rule(dice, plan):
    """Break one rule between records, or the order or range of one value, in a module that is else right."""
    dice.choice((
        initialiser_rule, initialiser_rule, constructor_rule, entry_rule, field_order, parent_range, overridden_range,
    ))(dice, plan)


def initialiser_rule(dice, plan):
    """An initialiser of Object, a second one of a class, or one with a return type or a parameter."""
    module = plan.module
    kind = dice.below(4)
    method = new_method(OBJECT if kind == 0 else dice.between(1, module.class_count), INITIALISER)
    if kind == 1:
        method.returns = dice.choice((INT32, INT64, F, class_type(OBJECT)))
    elif kind == 2:
        method.parameters.append(dice.choice((VOID, INT32, F)))
    module.methods.append(method)
    plan.bodies[module.method_count] = [Line("ret")]


def constructor_rule(dice, plan):
    constructors = [method for method in plan.module.methods[1:] if method.sort == CONSTRUCTOR]
    if constructors:
        dice.choice(constructors).returns = dice.choice((INT32, INT64, F, class_type(OBJECT)))


def entry_rule(dice, plan):
    """An entry of another sort, with a parameter of F or a class, or returning a class."""
    module = plan.module
    if dice.chance(40):
        module.entry = dice.between(0, module.method_count + 1)
    elif dice.chance(50):
        module.methods[module.entry].parameters.append(dice.choice((F, class_type(OBJECT))))
    else:
        module.methods[module.entry].returns = class_type(dice.between(1, module.class_count))


def field_order(dice, plan):
    """Two fields in each other's place, or one with an owner that is no class."""
    fields = plan.module.fields
    if len(fields) > 2 and dice.chance(80):
        one, other = dice.between(1, len(fields) - 1), dice.between(1, len(fields) - 1)
        fields[one], fields[other] = fields[other], fields[one]
    elif len(fields) > 1:
        row = dice.between(1, len(fields) - 1)
        fields[row] = fields[row]._replace(owner=dice.choice((0, plan.module.class_count + 1, 255)))


def parent_range(dice, plan):
    parents = plan.module.parents
    row = dice.between(1, len(parents) - 1)
    parents[row] = dice.choice((0, 1, row, row + 1, 255))


def overridden_range(dice, plan):
    """An overridden row of any kind for any method."""
    module = plan.module
    row = dice.between(1, module.method_count)
    any_row = dice.between(1, module.method_count)
    module.methods[row].overridden = dice.choice((any_row, row, module.method_count + 1, 255))


# Counts at their limits and past them.


def ret_only(module):
    """Tables and code of a module all of whose methods share one `ret`."""
    for method in module.methods[1:]:
        method.code_offset, method.code_length = 0, 1
    return b"".join(records(module)), b"\x2A"


def many_classes(dice):
    parents = [0] + [dice.between(1, row - 1) for row in range(2, dice.between(31, 34) + 1)]
    if dice.chance(20):
        parents[-1] = len(parents)
    return ret_only(new_module(parents, [], [new_method(OBJECT, STATIC)]))


def many_fields(dice):
    """Static and instance fields spread over 31 classes below Object."""
    statics, instances = dice.between(60, 66), dice.between(60, 68)
    flags = dice.shuffled([True] * statics + [False] * instances)
    fields = [Field(2 + 31 * index // len(flags), flag, dice.choice((1, 2, 3, 33))) for index, flag in enumerate(flags)]
    return ret_only(new_module([0] + [1] * 31, fields, [new_method(OBJECT, STATIC)]))


def many_instance_fields(dice):
    """About 8 instance fields down a chain of classes."""
    depth = dice.between(1, 5)
    owners = sorted(dice.between(1, depth) for _ in range(dice.between(7, 10)))
    fields = [Field(owner, False, INT32) for owner in owners]
    return ret_only(new_module(list(range(depth)), fields, [new_method(OBJECT, STATIC)]))


def many_methods(dice):
    count = dice.between(126, 130)
    sorts = [STATIC] + [dice.choice((STATIC, INSTANCE, VIRTUAL, CONSTRUCTOR)) for _ in range(count - 1)]
    return ret_only(new_module([0], [], [new_method(OBJECT, sort) for sort in sorts]))


def many_arguments(dice):
    sort = dice.choice((STATIC, INSTANCE, VIRTUAL, CONSTRUCTOR))
    method = new_method(OBJECT, sort, VOID, [dice.choice((1, 2, 3, 33)) for _ in range(dice.between(6, 9))])
    return ret_only(new_module([0], [], [new_method(OBJECT, STATIC), method]))


def many_locals(dice):
    method = new_method(OBJECT, STATIC, VOID, [], [dice.choice((1, 2, 3, 33)) for _ in range(dice.between(15, 18))])
    return ret_only(new_module([0], [], [method]))


def large_stack(dice):
    module = new_module([0], [], [new_method(OBJECT, STATIC)])
    module.methods[1].max_stack = dice.choice((31, 32, 33, 34, 255))
    return ret_only(module)


def code_part(dice):
    """A part of the code at the edge of the buffer, or with a length at the edge of its range."""
    module = new_module([0], [], [new_method(OBJECT, STATIC)])
    size = dice.choice((0, 1, 2, 1023, 1024, 1025, 2000, 32767, 32768))
    method = module.methods[1]
    method.code_length = dice.choice((0, 1, 2, 1023, 1024, 1024, 1025, 1025, 65535))
    if dice.chance(60):
        size = max(size, min(method.code_length, 2000))
    edge = max(0, size - method.code_length)
    method.code_offset = dice.choice((0, 0, edge, edge, edge, edge + 1, size, 0x80000000, 0xFFFFFFFF, 0xFFFFFC00))
    code = bytes(max(0, size - 1)) + b"\x2A" * min(size, 1)
    return b"".join(records(module)), code


def long_code(dice):
    """More code than a module may have, or just as much."""
    tables, code = large_stack(dice)
    return tables, code + bytes(dice.choice((32767, 32768, 32769, 65534)))


def full_tables(dice):
    """Tables of just 8,192 bytes, or a few less or more, with every count at its limit."""
    fields = [Field(1 + index // 4, index % 4 < 2, INT32) for index in range(128)]
    methods = [new_method(OBJECT, STATIC) for _ in range(128)]
    wanted = dice.choice((8188, 8190, 8192, 8192, 8194, 8200, 8258))
    types = (wanted - 2 * 32 - 4 * 128 - 12 * 128 - 2) // 2
    for method in methods[1:]:
        while types and len(method.locals) + len(method.parameters) < 24:
            (method.parameters if len(method.parameters) < 8 else method.locals).append(INT32)
            types -= 1
    methods[0].locals = [INT32] * min(types, 16)
    tables, code = ret_only(new_module([0] + [1] * 31, fields, methods))
    return tables + bytes(dice.choice((0, 0, 0, 1))), code


LIMITS = (
    many_classes, many_fields, many_instance_fields, many_methods, many_arguments, many_locals, large_stack,
    code_part, code_part, code_part, long_code, full_tables,
)


def limit(dice):
    return dice.choice(LIMITS)(dice)


# Garbage.


def garbage(dice):
    """Bytes without sense, or records without order."""
    code = dice.bytes(dice.between(0, 40))
    if dice.chance(30):
        return dice.bytes(dice.between(0, 60)), code
    parts = [bytes([1, 0])] if dice.chance(80) else []
    for _ in range(dice.between(0, 8)):
        kind = dice.between(CLASS, ENTRY)
        body = bytes(dice.choice((0, 0, 1, 1, 1, 2, 3, 33)) for _ in range(BODY_BYTES[kind]))
        parts.append(bytes([kind]) + body)
    if dice.chance(5):
        parts *= 2000
    return b"".join(parts), code


# Raw code under good tables.


def raw_code(dice):
    """A module whose entry is any bytes, mostly of instructions that are kept."""
    entry = new_method(OBJECT, STATIC, dice.choice((VOID, INT32)), [], [INT32, INT64, class_type(OBJECT)])
    module = new_module([0, 1], [Field(1, True, INT32), Field(2, False, INT32)], [entry, new_method(2, CONSTRUCTOR)])
    likely = bytes(range(0x02, 0x2B)) + bytes(range(0x58, 0x67)) + b"\x28\x73\x74\x7B\x7D\x7E\x80\xFE\x2B\x2D"
    code = bytes(dice.choice(likely) if dice.chance(90) else dice.below(256) for _ in range(dice.between(1, 30)))
    entry.code_length, entry.max_stack = len(code), dice.choice((1, 4, 8))
    module.methods[2].code_offset, module.methods[2].code_length = len(code), 1
    return b"".join(records(module)), code + b"\x2A"
