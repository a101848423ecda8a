"""What each instruction needs on the stack and brings to it.

The check asks this of the types it has found (13, 15, 14), the machine of the
types of its values (43, 45, 44): one rule serves both.
"""

from collections import namedtuple

from handed_back import TOO_FEW, TOO_MANY, WRONG_TYPE
from operators import F, INT32, INT64, NULL, RULES, VOID, class_type, fits, is_reference, type_name

# pops: how many values it takes from the top.
# accepts: tells from their types, lowest first, whether they are right.
# pushes: how many values it brings; brings: their types, from those taken.
# words: what it needs, in words.
# alone: whether the values taken must be the whole stack (`ret`).
Need = namedtuple("Need", "pops accepts pushes brings words alone", defaults=(False,))


def fault(need, shape, max_stack):
    """TOO_FEW, WRONG_TYPE or TOO_MANY, tested in this order, or 0 where the stack is right."""
    depth = len(shape)
    if depth < need.pops:
        return TOO_FEW
    taken = shape[depth - need.pops:]
    if (need.alone and depth > need.pops) or not need.accepts(taken):
        return WRONG_TYPE
    if depth - need.pops + need.pushes > max_stack:
        return TOO_MANY
    return 0


def shape_after(need, shape):
    """The types on the stack after an instruction, where it has no fault."""
    rest = len(shape) - need.pops
    return shape[:rest] + need.brings(shape[rest:])


def of(module, method, instruction):
    """The Need of an instruction whose operand has no fault."""
    operation, operand = instruction.operation, instruction.operand
    if operation in RULES:
        rule = RULES[operation]
        pushes = 0 if operation.startswith("b") else 1
        return Need(rule.pops, rule.accepts, pushes, rule.brings, rule.words)
    if operation in CONSTANTS:
        return loads(CONSTANTS[operation])
    if operation in PLAIN:
        return PLAIN[operation]
    return DECLARED[operation](module, method, operand)


def nothing(types):
    return []


def anything(types):
    return True


def loads(type):
    """Loads bring declared types."""
    return Need(0, anything, 1, lambda types: [type], "nothing")


def takes(module, wanted, brought, words):
    """Takes values that fit the wanted types, and brings a type, or nothing for void."""
    parents = module.parents

    def accepts(types):
        return all(fits(parents, type, want) for type, want in zip(types, wanted))

    if brought == VOID:
        return Need(len(wanted), accepts, 0, nothing, words)
    return Need(len(wanted), accepts, 1, lambda types: [brought], words)


def values_that_fit(wanted):
    if not wanted:
        return "nothing"
    return "values that fit " + ", ".join(type_name(type) for type in wanted)


CONSTANTS = {"ldnull": NULL, "ldc.i4": INT32, "ldc.i8": INT64, "ldc.r8": F}

PLAIN = {
    "nop": Need(0, anything, 0, nothing, "nothing"),
    "br": Need(0, anything, 0, nothing, "nothing"),
    "pop": Need(1, anything, 0, nothing, "a value"),
    "dup": Need(1, anything, 2, lambda types: types * 2, "a value"),
}


def _load_argument(module, method, number):
    return loads(method.arguments[number])


def _store_argument(module, method, number):
    wanted = [method.arguments[number]]
    return takes(module, wanted, VOID, values_that_fit(wanted))


def _load_local(module, method, number):
    return loads(method.locals[number])


def _store_local(module, method, number):
    wanted = [method.locals[number]]
    return takes(module, wanted, VOID, values_that_fit(wanted))


def _load_field(module, method, token):
    field = module.fields[token.row]
    wanted = [class_type(field.owner)]
    return takes(module, wanted, field.type, values_that_fit(wanted))


def _store_field(module, method, token):
    field = module.fields[token.row]
    wanted = [class_type(field.owner), field.type]
    return takes(module, wanted, VOID, values_that_fit(wanted))


def _load_static(module, method, token):
    return loads(module.fields[token.row].type)


def _store_static(module, method, token):
    wanted = [module.fields[token.row].type]
    return takes(module, wanted, VOID, values_that_fit(wanted))


def _call(module, method, token):
    """Room for the value to come is tested at the call, after its arguments are gone."""
    called = module.methods[token.row]
    return takes(module, called.arguments, called.returns, values_that_fit(called.arguments))


def _new_object(module, method, token):
    constructor = module.methods[token.row]
    return takes(module, constructor.parameters, class_type(constructor.owner), values_that_fit(constructor.parameters))


def _cast(module, method, token):
    """After castclass and isinst the check finds the token's class."""
    accepts = lambda types: is_reference(types[0])
    return Need(1, accepts, 1, lambda types: [class_type(token.row)], "a reference")


def _return(module, method, operand):
    """`ret` wants exactly the return value on the stack, or nothing for void."""
    if method.returns == VOID:
        return Need(0, anything, 0, nothing, "an empty stack", alone=True)
    accepts = lambda types: fits(module.parents, types[0], method.returns)
    words = "exactly one value, that fits " + type_name(method.returns)
    return Need(1, accepts, 0, nothing, words, alone=True)


DECLARED = {
    "ldarg": _load_argument, "starg": _store_argument, "ldloc": _load_local, "stloc": _store_local,
    "ldfld": _load_field, "stfld": _store_field, "ldsfld": _load_static, "stsfld": _store_static,
    "call": _call, "callvirt": _call, "newobj": _new_object, "castclass": _cast, "isinst": _cast, "ret": _return,
}
