"""Modules that load: classes, fields and methods at random with bodies that pass the check."""

from assemble import assemble, field_token, records
from generate_bodies import BodyWriter, Plan
from operators import F, INT32, INT64, VOID, class_type
from tables import (
    CONSTRUCTOR, INITIALISER, INSTANCE, MOST_FIELDS, MOST_INSTANCE_FIELDS, MOST_METHOD_CODE, MOST_METHODS, MOST_STACK,
    MOST_STATIC_FIELDS, OBJECT, STATIC, VIRTUAL, Field, Method, Module,
)


def new_method(owner, sort, returns=VOID, parameters=(), locals=()):
    """A method without code yet."""
    method = Method(0, owner, sort, returns, 0, 0, 0, 0)
    method.parameters = list(parameters)
    method.locals = list(locals)
    return method


def new_module(parents, fields=(), methods=(), entry=1):
    module = Module(b"")
    module.parents += parents
    module.fields += fields
    module.methods += methods
    module.entry = entry
    set_roots(module)
    return module


def set_roots(module):
    for row, method in enumerate(module.methods):
        if row:
            method.root = module.methods[method.overridden].root if method.overridden else row


def lay_out(plan, dice):
    """Assemble the bodies, give each method its part of the code, and answer tables and code."""
    module = plan.module
    code = b""
    for row in dice.shuffled(range(1, module.method_count + 1)):
        if dice.chance(5):
            code += dice.bytes(dice.between(1, 6))
        part = assemble(plan.bodies[row], dice)
        method = module.methods[row]
        method.code_offset, method.code_length = len(code), len(part)
        code += part
    module.code = code
    return b"".join(records(module)), code


class ModuleGrower:
    """Grows a whole module: classes with parents, fields, methods of every sort, and bodies."""

    def __init__(self, dice):
        self.dice = dice
        self.module = Module(b"")
        # By method: the one it overrides; and the methods that call nothing.
        self.overrides = {}
        self.simple = set()

    def grow(self):
        self.grow_classes()
        self.grow_fields()
        self.module.methods += self.in_rows(self.grow_methods())
        self.link_overrides()
        set_roots(self.module)
        plan = Plan(self.module)
        self.note_traits(plan)
        for row in range(1, self.module.method_count + 1):
            self.grow_body(plan, row)
        return plan

    def grow_classes(self):
        dice = self.dice
        count = dice.weighted([(6, dice.between(1, 4)), (5, dice.between(5, 9)), (1, dice.between(10, 32)), (1, 32)])
        for row in range(1, count + 1):
            if row == OBJECT:
                self.module.parents.append(0)
            else:
                self.module.parents.append(row - 1 if dice.chance(55) else dice.between(1, row - 1))

    def type(self):
        if self.dice.chance(30):
            return class_type(self.dice.between(1, self.module.class_count))
        return self.dice.choice((INT32, INT32, INT64, F))

    def types(self, most):
        return [self.type() for _ in range(self.dice.between(0, most))]

    def grow_fields(self):
        for owner in range(1, self.module.class_count + 1):
            for _ in range(self.dice.weighted([(5, 0), (5, 1), (5, 2), (2, 4), (1, 7)])):
                self.add_field(Field(owner, self.dice.chance(40), self.type()))

    def add_field(self, field):
        """Add a field where it passes none of the counts."""
        module = self.module
        if module.field_count == MOST_FIELDS:
            return
        if field.static and len(module.static_fields()) == MOST_STATIC_FIELDS:
            return
        if not field.static and len(module.instance_fields(field.owner)) == MOST_INSTANCE_FIELDS:
            return
        module.fields.append(field)

    def any_class(self):
        return self.dice.between(1, self.module.class_count)

    def method(self, owner, sort, returns=VOID, most_parameters=3):
        locals = [INT32] * self.dice.between(0, 2) + self.types(4)
        if self.dice.chance(2):
            locals = [INT32, INT64, F, class_type(OBJECT)] * 4
        parameters = self.types(most_parameters)
        return new_method(owner, sort, returns, parameters, self.dice.shuffled(locals))

    def return_type(self):
        return VOID if self.dice.chance(35) else self.type()

    def grow_methods(self):
        """Methods as groups; within a group the order stays, since a method overrides earlier ones."""
        dice = self.dice
        groups = []
        for _ in range(dice.between(0, 3)):
            groups.append([self.method(self.any_class(), STATIC, self.return_type())])
        for _ in range(dice.between(0, 3)):
            groups.append([self.method(self.any_class(), INSTANCE, self.return_type(), dice.choice((2, 3, 7)))])
        for _ in range(dice.between(0, 3)):
            groups.append(self.grow_family())
        for _ in range(dice.between(0, 2)):
            groups.append([self.method(self.any_class(), CONSTRUCTOR)])
        for owner in range(2, self.module.class_count + 1):
            if dice.chance(35):
                groups.append([self.method(owner, INITIALISER, VOID, 0)])
        if dice.chance(1):
            groups += [[new_method(self.any_class(), STATIC, INT32, [INT32], [INT32])] for _ in range(MOST_METHODS)]
        return groups

    def grow_family(self):
        """A virtual method and its overrides in classes below, each overriding one of an ancestor."""
        family = [self.method(self.any_class(), VIRTUAL, self.return_type())]
        for owner in range(family[0].owner + 1, self.module.class_count + 1):
            above = [method for method in family if method.owner != owner and self.module.descends(owner, method.owner)]
            if above and self.dice.chance(60) and len(family) < 8:
                override = self.method(owner, VIRTUAL, above[0].returns, 0)
                override.parameters = list(above[0].parameters)
                self.overrides[override] = above[-1] if self.dice.chance(80) else self.dice.choice(above)
                family.append(override)
        return family

    def in_rows(self, groups):
        """All methods by row: the entry mostly first, groups mixed, and simple constructors anywhere."""
        dice = self.dice
        entry = self.method(self.any_class(), STATIC, dice.choice((VOID, INT32, INT32, INT64, F)), 0)
        count = dice.weighted([(4, 0), (3, 1), (2, 2), (1, 4), (1, 8)])
        entry.parameters = [dice.choice((INT32, INT64)) for _ in range(count)]
        makers = [new_method(owner, CONSTRUCTOR, VOID, self.types(2) if dice.chance(30) else [])
                  for owner in range(1, self.module.class_count + 1) if dice.chance(97)]
        turns = dice.shuffled([number for number, group in enumerate(groups) for _ in group])
        waiting = [list(group) for group in groups]
        rows = [waiting[number].pop(0) for number in turns]
        for maker in makers:
            self.simple.add(maker)
            rows.insert(dice.below(len(rows) + 1), maker)
        rows = rows[:MOST_METHODS - 1]
        rows.insert(0 if dice.chance(80) else dice.below(min(len(rows), 4) + 1), entry)
        self.module.entry = rows.index(entry) + 1
        return rows

    def link_overrides(self):
        rows = {method: row for row, method in enumerate(self.module.methods)}
        for method in self.module.methods[1:]:
            method.overridden = rows[self.overrides[method]] if method in self.overrides else 0

    def note_traits(self, plan):
        """Which methods call nothing, and which call themselves and count down."""
        for row, method in enumerate(self.module.methods):
            if row and method in self.simple:
                plan.simple.add(row)
            elif row and method.sort in (STATIC, INSTANCE, VIRTUAL) and row != self.module.entry:
                counts = [number for number, type in enumerate(method.arguments) if type == INT32]
                if counts and self.dice.chance(25):
                    plan.recursive[row] = counts[0]

    def grow_body(self, plan, row):
        method = self.module.methods[row]
        if row in plan.simple:
            items, deepest = self.simple_body(plan, row)
        else:
            items, deepest = self.full_body(plan, row)
        plan.bodies[row] = items
        if self.dice.chance(35):
            deepest = min(MOST_STACK, deepest + self.dice.between(1, 4))
        method.max_stack = MOST_STACK if self.dice.chance(3) else deepest

    def simple_body(self, plan, row):
        """A constructor that calls nothing: it may store its parameters in fields that take them."""
        method, module = self.module.methods[row], self.module
        writer = BodyWriter(self.dice, plan, row, 40)
        for number, type in enumerate(method.arguments):
            takers = [field for field in module.instance_fields(method.owner)
                      if module.fields[field].type == type and number]
            if takers:
                writer.emit("ldarg", 0)
                writer.emit("ldarg", number)
                writer.emit("stfld", field_token(self.dice.choice(takers)))
        writer.emit("ret")
        return writer.items, writer.deepest

    def full_body(self, plan, row):
        """A body within the code length; smaller ones are tried where it comes out too long."""
        many = self.module.method_count > 60
        size = 12 if many else self.dice.choice((20, 60, 150, 300))
        while True:
            writer = BodyWriter(self.dice, plan, row, size)
            items = writer.body(self.dice.between(0, 2) if many else self.dice.between(1, 6))
            surely_short = 9 * len(items) <= MOST_METHOD_CODE
            short = surely_short or len(assemble(items, self.dice)) <= MOST_METHOD_CODE - 100
            if short and writer.deepest <= MOST_STACK:
                return items, writer.deepest
            size = size // 2


def grow_plan(dice):
    return ModuleGrower(dice).grow()
