"""House tables (01): loading, with the numbers 1 to 7 and their places."""

from collections import namedtuple

from handed_back import (
    BAD_ORDER, BAD_RECORD, FINE, OUT_OF_RANGE, OVERRIDE_DIFFERS, RULE_BROKEN, TOO_LONG, TOO_MANY_RECORDS,
)
from operators import INT32, INT64, VOID, class_type, descends

# Kinds of records, and how many bytes of body each has.
CLASS, FIELD, METHOD, PARAMETER, LOCAL, ENTRY = 1, 2, 3, 4, 5, 6
BODY_BYTES = {CLASS: 1, FIELD: 3, METHOD: 11, PARAMETER: 1, LOCAL: 1, ENTRY: 1}

# Sorts of methods.
STATIC, INSTANCE, VIRTUAL, CONSTRUCTOR, INITIALISER = 0, 1, 2, 3, 4

OBJECT = 1

MOST_TABLE_BYTES = 8192
MOST_CODE_BYTES = 32768
MOST_CLASSES = 32
MOST_FIELDS = 128
MOST_STATIC_FIELDS = 64
MOST_METHODS = 128
MOST_INSTANCE_FIELDS = 8
MOST_ARGUMENTS = 8
MOST_LOCALS = 16
MOST_STACK = 32
MOST_METHOD_CODE = 1024

Field = namedtuple("Field", "owner static type")

# What loading answers: a number, its place, and the module where the number is 0.
Loading = namedtuple("Loading", "number place module")


class Method:
    """One method record with the parameters and locals that follow it."""

    def __init__(self, place, owner, sort, returns, max_stack, overridden, code_offset, code_length):
        self.place = place
        self.owner = owner
        self.sort = sort
        self.returns = returns
        self.max_stack = max_stack
        self.overridden = overridden
        self.code_offset = code_offset
        self.code_length = code_length
        self.root = None
        self.parameters = []
        self.locals = []

    @property
    def has_this(self):
        return self.sort in (INSTANCE, VIRTUAL, CONSTRUCTOR)

    @property
    def arguments(self):
        """Types of the arguments; `this` is argument 0 of sorts 1 to 3."""
        this = [class_type(self.owner)] if self.has_this else []
        return this + self.parameters


class Module:
    """Loaded tables with the code they speak of. Rows count from 1, so item 0 of each list is unused."""

    def __init__(self, code):
        self.code = code
        self.parents = [None]
        self.fields = [None]
        self.methods = [None]
        self.entry = None

    @property
    def class_count(self):
        return len(self.parents) - 1

    @property
    def field_count(self):
        return len(self.fields) - 1

    @property
    def method_count(self):
        return len(self.methods) - 1

    def descends(self, row, ancestor):
        return descends(self.parents, row, ancestor)

    def instance_fields(self, class_row):
        """Field rows in the order of an object's cells: those of the root class first, then by row."""
        return [
            row for row in range(1, len(self.fields))
            if not self.fields[row].static and self.descends(class_row, self.fields[row].owner)
        ]

    def static_fields(self):
        return [row for row in range(1, len(self.fields)) if self.fields[row].static]

    def initialiser(self, class_row):
        """The row of a class's initialiser, or None."""
        for row in range(1, len(self.methods)):
            method = self.methods[row]
            if method.sort == INITIALISER and method.owner == class_row:
                return row
        return None

    def method_of_root(self, class_row, root):
        """The method of a class that has this root, or None; a class has one at most."""
        for row in range(1, len(self.methods)):
            method = self.methods[row]
            if method.owner == class_row and method.root == root:
                return row
        return None


class Refusal(Exception):
    def __init__(self, number, place):
        super().__init__(number, place)
        self.number = number
        self.place = place


def load(tables, code):
    """Load tables and code: a Loading with number 0 and a module, or with a refusal and its place."""
    if len(tables) > MOST_TABLE_BYTES or len(code) > MOST_CODE_BYTES:
        return Loading(TOO_LONG, 0, None)
    loader = Loader(code)
    try:
        offset = 0
        while offset < len(tables):
            offset = loader.record(tables, offset)
        loader.end(len(tables))
    except Refusal as refusal:
        return Loading(refusal.number, refusal.place, None)
    return Loading(FINE, 0, loader.module)


class Loader:
    """Takes records one by one; in each, 2, 3, 4, 5 and 6 are tested in that order."""

    def __init__(self, code):
        self.module = Module(code)
        self.last_kind = None

    def record(self, tables, place):
        """Take the record at a place and answer the place of the next one."""
        kind = tables[place]
        if kind not in BODY_BYTES or place + 1 + BODY_BYTES[kind] > len(tables):
            raise Refusal(BAD_RECORD, place)
        after = place + 1 + BODY_BYTES[kind]
        body = tables[place + 1:after]
        if not self.in_order(kind, body):
            raise Refusal(BAD_ORDER, place)
        take = {
            CLASS: self.take_class, FIELD: self.take_field, METHOD: self.take_method,
            PARAMETER: self.take_parameter, LOCAL: self.take_local, ENTRY: self.take_entry,
        }[kind]
        take(body, place)
        self.last_kind = kind
        return after

    def in_order(self, kind, body):
        """Classes, fields by rising or equal owner, each method with its parameters and then its locals, one entry."""
        may_follow = {
            None: (CLASS,),
            CLASS: (CLASS, FIELD, METHOD, ENTRY),
            FIELD: (FIELD, METHOD, ENTRY),
            METHOD: (METHOD, PARAMETER, LOCAL, ENTRY),
            PARAMETER: (METHOD, PARAMETER, LOCAL, ENTRY),
            LOCAL: (METHOD, LOCAL, ENTRY),
            ENTRY: (),
        }[self.last_kind]
        if kind not in may_follow:
            return False
        owner_falls = kind == FIELD and self.last_kind == FIELD and body[0] < self.module.fields[-1].owner
        return not owner_falls

    def is_class(self, row):
        return 1 <= row <= self.module.class_count

    def is_type(self, byte):
        """Whether a byte names a type other than void."""
        return byte in (1, 2, 3) or self.is_class(byte - 32)

    @staticmethod
    def refuse_unless(good, number, place):
        if not good:
            raise Refusal(number, place)

    def take_class(self, body, place):
        parent, parents = body[0], self.module.parents
        row = len(parents)
        in_range = parent == 0 if row == OBJECT else 1 <= parent < row
        self.refuse_unless(in_range, OUT_OF_RANGE, place)
        self.refuse_unless(row <= MOST_CLASSES, TOO_MANY_RECORDS, place)
        parents.append(parent)

    def take_field(self, body, place):
        owner, flag, type = body
        module = self.module
        in_range = self.is_class(owner) and flag in (0, 1) and self.is_type(type)
        self.refuse_unless(in_range, OUT_OF_RANGE, place)
        module.fields.append(Field(owner, flag == 1, type))
        within = (
            module.field_count <= MOST_FIELDS
            and len(module.static_fields()) <= MOST_STATIC_FIELDS
            and len(module.instance_fields(owner)) <= MOST_INSTANCE_FIELDS
        )
        self.refuse_unless(within, TOO_MANY_RECORDS, place)

    def take_method(self, body, place):
        module = self.module
        owner, sort, returns, max_stack, overridden = body[:5]
        code_offset = int.from_bytes(body[5:9], "little")
        code_length = int.from_bytes(body[9:11], "little")
        in_range = (
            self.is_class(owner)
            and sort <= INITIALISER
            and (returns == VOID or self.is_type(returns))
            and max_stack <= MOST_STACK
            and 1 <= code_length <= MOST_METHOD_CODE
            and code_offset + code_length <= len(module.code)
        )
        self.refuse_unless(in_range, OUT_OF_RANGE, place)
        self.refuse_unless(module.method_count < MOST_METHODS, TOO_MANY_RECORDS, place)
        method = Method(place, owner, sort, returns, max_stack, overridden, code_offset, code_length)
        self.refuse_unless(self.keeps_override_rules(method), RULE_BROKEN, place)
        self.refuse_unless(self.keeps_sort_rules(method), RULE_BROKEN, place)
        module.methods.append(method)

    def keeps_override_rules(self, method):
        """An overridden row is 0 or, for sort 2, an earlier virtual method of a proper ancestor.

        A class has one method at most for each root.
        """
        module = self.module
        if method.overridden == 0:
            method.root = module.method_count + 1
            return True
        if method.sort != VIRTUAL or method.overridden > module.method_count:
            return False
        earlier = module.methods[method.overridden]
        if earlier.sort != VIRTUAL or earlier.owner == method.owner or not module.descends(method.owner, earlier.owner):
            return False
        method.root = earlier.root
        return module.method_of_root(method.owner, method.root) is None

    def keeps_sort_rules(self, method):
        """Initialisers and constructors return void; a class has one initialiser at most, and Object none."""
        if method.sort == INITIALISER:
            alone = method.owner != OBJECT and self.module.initialiser(method.owner) is None
            return alone and method.returns == VOID
        return method.sort != CONSTRUCTOR or method.returns == VOID

    def take_parameter(self, body, place):
        method = self.module.methods[-1]
        self.refuse_unless(self.is_type(body[0]), OUT_OF_RANGE, place)
        self.refuse_unless(len(method.arguments) < MOST_ARGUMENTS, TOO_MANY_RECORDS, place)
        self.refuse_unless(method.sort != INITIALISER, RULE_BROKEN, place)
        method.parameters.append(body[0])

    def take_local(self, body, place):
        method = self.module.methods[-1]
        self.refuse_unless(self.is_type(body[0]), OUT_OF_RANGE, place)
        self.refuse_unless(len(method.locals) < MOST_LOCALS, TOO_MANY_RECORDS, place)
        method.locals.append(body[0])

    def take_entry(self, body, place):
        module, row = self.module, body[0]
        self.refuse_unless(1 <= row <= module.method_count, OUT_OF_RANGE, place)
        method = module.methods[row]
        keeps_rules = (
            method.sort == STATIC
            and all(type in (INT32, INT64) for type in method.parameters)
            and not self.is_class(method.returns - 32)
        )
        self.refuse_unless(keeps_rules, RULE_BROKEN, place)
        module.entry = row

    def end(self, length):
        """After the last record: a missing entry is 3 at the length; then 7 for the lowest override that differs."""
        self.refuse_unless(self.module.entry is not None, BAD_ORDER, length)
        methods = self.module.methods
        for method in methods[1:]:
            if method.overridden:
                earlier = methods[method.overridden]
                same = method.returns == earlier.returns and method.parameters == earlier.parameters
                self.refuse_unless(same, OVERRIDE_DIFFERS, method.place)
