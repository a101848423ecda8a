"""What a step changed, in words: the difference between the state before it and the state after it."""

from commands.places import Listings, cell_words, field_name, method_name
from housetext.records import CLASS, FIELD, LOCAL, PARAMETER

INSTANCE = 0  # the flag of an instance field


class Changes:
    """Differences between states of one module's runs."""

    def __init__(self, source):
        self.source = source
        self.listings = Listings(source)

    def between(self, before, after):
        """The changes that lead from a state to the answer of a budget one larger."""
        state = after.state
        if not state.frames:
            return [f"ends the run{self.handed_back(before)}"]
        return self.frame_changes(before, state) + self.static_changes(before, state) + self.class_starts(before, state) + self.heap_changes(before, state)

    def handed_back(self, before):
        stack = before.frames[-1].stack
        return f", handing back {self.words(before, stack[-1])}" if stack else ""

    def words(self, state, cell):
        return cell_words(self.source, state.heap, cell)

    def frame_changes(self, before, after):
        """A call, a return, or what happened within the running frame."""
        top = after.frames[-1]
        if len(after.frames) > len(before.frames):
            arguments = ", ".join(self.words(after, cell) for cell in top.arguments)
            return [f"enters {method_name(self.source, top.method)}({arguments})"]
        if len(after.frames) < len(before.frames):
            waiting = before.frames[len(after.frames) - 1].stack
            given = [self.words(after, cell) for cell in top.stack[len(waiting):]]
            return [f"returns to {method_name(self.source, top.method)} {top.offset}" + (f" with {given[0]}" if given else "")]
        old = before.frames[-1]
        return self.stack_changes(before, after) + self.variable_changes(after, old, top) + self.jumps(old, top)

    def stack_changes(self, before, after):
        """How many values the stack lost from its top and which it got; values that are the same before and after stay."""
        old, new = before.frames[-1].stack, after.frames[-1].stack
        same = next((place for place, pair in enumerate(zip(old, new)) if pair[0] != pair[1]), min(len(old), len(new)))
        changes = [f"drops {len(old) - same}"] if len(old) > same else []
        return changes + (["puts " + ", ".join(self.words(after, cell) for cell in new[same:])] if len(new) > same else [])

    def variable_changes(self, state, old, new):
        changes = []
        for what, kind, before, after in (("argument", PARAMETER, old.arguments, new.arguments), ("local", LOCAL, old.locals, new.locals)):
            for number, (cell, now) in enumerate(zip(before, after)):
                if cell != now:
                    changes.append(f"{what} {self.listings.variable(new.method, kind, number)} = {self.words(state, now)}")
        return changes

    def jumps(self, old, new):
        """Where a branch went, if not to the instruction after it."""
        return [] if self.listings.after(old.method, old.offset) in (new.offset, None) else [f"goes to {new.offset}"]

    def static_changes(self, before, after):
        return [f"{field_name(self.source, row)} = {self.words(after, cell)}" for row, cell in after.statics.items() if before.statics.get(row) != cell]

    def class_starts(self, before, after):
        return [f"starts class {self.source.naming.class_word(row)}" for row in after.marks if row not in before.marks]

    def heap_changes(self, before, after):
        """New objects, and fields of objects that were there."""
        changes = []
        for number, made in enumerate(after.heap, 1):
            name = f"{self.source.naming.class_word(made.class_row)} object {number}"
            if number > len(before.heap):
                changes.append(f"makes {name}")
                continue
            pairs = zip(before.heap[number - 1].fields, made.fields)
            changed = [(place, now) for place, (old, now) in enumerate(pairs) if old != now]
            changes += [f"{name}: {self.field_at(made.class_row, place)} = {self.words(after, now)}" for place, now in changed]
        return changes

    def field_at(self, class_row, place):
        """The name of the field at a place in an object of a class: the root class's fields come first."""
        rows = [row for owner in self.ancestors(class_row) for row in self.instance_rows(owner)]
        return field_name(self.source, rows[place]) if place < len(rows) else f"field {place}"

    def ancestors(self, class_row):
        """A class and its ancestors, the root first."""
        parents = [record.body[0] for record in self.source.text.records if record.kind == CLASS]
        line = []
        while 1 <= class_row <= len(parents):
            line.append(class_row)
            class_row = parents[class_row - 1]
        return line[::-1]

    def instance_rows(self, owner):
        fields = [record.body for record in self.source.text.records if record.kind == FIELD]
        return [row for row, body in enumerate(fields, 1) if body[0] == owner and body[1] == INSTANCE]
