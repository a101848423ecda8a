"""What the check finds in one method: the shape before each instruction, by the proved check where the module passes; and by the second
implementation who arrives where with what, and the first fault; where that is 16, the two arrivals that disagree."""

from collections import namedtuple

from housetext.explaining import with_class_names

# One arrival at an instruction: the offset it comes from, the offset it comes to, the types that it brings, and whether it falls there.
Arrival = namedtuple("Arrival", "source target types falls")

# A method's first fault. `first` and `other` are the arrivals that disagree; `first` has source None where no earlier instruction arrives, so
# that the shape there is empty. Both are None where the number isn't 16.
Fault = namedtuple("Fault", "number offset wanted first other")

# shapes: types before each instruction by offset, as far as the check of this method comes.
Found = namedtuple("Found", "shapes arrivals fault")

NOTHING = Found({}, [], None)


def found_in(source, opinion, row, shapes=None):
    """What the check finds in the method at a row, with shapes by offset of the proved check where they are given; else without a second
    implementation, or a loaded module, NOTHING."""
    if opinion is None:
        return NOTHING if shapes is None else NOTHING._replace(shapes=shapes)
    work = opinion.method_check(row)
    arrivals, arrive = [], work.arrive

    def words(types):
        return [with_class_names(source, opinion.type_name(type)) for type in types]

    def noted(instruction, target, brought):
        arrivals.append(Arrival(instruction.offset, target, words(brought), target == instruction.after))
        arrive(instruction, target, brought)

    work.arrive = noted
    fault = None
    try:
        work.check()
    except opinion.Fault as raised:
        fault = fault_of(raised, arrivals, with_class_names(source, raised.wanted))
    if shapes is None:
        shapes = {offset: words(work.shapes[offset]) for offset in work.tested}
    return Found(shapes, arrivals, fault)


def fault_of(raised, arrivals, wanted):
    """A fault with the arrivals that disagree: the one that gave the shape first, and the one that was tested last."""
    if raised.arrivals is None:
        return Fault(raised.number, raised.offset, wanted, None, None)
    target, given = raised.arrivals.target, raised.arrivals.first.offset
    first = next((arrival for arrival in arrivals if (arrival.source, arrival.target) == (given, target)), Arrival(None, target, [], False))
    return Fault(raised.number, raised.offset, wanted, first, arrivals[-1])


def shape_words(types):
    """A shape from the bottom of the stack."""
    return ", ".join(types) if types else "an empty stack"
