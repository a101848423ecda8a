"""Generate cases from a seed: the same seed and count always give the same bytes.

    python3 second/generate.py SEED COUNT > cases.bin
    python3 second/generate.py SEED COUNT --tally
"""

import sys
from collections import Counter

import generate_faults as faults
import programs
import generate_recipes as recipes
from dice import Dice
from generate_bodies import INT32_EDGES, INT64_EDGES
from generate_modules import grow_plan, lay_out
from handed_back import BUDGET_USED, FINE, MEANING
from operators import INT32
from replay import Case, answer, write_case
from step import MOST_BUDGET, run
from tables import load

USUAL_BUDGET = 5000


# Each of these answers tables and code.


def passing(dice):
    return lay_out(grow_plan(dice), dice)


def from_recipe(recipe):
    def build(dice):
        plan = recipe(dice)
        if dice.chance(6):
            faults.disturb(dice, plan)
        return lay_out(plan, dice)
    return build


def stirred(dice):
    plan = grow_plan(dice)
    faults.stir_soup(dice, plan)
    return lay_out(plan, dice)


def disturbed(dice):
    plan = grow_plan(dice)
    for _ in range(dice.between(1, 2)):
        faults.disturb(dice, plan)
    return lay_out(plan, dice)


def moved_end(dice):
    plan = grow_plan(dice)
    tables, code = lay_out(plan, dice)
    return faults.move_end(dice, plan), code


def damaged_records(dice):
    plan = grow_plan(dice)
    tables, code = lay_out(plan, dice)
    return faults.damage_records(dice, plan.module), code


def damaged_bytes(dice):
    tables, code = passing(dice)
    if dice.chance(50):
        return faults.damage_bytes(dice, tables), code
    return tables, faults.damage_bytes(dice, code)


def broken_override(dice):
    plan = grow_plan(dice)
    faults.break_override(dice, plan)
    return lay_out(plan, dice)


def broken_rule(dice):
    plan = grow_plan(dice)
    faults.break_rule(dice, plan)
    return lay_out(plan, dice)


MIX = [
    (29, passing),
    (9, from_recipe(recipes.operators_plan)),
    (6, from_recipe(recipes.argument_plan)),
    (8, from_recipe(recipes.deep_end_plan)),
    (4, from_recipe(recipes.chain_plan)),
    (5, from_recipe(recipes.relations_plan)),
    (3, from_recipe(recipes.tall_plan)),
    (8, stirred),
    (11, disturbed),
    (3, moved_end),
    (5, damaged_records),
    (4, damaged_bytes),
    (3, broken_override),
    (3, broken_rule),
    (5, faults.limit),
    (2, faults.garbage),
    (3, faults.raw_code),
]


def any_int64(dice):
    if dice.chance(70):
        return dice.choice(INT64_EDGES)
    return int.from_bytes(dice.bytes(8), "little", signed=True)


def pick_arguments(dice, module):
    """Mostly arguments that the entry takes; now and then too many, too few, or too large for int32."""
    if module is None:
        return [any_int64(dice) for _ in range(dice.below(3))]
    arguments = []
    for type in module.methods[module.entry].parameters:
        if type == INT32 and not dice.chance(3):
            arguments.append(dice.choice(INT32_EDGES) if dice.chance(70) else dice.between(-100, 100))
        else:
            arguments.append(any_int64(dice))
    if dice.chance(2):
        arguments = arguments[:-1]
    elif dice.chance(2):
        arguments += [any_int64(dice) for _ in range(dice.choice((1, 1, 1, 8, 255 - len(arguments))))]
    return arguments


def pick_budget(dice, module, arguments):
    """None, few, many, or just about as many steps as the run takes; and budgets that are refused."""
    kind = dice.below(100)
    if kind < 3:
        return 0
    if kind < 11:
        return dice.between(1, 30)
    if kind < 20:
        return dice.between(1, 300)
    if kind < 32:
        return dice.between(1, USUAL_BUDGET)
    if kind < 60:
        return USUAL_BUDGET
    if kind < 64:
        return dice.choice((MOST_BUDGET + 1, MOST_BUDGET + 1, 2**31 - 1, 2**31, 2**32 - 1))
    if module is None:
        return USUAL_BUDGET
    return budget_near_the_end(dice, run(module, arguments, USUAL_BUDGET))


def budget_near_the_end(dice, ran):
    """A budget about which the ending turns to 38, or any within the run; the largest for a run known to be short."""
    if ran.number == BUDGET_USED:
        return dice.between(1, USUAL_BUDGET)
    kind = dice.below(10)
    if kind < 2:
        return MOST_BUDGET
    if kind < 6:
        return max(0, ran.steps + dice.choice((-1, 0, 0, 1)))
    return dice.between(0, ran.steps + 1)


def case(seed, number):
    """One case of a batch; it depends on the seed and its number alone."""
    dice = Dice(seed * 2**32 + number)
    tables, code = dice.weighted(MIX)(dice)
    tables, code = tables[:65535], code[:65535]
    module = load(tables, code).module
    arguments = pick_arguments(dice, module)
    return Case(tables, code, arguments, pick_budget(dice, module, arguments))


# The tally.


def tally(cases):
    """How often loading, the check and the run gave each number; refusals passed on count for loading alone."""
    counts = {"load": Counter(), "check": Counter(), "run": Counter()}
    for each in cases:
        load_part, check_part, run_part = answer(each).split(" | ")[:3]
        loaded = int(load_part.split()[1])
        counts["load"][loaded] += 1
        if loaded == FINE:
            counts["check"][int(check_part.split()[1])] += 1
            counts["run"][int(run_part.split()[1])] += 1
    return counts


def print_tally(counts):
    wanted = {"load": list(range(0, 8)), "check": [0] + list(range(11, 18)),
              "run": [0, 21, 22] + list(range(31, 39)) + list(range(41, 47))}
    missing = []
    for what, numbers in wanted.items():
        print(what)
        for number in numbers:
            print("  %2d %6d  %s" % (number, counts[what][number], MEANING[number]))
            if not counts[what][number]:
                missing.append("%s %d" % (what, number))
    print("missing: " + (", ".join(missing) or "none"))


def main(words):
    parser = programs.parser_for(__doc__)
    parser.add_argument("seed", type=programs.a_count)
    parser.add_argument("count", type=programs.a_count)
    parser.add_argument("--tally", action="store_true")
    options = parser.parse_args(words)
    cases = (case(options.seed, number) for number in range(options.count))
    if options.tally:
        print_tally(tally(cases))
        return
    for each in cases:
        sys.stdout.buffer.write(write_case(each))


if __name__ == "__main__":
    programs.started(main)
