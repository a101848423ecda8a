"""The run that a page shows: the answer of `replay`, and the state after each step, by one case for each smaller budget."""

from collections import namedtuple

from cases import read_answer, replay_lines, state_text

# states: (steps done, text of the state) for the first ones, and last that in which the run ended.
Run = namedtuple("Run", "answer states")


def run_of(case, most, program):
    """The Run of a case, with the states after fewer than `most` steps and the last one."""
    line = replay_lines([case], program)[0]
    answer = read_answer(line)
    if answer.state is None:
        return Run(answer, [])
    steps = answer.run.steps
    budgets = range(min(steps, most))
    before = replay_lines([case._replace(budget=budget) for budget in budgets], program) if budgets else []
    return Run(answer, [(done, state_text(said)) for done, said in zip(budgets, before)] + [(steps, state_text(line))])
