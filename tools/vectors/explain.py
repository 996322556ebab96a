#!/usr/bin/env python3
"""Writes crates/vectors/data/explain, the test vectors of why a card moved and of where a loss call is at fault (change request K7), and
what the program says of it.

    tools/vectors/explain.py [SEED]

How the list is made: every answer is computed here, as step.py and losses.py compute theirs, which say how; this is their second
reading of the Rust and of document 01. The reason is read off the flags of the Rust's StepCache, and what was held off its numbers
before the clamp, in padding off the given state. A fault is the first that document 01's order meets, with its place. The cases are
those of step.py and of losses.py that bear on these, with further ones for the ends.

lines.py says what all lists share.

    E    explain_step
    0    batch_loss_and_grad_fault      2    card_loss_and_grad_fault
    1    batch_loss_fault               3    card_loss_fault

    words     E
    0-4       stability difficulty day rating row
    5         the refusal, 0 where there is none
    6         0 padding, 1 first, 2 same-day by the raw multiplier, 3 by the 1, 4 lapse by the raw value, 5 by the floor, 6 success,
              7 hard, 8 easy
    7-8       where stability and difficulty were held: 0 at no end, 1 at the low one, 2 at the high one

A call begins as in losses.py, with rows, columns and six slices. Then

    1 where histories stand at the end, else 0
    slots records step-gradients      how many are lent; a record is ten singles
    refusal column row
"""
import losses
import step
from lines import Lines, below
from analytic import D_MAX, D_MIN, DEFAULT, LEAST, MINUSES, MOST, S_MAX, S_MIN, ZERO, around, near_default, some_set, stepped, with_some

NAMES = {
    "E": "explain_step", "0": "batch_loss_and_grad_fault", "1": "batch_loss_fault", "2": "card_loss_and_grad_fault",
    "3": "card_loss_fault",
}
lines = Lines("explain", NAMES)
seen = set()


# ---- a step

def reason_of(c):
    if c.padding or c.init_selected or c.use_short or c.use_failure:
        return losses.branch_of(c)[0]
    return {2: 7, 3: 6, 4: 8}[next(n for n in range(5) if c.rating == n)]


def held(x, low, high):
    return 1 if x < low else 2 if x > high else 0


def explained(w, s, d, day, rating, row):
    n = step.refusal(w, 21, s, d, day, rating, row)
    if n:
        return n, 0, 0, 0
    c = stepped(w, s, d, day, rating, row)[2]
    before = (c.state_s, c.state_d) if c.padding else (c.pre_clamp_s, c.mean_pre_clamp_d)
    return 0, reason_of(c), held(before[0], S_MIN, S_MAX), held(before[1], D_MIN, D_MAX)


def tell_step(s, d, day, rating, row):
    answer = explained(step.take.weights, s, d, day, rating, row)
    seen.add(answer)
    lines.add("E", s.b, d.b, day.b, rating.b, row, *answer)


def end_cases():
    lines.remark("a padding's given state at, beside and beyond each end, alone and both")
    step.take(DEFAULT)
    for rating in (ZERO, -ZERO):
        for s in around(S_MIN, S_MAX) + [ZERO, -ZERO, -LEAST, MOST]:
            tell_step(*step.at(s, "5.5", 3, rating, below(2)))
        for d in around(D_MIN, D_MAX) + [-ZERO, LEAST, -MOST]:
            tell_step(*step.at("5.5", d, 3, rating, below(2)))
        for s in (0, 40000):
            for d in (0, 20):
                tell_step(*step.at(s, d, 3, rating, below(2)))


def step_cases():
    """Those of the step, without their reverse."""
    step.lines, step.remark, step.forward, step.reverse = lines, lines.remark, tell_step, lambda *words: None
    step.take(DEFAULT)
    for cases in (step.branch_cases, step.raw_one_cases, step.lapse_cases, step.output_clamp_cases, step.state_cases, step.refusal_cases):
        cases()
    end_cases()
    lines.remark("pseudo-random: weights near the default, and others")
    for some in (near_default, some_set) * 12:
        step.take(some())
        step.some_cases(4, 0)
    assert {reason for n, reason, *_ in seen if n == 0} == set(range(9))
    assert {n for n, *_ in seen} == {0, 1, 2, 6, 7, 13}
    assert {tuple(ends) for n, _, *ends in seen if n == 0} == {(a, b) for a in range(3) for b in range(3)}


# ---- a loss call

def tell_fault(c, lent):
    found = losses.fault(losses.take.weights, c, lent)
    counts = [len(lent.gw), len(lent.records) // losses.FIELDS, len(lent.step_grads)] if lent else [0, 0, 0]
    lines.add(str(2 * c.is_card + (not lent)), *losses.inputs_of(c), int(c.is_end), *counts, *found)
    told.add(found[0])


told = set()


def fault_cases():
    """Those of the refusals, in both modes."""
    losses.begin.lines, losses.begin.tell = lines, tell_fault
    losses.take(DEFAULT)
    losses.start(MINUSES[:21])
    for cases in (losses.room_cases, losses.bad_cases, losses.order_cases, losses.bad_end_cases, losses.order_end_cases, losses.lent_end_cases):
        cases()
    assert told == set(range(10))


if __name__ == "__main__":
    lines.remark("Test vectors of why a card moved and where a loss call is at fault, seed %d: made by tools/vectors/explain.py, which says how" % losses.seed)
    step_cases()
    fault_cases()
    lines.write()
