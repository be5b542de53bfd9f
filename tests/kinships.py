# What the program's own answers have to have to do with each other, whatever they are.
import re

import scripts
from sitting import Sitting


def ring(r):
    """A rule, weights, ages and handfuls of which most seasons have some bags."""
    count = r.randint(2, 10)
    weights = [r.choice([0, 0] + [r.randint(1, 40)] * 10) for _ in range(count)]
    ages = [r.randint(0, 4) for _ in range(count)]
    handfuls = [r.choice([0] + [r.randint(1, 40)] * 9) for _ in range(r.randint(0, 12))]
    rule = [r.randint(1, 80), r.randint(0, 20), r.randint(1, 6), r.randint(4, 12)]
    return rule, weights, ages, handfuls


def setup(rule, weights, ages, handfuls):
    words = [("rule", rule), ("pans", weights), ("ages", ages), ("handfuls", handfuls)]
    return b"".join(scripts.line(word, numbers) + b"\n" for word, numbers in words)


def opened(answer):
    """The pans and the weight that a bag's answer tells, or None."""
    if not answer.startswith(b"open "):
        return None
    pans, weight = answer[5:].split(b": ")
    return [int(pan) for pan in pans.split()], int(weight)


def without_lines(printed):
    """The answers without the lines that refusals tell, where two scripts differ in how many lines they have."""
    return re.sub(rb"refused 4 at \d+", b"refused 4", printed)


def bag_after_bag(program, start, weights, handfuls, count):
    """A season by hand: `bag`, and `fall` for each pan that is empty then; with what its answer would be, and what is left."""
    sitting, weights, used = Sitting(program), list(weights), 0
    sitting.write(start[:-1])
    made = []
    while len(made) < count:
        bag = opened(sitting.ask(b"bag"))
        if bag is None:
            break
        made.append(bag[1])
        for pan in bag[0]:
            weights[pan] = 0
        for pan, weight in enumerate(weights):
            if weight == 0 and handfuls:
                weights[pan] = handfuls[used % len(handfuls)]
                used += 1
                if weights[pan]:
                    sitting.write(scripts.line("fall", [pan, weights[pan]]))
    sitting.write(scripts.PROBE[:-1])
    return made, sitting.close()[1]


def seasons(group, program, run, r, count):
    """`bags N` is N times `bag`, with the handfuls that fall between."""
    for _ in range(count):
        rule, weights, ages, handfuls = ring(r)
        start, most = setup(rule, weights, ages, handfuls), r.randint(0, 8)
        made, left = bag_after_bag(program, start, weights, handfuls, most)
        early = b", then none" if len(made) < most else b""
        said = b"bags %d: %d, %d given away%s\n" % (len(made), sum(made), sum(made) - len(made) * rule[0], early)
        script = start + b"bags %d\n" % most + scripts.PROBE
        group.same("a season and its bags one by one", script, without_lines(run(script)), said + without_lines(left))


def more_above(group, run, r, count):
    """A bag that may be heavier is never heavier than the one found with less above: the lighter one still fits."""
    for _ in range(count):
        rule, *others = ring(r)
        tight = opened(run(setup(rule, *others) + b"bag\n").strip())
        rule[1] += r.randint(1, 40)
        script = setup(rule, *others) + b"bag\n"
        loose = run(script).strip()
        group.check(f"{script!r} gives {loose!r}, and with less above {tight}", tight is None or opened(loose) == tight)


def read_back(group, run, r, count):
    """A weight that is printed is the one that was read, and what an answer opens weighs what it says."""
    for _ in range(count):
        weight = r.choice([r.randint(1, 9), r.randint(1, 999), r.randint(1, scripts.LIMIT)])
        script = b"rule %d 0 1 9\npans %d\nages 0\nbag\n" % (weight, weight)
        group.same("one pan", script, run(script), b"open 0: %d\n" % weight)
        rule, weights, ages, handfuls = ring(r)
        script = setup(rule, weights, ages, handfuls) + b"bag\n"
        bag = opened(run(script).strip())
        group.check(f"{script!r} opens {bag}", bag is None or sum(weights[pan] for pan in bag[0]) == bag[1])
