#!/usr/bin/env python3
# A plain model of the language of weigh, to hold the program's answers beside. It was written from docs/GUIDE.md alone, with
# no look at the sources, and says what the commands mean in the plainest way: a bag is found by trying all choices of pans.
#
#     python3 tests/model.py < COMMANDS > EXPECTED

import re
import sys
from itertools import combinations

LARGEST = 1000000  # for the numbers of a rule, weights, ages and bags
LARGEST_KEPT = 4294967295
MOST_PANS = 24
MOST_KINDS = 4

NUMBER = re.compile(rb"0|[1-9][0-9]*")

# Which counts of numbers may stand behind each word; None is any count, also no number.
COMMANDS = {b"rule": None, b"pans": None, b"ages": None, b"handfuls": None, b"kinds": None,
            b"bag": [0], b"fall": [2], b"bags": [1], b"mix": [0, 1]}


class Refused(Exception):
    pass


class Ring:
    def __init__(self):
        # Nothing given is the same as the word alone: no numbers.
        self.rule, self.pans, self.ages, self.handfuls, self.kinds = [], [], [], [], []


def number(digits):
    # More than ten digits pass 32 bits, and Python won't read very long ones.
    return LARGEST_KEPT if len(digits) > 10 else min(int(digits), LARGEST_KEPT)


def command(line, place):
    word, *rest = line.split(b" ")
    if word not in COMMANDS or not all(NUMBER.fullmatch(r) for r in rest):
        raise Refused(4, place)
    if COMMANDS[word] is not None and len(rest) not in COMMANDS[word]:
        raise Refused(4, place)
    return word.decode("ascii"), [number(digits) for digits in rest]


def refuse_too_large(reason, numbers, first_place):
    for place, value in enumerate(numbers, first_place):
        if value > LARGEST:
            raise Refused(reason, place)


def check_rule(rule, wanted):
    if len(rule) != wanted:
        # The first missing is where the list ends, the first too many is where it should end.
        raise Refused(1, min(len(rule), wanted))
    refuse_too_large(1, rule, 0)
    if rule[0] == 0:
        raise Refused(1, 0)


def check_bag(ring, wanted=4):
    check_rule(ring.rule, wanted)
    count = len(ring.pans)
    if not 1 <= count <= MOST_PANS:
        raise Refused(2, count)
    if len(ring.ages) != count:
        raise Refused(2, len(ring.ages))
    refuse_too_large(3, ring.pans, 0)
    refuse_too_large(3, ring.ages, count)


def check_season(ring, count, place, wanted=4):
    check_bag(ring, wanted)
    refuse_too_large(3, ring.handfuls, 2 * len(ring.pans))
    if count > LARGEST:
        raise Refused(4, place)


def wanted_of_a_mix(rule):
    """How many numbers the rule of a mix has: six at least, and two more for each further kind."""
    if len(rule) < 6:
        return 6
    return len(rule) if len(rule) % 2 == 0 else len(rule) + 1


def check_kinds(ring):
    kinds = (len(ring.rule) - 4) // 2
    if kinds > MOST_KINDS:
        raise Refused(6, kinds)
    if len(ring.kinds) != len(ring.pans):
        raise Refused(6, len(ring.kinds))
    for pan, kind in enumerate(ring.kinds):
        if kind >= kinds:
            raise Refused(6, pan)


def keeps_the_kinds(ring, choice):
    for kind in range((len(ring.rule) - 4) // 2):
        least, most = ring.rule[4 + 2 * kind : 6 + 2 * kind]
        if not least <= sum(ring.pans[pan] for pan in choice if ring.kinds[pan] == kind) <= most:
            return False
    return True


def bags_by_the_rule(ring):
    target, above, most, old_age = ring.rule[:4]
    filled = [pan for pan, weight in enumerate(ring.pans) if weight > 0]
    # An old pan that is empty is in no choice, so then no bag is found.
    old = {pan for pan, age in enumerate(ring.ages) if age >= old_age}
    for size in range(min(most, len(filled)) + 1):
        for choice in combinations(filled, size):
            weight = sum(ring.pans[pan] for pan in choice)
            if target <= weight <= target + above and old.issubset(choice):
                yield weight, size, choice


def mixed_bags(ring):
    return (bag for bag in bags_by_the_rule(ring) if keeps_the_kinds(ring, bag[2]))


def make_bag(ring, allowed=bags_by_the_rule):
    # Of equally many pans the smaller tuple opens the first pan that differs.
    best = min(allowed(ring), default=None)
    if best is None:
        return None
    weight, _, choice = best
    for pan in range(len(ring.pans)):
        ring.ages[pan] += 1
        if pan in choice:
            ring.pans[pan] = ring.ages[pan] = 0
    return weight, choice


def bag(ring):
    check_bag(ring)
    return opened(make_bag(ring))


def mix(ring):
    check_bag(ring, wanted_of_a_mix(ring.rule))
    check_kinds(ring)
    return opened(make_bag(ring, mixed_bags))


def opened(made):
    if made is None:
        return "none"
    weight, choice = made
    return "open %s: %d" % (" ".join(map(str, choice)), weight)


def fall(ring, pan, weight, place):
    # It asks for no bag, so what is wrong with the rest isn't said here.
    if weight > LARGEST:
        raise Refused(3, pan)
    if pan >= len(ring.pans) or ring.pans[pan] != 0:
        raise Refused(4, place)
    ring.pans[pan] = weight


def handfuls_fall(ring, used):
    for pan, weight in enumerate(ring.pans):
        if weight == 0 and ring.handfuls:
            ring.pans[pan] = ring.handfuls[used % len(ring.handfuls)]
            used += 1  # also for a handful of 0, which leaves the pan empty
    return used


def bags(ring, count, place):
    check_season(ring, count, place)
    return played(ring, count, bags_by_the_rule)


def mixes(ring, count, place):
    check_season(ring, count, place, wanted_of_a_mix(ring.rule))
    check_kinds(ring)
    return played(ring, count, mixed_bags)


def played(ring, count, allowed):
    weights, used, ending = [], 0, ""
    while len(weights) < count:
        made = make_bag(ring, allowed)
        if made is None:
            ending = ", then none"
            break
        weights.append(made[0])
        used = handfuls_fall(ring, used)
    total, targets = sum(weights), len(weights) * ring.rule[0]
    return "bags %d: %d, %d given away%s" % (
        len(weights), total, total - targets, ending)


def answer(ring, line, place):
    if line == b"" or line.startswith(b"#"):
        return None
    try:
        word, numbers = command(line, place)
        if word == "bag":
            return bag(ring)
        if word == "bags":
            return bags(ring, *numbers, place)
        if word == "mix":
            return mixes(ring, *numbers, place) if numbers else mix(ring)
        if word == "fall":
            return fall(ring, *numbers, place)
        setattr(ring, word, numbers)  # rule, pans, ages, handfuls, kinds: only kept
    except Refused as refused:
        return "refused %d at %d" % refused.args


def answers(data):
    lines = data.split(b"\n")
    if lines[-1] == b"":
        lines.pop()  # what is left behind the last line end is no line
    ring = Ring()
    said = [answer(ring, line, place) for place, line in enumerate(lines)]
    return b"".join(s.encode("ascii") + b"\n" for s in said if s is not None)


if __name__ == "__main__":
    sys.stdout.buffer.write(answers(sys.stdin.buffer.read()))
