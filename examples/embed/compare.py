"""Compares PF's rows of random sets and ledgers: by the C program rows.c, by pfx.py, by a plain reference in Python, and by
`pfx plan` where a program is given.

    PYTHONPATH=python python3 examples/embed/compare.py ROWS CASES [PROGRAM]

Some of the sets and ledgers are made to be refused. Ends with 0 where all agree: in the rows, the refusal's number and the task
that it names, and the ledger behind the rows.
"""

import random
import subprocess
import sys
import tempfile
from functools import cmp_to_key
from math import lcm

import pfx

LAST = (1 << 40) - 1
PERIODS = [2, 3, 4, 5, 6, 7, 8, 9, 10, 12, 14, 15, 16, 18, 20, 21, 24, 28, 30, 36, 40, 42, 60]


class Refused(Exception):
    """The reference's refusal: the number, and the task that it names or None."""


def filled(workers, weights):
    """The weights with the idle ones behind them, or a refusal."""
    if not weights:
        raise Refused(11, None)
    if not 1 <= workers <= 64:
        raise Refused(13, None)
    for x, (e, p) in enumerate(weights):
        if not 1 <= e < p:
            raise Refused(14, x)
    hyper = 1
    for x, (_, p) in enumerate(weights):
        hyper = lcm(hyper, p)
        if hyper > 1 << 20:
            raise Refused(16, x)
    rest = workers * hyper - sum(e * (hyper // p) for e, p in weights)
    if rest < 0:
        raise Refused(17, None)
    idle = []
    while rest:
        idle.append((min(rest, hyper - 1), hyper))
        rest -= idle[-1][0]
    return list(weights) + idle


def sign(n):
    return (n > 0) - (n < 0)


def symbol(weight, slot):
    e, p = weight
    return sign(e * slot % p + e - p)


def beats(one, other, slot):
    """Below 0 where one of two (number, weight) goes before the other: by the symbols of the slots behind this one, up to the
    first zero, and then by the number."""
    (x, v), (y, w) = one, other
    if (v[0], v[1], v[0] * slot % v[1]) != (w[0], w[1], w[0] * slot % w[1]):
        while True:
            slot += 1
            a, b = symbol(v, slot), symbol(w, slot)
            if a != b:
                return b - a
            if a == 0:
                break
    return x - y


def reference(workers, weights, slots, slot, allocs):
    """The rows, the refusal's number, the task that it names, and the ledger behind the rows."""
    rows, allocs = [], list(allocs)
    try:
        tasks = filled(workers, weights)
        if len(allocs) != len(tasks) or slot > LAST:
            raise Refused(26, None)
        for x, (e, p) in enumerate(tasks):
            if abs(e * slot - p * allocs[x]) >= p:
                raise Refused(24, x)
        if sum(allocs) != workers * slot:
            raise Refused(25, None)
        for _ in range(slots):
            row = reference_row(workers, tasks, slot, allocs)
            for x in row:
                allocs[x] += 1
            rows.append(row)
            slot += 1
    except Refused as refused:
        return rows, *refused.args, slot, allocs
    return rows, 0, None, slot, allocs


def reference_row(workers, tasks, slot, allocs):
    if slot == LAST:
        raise Refused(23, None)
    urgent, contending = [], []
    for x, (e, p) in enumerate(tasks):
        lag, next_symbol = sign(e * slot - p * allocs[x]), symbol((e, p), slot)
        if lag > 0 and next_symbol >= 0:
            urgent.append(x)
        elif lag >= 0 or next_symbol > 0:
            contending.append((x, (e, p)))
    if len(urgent) > workers:
        raise Refused(21, None)
    if len(urgent) + len(contending) < workers:
        raise Refused(22, None)
    contending.sort(key=cmp_to_key(lambda a, b: beats(a, b, slot)))
    return sorted(urgent + [x for x, _ in contending[: workers - len(urgent)]])


def random_ledger(workers, tasks, slot):
    """A fair ledger: each task has what it is due, rounded down or up, and the sum is the workers' slots. Half of them round up those
    that are due least, so that many of these can't go on for long."""
    allocs = [e * slot // p for e, p in tasks]
    open_ones = [x for x, (e, p) in enumerate(tasks) if e * slot % p]
    random.shuffle(open_ones)
    if random.random() < 0.5:
        open_ones.sort(key=lambda x: tasks[x][0] * slot % tasks[x][1] / tasks[x][1])
    for x in open_ones[: workers * slot - sum(allocs)]:
        allocs[x] += 1
    return allocs


def random_rest(workers, weights):
    """Weights that take what these leave of the workers, so that no idle task gives way."""
    hyper = lcm(2, *(p for _, p in weights))
    rest = workers * hyper - sum(e * (hyper // p) for e, p in weights)
    pieces = []
    while rest:
        pieces.append((random.randint(1, min(rest, hyper - 1)) if len(pieces) < 8 else min(rest, hyper - 1), hyper))
        rest -= pieces[-1][0]
    return pieces


def random_case():
    workers = random.choice([1, 1, 2, 2, 3, 4, 8])
    top = random.choice([24, 24, 60])
    weights, load = [], 0.0
    for _ in range(random.randint(1, 4 * workers + 2)):
        p = random.choice([p for p in PERIODS if p <= top])
        e = random.randint(1, p - 1)
        if load + e / p <= workers and lcm(p, *(q for _, q in weights)) <= 5040:
            weights.append((e, p))
            load += e / p
    if weights and random.random() < 0.4:
        weights += random_rest(workers, weights)
    spoilt = random.random()
    if spoilt < 0.03 or not weights:
        weights.insert(random.randint(0, len(weights)), random.choice([(3, 3), (0, 4), (7, 5), (1, 1048576), (1, 1048573)]))
    elif spoilt < 0.05:
        weights += [(1, 2)] * (2 * workers + 1)
    slots = random.randint(1, 40)
    slot = random.choice([0, 0, random.randint(1, 60), random.randint(1, 10**6), LAST - random.randint(0, 50)])
    try:
        tasks = filled(workers, weights)
    except Refused:
        return workers, weights, slots, 0, [0] * len(weights)
    allocs = random_ledger(workers, tasks, slot)
    if 0.05 < spoilt < 0.08:
        allocs[random.randrange(len(allocs))] += random.choice([-1, 1, 2]) if min(allocs) > 0 else 1
    elif 0.08 < spoilt < 0.10:
        allocs = random.choice([allocs[:-1], allocs + [0]])
    elif 0.10 < spoilt < 0.12:
        slot = 1 << 40
    return workers, weights, slots, slot, allocs


def shown(rows, slot, count):
    """Rows as `pfx plan` prints them, where each task's name is its number."""
    name = lambda x: str(x) if x < count else f"*{x - count}"
    return "".join(",".join([str(slot + i), *map(name, row)]) + "\n" for i, row in enumerate(rows))


def by_python(workers, weights, slots, slot, allocs):
    try:
        planner = pfx.Planner(workers, weights, slot, allocs)
    except pfx.Refused as refused:
        return [], refused.number, refused.task, slot, allocs
    rows, refused = planner.plan(slots)
    return rows, refused.number if refused else 0, refused.task if refused else None, planner.slot, planner.allocs


def by_c(program, cases):
    lines = []
    for workers, weights, slots, slot, allocs in cases:
        flat = [n for weight in weights for n in weight]
        lines.append(" ".join(map(str, [workers, len(weights), slots, slot, len(allocs), *flat, *allocs])))
    text = subprocess.run([program], input="\n".join(lines), capture_output=True, text=True, check=True).stdout
    rows = ""
    for line in text.splitlines(keepends=True):
        if line.startswith("="):
            yield rows, line[2:-1]
            rows = ""
        else:
            rows += line


def by_program(program, room, case):
    workers, weights, slots, slot, allocs = case
    with open(f"{room}/set", "w", encoding="ascii") as file:
        file.write(f"workers = {workers}\n")
        for x, (e, p) in enumerate(weights):
            file.write(f'[[task]]\nname = "{x}"\ne = {e}\np = {p}\n')
    ledger = f"{slot}:{','.join(map(str, allocs))}"
    ran = subprocess.run([program, "plan", f"{room}/set", str(slots), "--at", ledger], capture_output=True, text=True, check=False)
    return ran.stdout, ran.stderr


def line_of(number, task):
    """How the program's line for a refusal begins."""
    if not number:
        return ""
    return f"pfx: error {number} {pfx.NAMES[number]}" + ("" if task is None else f" task={task}\n")


def differs(case, wanted, c, program, room):
    """What of a case isn't as the reference has it."""
    rows, number, task, slot, allocs = wanted
    text = shown(rows, case[3], len(case[1]))
    if by_python(*case) != wanted:
        return "pfx.py"
    if c != (text, " ".join(map(str, [number, slot, *allocs]))):
        return "C"
    if program:
        printed, fault = by_program(program, room, case)
        if printed != text or not fault.startswith(line_of(number, task)) or bool(fault) != bool(number):
            return "pfx plan"
    return None


def main():
    rows, count, program = sys.argv[1], int(sys.argv[2]), sys.argv[3] if len(sys.argv) > 3 else None
    random.seed(1996)
    cases = [random_case() for _ in range(count)]
    ends, failed = {}, 0
    with tempfile.TemporaryDirectory() as room:
        for case, c in zip(cases, by_c(rows, cases), strict=True):
            wanted = reference(*case)
            ends[wanted[1]] = ends.get(wanted[1], 0) + 1
            what = differs(case, wanted, c, program, room)
            if what:
                failed += 1
                print(f"compare: {what} differs: {case}, wanted {wanted[1:]}", file=sys.stderr)
    beside = "C, pfx.py, the reference and pfx plan" if program else "C, pfx.py and the reference, with no program"
    print(f"compare: {count} sets and ledgers by {beside}: {failed} differ; ended by {dict(sorted(ends.items()))}")
    return failed != 0


sys.exit(main())
