#!/usr/bin/env python3
"""The picture of a plan, drawn anew: what `pfx draw` has to print, to the byte.

usage: draw.py SET.toml SLOTS [T:A,A,..]

It shares nothing with pfx: it fills the set, finds each row by comparing the places of the tasks' next subtasks as
fractions and the symbols behind them one by one, and writes the SVG."""
import math
import sys
import tomllib

HUES = ["#0072B2", "#E69F00", "#009E73", "#CC79A7", "#56B4E9", "#D55E00", "#000000", "#A08000"]
DARK = (
    "<style>@media (prefers-color-scheme:dark){svg[fill='#222222']{fill:#E4E4E4}[stroke='#222222']{stroke:#E4E4E4}\n"
    "[fill='#FFFFFF']{fill:#16191D}[fill='#000000']{fill:#FFFFFF}[stroke='#000000']{stroke:#FFFFFF}\n"
    "[fill='#555555']{fill:#A8ADB3}[stroke='#666666']{stroke:#9AA0A6}[stroke='#E0E0E0'],[stroke='#C8C8C8']{stroke:#41474E}\n"
    "[stroke='#CFE3F2']{stroke:#173A52}[stroke='#8FBFE0']{stroke:#2A6A97}[stroke='#4A94C9']{stroke:#5AAEE6}\n"
    "[stroke='#FBE0C4']{stroke:#4A2F12}[stroke='#F4B77A']{stroke:#8F5A1E}}</style>\n"
)
LEVELS = [("#CFE3F2", 1), ("#8FBFE0", 2), ("#4A94C9", 3), ("#FBE0C4", -1), ("#F4B77A", -2), ("#E08A2E", -3)]


def filled(workers, tasks):
    """The hyperperiod, and all tasks, idle ones last."""
    hyper = math.lcm(*(p for _, _, p in tasks))
    rest = workers * hyper - sum(e * (hyper // p) for _, e, p in tasks)
    idle = []
    while rest > 0:
        e = min(rest, hyper - 1)
        idle.append((f"*{len(idle)}", e, hyper))
        rest -= e
    return hyper, tasks + idle


def symbol(e, p, t):
    """The sign of e(t+1) - p*floor(et/p) - p."""
    v = e * (t + 1) - p * (e * t // p) - p
    return (v > 0) - (v < 0)


def beats(a, b, t):
    """Whether the contending task a comes before b at slot t: at the first symbols that differ hers is greater; up to a
    symbol 0 in both, equal words are broken by the number."""
    (_, e, p), (_, f, q) = a[1], b[1]
    s = t + 1
    while True:
        u, v = symbol(e, p, s), symbol(f, q, s)
        if u != v:
            return u > v
        if u == 0:
            return a[0] < b[0]
        s += 1


def row(workers, tasks, got, t):
    urgent, contending = [], []
    for x, (_, e, p) in enumerate(tasks):
        lag, sign = e * t - p * got[x], symbol(e, p, t)
        if lag > 0 and sign >= 0:
            urgent.append(x)
        elif not (lag < 0 and sign <= 0):
            contending.append((x, tasks[x]))
    chosen = []
    for a in contending:
        if sum(1 for b in contending if b is not a and beats(b, a, t)) < workers - len(urgent):
            chosen.append(a[0])
    return sorted(urgent + chosen)


def bars(marks, mark, x, gap, apart, y):
    out = ""
    for i, m in enumerate(marks):
        if m != mark:
            continue
        if apart or i == 0 or marks[i - 1] != mark:
            out += f"M{x(i) + gap} {y}"
        if apart or i + 1 == len(marks) or marks[i + 1] != mark:
            out += f"H{x(i + 1) - gap}"
    return out


def picture(name, workers, real, tasks, hyper, first, got, rows):
    n, slots = len(tasks), len(rows)
    wide, tick = next((w, k) for most, w, k in [(24, 36, 2), (60, 18, 5), (120, 9, 10), (360, 4, 20), (1440, 2, 50)] if slots <= most)
    low = n > 48
    lane, bar, middle, one, zero = (48, 12, 10, 13, 32) if n <= 16 else (28, 7, 7, 7, 19) if not low else (10, 4, 5, 0, 5)
    letters = max(len(t[0]) for t in tasks)
    digits = max(len(str(t[2])) for t in tasks)
    left = 24 + 6 * letters if low else 39 + 7 * letters + 14 * digits
    right = 20 if low else 78 + 14 * digits
    x = lambda i: left + i * wide
    end, bottom = x(slots), 64 + n * lane
    width, height = max(720, end + right), bottom + 34
    plural = lambda k, word: f"{k} {word}" + ("" if k == 1 else "s")
    title = f"{name}: " + plural(real, "task") + " on " + plural(workers, "worker") + f", slots {first} to {first + slots - 1}"
    out = [
        f"<svg xmlns='http://www.w3.org/2000/svg' width='{width}' height='{height}' viewBox='0 0 {width} {height}' role='img'"
        " aria-labelledby='t d' font-family='DejaVu Sans Mono, Menlo, monospace' font-size='12' fill='#222222'>\n",
        f"<title id='t'>{title}</title>\n",
        "<desc id='d'>A lane for each task: a bar in each slot in which it runs, and the lag behind each slot, what it is due"
        " less what it got.</desc>\n",
        DARK,
        f"<rect width='{width}' height='{height}' fill='#FFFFFF'/>\n",
        f"<text x='12' y='22' font-size='14' font-weight='bold'>{title}</text>\n",
        "<text x='12' y='40' font-size='11' fill='#555555'>",
    ]
    if low:
        out.append("bar: runs in that slot; ground: by 3/4, 1/2, 1/4 of a slot behind</text>\n")
        for i, colour in enumerate(["#4A94C9", "#8FBFE0", "#CFE3F2", "#FBE0C4", "#F4B77A", "#E08A2E"]):
            out.append(f"<path d='M{480 + 20 * i} 36h20' stroke='{colour}' stroke-width='12'/>")
        out.append("<text x='608' y='40' font-size='11' fill='#555555'>and ahead</text>\n")
    else:
        out.append("bar: runs in that slot; line: lag, due less got; dots: one slot behind (above), one ahead (below)</text>\n")
    ticks = range(0, slots + 1, tick)
    upright = lambda i: f"M{x(i)} 64V{bottom}"
    out.append("<path d='" + "".join(map(upright, ticks)) + "' stroke='#E0E0E0' fill='none'/>\n")
    for i in ticks:
        out.append(f"<text x='{x(i)}' y='58' text-anchor='middle' font-size='11' fill='#555555'>{first + i}</text>\n")
    if not low:
        for at, word in [(left - 10, "weight"), (end + right - 6, "lag")]:
            out.append(f"<text x='{at}' y='58' text-anchor='end' font-size='11' fill='#555555'>{word}</text>\n")
    turns = [i for i in range(1, slots + 1) if (first + i) % hyper == 0]
    if 0 < len(turns) <= 40:
        out.append("<path d='" + "".join(map(upright, turns)) + "' stroke='#666666' stroke-dasharray='4 3' fill='none'/>\n")
    for t, (label, e, p) in enumerate(tasks):
        top = 64 + t * lane
        base = top + zero
        marks = [int(t in r) for r in rows]
        lags = [e * (first + i) - p * (got[t] + sum(marks[:i])) for i in range(slots + 1)]
        lag = f"{lags[-1]}/{p}"
        out.append(
            f"<g><title>{label}, {e} of {p}: {sum(marks)} of {slots} slots; lag {lag} at the end, "
            f"most behind {max([0] + lags[1:])}/{p}, most ahead {-min([0] + lags[1:])}/{p}</title>\n"
        )
        ink = "#222222" if low else HUES[t % 8] if t < real else "#B0B0B0"
        run = bars(marks, 1, x, 1 if wide >= 4 else 0, wide >= 9, top + middle)
        run = f"<path d='{run}' stroke='{ink}' stroke-width='{bar}' fill='none'/>\n"
        if low:
            level = [4 * abs(g) // p * (1 if g > 0 else -1) for g in lags[:-1]]
            for colour, k in LEVELS:
                out.append(f"<path d='{bars(level, k, x, 0, False, top + middle)}' stroke='{colour}' stroke-width='{lane}' fill='none'/>\n")
            out += [run, f"<text x='12' y='{top + 8}' font-size='8'>{label}</text>\n"]
        else:
            if t % 2 == 0:
                out.append(f"<rect x='0' y='{top}' width='{width}' height='{lane}' fill='#000000' fill-opacity='0.03'/>\n")
            out.append(run)
            across = lambda y: f"M{left} {y}H{end}"
            out.append(f"<path d='{across(base - one)}{across(base + one)}' stroke='#C8C8C8' stroke-dasharray='2 3' fill='none'/>\n")
            out.append(f"<path d='{across(base)}' stroke='#C8C8C8' fill='none'/>\n")
            y = lambda g: base - (abs(g) * one // p) * (1 if g > 0 else -1)
            line = "L".join(f"{x(i)} {y(g)}" for i, g in enumerate(lags))
            out.append(f"<path d='M{line}V{base}H{left}Z' fill='{ink}' fill-opacity='0.25'/>\n")
            out.append(f"<path d='M{line}' stroke='#222222'" + (" stroke-width='1.5'" if wide > 4 else "") + " fill='none'/>\n")
            at = top + 4 + lane // 2
            out.append(f"<text x='12' y='{at}'>{label}</text>\n")
            out.append(f"<text x='{left - 10}' y='{at}' text-anchor='end' fill='#555555'>{e}/{p}</text>\n")
            points = 100 * abs(lags[-1]) // p
            sign = "-" if lags[-1] < 0 else ""
            out.append(f"<text x='{end + 8}' y='{at}' fill='#555555'>{lag} {sign}{points // 100}.{points % 100:02}</text>\n")
        out.append("</g>\n")
    if 0 < len(turns) <= 40:
        out.append(f"<text x='12' y='{bottom + 22}' font-size='11' fill='#555555'>dashed: hyperperiod, {hyper} slots, where every lag is 0</text>\n")
    out.append("</svg>\n")
    return "".join(out)


def main():
    path, slots = sys.argv[1], int(sys.argv[2])
    with open(path, "rb") as file:
        given = tomllib.load(file)
    tasks = [(t["name"], t["e"], t["p"]) for t in given["task"]]
    hyper, everyone = filled(given["workers"], tasks)
    first, got = 0, [0] * len(everyone)
    if len(sys.argv) > 3:
        at, allocs = sys.argv[3].removeprefix("--at=").split(":")
        first, got = int(at), [int(a) for a in allocs.split(",")]
    now, rows = list(got), []
    for t in range(first, first + slots):
        rows.append(row(given["workers"], everyone, now, t))
        for x in rows[-1]:
            now[x] += 1
    name = path.rsplit("/", 1)[-1].removesuffix(".toml")
    sys.stdout.write(picture(name, given["workers"], len(tasks), everyone, hyper, first, got, rows))


main()
