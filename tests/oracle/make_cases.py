#!/usr/bin/env python3
"""Writes stdin and stdout of crates/cases (inputs of `write`) and of
crates/sheet_cases (inputs of `sheet`) from a fixed seed.

stdin is a run of records: a 4-byte length, low byte first; and then that many
bytes, one input of the program. stdout has, for each record K from 1, the line
`case K` and then what the program prints for it, by the oracle.

    python3 tests/oracle/make_cases.py            write the four files
    python3 tests/oracle/make_cases.py list       say what each case is, too
"""

import collections
import pathlib
import random
import sys

sys.dont_write_bytecode = True
from oracle import (PARALLEL, RELAY, SINGLE, SWAP, clause_lines, formula, holds,
                    lines_of_sheet, model_of, numbers, parts, problem_bytes, random_pairs,
                    read_problem, sheet, sheet_of, states, variables, write)

SEED = 41507
CRATES = pathlib.Path(__file__).resolve().parents[2] / "crates"
PROGRAMS = ((b"w", "write", "cases"), (b"s", "sheet", "sheet_cases"))

cases = []          # (letter, what it shows, input, what the program prints)


def case(what, data, refusal=None):
    """One case of `write`. A stated refusal, or 0 for a grant, is checked at once."""
    printed = write(data)
    if refusal == 0:
        assert printed.startswith(b"p cnf "), what
    elif refusal is not None:
        assert printed == b"refused %d\n" % refusal, (what, printed[:40])
    cases.append((b"w", what, data, printed))


def given(horizon, rule, problem):
    return numbers(horizon, rule) + problem


def problem_case(what, refusal, *problem, horizon=1, rule=PARALLEL):
    case(what, given(horizon, rule, problem_bytes(*problem)), refusal)


def padded(data, length):
    return data + bytes((7 * i + 1) % 256 for i in range(length - len(data)))


# -------------------------------------------------- small cases of `write`

def examples():
    for name, problem in (("relay", RELAY), ("swap", SWAP)):
        for horizon in (0, 1, 2):
            for rule in (SINGLE, PARALLEL):
                case("%s, T %d, rule %d" % (name, horizon, rule),
                     given(horizon, rule, problem), 0)
    case("relay, T 32", given(32, PARALLEL, RELAY), 0)


def too_short():
    for n in range(4):
        case("%d bytes" % n, numbers(1, 2)[:n], 1)
    case("3 bytes, T out of range", numbers(33, 0)[:3], 1)
    for n in range(6):
        case("problem of %d bytes" % n, given(1, 2, RELAY)[:4 + n], 1)
    case("problem of 5 bytes, F 0", given(1, 2, bytes(5)), 1)


def out_of_range():
    for f in (0, 65, 256, 257, 65535):
        problem_case("F %d" % f, 2, f, 0, [])
    for a in (129, 256, 65535):
        problem_case("A %d" % a, 2, 1, a, [])
    problem_case("P 4097, no pairs follow", 2, 1, 0, [], 4097)
    problem_case("P 65535, no pairs follow", 2, 1, 0, [], 65535)
    problem_case("F 0 and a wrong length", 2, 0, 1, [(0, 1)], 7)
    problem_case("A 129 and a wrong pair", 2, 4, 129, [(2, 0)])
    pairs = [(4 * a + k, f) for a in range(1, 65) for k in (0, 1) for f in range(1, 65)]
    problem_case("P 4097 with all its pairs", 2, 64, 128, pairs[:4097])
    for f in (1, 64):
        problem_case("F %d" % f, 0, f, 1, [(0, f), (1, 1), (5, f)])
    problem_case("A 128, no pairs", 0, 1, 128, [])


def wrong_length():
    for n in range(1, 5):
        case("%d bytes short" % n, given(1, 2, RELAY[:-n]), 3)
        case("%d bytes long" % n, given(1, 2, RELAY + bytes(n)), 3)
    problem_case("P 0 and one pair", 3, 1, 0, [(0, 1)], 0)
    problem_case("P 1 and no pair", 3, 1, 0, [], 1)
    problem_case("P 4096 and no pair", 3, 64, 128, [], 4096)
    case("P 0 and one byte", given(0, 1, problem_bytes(1, 0, []) + b"\n"), 3)
    problem_case("wrong length before a wrong pair", 3, 2, 2, [(2, 0), (1, 9)], 3)
    case("two problems", given(1, 2, RELAY + SWAP), 3)


def wrong_pairs():
    for code in (2, 3, 7, 11, 15):
        problem_case("code %d" % code, 4, 3, 4, [(0, 1), (1, 1), (code, 2)])
    for a in (1, 2, 127, 128):
        problem_case("A %d, code 4A + 2" % a, 0, 2, a, [(0, 1), (4 * a + 2, 2)])
        for above in (3, 4, 5):
            problem_case("A %d, code 4A + %d" % (a, above), 4, 2, a, [(0, 1), (4 * a + above, 2)])
    for code in (256, 65532, 65535):
        problem_case("code %d" % code, 4, 3, 4, [(code, 1)])
    problem_case("A 0, codes 0 and 1", 0, 3, 0, [(0, 1), (0, 3), (1, 3)])
    for code in (2, 3, 4, 5, 6):
        problem_case("A 0, code %d" % code, 4, 3, 0, [(code, 1)])
    for f in (1, 2, 63, 64):
        problem_case("F %d, fact F" % f, 0, f, 1, [(1, f), (6, f)])
        problem_case("F %d, fact F + 1" % f, 4, f, 1, [(1, f), (6, f + 1)])
    for code in (0, 1, 4, 5, 6):
        problem_case("code %d, fact 0" % code, 4, 5, 1, [(code, 0)])
    problem_case("fact 256", 4, 1, 1, [(0, 256)])
    problem_case("fact 257", 4, 1, 1, [(0, 257)])
    problem_case("fact 65535", 4, 64, 1, [(0, 65535)])
    problem_case("the last of three pairs wrong", 4, 4, 2, [(0, 1), (5, 2), (9, 5)])


def pairs_not_rising():
    problem_case("equal pairs, start", 5, 2, 2, [(0, 1), (0, 1)])
    problem_case("equal pairs, step", 5, 2, 2, [(0, 1), (9, 2), (9, 2)])
    problem_case("falling fact", 5, 3, 2, [(4, 1), (4, 3), (4, 2)])
    problem_case("falling code", 5, 3, 2, [(5, 1), (4, 1)])
    problem_case("falling code, rising fact", 5, 3, 2, [(5, 1), (4, 2)])
    problem_case("rising code, falling fact", 0, 3, 2, [(0, 3), (1, 2), (5, 1)])
    problem_case("not rising past one byte", 5, 3, 128, [(260, 1), (256 + 1, 2)])
    problem_case("rising past one byte", 0, 3, 128, [(253, 2), (256, 1), (257, 1)])
    problem_case("pair 2 not rising, pair 3 wrong", 5, 3, 2, [(5, 2), (5, 1), (7, 1)])
    problem_case("pair 2 wrong, pair 3 not rising", 4, 3, 2, [(5, 2), (7, 1), (5, 1)])
    problem_case("pair 2 wrong and not rising: code", 4, 3, 2, [(5, 2), (3, 1)])
    problem_case("pair 2 wrong and not rising: fact", 4, 3, 2, [(5, 2), (5, 0)])
    problem_case("pair 1 wrong, pair 2 equal", 4, 3, 2, [(7, 1), (7, 1)])


def set_and_cleared():
    problem_case("sets and clears fact 1", 6, 2, 2, [(5, 1), (6, 1)])
    problem_case("the last step", 6, 2, 2, [(0, 1), (5, 1), (9, 2), (10, 2)])
    problem_case("among others", 6, 5, 3, [(9, 1), (9, 3), (9, 5), (10, 2), (10, 5)])
    problem_case("step 128, fact 64", 6, 64, 128, [(513, 64), (514, 64)])
    problem_case("fact 33", 6, 64, 8, [(5, 33), (6, 1), (6, 33)])
    problem_case("not rising afterwards", 5, 2, 2, [(5, 1), (6, 1), (6, 1)])
    problem_case("a wrong pair afterwards", 4, 2, 2, [(5, 1), (6, 1), (8, 0)])
    problem_case("before the text is too long", 6, 64, 128, [(5, 1), (6, 1)], rule=SINGLE)
    problem_case("two steps", 0, 2, 2, [(5, 1), (10, 1)])
    problem_case("needed and cleared", 0, 2, 2, [(4, 1), (6, 1)])
    problem_case("needed and set", 0, 2, 2, [(4, 1), (5, 1)])
    problem_case("start, goal and cleared", 0, 2, 2, [(0, 1), (1, 1), (6, 1)])


def slots_and_rule():
    for horizon in (33, 256, 257, 65535):
        case("T %d" % horizon, given(horizon, SINGLE, RELAY), 7)
    for rule in (0, 3, 256, 257, 258, 65535):
        case("rule %d" % rule, given(1, rule, RELAY), 7)
    case("T 33, rule 0", given(33, 0, RELAY), 7)
    case("T 33, no problem", numbers(33, 1), 7)
    case("rule 3, no problem", numbers(0, 3), 7)
    case("T 33, F 0", given(33, 1, bytes(6)), 7)
    case("rule 0, a byte too many", given(1, 0, RELAY + b"0"), 7)
    case("T 33, step sets and clears", given(33, 2, problem_bytes(2, 2, [(5, 1), (6, 1)])), 7)
    case("T 33, text too long", given(33, 1, problem_bytes(64, 128, [])), 7)
    case("T 32, one fact", given(32, SINGLE, problem_bytes(1, 1, [(1, 1), (5, 1)])), 0)


def slot_rules():
    """Pairs of steps on fact 1, every kind of pair against every other."""
    kinds = ((), (0,), (1,), (2,), (0, 1), (0, 2))
    for i, first in enumerate(kinds):
        for second in kinds[i:]:
            pairs = [(4 + k, 1) for k in first] + [(8 + k, 1) for k in second]
            problem_case("steps %r and %r" % (first, second), 0, 1, 2, pairs)


def at_random(rng):
    for _ in range(36):
        facts, steps = rng.randint(1, 7), rng.randint(0, 6)
        pairs = random_pairs(rng, facts, steps, rng.choice((0.1, 0.3, 0.6)))
        case("lawful at random", given(rng.randint(0, 4), rng.randint(1, 2),
                                       problem_bytes(facts, steps, pairs)), 0)
    for _ in range(64):
        facts, steps = rng.randint(1, 5), rng.randint(0, 4)
        pairs = random_pairs(rng, facts, steps, rng.choice((0.2, 0.4)))
        data = bytearray(given(rng.randint(0, 2), rng.randint(1, 2),
                               problem_bytes(facts, steps, pairs)))
        for _ in range(rng.choice((1, 1, 2))):
            place = rng.randrange(len(data))
            kind = rng.randrange(5)
            if kind == 0:
                data[place] = rng.randrange(256)
            elif kind == 1:
                data[place] = (data[place] + rng.choice((1, 255))) % 256
            elif kind == 2 and len(pairs) > 1:
                a, b = (10 + 2 * rng.randrange(2 * len(pairs)) for _ in range(2))
                data[a:a + 2], data[b:b + 2] = data[b:b + 2], data[a:a + 2]
            elif kind == 3 and pairs:
                place = 10 + 2 * rng.randrange(2 * len(pairs))
                data[place] = max(0, data[place] + rng.choice((-1, 1, 2))) % 256
            else:
                data[place] ^= 1 << rng.randrange(3)
        case("damaged at random", bytes(data))
    for _ in range(6):
        data = given(1, 2, RELAY)
        case("cut at random", data[:rng.randrange(len(data))])
    for _ in range(6):
        case("random bytes", numbers(rng.randint(0, 3), rng.randint(1, 2), rng.randint(0, 9),
                                     rng.randint(0, 9), 2) + rng.randbytes(8))


# ---------------------------------------------------- big cases of `write`

def long_inputs():
    one = problem_bytes(1, 0, [])
    case("65,536 bytes, problem followed by more", padded(given(1, 2, one), 65536), 3)
    case("65,536 bytes, T 33", padded(given(33, 2, one), 65536), 7)
    case("65,536 bytes, F 0", padded(given(1, 2, bytes(6)), 65536), 2)
    case("65,537 bytes", padded(given(1, 2, one), 65537), 3)
    case("65,537 bytes, T 33, rule 0, F 0", padded(given(33, 0, bytes(6)), 65537), 3)
    case("70,000 bytes, nothing but 0", bytes(70000), 3)


def lines_of(facts, steps, pairs, horizon, rule):
    problem = read_problem(problem_bytes(facts, steps, pairs))
    return len(clause_lines(formula(problem, horizon, rule)))


def exact(what, facts, steps, pairs, horizon, rule, totals):
    """Problems whose clause lines have exactly the totals asked.

    The longest head of `pairs` that leaves room is taken, without start and
    goals. Goals are added until the text is long enough; a fact present at the
    start then takes one byte (a minus sign) away.
    """
    low, high = 0, len(pairs)
    while low < high:
        middle = (low + high + 1) // 2
        if lines_of(facts, steps, sorted(pairs[:middle]), horizon, rule) <= min(totals):
            low = middle
        else:
            high = middle - 1
    pairs = sorted(pairs[:low])
    plain = lines_of(facts, steps, pairs, horizon, rule)
    for total in totals:
        for goals in range(facts + 1):
            ends = [(1, f) for f in range(1, goals + 1)]
            over = plain - total + sum(3 + len(str(horizon * (facts + steps) + f))
                                       for _, f in ends)
            if 0 <= over <= facts:
                begins = [(0, f) for f in range(facts - over + 1, facts + 1)]
                whole = begins + ends + pairs
                assert lines_of(facts, steps, whole, horizon, rule) == total
                case("%s: %d bytes of clause lines" % (what, total),
                     given(horizon, rule, problem_bytes(facts, steps, whole)),
                     0 if total <= 65536 else 9)
                break
        else:
            raise SystemExit("%s: no problem with %d bytes (%d without goals, %d pairs)"
                             % (what, total, plain, low))


def lawful(rng, kinds, count, facts=64, steps=128):
    """`count` lawful step pairs in random order, of the kinds given."""
    every = [(4 * a + k, f) for a in range(1, steps + 1) for k in kinds
             for f in range(1, facts + 1)]
    rng.shuffle(every)
    chosen = {}
    for code, f in every:
        opposite = code + {0: 0, 1: 1, 2: -1}[code % 4]
        if len(chosen) < count and (opposite, f) not in chosen:
            chosen[code, f] = True
    assert len(chosen) == count
    return list(chosen)


def big(rng):
    exact("long horizon", 64, 96,
          lawful(rng, (1, 2), 12, steps=96) + lawful(rng, (0,), 60, steps=96),
          32, PARALLEL, (65535, 65536, 65537))
    exact("parted pairs of steps", 20, 105, lawful(rng, (0, 1, 2), 1000, 20, 105), 1, SINGLE,
          (65536, 65537))
    exact("many pairs", 64, 128,
          lawful(rng, (0, 1), 3840, steps=112)
          + [(4 * a + 2, 8 * k + a % 8 + 1) for a in range(113, 129) for k in range(8)],
          1, PARALLEL, (65536, 65537))

    full = problem_bytes(64, 128, sorted(lawful(rng, (0, 1, 2), 4096)))
    for rule in (SINGLE, PARALLEL):
        case("F 64, A 128, P 4096, T 0", given(0, rule, full), 0)
    case("F 64, A 128, P 4096, T 1", given(1, PARALLEL, full), 9)
    case("F 64, A 128, P 4096, T 32", given(32, PARALLEL, full), 9)
    needs = problem_bytes(64, 128, sorted(lawful(rng, (0,), 4096)))
    case("P 4096, needs alone, T 1", given(1, PARALLEL, needs), 0)
    case("P 4096, T 33", given(33, PARALLEL, needs), 7)
    case("P 4096, a byte short", given(1, PARALLEL, needs[:-1]), 3)
    case("P 4096, a byte long", given(1, PARALLEL, needs + b"\0"), 3)
    case("P 4096, the last fact 65", given(1, PARALLEL, needs[:-2] + numbers(65)), 4)
    twice = sorted(lawful(rng, (0, 1), 4095))
    twice.append(twice[-1])
    case("P 4096, the last pair twice",
         given(1, PARALLEL, problem_bytes(64, 128, twice)), 5)

    case("F 64, A 128, T 32, few pairs",
         given(32, PARALLEL, problem_bytes(64, 128, [(0, 64), (1, 64), (514, 64)])), 0)
    case("A 128, single rule, T 1", given(1, SINGLE, problem_bytes(1, 128, [])), 9)
    case("A 128, single rule, T 0", given(0, SINGLE, problem_bytes(1, 128, [(1, 1)])), 0)
    # The longest clause has 130 literals; steps that clear one fact may meet.
    case("128 steps set fact 1",
         given(2, PARALLEL, problem_bytes(1, 128, [(4 * a + 1, 1) for a in range(1, 129)])), 0)
    case("128 steps clear fact 2",
         given(2, PARALLEL, problem_bytes(2, 128, [(4 * a + 2, 2) for a in range(1, 129)])), 0)
    half = [(4 * a + 1 + a % 2, 1) for a in range(1, 129)]
    case("64 steps set fact 1, 64 clear it", given(1, PARALLEL, problem_bytes(1, 128, half)), 0)
    case("the same, T 2", given(2, PARALLEL, problem_bytes(1, 128, half)), 9)


# ---------------------------------------------------------- cases of `sheet`

SAT, NONE, OPEN = b"s SATISFIABLE\n", b"s UNSATISFIABLE\n", b"s UNKNOWN\n"


def answer_case(what, expected, horizon, rule, problem, answer):
    """One case of `sheet`. What is expected, a refusal or the text printed, is
    checked at once; None expects nothing."""
    asked_case(what, expected, given(horizon, rule, problem) + answer)


def asked_case(what, expected, data):
    printed = sheet(data)
    if isinstance(expected, int):
        expected = b"refused %d\n" % expected
    assert expected in (None, printed), (what, expected, printed[:40])
    cases.append((b"s", what, data, printed))


def told(lines):
    return b"".join(b"%d %d\n" % line for line in lines)


def verdict(problem, horizon, rule, model):
    """What `sheet` must print for truth values, without looking at a clause: a
    model is the one that its own sheet has, if that sheet holds."""
    rows = sheet_of(problem, horizon, model)
    good = holds(problem, rule, rows) and model_of(problem, rows) == list(model)
    return told(lines_of_sheet(rows)) if good else 15


def literals_of(model):
    return [v if true else -v for v, true in enumerate(model, 1)]


def full(model):
    """The plain rendering: every variable in order, on one line."""
    return SAT + b"v " + b"".join(b"%d " % x for x in literals_of(model)) + b"0\n"


def comment(rng):
    return rng.choice((b"c\n", b"c \n", b"cc\n", b"c s UNSATISFIABLE\n", b"c v 1 0\n", b"c 0\n",
                       b"c\r\n", b"c\0\n", b"c\xff\xfe\n", b"c \t  v\n", b"cs\n",
                       b"c" + bytes(b for b in rng.randbytes(12) if b != 10) + b"\n"))


def rendered(rng, model):
    """The same truth values in one of many lawful ways."""
    keep = rng.choice((0, 0, 0.4, 0.8, 1, 1))        # how many negatives are listed
    listed = [x for x in literals_of(model) if x > 0 or rng.random() < keep]
    if rng.random() < 0.6:
        rng.shuffle(listed)
    words = [b"%d" % x for x in listed]
    most = rng.choice((1, 2, 3, 5, 99))
    rows = []
    while words:
        n = rng.randint(1, most)
        rows.append(words[:n])
        words = words[n:]
    if rows and rng.random() < 0.7:
        rows[-1].append(b"0")
    else:
        rows.append([b"0"])
    lines = [SAT] + [b"v " + b" ".join(row) + b"\n" for row in rows]
    chatty = rng.choice((0, 0, 0.3, 0.8))
    text = b""
    for line in lines + [b""]:
        while rng.random() < chatty / 2:
            text += comment(rng)
        text += line
    return text


def walked(rng, facts, steps, horizon, rule, density):
    """A random problem and a sheet of it that holds: a walk of allowed slots, and
    goals that its end has."""
    pairs = [(0, f) for f in range(1, facts + 1) if rng.random() < 0.6]
    pairs += [p for p in random_pairs(rng, facts, steps, density) if p[0] > 1]
    problem = read_problem(problem_bytes(facts, steps, pairs))
    rows = []
    for _ in range(horizon):
        before, slot = states(problem, rows)[-1], set()
        order = list(problem.step_numbers)
        rng.shuffle(order)
        for a in order:
            if (rng.random() < 0.7 and problem.steps[a].needs <= before
                    and not any(parts(problem, rule, a, b) for b in slot)):
                slot.add(a)
        rows.append(slot)
    goals = [(1, f) for f in sorted(states(problem, rows)[-1]) if rng.random() < 0.5]
    data = problem_bytes(facts, steps, sorted(pairs + goals))
    problem = read_problem(data)
    assert holds(problem, rule, rows)
    return data, problem, rows


def sheet_examples():
    relay = read_problem(RELAY)
    two = model_of(relay, [{1}, {2}])
    for rule in (SINGLE, PARALLEL):
        answer_case("relay, its only sheet", b"1 1\n2 2\n", 2, rule, RELAY, full(two))
        answer_case("relay, T 1", 15, 1, rule, RELAY, full(model_of(relay, [{1}])))
        answer_case("relay, T 1, nothing listed", 15, 1, rule, RELAY, SAT + b"v 0\n")
        answer_case("relay, T 0", 15, 0, rule, RELAY, SAT + b"v 0\n")
        answer_case("relay, T 0, the goal from nowhere", 15, 0, rule, RELAY, SAT + b"v 2 0\n")
        answer_case("relay, no sheet claimed", b"none claimed\n", 2, rule, RELAY, NONE)
        answer_case("relay, unknown", b"unknown\n", 2, rule, RELAY, OPEN)
    both = full(model_of(read_problem(SWAP), [{1, 2}]))
    answer_case("swap, parallel", b"1 1\n1 2\n", 1, PARALLEL, SWAP, both)
    answer_case("swap, single", 15, 1, SINGLE, SWAP, both)
    answer_case("swap, single, T 2", b"1 2\n2 1\n", 2, SINGLE, SWAP,
                full(model_of(read_problem(SWAP), [{2}, {1}])))
    answer_case("relay at T 32", b"1 1\n32 2\n", 32, SINGLE, RELAY,
                full(model_of(relay, [{1}] + [set()] * 30 + [{2}])))


def lawful_answers(rng):
    """Models of sheets that hold, in many renderings; then spoilt in one value,
    or under the other rule."""
    for i in range(110):
        facts, steps = rng.randint(1, 6), rng.randint(0, 6)
        horizon, rule = i % 5, 1 + i // 5 % 2
        data, problem, rows = walked(rng, facts, steps, horizon, rule,
                                     rng.choice((0.1, 0.2, 0.35)))
        model = model_of(problem, rows)
        answer_case("a sheet that holds", told(lines_of_sheet(rows)), horizon, rule, data,
                    rendered(rng, model))
        other = list(model)
        place = rng.randrange(len(model))
        other[place] = not other[place]
        answer_case("one value changed", verdict(problem, horizon, rule, other),
                    horizon, rule, data, rendered(rng, other))
        if rule == PARALLEL:
            answer_case("under the single rule", verdict(problem, horizon, SINGLE, model),
                        horizon, SINGLE, data, rendered(rng, model))
        if i % 3 == 0 and horizon:
            moved = rows[1:] + rows[:1]
            answer_case("slots turned round",
                        verdict(problem, horizon, rule, model_of(problem, moved)),
                        horizon, rule, data, rendered(rng, model_of(problem, moved)))
        if i % 5 == 1:
            for status, said in ((NONE, b"none claimed\n"), (OPEN, b"unknown\n")):
                talk = [b"".join(comment(rng) for _ in range(rng.randrange(3))) for _ in range(2)]
                answer_case("nothing found", said, horizon, rule, data, status.join(talk))
                answer_case("nothing found, but values", 13, horizon, rule, data,
                            talk[0] + rendered(rng, model).replace(SAT, status))
        if i % 5 == 0:
            wild = [rng.random() < 0.5 for _ in model]
            answer_case("values at random", verdict(problem, horizon, rule, wild),
                        horizon, rule, data, rendered(rng, wild))


def every_value():
    """Every truth value of three or four variables."""
    for what, pairs, facts in (("sets the goal", [(1, 1), (5, 1)], 1),
                               ("clears what it needs", [(0, 1), (4, 1), (6, 1)], 1),
                               ("does nothing", [], 1),
                               ("needs what is absent", [(4, 1)], 1)):
        data = problem_bytes(facts, 1, pairs)
        problem = read_problem(data)
        for bits in range(8):
            model = [bool(bits >> v & 1) for v in range(3)]
            answer_case("a step that %s, values %d" % (what, bits),
                        verdict(problem, 1, PARALLEL, model), 1, PARALLEL, data, full(model))
    data = problem_bytes(4, 2, [(0, 2), (0, 3), (1, 3)])
    for bits in range(16):
        answer_case("T 0, values %d" % bits, b"" if bits == 6 else 15, 0, SINGLE, data,
                    full([bool(bits >> v & 1) for v in range(4)]))


def two_steps():
    """Two steps on fact 1 in one slot, every kind against every other."""
    kinds = ((), (0,), (1,), (2,), (0, 1), (0, 2))
    for i, first in enumerate(kinds):
        for second in kinds[i:]:
            for present in ([(0, 1)], []):
                pairs = present + [(4 + k, 1) for k in first] + [(8 + k, 1) for k in second]
                data = problem_bytes(1, 2, pairs)
                problem = read_problem(data)
                model = model_of(problem, [{1, 2}])
                answer_case("steps %r and %r in one slot, start %r" % (first, second, present),
                            verdict(problem, 1, PARALLEL, model), 1, PARALLEL, data, full(model))


GOOD = b"-1 -2 3 -4 5 -6 -7 8 -9 10"      # relay's only model at two slots


def relay_answer(what, expected, answer):
    answer_case(what, expected, 2, PARALLEL, RELAY, answer)


def forms_allowed():
    """Other ways to say relay's only model, or to say nothing."""
    sheet_lines = b"1 1\n2 2\n"
    for what, text in (
            ("one line", SAT + b"v " + GOOD + b" 0\n"),
            ("negatives left out", SAT + b"v 3 5 8 10 0\n"),
            ("backwards", SAT + b"v 10 8 5 3 0\n"),
            ("a line for each literal", SAT + b"v 3\nv 5\nv 8\nv 10\nv 0\n"),
            ("the 0 alone", SAT + b"v " + GOOD + b"\nv 0\n"),
            ("c line first", b"c\n" + SAT + b"v 3 5 8 10 0\n"),
            ("c lines everywhere",
             b"c a\nc b\n" + SAT + b"c\nv 3 5\nc v 4\nv 8 10\nc\nv 0\nc\nc 9\n"),
            ("c line with 0x00, 0xff and CR", b"c\0\xff\r\x80\x01\n" + SAT + b"v 3 5 8 10 0\n"),
            ("c line of every byte but LF",
             SAT + b"c" + bytes(b for b in range(256) if b != 10) + b"\nv 3 5 8 10 0\n"),
            ("c line like an s line", b"cs UNKNOWN\n" + SAT + b"v 3 5 8 10 0\nc s UNKNOWN\n"),
            ("c line with CR LF", b"c\r\n" + SAT + b"v 3 5 8 10 0\n"),
            ("a long c line", b"c" + b" x" * 700 + b"\n" + SAT + b"v 3 5 8 10 0\n")):
        relay_answer(what, sheet_lines, text)
    relay_answer("v 0 alone, no model", 15, SAT + b"v 0\n")
    for status, said in ((NONE, b"none claimed\n"), (OPEN, b"unknown\n")):
        relay_answer("alone", said, status)
        relay_answer("c lines around", said, b"c\nc 1\n" + status + b"c\0\nc s SATISFIABLE\n")
        relay_answer("c line after", said, status + b"c v 1 0\n")


def forms_refused():
    values = b"v 3 5 8 10 0\n"
    for what, text in (
            ("empty", b""), ("LF alone", b"\n"), ("c line alone", b"c\n"), ("c without LF", b"c"),
            ("space", b" "), ("0x00", b"\0"), ("no status", values), ("s alone", b"s\n" + values),
            ("s and a space", b"s \n" + values), ("status without values", SAT),
            ("status without LF", SAT[:-1]),
            ("c lines in place of values", b"c\n" + SAT + b"c\nc\n"),
            ("empty line first", b"\n" + SAT + values), ("second status", SAT + SAT + values),
            ("second status among values", SAT + b"v 3 5\n" + SAT + b"v 8 10 0\n"),
            ("second status last", SAT + values + SAT),
            ("another status first", OPEN + SAT + values),
            ("values before the status", values + SAT),
            ("values before and after", b"v 3\n" + SAT + b"v 5 8 10 0\n"),
            ("v 0 before the status", b"v 0\n" + SAT + values),
            ("CR LF", (SAT + values).replace(b"\n", b"\r\n")),
            ("CR LF, status", SAT[:-1] + b"\r\n" + values),
            ("CR for LF", (SAT + values).replace(b"\n", b"\r")),
            ("lower case", b"s satisfiable\n" + values),
            ("capital first", b"s Satisfiable\n" + values),
            ("shorter", b"s SATISFIABL\n" + values), ("longer", b"s SATISFIABLEE\n" + values),
            ("SAT", b"s SAT\n" + values), ("UNSAT", b"s UNSAT\n"), ("UNKNOW", b"s UNKNOW\n"),
            ("UNKNOWNS", b"s UNKNOWNS\n"), ("unknown", b"s unknown\n"),
            ("unsatisfiable", b"s unsatisfiable\n"), ("UNSATISFIABLE?", b"s UNSATISFIABLE?\n"),
            ("OPTIMUM FOUND", b"s OPTIMUM FOUND\n" + values),
            ("two words", b"s SATISFIABLE UNKNOWN\n" + values),
            ("space after the status", b"s SATISFIABLE \n" + values),
            ("space after UNKNOWN", b"s UNKNOWN \n"),
            ("space after UNSATISFIABLE", b"s UNSATISFIABLE \n"),
            ("two spaces in the status", b"s  SATISFIABLE\n" + values),
            ("tab in the status", b"s\tSATISFIABLE\n" + values),
            ("no space in the status", b"sSATISFIABLE\n" + values),
            ("space before the status", b" s SATISFIABLE\n" + values),
            ("NUL after the status", b"s SATISFIABLE\0\n" + values),
            ("status split", b"s SATIS\nFIABLE\n" + values),
            ("status without s", b"SATISFIABLE\n" + values),
            ("capital S", b"S SATISFIABLE\n" + values), ("capital C", b"C\n" + SAT + values),
            ("space before c", b" c\n" + SAT + values), ("clause text", b"p cnf 10 1\n1 0\n"),
            ("0xff first", b"\xff" + SAT + values),
            ("byte order mark", b"\xef\xbb\xbf" + SAT + values)):
        relay_answer("answer: " + what, 13, text)
    for what, text in (
            ("values without LF", values[:-1]), ("last c line without LF", values + b"c"),
            ("c line without LF after the status", b"c"),
            ("trailing text without LF", values + b"x"), ("NUL at the end", values + b"\0"),
            ("NUL line", values + b"\0\n"), ("empty line between", b"\n" + values),
            ("empty line last", values + b"\n"),
            ("empty line among values", b"v 3 5\n\nv 8 10 0\n"),
            ("line of a space", b" \n" + values), ("another status last", values + OPEN),
            ("values after the 0", values + b"v -1\n"),
            ("values after the 0, with a 0", values + b"v -1 0\n"),
            ("0 twice, own lines", values + b"v 0\n"),
            ("0 first, values after", b"v 0\n" + values), ("no 0", b"v 3 5 8 10\n"),
            ("no 0, several lines", b"v 3 5\nv 8 10\n"),
            ("no 0, a c line with it", b"v 3 5 8 10\nc 0\n"),
            ("number after the 0", b"v 3 5 8 10 0 -1\n"), ("0 twice", b"v 3 5 8 10 0 0\n"),
            ("0 in the middle", b"v 3 5 0 8 10 0\n"),
            ("0 in the middle of the values", b"v 3 5 0\nv 8 10 0\n"),
            ("v alone", b"v\n" + values), ("v and a space", b"v \n" + values),
            ("v alone last", values + b"v\n"), ("v and two spaces", b"v  \n" + values),
            ("v alone for all", b"v\n"), ("v and a space for all", b"v \n"),
            ("double space", b"v 3  5 8 10 0\n"), ("double space after v", b"v  3 5 8 10 0\n"),
            ("double space before 0", b"v 3 5 8 10  0\n"), ("trailing space", b"v 3 5 8 10 0 \n"),
            ("trailing space, no 0", b"v 3 5 \nv 8 10 0\n"),
            ("leading space", b" v 3 5 8 10 0\n"), ("no space", b"v3 5 8 10 0\n"),
            ("tab after v", b"v\t3 5 8 10 0\n"), ("tab between", b"v 3\t5 8 10 0\n"),
            ("tab last", b"v 3 5 8 10 0\t\n"), ("vertical tab", b"v 3\x0b5 8 10 0\n"),
            ("no-break space", b"v 3\xa05 8 10 0\n"), ("comma", b"v 3,5,8,10,0\n"),
            ("CR LF, values", values[:-1] + b"\r\n"), ("plus sign", b"v +3 5 8 10 0\n"),
            ("plus sign of 0", b"v 3 5 8 10 +0\n"), ("leading zero", b"v 03 5 8 10 0\n"),
            ("leading zero, negative", b"v -01 3 5 8 10 0\n"),
            ("leading zeros", b"v 0003 5 8 10 0\n"), ("00 to close", b"v 3 5 8 10 00\n"),
            ("-0 to close", b"v 3 5 8 10 -0\n"), ("-0 among the values", b"v 3 -0 5 8 10 0\n"),
            ("-00", b"v 3 5 8 10 -00 0\n"), ("two minus signs", b"v --1 3 5 8 10 0\n"),
            ("minus behind", b"v 1- 3 5 8 10 0\n"), ("minus alone", b"v - 3 5 8 10 0\n"),
            ("minus and a space", b"v - 1 3 5 8 10 0\n"), ("minus last", b"v 3 5 8 10 0 -\n"),
            ("minus and plus", b"v -+1 3 5 8 10 0\n"),
            ("long minus sign", "v −1 3 5 8 10 0\n".encode()), ("letter", b"v a 3 5 8 10 0\n"),
            ("letter behind", b"v 3x 5 8 10 0\n"), ("letter before", b"v x3 5 8 10 0\n"),
            ("hexadecimal", b"v 3 5 8 0xa 0\n"), ("point", b"v 3. 5 8 10 0\n"),
            ("exponent", b"v 3 5 8 1e1 0\n"), ("underscore", b"v 3 5 8 1_0 0\n"),
            ("slash, before the digits", b"v 3 5 8 1/ 10 0\n"),
            ("colon, past the digits", b"v 3 5 8 : 10 0\n"), ("letter for 0", b"v 3 5 8 10 O\n"),
            ("NUL in a number", b"v 3\0 5 8 10 0\n"), ("0xff in a number", b"v 3\xff 5 8 10 0\n"),
            ("digit of another script", "v ٣ 5 8 10 0\n".encode()),
            ("variable twice", b"v 3 5 8 10 3 0\n"),
            ("variable twice in a row", b"v 3 3 5 8 10 0\n"),
            ("variable twice, negative", b"v -1 3 5 8 10 -1 0\n"),
            ("both signs", b"v 3 5 8 10 -3 0\n"),
            ("both signs, negative first", b"v -3 5 8 10 3 0\n"),
            ("twice on two lines", b"v 3 5 8 10\nv 5 0\n"), ("V + 1", b"v 3 5 8 10 11 0\n"),
            ("-(V + 1)", b"v 3 5 8 10 -11 0\n"), ("V + 1 alone", b"v 11 0\n"),
            ("999999", b"v 3 5 8 10 -999999 0\n"), ("1000000", b"v 3 5 8 10 -1000000 0\n"),
            ("40 digits", b"v 3 5 8 10 " + b"1234567890" * 4 + b" 0\n"),
            ("minus and 40 digits", b"v 3 5 8 10 -" + b"9" * 40 + b" 0\n"),
            ("3 and 40 zeros", b"v 3" + b"0" * 40 + b" 5 8 10 0\n"),
            ("40 zeros", b"v 3 5 8 10 " + b"0" * 40 + b"\n"),
            ("40 zeros and 3", b"v " + b"0" * 40 + b"3 5 8 10 0\n"),
            ("minus and 40 zeros", b"v 3 5 8 10 -" + b"0" * 40 + b" 0\n"),
            ("5,000 digits", b"v 3 5 8 10 -" + b"7" * 5000 + b" 0\n"),
            ("capital V", b"V 3 5 8 10 0\n"), ("o line", b"o 1\n" + values),
            ("values without v", b"3 5 8 10 0\n"), ("d line", b"d 3 0\n" + values)):
        relay_answer("after the s line: " + what, 13, SAT + text)
    for status in (NONE, OPEN):
        name = status.decode().strip()
        for what, text in (
                ("values after", status + values), ("v 0 after", status + b"v 0\n"),
                ("v after", status + b"v\n"), ("values before", values + status),
                ("twice", status + status), ("empty line after", status + b"\n"),
                ("no LF", status[:-1]), ("CR LF", status[:-1] + b"\r\n"),
                ("c line, values after", status + b"c\n" + values),
                ("c line without LF", status + b"c"), ("SATISFIABLE after", status + SAT + values),
                ("text after", status + b"0\n"), ("NUL after", status + b"\0")):
            relay_answer("%s: %s" % (name, what), 13, text)
    # Where a wrapped number would read as relay's model.
    for bits in (8, 16, 31, 32, 63, 64, 128):
        relay_answer("8 and 2^%d" % bits, 13, SAT + b"v 3 5 %d 10 0\n" % (8 + 2 ** bits))
        relay_answer("-1 less 2^%d" % bits, 13, SAT + b"v %d 3 5 8 10 0\n" % (-1 - 2 ** bits))
        relay_answer("8 less 2^%d" % bits, 13, SAT + b"v 3 5 %d 10 0\n" % (8 - 2 ** bits))
        relay_answer("2^%d to close" % bits, 13, SAT + b"v 3 5 8 10 %d\n" % 2 ** bits)
    for size in (2 ** 31 - 1, 2 ** 31, 2 ** 32 - 1, 2 ** 63 - 1, 2 ** 63, 2 ** 64 - 1):
        relay_answer("-%d" % size, 13, SAT + b"v 3 5 8 10 -%d 0\n" % size)
        relay_answer("%d" % size, 13, SAT + b"v 3 5 8 10 %d 0\n" % size)


def without_slots_or_steps():
    still = problem_bytes(3, 2, [(0, 2), (1, 2), (5, 1)])
    for rule in (SINGLE, PARALLEL):
        answer_case("T 0, goal there at first", b"", 0, rule, still, SAT + b"v 2 0\n")
        answer_case("T 0, start not told", 15, 0, rule, still, SAT + b"v 0\n")
        answer_case("T 0, V + 1", 13, 0, rule, still, SAT + b"v 2 4 0\n")
        answer_case("T 4, no step", b"", 4, rule, still, SAT + b"v 2 7 12 17 22 0\n")
        answer_case("T 0, no sheet claimed", b"none claimed\n", 0, rule, still, NONE)
        bare = problem_bytes(2, 0, [(0, 1), (1, 1)])
        for horizon in (0, 1, 4, 32):
            model = model_of(read_problem(bare), [set()] * horizon)
            answer_case("A 0, T %d" % horizon, b"", horizon, rule, bare, full(model))
            answer_case("A 0, T %d, fact 2 appears" % horizon, 15, horizon, rule, bare,
                        full(model[:-1] + [True]))
            answer_case("A 0, T %d, V + 1" % horizon, 13, horizon, rule, bare,
                        full(model + [False]))
    least = problem_bytes(1, 0, [])
    answer_case("F 1, A 0, P 0, T 0", b"", 0, SINGLE, least, SAT + b"v 0\n")
    answer_case("the same, -1", b"", 0, SINGLE, least, SAT + b"v -1 0\n")
    answer_case("the same, 1", 15, 0, SINGLE, least, SAT + b"v 1 0\n")
    answer_case("the same, 2", 13, 0, SINGLE, least, SAT + b"v 2 0\n")


def sheet_refusals():
    """Refusals 1 to 7 before an answer is looked at, and their order."""
    good, bad = SAT + b"v " + GOOD + b" 0\n", b"not an answer"
    for n in range(4):
        asked_case("%d bytes" % n, 1, numbers(33, 0)[:n])
    for n in range(6):
        asked_case("problem of %d bytes" % n, 1, given(2, PARALLEL, RELAY)[:4 + n])
    asked_case("problem of 5 bytes, F 0", 1, given(2, PARALLEL, bytes(5)))
    asked_case("no answer after 6 bytes", 13, given(0, SINGLE, problem_bytes(1, 0, [])))
    for answer in (good, bad, NONE, b""):
        def refused(what, number, horizon, rule, *problem):
            answer_case(what, number, horizon, rule, problem_bytes(*problem), answer)
        refused("T 33", 7, 33, PARALLEL, 2, 2, [])
        refused("rule 0", 7, 2, 0, 2, 2, [])
        refused("rule 3", 7, 2, 3, 2, 2, [])
        refused("T 65535, rule 1, F 0", 7, 65535, SINGLE, 0, 2, [])
        refused("rule 258, P 4097", 7, 2, 258, 2, 2, [], 4097)
        refused("T 33, a wrong pair", 7, 33, SINGLE, 2, 2, [(2, 1)])
        refused("F 0", 2, 2, PARALLEL, 0, 2, [])
        refused("F 65", 2, 2, PARALLEL, 65, 2, [])
        refused("A 129", 2, 2, PARALLEL, 2, 129, [])
        refused("P 4097", 2, 2, PARALLEL, 2, 2, [], 4097)
        refused("P 65535", 2, 2, PARALLEL, 2, 2, [], 65535)
        refused("P 4096, far too little there", 3, 2, PARALLEL, 2, 2, [], 4096)
        refused("code 3", 4, 2, PARALLEL, 2, 2, [(0, 1), (3, 1)])
        refused("fact above F", 4, 2, PARALLEL, 2, 2, [(0, 3)])
        refused("fact 0", 4, 2, PARALLEL, 2, 2, [(0, 0)])
        refused("code above 4A + 2", 4, 2, PARALLEL, 2, 2, [(0, 1), (12, 1)])
        refused("pair twice", 5, 2, PARALLEL, 2, 2, [(5, 1), (5, 1)])
        refused("pair 2 not rising, pair 3 wrong", 5, 2, PARALLEL, 2, 2, [(5, 1), (4, 1), (7, 1)])
        refused("pair 2 wrong, pair 3 not rising", 4, 2, PARALLEL, 2, 2, [(5, 1), (7, 1), (5, 1)])
        refused("a step sets and clears fact 1", 6, 2, PARALLEL, 2, 2, [(5, 1), (6, 1)])
        refused("sets and clears, then a pair twice", 5, 2, PARALLEL, 2, 2,
                [(5, 1), (6, 1), (9, 1), (9, 1)])
    asked_case("T 33, no problem", 7, numbers(33, 1))
    asked_case("rule 0, 3 bytes of problem", 7, numbers(1, 0, 2) + b"\0")
    # Where the problem ends.
    for n in range(1, 21):
        asked_case("relay, %d bytes short" % n, 3, given(2, PARALLEL, RELAY)[:-n])
    for n in (1, 2, 3, 4):
        asked_case("P 12, %d bytes short" % n, 3,
                   (given(2, PARALLEL, problem_bytes(2, 2, [], 12)) + SAT + bytes(99))[:58 - n])
    five = [(1, 2), (5, 1), (8, 1), (9, 2), (10, 1)]
    answer_case("P 0 before the pairs", 13, 2, PARALLEL, problem_bytes(2, 2, five, 0), good)
    answer_case("P one less", 4, 2, PARALLEL, problem_bytes(2, 2, five, 4), good)
    answer_case("P one more", 4, 2, PARALLEL, problem_bytes(2, 2, five, 6), good)
    answer_case("P one more, nothing after", 3, 2, PARALLEL, problem_bytes(2, 2, five, 6), b"")
    answer_case("a problem in place of an answer", 13, 2, PARALLEL, RELAY, RELAY)
    answer_case("LF before the answer", 13, 2, PARALLEL, RELAY, b"\n" + good)
    answer_case("NUL before the answer", 13, 2, PARALLEL, RELAY, b"\0" + good)
    # Last a wrong answer, before no model.
    relay_answer("no model and no answer: 0 missing", 13, SAT + b"v 1 2 3\n")
    relay_answer("no model and no answer: V + 1", 13, SAT + b"v 1 11 0\n")
    relay_answer("no model and no answer: twice", 13, SAT + b"v 1 1 0\n")
    relay_answer("no model", 15, SAT + b"v 1 0\n")
    answer_case("no sheet claimed where there is one", b"none claimed\n", 1, PARALLEL, SWAP, NONE)


def damaged_answers(rng):
    """Answers changed in a byte or two; the rest of the input stands."""
    for i in range(120):
        facts, steps = rng.randint(1, 3), rng.randint(0, 3)
        horizon, rule = rng.randint(0, 3), rng.randint(1, 2)
        data, problem, rows = walked(rng, facts, steps, horizon, rule, 0.3)
        text = bytearray(rendered(rng, model_of(problem, rows)))
        for _ in range(rng.choice((1, 1, 2))):
            place = rng.randrange(len(text))
            kind = rng.randrange(5)
            if kind == 0:
                del text[place]
            elif kind == 1:
                text.insert(place, rng.choice(b" \n0123456789-vsc\r\t+"))
            elif kind == 2:
                text[place] = rng.choice(b" \n0123456789-vsc")
            elif kind == 3:
                text[place] = rng.randrange(256)
            else:
                text[place:place + rng.randint(1, 4)] = b""
            if not text:
                text += b"v"
        answer_case("answer damaged at random", None, horizon, rule, data, bytes(text))
    for _ in range(24):
        text = full(model_of(read_problem(RELAY), [{1}, {2}]))
        cut = rng.randrange(len(text))
        relay_answer("answer cut after %d bytes" % cut, 13, text[:cut])


def big_sheets(rng):
    # Steps without needs and effects: all of them fit in every slot.
    idle = problem_bytes(64, 128, [])
    problem = read_problem(idle)
    every = [set(range(1, 129)) for _ in range(32)]
    whole = model_of(problem, every)
    assert len(whole) == variables(problem, 32) == 6208
    lines = told(lines_of_sheet(every))
    assert lines.count(b"\n") == 4096
    answer_case("V 6,208, 4,096 lines, every value told", lines, 32, PARALLEL, idle, full(whole))
    order = [x for x in literals_of(whole) if x > 0]
    rng.shuffle(order)
    text = SAT + b"".join(b"v " + b" ".join(b"%d" % x for x in order[i:i + 13]) + b"\n"
                          for i in range(0, 4096, 13)) + b"c done\nv 0\nc\n"
    answer_case("the same, shuffled, in many lines", lines, 32, PARALLEL, idle, text)
    answer_case("the same, a fact from nowhere", 15, 32, PARALLEL, idle,
                full(whole[:-1] + [True]))
    answer_case("the same, V + 1", 13, 32, PARALLEL, idle, full(whole + [False]))
    answer_case("the same, the single rule", 15, 32, SINGLE, idle, text)
    answer_case("V 6,208, the empty sheet", b"", 32, SINGLE, idle, SAT + b"v 0\n")
    answer_case("V 6,208, steps 1 and 128 at the ends", b"1 1\n1 128\n32 1\n32 128\n", 32, PARALLEL,
                idle, SAT + b"v 65 192 6017 6144 0\n")
    answer_case("V 6,208, the last fact", 15, 32, PARALLEL, idle, SAT + b"v 6208 0\n")
    answer_case("V 6,208, 6209", 13, 32, PARALLEL, idle, SAT + b"v -6209 0\n")
    answer_case("V 6,208, variable 6,208 twice", 13, 32, PARALLEL, idle, SAT + b"v -6208 -6208 0\n")

    # Many pairs, and steps that are parted in every slot.
    facts = range(1, 65)
    pairs = [(0, f) for f in facts if f <= 32]
    for a in range(1, 129):
        pairs += [(4 * a, f) for f in range(1, 33) if (a + f) % 3]
        sets, clears = (range(33, 37), range(37, 41)) if a % 2 else (range(37, 41), range(33, 37))
        pairs += [(4 * a + 1, f) for f in sets] + [(4 * a + 2, f) for f in clears]
    pairs += [(1, f) for f in range(1, 5)] + [(1, 37)]
    dense = problem_bytes(64, 128, sorted(pairs))
    problem = read_problem(dense)
    turns = [{a for a in range(1, 129) if a % 2 == t % 2} for t in range(1, 9)]
    model = model_of(problem, turns)
    answer_case("%d pairs, T 8, 64 steps in each slot" % len(pairs), told(lines_of_sheet(turns)),
                8, PARALLEL, dense, full(model))
    one_off = list(model)
    one_off[64 + 2 - 1] = True               # step 2 beside the odd steps
    answer_case("the same, one step too many", 15, 8, PARALLEL, dense, full(one_off))
    alone = [{t} for t in range(1, 9)]
    answer_case("the same, one step a slot, single rule", told(lines_of_sheet(alone)),
                8, SINGLE, dense, full(model_of(problem, alone)))
    crowd = problem_bytes(64, 128, sorted(lawful(rng, (0, 1, 2), 4096)))
    answer_case("P 4096, no step, T 2", b"", 2, PARALLEL, crowd, SAT + b"v 0\n")
    answer_case("P 4096, its pairs cut short", 3, 2, PARALLEL, crowd[:-40], SAT + b"v 0\n")
    answer_case("V 448, a goal short, single rule", 15, 2, SINGLE,
                problem_bytes(64, 128, [(1, 64)]), SAT + b"v 0\n")


def long_answers():
    start = given(2, PARALLEL, RELAY)
    good = SAT + b"v " + GOOD + b" 0\n"

    def filled(head, length, tail):
        return head + b"c" + b"." * (length - len(head) - len(tail) - 2) + b"\n" + tail

    asked_case("65,536 bytes, a long c line first", b"1 1\n2 2\n", filled(start, 65536, good))
    asked_case("65,536 bytes, answer without its last LF", 13,
               filled(start, 65537, good)[:-1])
    asked_case("65,537 bytes", 3, filled(start, 65537, good))
    asked_case("65,537 bytes, T 33, rule 0, F 0, no answer", 3,
               given(33, 0, bytes(6)) + bytes(65527))
    asked_case("65,536 bytes, T 33, F 0, no answer", 7, given(33, 2, bytes(6)) + bytes(65526))
    space = 65536 - len(start) - len(good)
    odd = b"c.\n" if space % 2 else b""
    many = (space - len(odd)) // 2
    asked_case("65,536 bytes, short c lines before and after", b"1 1\n2 2\n",
               start + b"c\n" * (many // 2) + good + odd + b"c\n" * (many - many // 2))
    digits = 65536 - len(start) - len(SAT) - len(b"v 3 5 8 10  0\n")
    asked_case("65,536 bytes, a number of %d digits" % digits, 13,
               start + SAT + b"v 3 5 8 10 " + b"1" * digits + b" 0\n")


def sheet_cases(rng):
    sheet_examples()
    forms_allowed()
    forms_refused()
    every_value()
    two_steps()
    without_slots_or_steps()
    sheet_refusals()
    lawful_answers(rng)
    damaged_answers(rng)
    big_sheets(rng)
    long_answers()


def outcome(letter, printed):
    head = printed.split(b"\n")[0].decode()
    if head.startswith("refused") or head in ("none claimed", "unknown"):
        return head
    return "granted" if letter == b"w" or printed else "empty sheet"


def main(arguments):
    rng = random.Random(SEED)
    examples()
    too_short()
    out_of_range()
    wrong_length()
    wrong_pairs()
    pairs_not_rising()
    set_and_cleared()
    slots_and_rule()
    slot_rules()
    at_random(rng)
    long_inputs()
    big(rng)

    sheet_cases(random.Random(SEED + 1))

    print("seed %d" % SEED)
    for letter, name, crate in PROGRAMS:
        own = [case for case in cases if case[0] == letter]
        stdin = b"".join(len(data).to_bytes(4, "little") + data for _, _, data, _ in own)
        stdout = b"".join(b"case %d\n" % k + printed
                          for k, (_, _, _, printed) in enumerate(own, 1))
        (CRATES / crate / "stdin").write_bytes(stdin)
        (CRATES / crate / "stdout").write_bytes(stdout)

        tally = collections.Counter()
        for k, (_, what, data, printed) in enumerate(own, 1):
            answer = outcome(letter, printed)
            tally[answer] += 1
            if arguments == ["list"]:
                print("%4d %s  %-12s  %5d bytes in, %5d out  %s"
                      % (k, letter.decode(), answer, len(data), len(printed), what))
        print("%s, %d cases, stdin %d bytes, stdout %d bytes: %s"
              % (name, len(own), len(stdin), len(stdout),
                 ", ".join("%s: %d" % item for item in sorted(tally.items()))))


if __name__ == "__main__":
    main(sys.argv[1:])
