#!/usr/bin/env python3
"""A second planner-to-SAT encoder, and the way back from a solver's answer to a
sheet, kept plain so that it can be read at a glance.

    python3 tests/oracle/oracle.py write < input    what `write` must print
    python3 tests/oracle/oracle.py sheet < input    what `sheet` must print
    python3 tests/oracle/oracle.py selfcheck        brute-force and worked examples

It shares no code with the library. Nothing here is tuned for speed. A function
that can refuse answers with the refusal's number in place of its result.
"""

import itertools
import random
import re
import sys
from dataclasses import dataclass, field

MOST_FACTS, MOST_STEPS, MOST_PAIRS, MOST_SLOTS = 64, 128, 4096, 32
MOST_INPUT = 65536   # bytes of standard input
TEXT_SPACE = 65536   # bytes for clause lines, the head line not counted
SHEET_SPACE = 4096   # lines of a sheet that `sheet` has room for
MOST_TEXT, MOST_LITERALS = 999999, 130   # V and C of clause text, literals of a clause
SINGLE, PARALLEL = 1, 2


# ---------------------------------------------------------------- problem

@dataclass
class Step:
    needs: set = field(default_factory=set)
    sets: set = field(default_factory=set)
    clears: set = field(default_factory=set)


@dataclass
class Problem:
    facts: int
    steps: list          # steps[0] is a filler: steps count from 1
    start: set
    goals: set

    @property
    def step_numbers(self):
        return range(1, len(self.steps))

    @property
    def fact_numbers(self):
        return range(1, self.facts + 1)


def number(data, place):
    """The unsigned 16-bit number at `place`, low byte first."""
    return data[place] | data[place + 1] << 8


def read_problem(data):
    """The problem in `data`, or the number of the first refusal."""
    if len(data) < 6:
        return 1
    facts, steps, pairs = number(data, 0), number(data, 2), number(data, 4)
    if not 1 <= facts <= MOST_FACTS or steps > MOST_STEPS or pairs > MOST_PAIRS:
        return 2
    if len(data) != 6 + 4 * pairs:
        return 3
    problem = Problem(facts, [Step() for _ in range(steps + 1)], set(), set())
    before = None
    for i in range(pairs):
        code = number(data, 6 + 2 * i)
        fact = number(data, 6 + 2 * pairs + 2 * i)
        if code in (2, 3) or code > 4 * steps + 2 or code % 4 == 3:
            return 4
        if fact == 0 or fact > facts:
            return 4
        if before is not None and not before < (code, fact):
            return 5
        before = (code, fact)
        if code == 0:
            problem.start.add(fact)
        elif code == 1:
            problem.goals.add(fact)
        else:
            step = problem.steps[code // 4]
            (step.needs, step.sets, step.clears)[code % 4].add(fact)
    if any(step.sets & step.clears for step in problem.steps):
        return 6
    return problem


def parts(problem, rule, a, b):
    """Whether the slot rule keeps the different steps a and b out of one slot."""
    if rule == SINGLE:
        return True
    x, y = problem.steps[a], problem.steps[b]
    return bool(x.clears & (y.needs | y.sets) or y.clears & (x.needs | x.sets))


# ------------------------------------------------------- states and sheets
# A sheet is a list with one set of steps for each slot.

def states(problem, sheet):
    """States 0 to T of a sheet, each the set of facts present."""
    state = set(problem.start)
    run = [state]
    for slot in sheet:
        cleared = set().union(*(problem.steps[a].clears for a in slot))
        gained = set().union(*(problem.steps[a].sets for a in slot))
        state = (state - cleared) | gained
        run.append(state)
    return run


def holds(problem, rule, sheet):
    run = states(problem, sheet)
    for before, slot in zip(run, sheet):
        if any(not problem.steps[a].needs <= before for a in slot):
            return False
        if any(parts(problem, rule, a, b)
               for a, b in itertools.combinations(sorted(slot), 2)):
            return False
    return problem.goals <= run[-1]


# ---------------------------------------------------------------- formula

def fact_after(problem, t, f):
    """The variable of fact f after slot t; t = 0 is the start."""
    return t * (problem.facts + len(problem.steps) - 1) + f


def step_in(problem, t, a):
    """The variable of step a in slot t."""
    return (t - 1) * (problem.facts + len(problem.steps) - 1) + problem.facts + a


def formula(problem, horizon, rule):
    """The clauses, in order, each a list of literals."""
    steps, clauses = problem.steps, []
    for f in problem.fact_numbers:
        v = fact_after(problem, 0, f)
        clauses.append([v if f in problem.start else -v])
    for t in range(1, horizon + 1):
        def step(a):
            return step_in(problem, t, a)

        def before(f):
            return fact_after(problem, t - 1, f)

        def after(f):
            return fact_after(problem, t, f)

        for a in problem.step_numbers:
            for f in sorted(steps[a].needs):
                clauses.append([-step(a), before(f)])
        for a in problem.step_numbers:
            for f in sorted(steps[a].sets):
                clauses.append([-step(a), after(f)])
        for a in problem.step_numbers:
            for f in sorted(steps[a].clears):
                clauses.append([-step(a), -after(f)])
        for f in problem.fact_numbers:
            setters = [step(a) for a in problem.step_numbers if f in steps[a].sets]
            clearers = [step(a) for a in problem.step_numbers if f in steps[a].clears]
            clauses.append([before(f), -after(f)] + setters)
            clauses.append([-before(f), after(f)] + clearers)
        for a in problem.step_numbers:
            for b in range(a + 1, len(steps)):
                if parts(problem, rule, a, b):
                    clauses.append([-step(a), -step(b)])
    for f in sorted(problem.goals):
        clauses.append([fact_after(problem, horizon, f)])
    return clauses


def variables(problem, horizon):
    return horizon * (problem.facts + len(problem.steps) - 1) + problem.facts


def sizes(problem, horizon, rule):
    """Counts of variables, clauses and literals."""
    clauses = formula(problem, horizon, rule)
    return variables(problem, horizon), len(clauses), sum(map(len, clauses))


def word_cost(clauses):
    return sum(len(clause) + 1 for clause in clauses)


def clause_lines(clauses):
    return "".join("".join("%d " % x for x in clause) + "0\n"
                   for clause in clauses).encode("ascii")


# ----------------------------------------------------------------- models
# A model is a list of truth values; variable v stands at place v - 1.

def model_of(problem, sheet):
    """The truth values that a sheet stands for."""
    model = [False] * variables(problem, len(sheet))
    for t, slot in enumerate(sheet, 1):
        for a in slot:
            model[step_in(problem, t, a) - 1] = True
    for t, state in enumerate(states(problem, sheet)):
        for f in state:
            model[fact_after(problem, t, f) - 1] = True
    return model


def sheet_of(problem, horizon, model):
    return [{a for a in problem.step_numbers if model[step_in(problem, t, a) - 1]}
            for t in range(1, horizon + 1)]


def is_model(clauses, model):
    return all(any(model[abs(x) - 1] == (x > 0) for x in clause) for clause in clauses)


def propagate(clauses, true_literals=()):
    """Unit propagation, lowest clause first: (some clause is false, count)."""
    true, count = set(true_literals), 0
    while True:
        unit = None
        for clause in clauses:
            if any(x in true for x in clause):
                continue
            still_open = {x for x in clause if -x not in true}
            if not still_open:
                return True, count
            if unit is None and len(still_open) == 1:
                unit = still_open.pop()
        if unit is None:
            return False, count
        true.add(unit)
        count += 1


# -------------------------------------------------------------- texts read

def spelled(word):
    """The number that a word spells, however long, or None if it spells none."""
    if not re.fullmatch(rb"0|-?[1-9][0-9]*", word):
        return None
    size = 0
    for digit in word.lstrip(b"-"):
        size = 10 * size + digit - ord("0")
    return -size if word.startswith(b"-") else size


SATISFIABLE, UNSATISFIABLE, UNKNOWN = b"s SATISFIABLE", b"s UNSATISFIABLE", b"s UNKNOWN"


def read_answer(text, count):
    """A solver's answer for variables 1 to `count`: its s line and truth values."""
    lines = text.split(b"\n")
    if lines.pop() != b"":                  # the last line lacks its LF
        return 13
    lines = [line for line in lines if not line.startswith(b"c")]
    if not lines or lines[0] not in (SATISFIABLE, UNSATISFIABLE, UNKNOWN):
        return 13
    status, rest = lines[0], lines[1:]
    if status != SATISFIABLE:
        return 13 if rest else (status, [False] * count)
    listed = []
    for line in rest:
        if not line.startswith(b"v "):
            return 13
        listed += [spelled(word) for word in line[2:].split(b" ")]
    if None in listed or listed.count(0) != 1 or listed.pop() != 0:
        return 13
    if len({abs(x) for x in listed}) < len(listed) or any(abs(x) > count for x in listed):
        return 13
    true = set(listed)
    return status, [v in true for v in range(1, count + 1)]


def read_answer_into(text, count, memory):
    """The same over lent memory: the s line or the refusal, and the memory after."""
    if len(memory) != count:
        return 14, memory
    answer = read_answer(text, count)
    if isinstance(answer, int):
        return answer, bytes(count)
    return answer[0], bytes(answer[1])


def read_clause_text(text):
    """A whole clause text with its head line: V and the clauses."""
    while text.startswith(b"c"):
        comment, end, text = text.partition(b"\n")
        if not end:
            return 12
    head, end, body = text.partition(b"\n")
    words = head.split(b" ")
    if not end or len(words) != 4 or words[:2] != [b"p", b"cnf"]:
        return 12
    widest, count = spelled(words[2]), spelled(words[3])
    if any(n is None or not 0 <= n <= MOST_TEXT for n in (widest, count)):
        return 12
    clauses, clause = [], []
    for word in re.split(rb"[ \n]+", body.strip(b" \n")) if body.strip(b" \n") else []:
        literal = spelled(word)
        if literal is None or abs(literal) > widest:
            return 12
        if literal != 0:
            clause.append(literal)
        else:
            clauses.append(clause)
            clause = []
    if clause or len(clauses) != count or any(len(c) > MOST_LITERALS for c in clauses):
        return 12
    return widest, clauses


# ------------------------------------------- sheets from models, and back
# A sheet's lines are (slot, step), rising. Truth values are bytes, 0 or 1.

def lines_of_sheet(sheet):
    return [(t, a) for t, slot in enumerate(sheet, 1) for a in sorted(slot)]


def decode(problem, horizon, rule, truth, capacity=SHEET_SPACE):
    """The lines of the sheet that a model stands for."""
    if horizon > MOST_SLOTS or rule not in (SINGLE, PARALLEL):
        return 7
    if len(truth) != variables(problem, horizon) or any(byte > 1 for byte in truth):
        return 14
    model = [byte == 1 for byte in truth]
    if not is_model(formula(problem, horizon, rule), model):
        return 15
    lines = lines_of_sheet(sheet_of(problem, horizon, model))
    return 9 if len(lines) > capacity else lines


def assign(problem, horizon, rule, lines, truth_length):
    """The truth bytes of the sheet with these lines."""
    if horizon > MOST_SLOTS or rule not in (SINGLE, PARALLEL):
        return 7
    if truth_length != variables(problem, horizon):
        return 14
    if any(not (1 <= t <= horizon and a in problem.step_numbers) for t, a in lines):
        return 16
    if any(not line < later for line, later in zip(lines, lines[1:])):
        return 16
    sheet = [{a for t, a in lines if t == slot} for slot in range(1, horizon + 1)]
    return bytes(model_of(problem, sheet)) if holds(problem, rule, sheet) else 17


# --------------------------------------------------------------- programs

def printed(answer):
    return b"refused %d\n" % answer if isinstance(answer, int) else answer


def read_request(data):
    """T and the rule, which every input begins with."""
    if len(data) < 4:
        return 1
    if len(data) > MOST_INPUT:
        return 3
    horizon, rule = number(data, 0), number(data, 2)
    if horizon > MOST_SLOTS or rule not in (SINGLE, PARALLEL):
        return 7
    return horizon, rule


def write(data):
    """What the program `write` prints for the standard input `data`."""
    return printed(write_or_refuse(data))


def write_or_refuse(data):
    request = read_request(data)
    if isinstance(request, int):
        return request
    horizon, rule = request
    problem = read_problem(data[4:])
    if isinstance(problem, int):
        return problem
    clauses = formula(problem, horizon, rule)
    lines = clause_lines(clauses)
    if len(lines) > TEXT_SPACE:
        return 9
    return b"p cnf %d %d\n" % (variables(problem, horizon), len(clauses)) + lines


def sheet(data):
    """What the program `sheet` prints for the standard input `data`."""
    return printed(sheet_or_refuse(data))


def sheet_or_refuse(data):
    request = read_request(data)
    if isinstance(request, int):
        return request
    horizon, rule = request
    rest = data[4:]
    end = len(rest) if len(rest) < 6 else 6 + 4 * number(rest, 4)
    problem = read_problem(rest[:end])
    if isinstance(problem, int):
        return problem
    answer = read_answer(rest[end:], variables(problem, horizon))
    if isinstance(answer, int):
        return answer
    status, values = answer
    if status == UNSATISFIABLE:
        return b"none claimed\n"
    if status == UNKNOWN:
        return b"unknown\n"
    lines = decode(problem, horizon, rule, bytes(values))
    if isinstance(lines, int):
        return lines
    return b"".join(b"%d %d\n" % line for line in lines)


# ------------------------------------------------------- building problems

def numbers(*values):
    return b"".join(v.to_bytes(2, "little") for v in values)


def problem_bytes(facts, steps, pairs, count=None):
    """Bytes of a problem; `count` overrides the number of pairs stated."""
    return (numbers(facts, steps, len(pairs) if count is None else count)
            + numbers(*(code for code, _ in pairs))
            + numbers(*(fact for _, fact in pairs)))


# Two steps in a row: step 1 sets fact 1; step 2 needs and clears it and sets
# the goal, fact 2. Neither rule can reach the goal in fewer than two slots.
RELAY = problem_bytes(2, 2, [(1, 2), (5, 1), (8, 1), (9, 2), (10, 1)])
# Two steps that share no fact, each setting one goal: one slot is enough for
# the parallel rule and too little for the single rule.
SWAP = problem_bytes(2, 2, [(1, 1), (1, 2), (5, 1), (9, 2)])


def random_pairs(rng, facts, steps, density):
    """Lawful pairs: rising, and no step sets and clears one fact."""
    pairs = [(code, f) for code in (0, 1) for f in range(1, facts + 1)
             if rng.random() < density]
    for a in range(1, steps + 1):
        needs = {f for f in range(1, facts + 1) if rng.random() < density}
        sets = {f for f in range(1, facts + 1) if rng.random() < density}
        clears = {f for f in range(1, facts + 1) if rng.random() < density} - sets
        pairs += [(4 * a, f) for f in sorted(needs)]
        pairs += [(4 * a + 1, f) for f in sorted(sets)]
        pairs += [(4 * a + 2, f) for f in sorted(clears)]
    return pairs


# -------------------------------------------------------------- self-check

def all_sheets(problem, horizon):
    slots = [set(c) for n in range(len(problem.steps))
             for c in itertools.combinations(problem.step_numbers, n)]
    return itertools.product(slots, repeat=horizon)


def all_models(clauses, count):
    """Every model, by trying every truth value of every variable."""
    masks = [(sum(1 << x - 1 for x in set(c) if x > 0),
              sum(1 << -x - 1 for x in set(c) if x < 0)) for c in clauses]
    for bits in range(1 << count):
        if all(bits & pos or ~bits & neg for pos, neg in masks):
            yield tuple(bool(bits >> v & 1) for v in range(count))


def check(ok, *what):
    if not ok:
        raise SystemExit("selfcheck failed: %r" % (what,))


def check_models(problem, horizon, rule):
    """Models of the formula are exactly the models of the sheets that hold."""
    clauses = formula(problem, horizon, rule)
    good = [list(s) for s in all_sheets(problem, horizon) if holds(problem, rule, s)]
    expected = {tuple(model_of(problem, s)) for s in good}
    found = set(all_models(clauses, variables(problem, horizon)))
    check(len(expected) == len(good), "two sheets share a model", problem, horizon, rule)
    check(found == expected, "models", problem, horizon, rule)
    for s in good:
        check(sheet_of(problem, horizon, model_of(problem, s)) == s, "sheet", problem, s)
    return len(good)


def check_calls(rng, data, problem, horizon, rule):
    """Decode and assign undo each other on the sheets that hold, and refuse the rest."""
    count, where = variables(problem, horizon), (problem, horizon, rule)
    known = {}
    for s in all_sheets(problem, horizon):
        lines = lines_of_sheet(s)
        truth = assign(*where, lines, count)
        check(isinstance(truth, bytes) == holds(problem, rule, s), "assign", where, s)
        if truth == 17:
            truth = bytes(model_of(problem, s))
            check(decode(*where, truth) == 15, "a sheet that does not hold", where, s)
            continue
        check(truth not in known, "two sheets share a model", where, s)
        known[truth] = lines
        check(truth == bytes(model_of(problem, s)), "model", where, s)
        check(decode(*where, truth) == lines, "decode undoes assign", where, s)
        check(decode(*where, truth, len(lines)) == lines, "just enough space", where, s)
        if lines:
            check(decode(*where, truth, len(lines) - 1) == 9, "a line too little", where, s)
            check(assign(*where, lines + lines[-1:], count) == 16, "line twice", where, s)
        check(decode(*where, truth + b"\0") == 14, "a byte too many", where, s)
        check(decode(*where, b"\2" + truth[1:]) == 14, "byte 2", where, s)
        check(assign(*where, lines + [(horizon + 1, 1)], count) == 16, "slot T + 1", where, s)
        check(assign(*where, lines, count + 1) == 14, "truth memory", where, s)
        said = b" ".join(b"%d" % x for x in signed(truth))
        check(sheet(numbers(horizon, rule) + data + b"s SATISFIABLE\nv " + said + b" 0\n")
              == b"".join(b"%d %d\n" % line for line in lines), "sheet printed", where, s)
    # Every truth value of few variables; of more, some at random and some that
    # differ from a model in one place.
    if count <= 7:
        tried = [bytes(bits) for bits in itertools.product((0, 1), repeat=count)]
    else:
        tried = [bytes(rng.randrange(2) for _ in range(count)) for _ in range(8)]
        for truth in list(known)[:2]:
            tried += [truth[:v] + bytes([1 - truth[v]]) + truth[v + 1:] for v in range(count)]
    for truth in tried:
        check(decode(*where, truth) == known.get(truth, 15), "no model", where, truth)
    return len(tried)


def signed(model):
    return [v if true else -v for v, true in enumerate(model, 1)]


RELAY_TEXT = b"""p cnf 6 12
-1 0
-2 0
-4 1 0
-3 5 0
-4 6 0
-4 -5 0
1 -5 3 0
-1 5 4 0
2 -6 4 0
-2 6 0
-3 -4 0
6 0
"""


RELAY_ANSWER = b"""c two slots
s SATISFIABLE
v -1 -2 3 -4 5
c the rest
v -6 -7 8 -9 10 0
"""

WRONG_ANSWERS = (
    b"", b"\n", b"c\n", b"s SATISFIABLE", b"s SATISFIABLE\n", b"s SATISFIABLE\nv 0",
    b"s SATISFIABLE\nv\n", b"s SATISFIABLE\nv \n", b"s SATISFIABLE\nv 1\n",
    b"s SATISFIABLE\nv 1  0\n", b"s SATISFIABLE\nv 1 0 \n", b"s SATISFIABLE\nv 0 0\n",
    b"s SATISFIABLE\nv 0\nv 0\n", b"s SATISFIABLE\nv 1 1 0\n", b"s SATISFIABLE\nv 1 -1 0\n",
    b"s SATISFIABLE\nv 4 0\n", b"s SATISFIABLE\nv 01 0\n", b"s SATISFIABLE\nv -0\n",
    b"s SATISFIABLE\nv +1 0\n", b"s SATISFIABLE\nv 1\t0\n", b"v 1 0\ns SATISFIABLE\n",
    b"s SATISFIABLE\r\nv 0\r\n", b"s SATISFIABLE \nv 0\n", b"s satisfiable\nv 0\n",
    b"s UNSATISFIABLE\nv 0\n", b"s UNKNOWN\nv 0\n", b"s UNKNOWN\ns UNKNOWN\n",
    b"s SATISFIABLE\n\nv 0\n", b"s SATISFIABLE\nv 0\n\n", b"s UNKNOWN\nc",
    b"s SATISFIABLE\nv 1" + b"0" * 40 + b" 0\n")

WRONG_TEXTS = (
    b"", b"c", b"p cnf 0 0", b"p cnf 0 1\n", b"p cnf 1 0\n0", b"p  cnf 0 0\n", b"p cnf 0 0 \n",
    b"p cnf 00 0\n", b"p cnf -0 0\n", b"p cnf +1 0\n", b"p cnf -1 0\n", b" p cnf 0 0\n",
    b"p cnf 1000000 0\n", b"p cnf 0 1000000\n", b"p cnf 2 1\n3 0", b"p cnf 2 1\n-3 0",
    b"p cnf 2 1\n1", b"p cnf 2 1\n1 0 1", b"p cnf 2 1\n1\t0", b"p cnf 2 1\nc\n1 0\n",
    b"p cnf 2 1\n01 0", b"p cnf 2 1\n1 -0", b"p cnf 2 1\n" + b"1 " * 131 + b"0",
    b"\np cnf 0 0\n", b"p cnf 0 0\r\n", b"p cnf 2 1\n1 0 %", b"p\ncnf 0 0\n")


def texts_read():
    check(read_answer(RELAY_ANSWER, 10)
          == (SATISFIABLE, [v in (3, 5, 8, 10) for v in range(1, 11)]), "relay's answer")
    check(read_answer(RELAY_ANSWER, 9) == 13, "a variable above V")
    check(read_answer_into(RELAY_ANSWER, 10, b"\7" * 9) == (14, b"\7" * 9), "memory kept")
    check(read_answer_into(RELAY_ANSWER, 9, b"\7" * 9) == (13, bytes(9)), "memory cleared")
    check(read_answer_into(b"s UNKNOWN\n", 2, b"\1\1") == (UNKNOWN, bytes(2)), "unknown")
    check(read_answer(b"s SATISFIABLE\nv 0\nc\n", 0) == (SATISFIABLE, []), "no variables")
    for text in WRONG_ANSWERS:
        check(read_answer(text, 3) == 13, "not an answer", text)
    check(read_clause_text(RELAY_TEXT)
          == (6, formula(read_problem(RELAY), 1, PARALLEL)), "relay's text read")
    check(read_clause_text(b"c\nc \xff\np cnf 2 3\n\n 1  -2\n2 0 0 1 1 -1 0 \n ")
          == (2, [[1, -2, 2], [], [1, 1, -1]]), "loose text")
    check(read_clause_text(b"p cnf 1 1\n" + b"1 " * 130 + b"0") == (1, [[1] * 130]), "130")
    for text in WRONG_TEXTS:
        check(read_clause_text(text) == 12, "not clause text", text)


def worked_examples():
    relay, swap = read_problem(RELAY), read_problem(SWAP)
    one = formula(relay, 1, PARALLEL)
    check(write(numbers(1, PARALLEL) + RELAY) == RELAY_TEXT, "relay text")
    check(sizes(relay, 1, PARALLEL) == (6, 12, 24), "relay sizes")
    check(word_cost(one) == 36, "relay words")
    check(propagate(one) == (True, 4), "relay is refuted at one slot")
    none = formula(relay, 0, SINGLE)
    check(len(none) == 3 and none == formula(relay, 0, PARALLEL), "relay without slots")
    check(propagate(none) == (True, 2), "relay is refuted without slots")
    two = formula(relay, 2, PARALLEL)
    check(sizes(relay, 2, PARALLEL)[:2] == (10, 21), "relay sizes at two slots")
    models = list(all_models(two, 10))
    check([signed(m) for m in models] == [[-1, -2, 3, -4, 5, -6, -7, 8, -9, 10]],
          "relay's only model at two slots")
    check(sheet_of(relay, 2, models[0]) == [{1}, {2}], "relay's sheet")
    check(sheet(numbers(2, PARALLEL) + RELAY + RELAY_ANSWER) == b"1 1\n2 2\n", "relay printed")
    alone = formula(swap, 1, SINGLE)
    check(len(alone) == 11 and propagate(alone) == (True, 6), "swap, single rule")
    both = formula(swap, 1, PARALLEL)
    check(len(both) == 10, "swap, parallel rule")
    check([signed(m) for m in all_models(both, 6)] == [[-1, -2, 3, 4, 5, 6]],
          "swap's only model")
    square = [[1, 2], [1, -2], [-1, 2], [-1, -2]]
    check(propagate(square) == (False, 0), "four clauses, nothing assumed")
    check(propagate(square, [-1]) == (True, 1), "four clauses, lemma 1")
    check(propagate(square + [[1]]) == (True, 2), "four clauses with lemma 1")


def selfcheck(seed=20240611, rounds=400):
    worked_examples()
    texts_read()
    rng, other = random.Random(seed), random.Random(seed + 1)
    formulas = sheets = tried = 0
    for _ in range(rounds):
        facts, steps = rng.randint(1, 3), rng.randint(0, 3)
        data = problem_bytes(facts, steps,
                             random_pairs(rng, facts, steps, rng.choice((0.2, 0.35, 0.5))))
        problem = read_problem(data)
        check(not isinstance(problem, int), "lawful problem refused", data)
        for horizon in range(3):
            for rule in (SINGLE, PARALLEL):
                sheets += check_models(problem, horizon, rule)
                tried += check_calls(other, data, problem, horizon, rule)
                text = write(numbers(horizon, rule) + data)
                check(read_clause_text(text) == (variables(problem, horizon),
                                                 formula(problem, horizon, rule)), "text", text)
                formulas += 1
    print("worked examples: ok")
    print("seed %d: %d formulas, %d sheets that hold: ok" % (seed, formulas, sheets))
    print("decode and assign undo each other on all of these; every other sheet and "
          "every non-model\namong %d truth values refused: ok" % tried)


def main(arguments):
    if arguments == ["write"]:
        sys.stdout.buffer.write(write(sys.stdin.buffer.read()))
    elif arguments == ["sheet"]:
        sys.stdout.buffer.write(sheet(sys.stdin.buffer.read()))
    elif arguments == ["selfcheck"]:
        selfcheck()
    else:
        raise SystemExit("usage: oracle.py write < input | oracle.py sheet < input"
                         " | oracle.py selfcheck")


if __name__ == "__main__":
    main(sys.argv[1:])
