//! The encoder in plain, safe Rust, and the way back from a solver's answer to a
//! sheet: the yardstick for the proved library.
//!
//! It takes the same steps. To encode: check the problem's bytes, read the pairs
//! once into bit sets, go over the clauses once to sum their cost, and once more
//! to add them to the sink. To read an answer: one pass over its lines, with the
//! truth bytes as marks. To decode a model or assign one: one pass over the
//! clauses, each of which must have a true literal.

use std::cmp::Ordering;

pub const MOST_FACTS: usize = 64;
pub const MOST_STEPS: usize = 128;
pub const MOST_PAIRS: usize = 4096;
pub const MOST_SLOTS: u16 = 32;
pub const MOST_LITERALS: usize = 130;
pub const MOST_VARIABLES: usize = MOST_SLOTS as usize * (MOST_FACTS + MOST_STEPS) + MOST_FACTS;
pub const MOST_LINES: usize = MOST_SLOTS as usize * MOST_STEPS;

#[derive(Clone, Copy, Debug, PartialEq, Eq)]
pub enum Refusal {
    TooShort = 1,
    OutOfRange = 2,
    WrongLength = 3,
    WrongPair = 4,
    NotRising = 5,
    SetAndCleared = 6,
    SlotsOrRule = 7,
    WrongClause = 8,
    NoSpace = 9,
    NotEmpty = 10,
    TooWide = 11,
    NotAnAnswer = 13,
    WrongTruth = 14,
    NotAModel = 15,
    WrongLines = 16,
    DoesNotHold = 17,
}

// ---------------------------------------------------------------- problem

/// A set of facts; fact f is bit f - 1.
#[derive(Clone, Copy, Default, PartialEq, Eq)]
pub struct Facts(u64);

impl Facts {
    fn insert(&mut self, fact: usize) {
        self.0 |= 1 << (fact - 1);
    }

    fn has(self, fact: usize) -> bool {
        self.0 >> (fact - 1) & 1 == 1
    }

    fn meets(self, other: Facts) -> bool {
        self.0 & other.0 != 0
    }

    fn with(self, other: Facts) -> Facts {
        Facts(self.0 | other.0)
    }

    fn without(self, other: Facts) -> Facts {
        Facts(self.0 & !other.0)
    }
}

/// The facts, rising.
impl Iterator for Facts {
    type Item = usize;

    fn next(&mut self) -> Option<usize> {
        if self.0 == 0 {
            return None;
        }
        let fact = self.0.trailing_zeros() as usize + 1;
        self.0 &= self.0 - 1;
        Some(fact)
    }
}

#[derive(Clone, Copy)]
pub struct Step {
    pub needs: Facts,
    pub sets: Facts,
    pub clears: Facts,
}

pub struct Problem {
    facts: usize,
    steps: usize,
    by_code: [Facts; 4 * (MOST_STEPS + 1)],
}

impl Problem {
    pub fn read(bytes: &[u8]) -> Result<Problem, Refusal> {
        let Some((head, rest)) = bytes.split_at_checked(6) else {
            return Err(Refusal::TooShort);
        };
        let (facts, steps, pairs) = (number(head, 0), number(head, 1), number(head, 2));
        if facts == 0 || facts > MOST_FACTS || steps > MOST_STEPS || pairs > MOST_PAIRS {
            return Err(Refusal::OutOfRange);
        }
        if rest.len() != 4 * pairs {
            return Err(Refusal::WrongLength);
        }
        let (codes, listed) = rest.split_at(2 * pairs);
        let mut problem = Problem {
            facts,
            steps,
            by_code: [Facts::default(); 4 * (MOST_STEPS + 1)],
        };
        let mut before = (0, 0);
        for i in 0..pairs {
            let (code, fact) = (number(codes, i), number(listed, i));
            if code == 2 || code % 4 == 3 || code > 4 * steps + 2 || fact == 0 || fact > facts {
                return Err(Refusal::WrongPair);
            }
            if (code, fact).cmp(&before) != Ordering::Greater {
                return Err(Refusal::NotRising);
            }
            before = (code, fact);
            problem.by_code[code].insert(fact);
        }
        if (1..=steps).any(|a| problem.step(a).sets.meets(problem.step(a).clears)) {
            return Err(Refusal::SetAndCleared);
        }
        Ok(problem)
    }

    fn start(&self) -> Facts {
        self.by_code[0]
    }

    fn goals(&self) -> Facts {
        self.by_code[1]
    }

    fn step(&self, a: usize) -> Step {
        Step {
            needs: self.by_code[4 * a],
            sets: self.by_code[4 * a + 1],
            clears: self.by_code[4 * a + 2],
        }
    }

    pub fn variables(&self, horizon: u16) -> usize {
        usize::from(horizon) * (self.facts + self.steps) + self.facts
    }
}

fn number(bytes: &[u8], i: usize) -> usize {
    usize::from(u16::from_le_bytes([bytes[2 * i], bytes[2 * i + 1]]))
}

// ------------------------------------------------------------- slot rules

pub trait SlotRule {
    fn parts(&self, a: &Step, b: &Step) -> bool;
}

pub struct Single;
pub struct Parallel;

impl SlotRule for Single {
    fn parts(&self, _: &Step, _: &Step) -> bool {
        true
    }
}

impl SlotRule for Parallel {
    fn parts(&self, a: &Step, b: &Step) -> bool {
        a.clears.meets(b.needs)
            || a.clears.meets(b.sets)
            || b.clears.meets(a.needs)
            || b.clears.meets(a.sets)
    }
}

// ------------------------------------------------------------------ sinks

pub trait Sink {
    /// The widest variable that a clause may name.
    const WIDEST: u32;

    /// What a clause takes of the space.
    fn cost(clause: &[i32]) -> usize;
    fn is_empty(&self) -> bool;
    fn space_left(&self) -> usize;
    /// Stores a clause that has been checked and has room.
    fn store(&mut self, clause: &[i32]);

    fn add(&mut self, clause: &[i32]) -> Result<(), Refusal> {
        if clause.len() > MOST_LITERALS
            || clause.iter().any(|&x| x == 0 || x.unsigned_abs() > Self::WIDEST)
        {
            return Err(Refusal::WrongClause);
        }
        if Self::cost(clause) > self.space_left() {
            return Err(Refusal::NoSpace);
        }
        self.store(clause);
        Ok(())
    }
}

/// Signed words, a 0 after each clause.
pub struct Words<'a> {
    words: &'a mut [i32],
    used: usize,
}

impl<'a> Words<'a> {
    pub fn new(words: &'a mut [i32]) -> Self {
        Words { words, used: 0 }
    }

    pub fn used(&self) -> usize {
        self.used
    }
}

impl Sink for Words<'_> {
    const WIDEST: u32 = 4096;

    fn cost(clause: &[i32]) -> usize {
        clause.len() + 1
    }

    fn is_empty(&self) -> bool {
        self.used == 0
    }

    fn space_left(&self) -> usize {
        self.words.len() - self.used
    }

    fn store(&mut self, clause: &[i32]) {
        let end = self.used + clause.len();
        self.words[self.used..end].copy_from_slice(clause);
        self.words[end] = 0;
        self.used = end + 1;
    }
}

/// DIMACS clause lines.
pub struct Text<'a> {
    text: &'a mut [u8],
    used: usize,
}

impl<'a> Text<'a> {
    pub fn new(text: &'a mut [u8]) -> Self {
        Text { text, used: 0 }
    }

    pub fn used(&self) -> usize {
        self.used
    }
}

fn digits(size: u32) -> usize {
    size.checked_ilog10().unwrap_or(0) as usize + 1
}

impl Sink for Text<'_> {
    const WIDEST: u32 = 999_999;

    fn cost(clause: &[i32]) -> usize {
        let literals: usize = clause
            .iter()
            .map(|&x| usize::from(x < 0) + digits(x.unsigned_abs()) + 1)
            .sum();
        literals + 2
    }

    fn is_empty(&self) -> bool {
        self.used == 0
    }

    fn space_left(&self) -> usize {
        self.text.len() - self.used
    }

    fn store(&mut self, clause: &[i32]) {
        for &literal in clause {
            if literal < 0 {
                self.text[self.used] = b'-';
                self.used += 1;
            }
            let mut size = literal.unsigned_abs();
            let end = self.used + digits(size);
            for place in self.text[self.used..end].iter_mut().rev() {
                *place = b'0' + (size % 10) as u8;
                size /= 10;
            }
            self.text[end] = b' ';
            self.used = end + 1;
        }
        self.text[self.used..self.used + 2].copy_from_slice(b"0\n");
        self.used += 2;
    }
}

// ---------------------------------------------------------------- formula

/// A clause while it is built.
struct Clause {
    literals: [i32; MOST_LITERALS],
    length: usize,
}

impl Clause {
    fn new() -> Self {
        Clause { literals: [0; MOST_LITERALS], length: 0 }
    }

    fn begin(&mut self, literals: &[i32]) {
        self.literals[..literals.len()].copy_from_slice(literals);
        self.length = literals.len();
    }

    fn push(&mut self, literal: i32) {
        self.literals[self.length] = literal;
        self.length += 1;
    }

    fn as_slice(&self) -> &[i32] {
        &self.literals[..self.length]
    }
}

/// Hands each clause of the formula to `visit`, in order.
fn each_clause<R: SlotRule>(
    problem: &Problem,
    horizon: u16,
    rule: &R,
    mut visit: impl FnMut(&[i32]) -> Result<(), Refusal>,
) -> Result<(), Refusal> {
    let mut clause = Clause::new();
    let stride = problem.facts + problem.steps;
    for f in 1..=problem.facts {
        let fact = f as i32;
        clause.begin(&[if problem.start().has(f) { fact } else { -fact }]);
        visit(clause.as_slice())?;
    }
    for t in 1..=usize::from(horizon) {
        let before = |f: usize| ((t - 1) * stride + f) as i32;
        let after = |f: usize| (t * stride + f) as i32;
        let step = |a: usize| ((t - 1) * stride + problem.facts + a) as i32;
        for a in 1..=problem.steps {
            for f in problem.step(a).needs {
                clause.begin(&[-step(a), before(f)]);
                visit(clause.as_slice())?;
            }
        }
        for a in 1..=problem.steps {
            for f in problem.step(a).sets {
                clause.begin(&[-step(a), after(f)]);
                visit(clause.as_slice())?;
            }
        }
        for a in 1..=problem.steps {
            for f in problem.step(a).clears {
                clause.begin(&[-step(a), -after(f)]);
                visit(clause.as_slice())?;
            }
        }
        for f in 1..=problem.facts {
            clause.begin(&[before(f), -after(f)]);
            for a in (1..=problem.steps).filter(|&a| problem.step(a).sets.has(f)) {
                clause.push(step(a));
            }
            visit(clause.as_slice())?;
            clause.begin(&[-before(f), after(f)]);
            for a in (1..=problem.steps).filter(|&a| problem.step(a).clears.has(f)) {
                clause.push(step(a));
            }
            visit(clause.as_slice())?;
        }
        for a in 1..=problem.steps {
            for b in a + 1..=problem.steps {
                if rule.parts(&problem.step(a), &problem.step(b)) {
                    clause.begin(&[-step(a), -step(b)]);
                    visit(clause.as_slice())?;
                }
            }
        }
    }
    for f in problem.goals() {
        clause.begin(&[(usize::from(horizon) * stride + f) as i32]);
        visit(clause.as_slice())?;
    }
    Ok(())
}

/// Adds the whole formula to an empty sink, or nothing.
pub fn encode<R: SlotRule, S: Sink>(
    problem: &Problem,
    horizon: u16,
    rule: &R,
    sink: &mut S,
) -> Result<(), Refusal> {
    if horizon > MOST_SLOTS {
        return Err(Refusal::SlotsOrRule);
    }
    if !sink.is_empty() {
        return Err(Refusal::NotEmpty);
    }
    if problem.variables(horizon) > S::WIDEST as usize {
        return Err(Refusal::TooWide);
    }
    let mut cost = 0;
    each_clause(problem, horizon, rule, |clause| {
        cost += S::cost(clause);
        Ok(())
    })?;
    if cost > sink.space_left() {
        return Err(Refusal::NoSpace);
    }
    each_clause(problem, horizon, rule, |clause| sink.add(clause))
}

fn encode_bytes<S: Sink>(bytes: &[u8], horizon: u16, rule: u16, sink: &mut S) -> Result<(), Refusal> {
    let problem = Problem::read(bytes)?;
    match rule {
        1 => encode(&problem, horizon, &Single, sink),
        2 => encode(&problem, horizon, &Parallel, sink),
        _ => Err(Refusal::SlotsOrRule),
    }
}

/// The words used, or minus the refusal's number.
pub fn encode_words(bytes: &[u8], horizon: u16, rule: u16, words: &mut [i32]) -> i64 {
    let mut sink = Words::new(words);
    match encode_bytes(bytes, horizon, rule, &mut sink) {
        Ok(()) => sink.used() as i64,
        Err(refusal) => -(refusal as i64),
    }
}

/// The bytes used, or minus the refusal's number.
pub fn encode_text(bytes: &[u8], horizon: u16, rule: u16, text: &mut [u8]) -> i64 {
    let mut sink = Text::new(text);
    match encode_bytes(bytes, horizon, rule, &mut sink) {
        Ok(()) => sink.used() as i64,
        Err(refusal) => -(refusal as i64),
    }
}

// ---------------------------------------------------------------- answers

#[derive(Clone, Copy, Debug, PartialEq, Eq)]
pub enum Answer {
    Satisfiable = 1,
    Unsatisfiable = 2,
    Unknown = 3,
}

/// How far the reader of an answer has come.
#[derive(Clone, Copy)]
enum Reached {
    NoStatus,
    Values,
    Past(Answer),
}

/// Marks while an answer is read; a byte of 0 is a variable not listed yet.
const LISTED_TRUE: u8 = 1;
const LISTED_FALSE: u8 = 2;

/// Marks the literals of a v line. Tells whether the closing 0 was read; nothing
/// if the line is wrong.
fn read_values(values: &[u8], marks: &mut [u8]) -> Option<bool> {
    let mut bytes = values.iter();
    loop {
        let (mark, first) = match bytes.next()? {
            b'0' => return bytes.next().is_none().then_some(true),
            b'-' => (LISTED_FALSE, bytes.next()?),
            first => (LISTED_TRUE, first),
        };
        if !matches!(first, b'1'..=b'9') {
            return None;
        }
        let mut variable = usize::from(first - b'0');
        let mut last = true;
        for byte in bytes.by_ref() {
            match byte {
                b'0'..=b'9' => variable = 10 * variable + usize::from(byte - b'0'),
                b' ' => {
                    last = false;
                    break;
                }
                _ => return None,
            }
            if variable > marks.len() {
                return None;
            }
        }
        match marks.get_mut(variable - 1)? {
            free @ 0 => *free = mark,
            _ => return None,
        }
        if last {
            return Some(false);
        }
    }
}

fn read_lines(text: &[u8], marks: &mut [u8]) -> Option<Answer> {
    let mut reached = Reached::NoStatus;
    for line in text.split_inclusive(|&byte| byte == b'\n') {
        let line = line.strip_suffix(b"\n")?;
        reached = match (reached, line) {
            (_, [b'c', ..]) => reached,
            (Reached::NoStatus, b"s SATISFIABLE") => Reached::Values,
            (Reached::NoStatus, b"s UNSATISFIABLE") => Reached::Past(Answer::Unsatisfiable),
            (Reached::NoStatus, b"s UNKNOWN") => Reached::Past(Answer::Unknown),
            (Reached::Values, [b'v', b' ', values @ ..]) => match read_values(values, marks)? {
                true => Reached::Past(Answer::Satisfiable),
                false => Reached::Values,
            },
            _ => return None,
        };
    }
    match reached {
        Reached::Past(answer) => Some(answer),
        _ => None,
    }
}

/// 1 satisfiable, 2 unsatisfiable, 3 unknown, or minus the refusal's number.
pub fn read_answer(text: &[u8], variables: usize, truth: &mut [u8]) -> i64 {
    if truth.len() != variables {
        return -(Refusal::WrongTruth as i64);
    }
    truth.fill(0);
    match read_lines(text, truth) {
        Some(answer) => {
            for value in truth {
                *value &= LISTED_TRUE;
            }
            answer as i64
        }
        None => {
            truth.fill(0);
            -(Refusal::NotAnAnswer as i64)
        }
    }
}

// ----------------------------------------------------- sheets and models

/// A step in a slot. The layout is the one that foreign callers share.
#[repr(C)]
#[derive(Clone, Copy, Debug, Default, PartialEq, Eq, PartialOrd, Ord)]
pub struct Line {
    pub slot: u16,
    pub step: u16,
}

/// Whether every clause of the formula has a true literal.
fn is_model<R: SlotRule>(problem: &Problem, horizon: u16, rule: &R, truth: &[u8]) -> bool {
    let is_true = |&literal: &i32| {
        let value = truth[literal.unsigned_abs() as usize - 1];
        (value == 1) == (literal > 0)
    };
    each_clause(problem, horizon, rule, |clause| {
        clause.iter().any(is_true).then_some(()).ok_or(Refusal::NotAModel)
    })
    .is_ok()
}

fn decode_with<R: SlotRule>(
    problem: &Problem,
    horizon: u16,
    rule: &R,
    truth: &[u8],
    lines: &mut [Line],
) -> Result<usize, Refusal> {
    if horizon > MOST_SLOTS {
        return Err(Refusal::SlotsOrRule);
    }
    if truth.len() != problem.variables(horizon) || truth.iter().any(|&value| value > 1) {
        return Err(Refusal::WrongTruth);
    }
    if !is_model(problem, horizon, rule, truth) {
        return Err(Refusal::NotAModel);
    }
    // Each slot has the facts before it and then its steps; the last facts end it.
    let slots = || truth.chunks_exact(problem.facts + problem.steps).map(|slot| &slot[problem.facts..]);
    let count = slots().flatten().filter(|&&value| value == 1).count();
    if count > lines.len() {
        return Err(Refusal::NoSpace);
    }
    let mut free = lines.iter_mut();
    for (slot, steps) in (1..).zip(slots()) {
        for (step, _) in (1..).zip(steps).filter(|(_, &value)| value == 1) {
            if let Some(line) = free.next() {
                *line = Line { slot, step };
            }
        }
    }
    Ok(count)
}

fn assign_with<R: SlotRule>(
    problem: &Problem,
    horizon: u16,
    rule: &R,
    lines: &[Line],
    truth: &mut [u8],
) -> Result<(), Refusal> {
    if horizon > MOST_SLOTS {
        return Err(Refusal::SlotsOrRule);
    }
    if truth.len() != problem.variables(horizon) {
        return Err(Refusal::WrongTruth);
    }
    let inside = |line: &Line| {
        (1..=horizon).contains(&line.slot) && (1..=problem.steps).contains(&usize::from(line.step))
    };
    if !lines.iter().all(inside) || lines.windows(2).any(|two| two[0] >= two[1]) {
        return Err(Refusal::WrongLines);
    }
    let stride = problem.facts + problem.steps;
    let mut model = [0; MOST_VARIABLES];
    let model = &mut model[..truth.len()];
    let mut state = problem.start();
    let mut rest = lines;
    for slot in 0..=usize::from(horizon) {
        for fact in state {
            model[slot * stride + fact - 1] = 1;
        }
        let here = rest.iter().take_while(|line| usize::from(line.slot) == slot + 1).count();
        let (now, later) = rest.split_at(here);
        rest = later;
        let (mut sets, mut clears) = (Facts::default(), Facts::default());
        for line in now {
            let a = usize::from(line.step);
            model[slot * stride + problem.facts + a - 1] = 1;
            sets = sets.with(problem.step(a).sets);
            clears = clears.with(problem.step(a).clears);
        }
        state = state.without(clears).with(sets);
    }
    if !is_model(problem, horizon, rule, model) {
        return Err(Refusal::DoesNotHold);
    }
    truth.copy_from_slice(model);
    Ok(())
}

fn decode_bytes(
    bytes: &[u8],
    horizon: u16,
    rule: u16,
    truth: &[u8],
    lines: &mut [Line],
) -> Result<usize, Refusal> {
    let problem = Problem::read(bytes)?;
    match rule {
        1 => decode_with(&problem, horizon, &Single, truth, lines),
        2 => decode_with(&problem, horizon, &Parallel, truth, lines),
        _ => Err(Refusal::SlotsOrRule),
    }
}

fn assign_bytes(
    bytes: &[u8],
    horizon: u16,
    rule: u16,
    lines: &[Line],
    truth: &mut [u8],
) -> Result<(), Refusal> {
    let problem = Problem::read(bytes)?;
    match rule {
        1 => assign_with(&problem, horizon, &Single, lines, truth),
        2 => assign_with(&problem, horizon, &Parallel, lines, truth),
        _ => Err(Refusal::SlotsOrRule),
    }
}

/// Writes the sheet of a model: the number of its lines, or minus the refusal's
/// number.
pub fn decode(bytes: &[u8], horizon: u16, rule: u16, truth: &[u8], lines: &mut [Line]) -> i64 {
    match decode_bytes(bytes, horizon, rule, truth, lines) {
        Ok(count) => count as i64,
        Err(refusal) => -(refusal as i64),
    }
}

/// Writes the model of a sheet that holds: 0, or minus the refusal's number.
pub fn assign(bytes: &[u8], horizon: u16, rule: u16, lines: &[Line], truth: &mut [u8]) -> i64 {
    match assign_bytes(bytes, horizon, rule, lines, truth) {
        Ok(()) => 0,
        Err(refusal) => -(refusal as i64),
    }
}
