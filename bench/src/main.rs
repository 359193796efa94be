//! Times the proved library beside the same algorithms in plain Rust: encoding,
//! reading a solver's answer, decoding a model and assigning one.
//!
//! Both get the same bytes and the same memory. Their answers and all of that
//! memory are compared first, on many inputs and on every timed one; a
//! difference ends the program with an error.

#[allow(dead_code)]
mod plain;

use std::collections::BTreeMap;
use std::fmt::Debug;
use std::hint::black_box;
use std::process::ExitCode;
use std::time::{Duration, Instant};

use plain::Line;

mod foreign {
    use crate::plain::Line;

    unsafe extern "C" {
        pub fn cabinmedlar_encode_words(
            problem: *const u8,
            problem_len: usize,
            horizon: u16,
            rule: u16,
            words: *mut i32,
            words_len: usize,
        ) -> i64;
        pub fn cabinmedlar_encode_text(
            problem: *const u8,
            problem_len: usize,
            horizon: u16,
            rule: u16,
            text: *mut u8,
            text_len: usize,
        ) -> i64;
        pub fn cabinmedlar_read_answer(
            text: *const u8,
            text_len: usize,
            variables: usize,
            truth: *mut u8,
            truth_len: usize,
        ) -> i64;
        pub fn cabinmedlar_decode(
            problem: *const u8,
            problem_len: usize,
            horizon: u16,
            rule: u16,
            truth: *const u8,
            truth_len: usize,
            lines: *mut Line,
            lines_len: usize,
        ) -> i64;
        pub fn cabinmedlar_assign(
            problem: *const u8,
            problem_len: usize,
            horizon: u16,
            rule: u16,
            lines: *const Line,
            lines_len: usize,
            truth: *mut u8,
            truth_len: usize,
        ) -> i64;
    }
}

/// The words used by the proved encoder, or minus the refusal's number.
fn our_words(problem: &[u8], horizon: u16, rule: u16, words: &mut [i32]) -> i64 {
    // SAFETY: both slices are live for the call and do not overlap.
    unsafe {
        foreign::cabinmedlar_encode_words(
            problem.as_ptr(),
            problem.len(),
            horizon,
            rule,
            words.as_mut_ptr(),
            words.len(),
        )
    }
}

/// The bytes used by the proved encoder, or minus the refusal's number.
fn our_text(problem: &[u8], horizon: u16, rule: u16, text: &mut [u8]) -> i64 {
    // SAFETY: both slices are live for the call and do not overlap.
    unsafe {
        foreign::cabinmedlar_encode_text(
            problem.as_ptr(),
            problem.len(),
            horizon,
            rule,
            text.as_mut_ptr(),
            text.len(),
        )
    }
}

/// 1 satisfiable, 2 unsatisfiable, 3 unknown, or minus the refusal's number.
fn our_read_answer(text: &[u8], variables: usize, truth: &mut [u8]) -> i64 {
    // SAFETY: both slices are live for the call and do not overlap.
    unsafe {
        foreign::cabinmedlar_read_answer(
            text.as_ptr(),
            text.len(),
            variables,
            truth.as_mut_ptr(),
            truth.len(),
        )
    }
}

/// The lines written by the proved decoder, or minus the refusal's number.
fn our_decode(problem: &[u8], horizon: u16, rule: u16, truth: &[u8], lines: &mut [Line]) -> i64 {
    // SAFETY: the three slices are live for the call and do not overlap.
    unsafe {
        foreign::cabinmedlar_decode(
            problem.as_ptr(),
            problem.len(),
            horizon,
            rule,
            truth.as_ptr(),
            truth.len(),
            lines.as_mut_ptr(),
            lines.len(),
        )
    }
}

/// 0 where the model was written, or minus the refusal's number.
fn our_assign(problem: &[u8], horizon: u16, rule: u16, lines: &[Line], truth: &mut [u8]) -> i64 {
    // SAFETY: the three slices are live for the call and do not overlap.
    unsafe {
        foreign::cabinmedlar_assign(
            problem.as_ptr(),
            problem.len(),
            horizon,
            rule,
            lines.as_ptr(),
            lines.len(),
            truth.as_mut_ptr(),
            truth.len(),
        )
    }
}

const SEED: u64 = 41_507;
const PARALLEL: u16 = 2;
const RUNS: usize = 15;

/// SplitMix64: small, and the same everywhere.
struct Random(u64);

impl Random {
    fn next(&mut self) -> u64 {
        self.0 = self.0.wrapping_add(0x9e37_79b9_7f4a_7c15);
        let mut z = self.0;
        z = (z ^ (z >> 30)).wrapping_mul(0xbf58_476d_1ce4_e5b9);
        z = (z ^ (z >> 27)).wrapping_mul(0x94d0_49bb_1331_11eb);
        z ^ (z >> 31)
    }

    fn below(&mut self, limit: usize) -> usize {
        (self.next() % limit as u64) as usize
    }

    fn one_in(&mut self, limit: usize) -> bool {
        self.below(limit) == 0
    }

    fn shuffle<T>(&mut self, items: &mut [T]) {
        for i in (1..items.len()).rev() {
            items.swap(i, self.below(i + 1));
        }
    }
}

// --------------------------------------------------------------- problems

fn problem_bytes(facts: usize, steps: usize, pairs: &[(usize, usize)]) -> Vec<u8> {
    let head = [facts, steps, pairs.len()];
    let codes = pairs.iter().map(|pair| pair.0);
    let listed = pairs.iter().map(|pair| pair.1);
    head.into_iter()
        .chain(codes)
        .chain(listed)
        .flat_map(|n| (n as u16).to_le_bytes())
        .collect()
}

/// `count` lawful pairs at random, or as many as there are: rising, and no step
/// sets and clears one fact.
fn random_pairs(random: &mut Random, facts: usize, steps: usize, count: usize) -> Vec<(usize, usize)> {
    let mut every: Vec<(usize, usize)> = Vec::new();
    for code in (0..2).chain((4..4 * steps + 3).filter(|code| code % 4 != 3)) {
        every.extend((1..=facts).map(|fact| (code, fact)));
    }
    random.shuffle(&mut every);
    let mut taken = vec![[false; 65]; 4 * steps + 4];
    let mut pairs = Vec::new();
    for (code, fact) in every {
        let opposite = match code % 4 {
            1 if code > 1 => code + 1,
            2 => code - 1,
            _ => code,
        };
        if pairs.len() < count && !taken[opposite][fact] {
            taken[code][fact] = true;
            pairs.push((code, fact));
        }
    }
    pairs.sort_unstable();
    pairs
}

fn damage(random: &mut Random, bytes: &mut Vec<u8>) {
    match random.below(4) {
        0 => bytes.truncate(random.below(bytes.len())),
        1 => bytes.push(0),
        2 => {
            let place = random.below(bytes.len());
            bytes[place] = bytes[place].wrapping_add(1 + random.below(3) as u8);
        }
        _ => {
            let (a, b) = (random.below(bytes.len()), random.below(bytes.len()));
            bytes.swap(a, b);
        }
    }
}

// ------------------------------------------------------ sheets and answers

/// A problem, its horizon and rule, and a sheet of it that holds with its model.
struct Planned {
    problem: Vec<u8>,
    horizon: u16,
    rule: u16,
    lines: Vec<Line>,
    truth: Vec<u8>,
}

/// A small problem at random with a sheet that holds: lines are tried one by one,
/// and then goals are taken from the facts at the end.
fn random_plan(random: &mut Random) -> Planned {
    let (facts, steps) = (1 + random.below(7), random.below(8));
    let (horizon, rule) = (random.below(5) as u16, 1 + random.below(2) as u16);
    let count = random.below(2 * facts * (steps + 1));
    let mut pairs = random_pairs(random, facts, steps, count);
    pairs.retain(|&(code, _)| code != 1);
    let mut problem = problem_bytes(facts, steps, &pairs);
    let variables = usize::from(horizon) * (facts + steps) + facts;
    let (mut lines, mut truth) = (Vec::new(), vec![0; variables]);
    for slot in 1..=horizon {
        for step in 1..=steps as u16 {
            lines.push(Line { slot, step });
            if random.one_in(3) || plain::assign(&problem, horizon, rule, &lines, &mut truth) != 0 {
                lines.pop();
            }
        }
    }
    plain::assign(&problem, horizon, rule, &lines, &mut truth);
    for fact in 1..=facts {
        if truth[variables - facts + fact - 1] == 1 && random.one_in(2) {
            pairs.push((1, fact));
        }
    }
    pairs.sort_unstable();
    problem = problem_bytes(facts, steps, &pairs);
    Planned { problem, horizon, rule, lines, truth }
}

/// The largest problem, of 4,096 pairs, and a sheet of it that holds. All steps
/// need lasting facts; odd and even steps are parted and take turns.
fn dense_plan(horizon: u16) -> Planned {
    let mut random = Random(SEED);
    let lasting = 1..=48;
    let mut pairs: Vec<(usize, usize)> = Vec::new();
    for fact in lasting.clone() {
        pairs.extend([(0, fact), (1, fact)]);
    }
    for step in 1..=128 {
        let other = step % 2;
        pairs.extend((49..=56).map(|fact| (4 * step + 1 + other, fact)));
        pairs.extend((57..=64).map(|fact| (4 * step + 2 - other, fact)));
    }
    let mut needs: Vec<(usize, usize)> =
        (1..=128).flat_map(|step| lasting.clone().map(move |fact| (4 * step, fact))).collect();
    random.shuffle(&mut needs);
    needs.truncate(plain::MOST_PAIRS - pairs.len());
    pairs.append(&mut needs);
    pairs.sort_unstable();
    let lines: Vec<Line> = (1..=horizon)
        .flat_map(|slot| (1..=128).map(move |step| Line { slot, step }))
        .filter(|line| line.slot % 2 == line.step % 2)
        .collect();
    Planned {
        problem: problem_bytes(64, 128, &pairs),
        horizon,
        rule: PARALLEL,
        lines,
        truth: vec![0; usize::from(horizon) * 192 + 64],
    }
}

/// An answer that gives the truth values, in lines of at most `width` bytes.
/// Negative literals are left out where `keep` says so.
fn answer_text(truth: &[u8], width: usize, mut keep: impl FnMut() -> bool) -> Vec<u8> {
    let mut text = b"s SATISFIABLE\nv".to_vec();
    let mut column = 1;
    let mut word = |word: String| {
        if column > 1 && column + 1 + word.len() > width {
            text.extend_from_slice(b"\nv");
            column = 1;
        }
        column += 1 + word.len();
        text.push(b' ');
        text.extend_from_slice(word.as_bytes());
    };
    for (variable, &value) in (1..).zip(truth) {
        match value {
            1 => word(format!("{variable}")),
            _ if keep() => word(format!("-{variable}")),
            _ => {}
        }
    }
    word("0".into());
    text.push(b'\n');
    text
}

/// A small answer at random, lawful unless damaged afterwards.
fn random_answer(random: &mut Random, variables: usize) -> Vec<u8> {
    const COMMENTS: [&[u8]; 5] = [b"c\n", b"c s UNKNOWN\n", b"c\0\xff\r\n", b"cv 1 0\n", b"c  1\n"];
    let text = match random.below(8) {
        0 => b"s UNSATISFIABLE\n".to_vec(),
        1 => b"s UNKNOWN\n".to_vec(),
        _ => {
            let truth: Vec<u8> = (0..variables).map(|_| random.below(2) as u8).collect();
            let (width, odds) = ([3, 8, 20, 400][random.below(4)], 1 + random.below(3));
            answer_text(&truth, width, || random.one_in(odds))
        }
    };
    let mut said = Vec::new();
    for line in text.split_inclusive(|&byte| byte == b'\n') {
        while random.one_in(6) {
            said.extend_from_slice(COMMENTS[random.below(5)]);
        }
        said.extend_from_slice(line);
    }
    if random.one_in(6) {
        said.extend_from_slice(COMMENTS[random.below(5)]);
    }
    said
}

fn damage_answer(random: &mut Random, text: &mut Vec<u8>) {
    const BYTES: &[u8] = b" \n0123456789-+vsc\r\t";
    const BEFORE_A_NUMBER: [&[u8]; 12] = [
        b"0", b"00", b"-", b"-0", b"+", b" ", b"1 ", b"-1 ", b"0 ", b"4294967297 ",
        b"18446744073709551617 ", b"100000000000000000000000000000000000001 ",
    ];
    const LINES: [&[u8]; 12] = [
        b"s SATISFIABLE\n", b"s UNSATISFIABLE\n", b"s UNKNOWN\n", b"s SATISFIABLE \n", b"s\n",
        b"v 0\n", b"v 1\n", b"v -1 0\n", b"v\n", b"v \n", b"\n", b" \n",
    ];
    let place = random.below(text.len() + 1);
    match random.below(9) {
        0 => text.truncate(place),
        1 if place < text.len() => drop(text.remove(place)),
        2 if place < text.len() => text[place] = random.next() as u8,
        3 if place < text.len() => text[place] = BYTES[random.below(BYTES.len())],
        4 => text.insert(place, BYTES[random.below(BYTES.len())]),
        5 => {
            if let Some(space) = (place..text.len()).find(|&i| text[i] == b' ') {
                let added = BEFORE_A_NUMBER[random.below(12)];
                text.splice(space + 1..space + 1, added.iter().copied());
            }
        }
        6 => {
            if let Some(end) = (place..text.len()).find(|&i| text[i] == b'\n') {
                text.insert(end, b"\r \t0"[random.below(4)]);
            }
        }
        7 => {
            // A line of its own, at the start of another or at the end.
            let start = text[..place].iter().rposition(|&byte| byte == b'\n').map_or(0, |i| i + 1);
            let at = if random.one_in(3) { text.len() } else { start };
            text.splice(at..at, LINES[random.below(12)].iter().copied());
        }
        _ => {
            // A line once more, at the end.
            let lines: Vec<&[u8]> = text.split_inclusive(|&byte| byte == b'\n').collect();
            if !lines.is_empty() {
                let again = lines[random.below(lines.len())].to_vec();
                text.extend_from_slice(&again);
            }
        }
    }
}

// ------------------------------------------------------------- comparison

/// How often each answer came.
type Tally = BTreeMap<i64, usize>;

fn told_tally(what: &str, tally: &Tally, expected: &[i64]) -> Result<(), String> {
    if let Some(answer) = expected.iter().find(|answer| !tally.contains_key(answer)) {
        return Err(format!("{what}: no input with answer {answer} was compared"));
    }
    let parts: Vec<String> = tally.iter().map(|(answer, count)| format!("{answer}: {count}")).collect();
    println!("Compared equal, {what}, answer and count: {}.", parts.join(", "));
    Ok(())
}

/// The answer that both gave, if all their memory is equal too.
fn same<W: PartialEq + Debug>(
    told: impl Fn() -> String,
    [ours, plain]: [i64; 2],
    memory: &[W],
    other: &[W],
) -> Result<i64, String> {
    if ours != plain {
        return Err(format!("answers differ, {ours} and {plain}: {}", told()));
    }
    if let Some(place) = memory.iter().zip(other).position(|(x, y)| x != y) {
        return Err(format!("memory differs at {place}, answer {ours}: {}", told()));
    }
    Ok(ours)
}

type Encoder<W> = fn(&[u8], u16, u16, &mut [W]) -> i64;

/// Both versions on one input and equal memory, filled with `mark` at first.
fn compare<W: Copy + PartialEq + Debug>(
    what: &str,
    versions: [Encoder<W>; 2],
    input: (&[u8], u16, u16),
    memory: &mut [W],
    other: &mut [W],
    mark: W,
) -> Result<i64, String> {
    let (problem, horizon, rule) = input;
    memory.fill(mark);
    other.fill(mark);
    let answers = [
        versions[0](problem, horizon, rule, memory),
        versions[1](problem, horizon, rule, other),
    ];
    let told = || format!("{what}, T {horizon}, rule {rule}, problem {:02x?}", &problem[..problem.len().min(60)]);
    same(told, answers, memory, other)
}

const WORD_VERSIONS: [Encoder<i32>; 2] = [our_words, plain::encode_words];
const TEXT_VERSIONS: [Encoder<u8>; 2] = [our_text, plain::encode_text];

/// Many small problems, lawful and damaged, with room enough, just enough and
/// too little.
fn compare_many(random: &mut Random) -> Result<(usize, usize), String> {
    let (mut granted, mut refused) = (0, 0);
    let (mut words, mut other_words) = (vec![0i32; 20_000], vec![0i32; 20_000]);
    let (mut text, mut other_text) = (vec![0u8; 80_000], vec![0u8; 80_000]);
    for round in 0..2_000 {
        let (facts, steps) = (1 + random.below(9), random.below(9));
        let count = random.below(3 * facts * (steps + 1));
        let mut bytes = problem_bytes(facts, steps, &random_pairs(random, facts, steps, count));
        let mut horizon = random.below(5) as u16;
        let mut rule = 1 + random.below(2) as u16;
        match round % 8 {
            0 | 1 => damage(random, &mut bytes),
            2 if random.below(8) == 0 => horizon = 33 + random.below(400) as u16,
            3 if random.below(8) == 0 => rule = [0, 3, 256, 258][random.below(4)],
            _ => {}
        }
        let input = (&bytes[..], horizon, rule);
        let need = compare("words", WORD_VERSIONS, input, &mut words, &mut other_words, -77)?;
        let text_need = compare("text", TEXT_VERSIONS, input, &mut text, &mut other_text, b'#')?;
        if need < 0 || text_need < 0 {
            refused += 2;
            continue;
        }
        granted += 2;
        for less in 0..3.min(need as usize).min(text_need as usize) {
            let (n, m) = (need as usize - less, text_need as usize - less);
            compare("words", WORD_VERSIONS, input, &mut words[..n], &mut other_words[..n], -77)?;
            compare("text", TEXT_VERSIONS, input, &mut text[..m], &mut other_text[..m], b'#')?;
            if less == 0 { granted += 2 } else { refused += 2 }
        }
    }
    Ok((granted, refused))
}

/// Both readers on one text. The truth bytes, `length` of them, are 0xa5 at first.
fn compare_answer(text: &[u8], variables: usize, length: usize) -> Result<i64, String> {
    let (mut truth, mut other) = (vec![0xa5; length], vec![0xa5; length]);
    let answers = [
        our_read_answer(text, variables, &mut truth),
        plain::read_answer(text, variables, &mut other),
    ];
    let told = || format!("V {variables}, {length} truth bytes, answer {:?}", String::from_utf8_lossy(text));
    same(told, answers, &truth, &other)
}

/// Both decoders on one input, with space for `space` lines.
fn compare_decode(plan: &Planned, space: usize) -> Result<i64, String> {
    let mark = Line { slot: 0xa5a5, step: 0x5a5a };
    let (mut lines, mut other) = (vec![mark; space], vec![mark; space]);
    let Planned { problem, horizon, rule, truth, .. } = plan;
    let answers = [
        our_decode(problem, *horizon, *rule, truth, &mut lines),
        plain::decode(problem, *horizon, *rule, truth, &mut other),
    ];
    let told = || {
        format!("decode, T {horizon}, rule {rule}, {space} lines, problem {problem:02x?}, truth {truth:?}")
    };
    same(told, answers, &lines, &other)
}

/// Both assigners on one input. The truth bytes are 0xa5 at first; afterwards the
/// plan has those written.
fn compare_assign(plan: &mut Planned) -> Result<i64, String> {
    let Planned { problem, horizon, rule, lines, truth } = plan;
    truth.fill(0xa5);
    let mut other = truth.clone();
    let answers = [
        our_assign(problem, *horizon, *rule, lines, truth),
        plain::assign(problem, *horizon, *rule, lines, &mut other),
    ];
    let told = || format!("assign, T {horizon}, rule {rule}, problem {problem:02x?}, lines {lines:?}");
    same(told, answers, truth, &other)
}

/// Many small answers, lawful and damaged.
fn compare_answers(random: &mut Random) -> Result<(), String> {
    let mut tally = Tally::new();
    for round in 0..9_000 {
        let variables = random.below(30);
        let mut text = random_answer(random, variables);
        for _ in 0..round % 3 {
            damage_answer(random, &mut text);
        }
        // Sometimes V, or V and the memory, are not what the answer was made for.
        let (asked, length) = match random.below(12) {
            0 => (variables, variables + 1),
            1 => (variables + 1, variables),
            2 => (variables.saturating_sub(1), variables.saturating_sub(1)),
            3 => (variables + 1, variables + 1),
            _ => (variables, variables),
        };
        *tally.entry(compare_answer(&text, asked, length)?).or_default() += 1;
    }
    told_tally("answers read", &tally, &[1, 2, 3, -13, -14])
}

/// What both calls on a sheet have in common: another problem, T or rule.
fn spoil(random: &mut Random, plan: &mut Planned) {
    match random.below(6) {
        0 => plan.horizon = [33, 34, 256, 65_535][random.below(4)],
        1 => plan.rule = [0, 3, 256, 257, 258, 65_535][random.below(6)],
        2 => plan.rule = 3 - plan.rule,
        3 => plan.horizon += 1,
        4 => {
            // A step that sets and clears a fact.
            plan.problem = problem_bytes(3, 2, &[(0, 1), (5, 2), (6, 2)]);
        }
        _ => damage(random, &mut plan.problem),
    }
}

/// Many small sheets and models, lawful and spoilt.
fn compare_sheets(random: &mut Random) -> Result<(), String> {
    let (mut decoded, mut assigned) = (Tally::new(), Tally::new());
    for round in 0..6_000 {
        let mut plan = random_plan(random);
        let count = plan.lines.len();
        let mut space = count + random.below(3);
        match round % 6 {
            0 => space = count.saturating_sub(1),
            1 => spoil(random, &mut plan),
            2 | 3 => {
                let place = random.below(plan.truth.len());
                plan.truth[place] ^= 1;
            }
            4 => match random.below(3) {
                0 => plan.truth.push(0),
                1 => plan.truth.truncate(plan.truth.len() - 1),
                _ => {
                    let place = random.below(plan.truth.len());
                    plan.truth[place] = 2 + random.below(254) as u8;
                }
            },
            _ => {}
        }
        // Beside another refusal, too little space must not show.
        if random.one_in(8) {
            space = random.below(2);
        }
        let answer = compare_decode(&plan, space)?;
        *decoded.entry(answer.min(0)).or_default() += 1;

        let mut plan = random_plan(random);
        let (slots, steps) = (usize::from(plan.horizon), usize::from(plan.problem[2]));
        let at = random.below(plan.lines.len() + 1);
        match round % 6 {
            0 => {
                let (slot, step) = (random.below(slots + 2) as u16, random.below(steps + 2) as u16);
                plan.lines.insert(at, Line { slot, step });
            }
            1 => spoil(random, &mut plan),
            2 if at < plan.lines.len() => match random.below(4) {
                0 => drop(plan.lines.remove(at)),
                1 => plan.lines.insert(at, plan.lines[at]),
                2 => plan.lines.swap(0, at),
                _ => plan.lines[at].slot += 1,
            },
            3 => {
                let (slot, step) = (random.below(slots + 1) as u16, random.below(steps + 1) as u16);
                plan.lines.push(Line { slot, step });
                plan.lines.sort_unstable();
                plan.lines.dedup();
            }
            4 if random.one_in(2) => match random.below(2) {
                0 => plan.truth.push(0),
                _ => plan.truth.truncate(plan.truth.len() - 1),
            },
            _ => {}
        }
        let lawful = plan.lines.clone();
        let answer = compare_assign(&mut plan)?;
        *assigned.entry(answer).or_default() += 1;
        if answer == 0 {
            // Decode undoes assign.
            let mut lines = vec![Line::default(); lawful.len()];
            our_decode(&plan.problem, plan.horizon, plan.rule, &plan.truth, &mut lines);
            if lines != lawful {
                return Err(format!("assigned {lawful:?}, decoded {lines:?}"));
            }
        }
    }
    told_tally("decode", &decoded, &[0, -1, -2, -3, -4, -5, -6, -7, -9, -14, -15])?;
    told_tally("assign", &assigned, &[0, -1, -2, -3, -4, -5, -6, -7, -14, -16, -17])
}

// ----------------------------------------------------------------- timing

/// The best of several runs, in turn: ours and plain Rust.
fn best_of<V>(versions: [V; 2], mut call: impl FnMut(&V) -> i64) -> [f64; 2] {
    let mut best = [Duration::MAX; 2];
    for _ in 0..RUNS {
        for (version, best) in versions.iter().zip(&mut best) {
            let begun = Instant::now();
            black_box(call(black_box(version)));
            *best = begun.elapsed().min(*best);
        }
    }
    best.map(|duration| duration.as_secs_f64() * 1e3)
}

fn time<W>(versions: [Encoder<W>; 2], problem: &[u8], horizon: u16, memory: &mut [W]) -> [f64; 2] {
    best_of(versions, |version| version(black_box(problem), black_box(horizon), PARALLEL, memory))
}

fn expect(what: &str, answer: i64, expected: i64) -> Result<(), String> {
    if answer != expected {
        return Err(format!("{what}: {answer}, not {expected}"));
    }
    Ok(())
}

/// Answers with every variable listed, in lines as solvers break them.
fn time_answers(random: &mut Random) -> Result<(), String> {
    type Reader = fn(&[u8], usize, &mut [u8]) -> i64;
    const VERSIONS: [Reader; 2] = [our_read_answer, plain::read_answer];
    println!("\nReading answers that list every variable; best of {RUNS} runs\n");
    println!("| V       |   Bytes | Lines  | Ours, ms | Rust, ms | Ours, MB/s | Rust, MB/s | Ours / Rust |");
    println!("|--------:|--------:|--------|---------:|---------:|-----------:|-----------:|------------:|");
    for variables in [plain::MOST_VARIABLES, 999_999] {
        let values: Vec<u8> = (0..variables).map(|_| random.below(2) as u8).collect();
        for (width, name) in [(78, "short"), (usize::MAX, "one")] {
            let text = answer_text(&values, width, || true);
            expect("answer", compare_answer(&text, variables, variables)?, 1)?;
            let mut truth = vec![0; variables];
            let [ours, rust] = best_of(VERSIONS, |version| version(black_box(&text), variables, &mut truth));
            if truth != values {
                return Err("the values read are not those written".into());
            }
            let rate = |time: f64| text.len() as f64 / time / 1e3;
            println!(
                "| {variables:7} | {:7} | {name:6} | {ours:8.3} | {rust:8.3} | {:10.0} | {:10.0} | {:11.2} |",
                text.len(),
                rate(ours),
                rate(rust),
                ours / rust
            );
        }
    }
    Ok(())
}

/// Decode and assign on the largest problem and a sheet of it that holds.
fn time_sheets() -> Result<(), String> {
    type Decoder = fn(&[u8], u16, u16, &[u8], &mut [Line]) -> i64;
    type Assigner = fn(&[u8], u16, u16, &[Line], &mut [u8]) -> i64;
    const DECODERS: [Decoder; 2] = [our_decode, plain::decode];
    const ASSIGNERS: [Assigner; 2] = [our_assign, plain::assign];
    println!("\nF 64, A 128, P 4,096, parallel rule, a sheet that holds; best of {RUNS} runs\n");
    println!("| Call   |  T |    V | Lines | Ours, ms | Rust, ms | Ours / Rust |");
    println!("|--------|---:|-----:|------:|---------:|---------:|------------:|");
    for horizon in [1, 8, 32] {
        let mut plan = dense_plan(horizon);
        let count = plan.lines.len();
        expect("assign", compare_assign(&mut plan)?, 0)?;
        expect("decode", compare_decode(&plan, count)?, count as i64)?;
        expect("decode, a line too little", compare_decode(&plan, count - 1)?, -9)?;
        let row = |call: &str, [ours, rust]: [f64; 2]| {
            println!(
                "| {call:6} | {horizon:2} | {:4} | {count:5} | {ours:8.3} | {rust:8.3} | {:11.2} |",
                plan.truth.len(),
                ours / rust
            );
        };
        let mut lines = vec![Line::default(); plain::MOST_LINES];
        row("decode", best_of(DECODERS, |decode| {
            decode(black_box(&plan.problem), horizon, plan.rule, &plan.truth, &mut lines)
        }));
        let mut truth = vec![0; plan.truth.len()];
        row("assign", best_of(ASSIGNERS, |assign| {
            assign(black_box(&plan.problem), horizon, plan.rule, &plan.lines, &mut truth)
        }));
    }
    Ok(())
}

fn growth(sink: &str, mut cost: impl FnMut(u16) -> f64) {
    let mut half = None;
    for horizon in [4, 8, 16] {
        let ours = cost(horizon);
        let ratio = half.map_or(String::new(), |half: f64| format!("{:.2}", ours / half));
        println!("| {sink:5} | {horizon:2} | {ours:8.3} | {ratio:>15} |");
        half = Some(ours);
    }
}

fn granted_size(used: i64, sink: &str, horizon: u16) -> Result<i64, String> {
    if used < 0 {
        return Err(format!("{sink}, T {horizon}: refused {}", -used));
    }
    Ok(used)
}

fn run() -> Result<(), String> {
    let mut random = Random(SEED);
    let (granted, refused) = compare_many(&mut random)?;
    println!("Compared equal, encoding small problems: {granted} granted, {refused} refused.");
    let mut other_random = Random(SEED + 1);
    compare_answers(&mut other_random)?;
    compare_sheets(&mut other_random)?;

    let dense = problem_bytes(64, 128, &random_pairs(&mut random, 64, 128, plain::MOST_PAIRS));

    // Memory, once: enough for the longest rows. Both are timed in the first of
    // each two; the other serves the comparison alone.
    let (mut words, mut other_words) = (vec![0i32; 1 << 23], vec![0i32; 1 << 23]);
    let (mut text, mut other_text) = (vec![0u8; 1 << 23], vec![0u8; 1 << 23]);

    let input = |horizon| (&dense[..], horizon, PARALLEL);
    for (what, horizon, expected) in [("words", 22, -11), ("words", 33, -7)] {
        let answer = compare(what, WORD_VERSIONS, input(horizon), &mut words, &mut other_words, -77)?;
        expect(&format!("{what}, T {horizon}"), answer, expected)?;
    }

    // Every row that is timed below, compared first.
    let mut used_words = [0; 33];
    for horizon in [1, 4, 8, 16, 21] {
        let used = compare("words", WORD_VERSIONS, input(horizon), &mut words, &mut other_words, -77)?;
        used_words[usize::from(horizon)] = granted_size(used, "words", horizon)?;
    }
    let mut used_text = [0; 33];
    for horizon in [1, 4, 8, 16, 32] {
        let used = compare("text", TEXT_VERSIONS, input(horizon), &mut text, &mut other_text, b'#')?;
        used_text[usize::from(horizon)] = granted_size(used, "text", horizon)?;
    }
    println!("Every row timed below is compared first, too.");

    println!("\nF 64, A 128, P 4,096, parallel rule; best of {RUNS} runs\n");
    println!("| Sink  |  T | Space |      Used | Ours, ms | Rust, ms | Ours / Rust |");
    println!("|-------|---:|-------|----------:|---------:|---------:|------------:|");
    let row = |sink: &str, horizon: u16, space: &str, used: i64, [ours, rust]: [f64; 2]| {
        println!(
            "| {sink:5} | {horizon:2} | {space} | {used:9} | {ours:8.3} | {rust:8.3} | {:11.2} |",
            ours / rust
        );
    };
    // Ample space spares ours the pass that sums the costs; exact space does not.
    for horizon in [1, 8, 21] {
        let used = used_words[usize::from(horizon)];
        let best = time(WORD_VERSIONS, &dense, horizon, &mut words);
        row("words", horizon, "ample", used, best);
        let best = time(WORD_VERSIONS, &dense, horizon, &mut words[..used as usize]);
        row("words", horizon, "exact", used, best);
    }
    for horizon in [1, 8, 32] {
        let used = used_text[usize::from(horizon)];
        let best = time(TEXT_VERSIONS, &dense, horizon, &mut text);
        row("text", horizon, "ample", used, best);
        let best = time(TEXT_VERSIONS, &dense, horizon, &mut text[..used as usize]);
        row("text", horizon, "exact", used, best);
    }

    println!("\nGrowth of ours with the horizon\n");
    println!("| Sink  |  T | Ours, ms | Over half the T |");
    println!("|-------|---:|---------:|----------------:|");
    growth("words", |horizon| time(WORD_VERSIONS, &dense, horizon, &mut words)[0]);
    growth("text", |horizon| time(TEXT_VERSIONS, &dense, horizon, &mut text)[0]);

    time_answers(&mut other_random)?;
    time_sheets()?;

    println!(
        "\nOne thread, both built for release. The memory was allocated once, touched\n\
         beforehand and lent to both in turn; it was not cleared between timed runs.\n\
         Used: words of 4 bytes, or bytes of text. Lines of an answer: short ones have\n\
         at most 78 bytes, or all values stand in one. Seeds {SEED} and {}.",
        SEED + 1
    );
    Ok(())
}

fn main() -> ExitCode {
    match run() {
        Ok(()) => ExitCode::SUCCESS,
        Err(why) => {
            eprintln!("bench: {why}");
            ExitCode::FAILURE
        }
    }
}
