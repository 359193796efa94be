//! Runs the plain Rust version over records of `write` or of `sheet` inputs, by its
//! argument, so that the yardstick itself is checked: standard input as in
//! crates/cases/stdin or crates/sheet_cases/stdin, standard output as in the stdout
//! beside it.

#[allow(dead_code)]
mod plain;

use std::io::{self, Read, Write};

use plain::{assign, decode, encode_text, read_answer, Line, Problem};

const SPACE: usize = 65_536;

/// T, the rule and the bytes after them, or the refusal's number.
fn request(input: &[u8]) -> Result<(u16, u16, &[u8]), i64> {
    let Some((head, rest)) = input.split_first_chunk::<4>() else {
        return Err(1);
    };
    if input.len() > SPACE {
        return Err(3);
    }
    let horizon = u16::from_le_bytes([head[0], head[1]]);
    let rule = u16::from_le_bytes([head[2], head[3]]);
    if horizon > plain::MOST_SLOTS || !(1..=2).contains(&rule) {
        return Err(7);
    }
    Ok((horizon, rule, rest))
}

/// What a call granted, or the refusal's number.
fn granted(answer: i64) -> Result<usize, i64> {
    usize::try_from(answer).map_err(|_| -answer)
}

fn variables(problem: &[u8], horizon: u16) -> Result<usize, i64> {
    let problem = Problem::read(problem).map_err(|refusal| refusal as i64)?;
    Ok(problem.variables(horizon))
}

/// What `write` prints for one input, or the refusal's number.
fn write(input: &[u8]) -> Result<Vec<u8>, i64> {
    let (horizon, rule, problem) = request(input)?;
    let mut text = vec![0; SPACE];
    let used = granted(encode_text(problem, horizon, rule, &mut text))?;
    text.truncate(used);
    let variables = variables(problem, horizon)?;
    let clauses = text.iter().filter(|&&byte| byte == b'\n').count();
    let mut printed = format!("p cnf {variables} {clauses}\n").into_bytes();
    printed.append(&mut text);
    Ok(printed)
}

/// What `sheet` prints for one input, or the refusal's number.
fn sheet(input: &[u8]) -> Result<Vec<u8>, i64> {
    let (horizon, rule, rest) = request(input)?;
    let end = match rest {
        [_, _, _, _, low, high, ..] => 6 + 4 * usize::from(u16::from_le_bytes([*low, *high])),
        _ => rest.len(),
    };
    let (problem, answer) = rest.split_at(end.min(rest.len()));
    let variables = variables(problem, horizon)?;
    let mut truth = vec![0xa5; variables];
    match granted(read_answer(answer, variables, &mut truth))? {
        1 => {}
        2 => return Ok(b"none claimed\n".to_vec()),
        _ => return Ok(b"unknown\n".to_vec()),
    }
    let mut lines = vec![Line::default(); plain::MOST_LINES];
    let count = granted(decode(problem, horizon, rule, &truth, &mut lines))?;
    lines.truncate(count);
    // The way back must lead to the same model.
    let mut again = vec![0xa5; variables];
    granted(assign(problem, horizon, rule, &lines, &mut again))?;
    assert_eq!(truth, again, "assign does not undo decode");
    let mut printed = Vec::new();
    for Line { slot, step } in lines {
        printed.extend_from_slice(format!("{slot} {step}\n").as_bytes());
    }
    Ok(printed)
}

fn main() -> io::Result<()> {
    let answer: fn(&[u8]) -> Result<Vec<u8>, i64> = match std::env::args().nth(1).as_deref() {
        Some("write") => write,
        Some("sheet") => sheet,
        _ => return Err(io::Error::other("usage: cases write|sheet")),
    };
    let mut records = Vec::new();
    io::stdin().read_to_end(&mut records)?;
    let mut out = io::BufWriter::new(io::stdout().lock());
    let mut rest = &records[..];
    let mut case = 0;
    while let Some((&[a, b, c, d], after)) = rest.split_first_chunk::<4>() {
        let (input, after) = after.split_at(u32::from_le_bytes([a, b, c, d]) as usize);
        rest = after;
        case += 1;
        writeln!(out, "case {case}")?;
        match answer(input) {
            Ok(printed) => out.write_all(&printed)?,
            Err(refusal) => writeln!(out, "refused {refusal}")?,
        }
    }
    if !rest.is_empty() {
        return Err(io::Error::other("the last record is cut short"));
    }
    out.flush()
}
