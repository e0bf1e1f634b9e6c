// Compares a program that solves books with the slow solver, on random books.
//
//   slow_solver PROGRAM KIND BOOKS SEED   KIND is prizes, masks or bands; stops at the first difference with status 1
//   slow_solver --solve [KIND]            is such a program itself: reads words from standard input and prints the listing
//
// PROGRAM is run with no argument for prizes, and else with the kind's name.
mod books;
mod solver;

use books::Rng;
use solver::Kind;
use std::collections::BTreeMap;
use std::env;
use std::fs;
use std::io::{self, Read, Write};
use std::path::PathBuf;
use std::process::{Command, ExitCode, Stdio};

// How a kind is asked for on the program's command line.
fn words_for(kind: Kind) -> &'static [&'static str] {
    match kind {
        Kind::Prizes => &[],
        Kind::Masks => &["masks"],
        Kind::Bands => &["bands"],
    }
}

// What a run of the program wrote and how it ended.
struct Run {
    status: Option<i32>,
    out: Vec<u8>,
    err: Vec<u8>,
}

fn run(program: &str, kind: Kind, bytes: &[u8]) -> io::Result<Run> {
    let mut child = Command::new(program)
        .args(words_for(kind))
        .stdin(Stdio::piped())
        .stdout(Stdio::piped())
        .stderr(Stdio::piped())
        .spawn()?;
    // The program may end before it has read all, and what it writes fits a pipe, so neither side waits for the other.
    if let Some(mut stdin) = child.stdin.take() {
        match stdin.write_all(bytes) {
            Err(e) if e.kind() != io::ErrorKind::BrokenPipe => return Err(e),
            _ => {}
        }
    }
    let output = child.wait_with_output()?;
    Ok(Run {
        status: output.status.code(),
        out: output.stdout,
        err: output.stderr,
    })
}

// The first line in which two texts differ, for the message.
fn first_difference(wanted: &str, found: &str) -> String {
    let mut left = wanted.lines();
    let mut right = found.lines();
    let mut number = 1;
    loop {
        match (left.next(), right.next()) {
            (Some(a), Some(b)) if a == b => number += 1,
            (None, None) => return "the lines agree, and their ends do not".to_string(),
            (a, b) => return format!("line {number}: wanted {a:?}, found {b:?}"),
        }
    }
}

// What was compared.
#[derive(Default)]
struct Counts {
    books: usize,
    answers: usize,
    refusals: BTreeMap<u32, usize>,
}

impl Counts {
    fn line(&self, kind: &str) -> String {
        let refusals: Vec<String> = self
            .refusals
            .iter()
            .map(|(n, c)| format!("{n}: {c}"))
            .collect();
        format!(
            "{kind}: {} books, {} answers compared; refusals {}",
            self.books,
            self.answers,
            refusals.join(", ")
        )
    }
}

fn save(kind: &str, seed: u64, number: usize, bytes: &[u8]) -> io::Result<PathBuf> {
    let path = env::temp_dir().join(format!("book_{kind}_{seed}_{number}.words"));
    fs::write(&path, bytes)?;
    Ok(path)
}

fn compare(program: &str, name: &str, kind: Kind, count: usize, seed: u64) -> io::Result<bool> {
    let mut rng = Rng::new(seed);
    let mut counts = Counts::default();
    for number in 0..count {
        let bytes = books::book(&mut rng, kind, number);
        let (outcome, wanted) = solver::report(kind, &bytes);
        let run = run(program, kind, &bytes)?;
        if run.status != Some(0) || run.out != wanted.as_bytes() {
            let found = String::from_utf8_lossy(&run.out);
            println!("{name}: book {number} of seed {seed} differs");
            println!(
                "  status {:?}, {}",
                run.status,
                first_difference(&wanted, &found)
            );
            if !run.err.is_empty() {
                println!(
                    "  standard error: {}",
                    String::from_utf8_lossy(&run.err).trim_end()
                );
            }
            println!(
                "  its words are in {}",
                save(name, seed, number, &bytes)?.display()
            );
            return Ok(false);
        }
        counts.books += 1;
        match outcome {
            Ok(solved) => counts.answers += solved.answers.len(),
            Err(refused) => *counts.refusals.entry(refused.number).or_insert(0) += 1,
        }
    }
    println!("{}", counts.line(name));
    Ok(true)
}

fn solve_input(name: &str) -> io::Result<bool> {
    let Some(kind) = Kind::named(name) else {
        return Ok(usage());
    };
    let mut bytes = Vec::new();
    io::stdin().read_to_end(&mut bytes)?;
    io::stdout().write_all(solver::report(kind, &bytes).1.as_bytes())?;
    Ok(true)
}

fn usage() -> bool {
    eprintln!(
        "usage: slow_solver PROGRAM prizes|masks|bands BOOKS SEED, or slow_solver --solve [KIND]"
    );
    false
}

fn perform(args: &[&str]) -> io::Result<bool> {
    match args {
        ["--solve"] => solve_input("prizes"),
        ["--solve", kind] => solve_input(kind),
        [program, name, count, seed] => match (Kind::named(name), count.parse(), seed.parse()) {
            (Some(kind), Ok(count), Ok(seed)) => compare(program, name, kind, count, seed),
            _ => Ok(usage()),
        },
        _ => Ok(usage()),
    }
}

fn main() -> ExitCode {
    let args: Vec<String> = env::args().skip(1).collect();
    let words: Vec<&str> = args.iter().map(String::as_str).collect();
    match perform(&words) {
        Ok(true) => ExitCode::SUCCESS,
        Ok(false) => ExitCode::from(1),
        Err(e) => {
            eprintln!("slow_solver: {e}");
            ExitCode::from(2)
        }
    }
}

#[cfg(test)]
mod tests {
    use super::*;

    #[test]
    fn differences_are_named() {
        assert_eq!(
            first_difference("0 1\n1 2\n", "0 1\n1 3\n"),
            "line 2: wanted Some(\"1 2\"), found Some(\"1 3\")"
        );
        assert_eq!(
            first_difference("0 1\n", ""),
            "line 1: wanted Some(\"0 1\"), found None"
        );
        assert_eq!(
            first_difference("0 1\n", "0 1"),
            "the lines agree, and their ends do not"
        );
    }

    #[test]
    fn counts_are_told() {
        let mut counts = Counts {
            books: 3,
            answers: 9,
            ..Counts::default()
        };
        counts.refusals.insert(12, 2);
        counts.refusals.insert(5, 1);
        assert_eq!(
            counts.line("prizes"),
            "prizes: 3 books, 9 answers compared; refusals 5: 1, 12: 2"
        );
    }
}
