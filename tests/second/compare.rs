//! Compares the library with the second program, on fixed inputs and on random ones.
//!
//!     compare [SEED [COUNT]]                  the library; with --graph PROGRAM also the printing program
//!     compare --self NAME [SEED [COUNT]]      a wrong variant of the second program in the library's place
//!     compare --self-all [SEED [COUNT]]       every wrong variant; fails if one isn't found by the fixed inputs
//!     compare --replay FILE [--self NAME]     one input, as a difference was written
//!     compare --input NAME [SEED [COUNT]]     writes the input of that name
//!     compare --list                          the wrong variants
//!
//! With --names the name of each input is written before it is tried.
//!
//! Built with `--cfg self_only` it needs no library.
#![allow(unexpected_cfgs)]

mod fixed;
mod input;
#[cfg(not(self_only))]
mod library;
mod model;
mod random;
mod wrong;

use input::{by_model, Given, Input};
use random::Random;
use std::io::Write;
use std::process::{self, Command, Stdio};
use std::time::Instant;
use wrong::{Variant, Wrong};

/// Who stands on the other side.
enum Side {
    Variant(Wrong),
    /// The library, and the printing program if there is one.
    Library(Option<String>),
}

impl Side {
    /// What the other side gives, none for a call it hasn't got.
    fn given(&self, input: &Input) -> Vec<Option<Given>> {
        match self {
            Side::Variant(variant) => {
                wrong::set(*variant);
                let given = by_model(input);
                wrong::set(Wrong::Right);
                given.into_iter().map(Some).collect()
            }
            Side::Library(program) => match (input, program) {
                (Input::Print { text }, Some(program)) => vec![Some(Given::printed(&printed(program, text)))],
                (Input::Print { .. }, None) => vec![None],
                _ => by_library(input).into_iter().map(Some).collect(),
            },
        }
    }
}

#[cfg(not(self_only))]
fn by_library(input: &Input) -> Vec<Given> {
    library::given(input)
}

#[cfg(self_only)]
fn by_library(_: &Input) -> Vec<Given> {
    eprintln!("built without the library: use --self or --self-all");
    process::exit(2);
}

/// What the printing program prints for a text.
fn printed(program: &str, text: &[u8]) -> Vec<u8> {
    let run = || {
        let mut child = Command::new(program).stdin(Stdio::piped()).stdout(Stdio::piped()).spawn()?;
        if let Some(mut pipe) = child.stdin.take() {
            // A program that reads no further than it must is fine.
            let _ = pipe.write_all(text);
        }
        Ok::<_, std::io::Error>(child.wait_with_output()?.stdout)
    };
    run().unwrap_or_else(|error| {
        eprintln!("{program}: {error}");
        process::exit(2);
    })
}

/// How often each call gave each number.
#[derive(Default)]
struct Counts {
    inputs: u64,
    given: [[u64; 16]; 5],
    skipped: u64,
}

const CALLS: [(char, &str); 5] = [('r', "read"), ('t', "build"), ('b', "buffered"), ('g', "generated"), ('p', "print")];

impl Counts {
    fn add(&mut self, given: &Given) {
        let row = CALLS.iter().position(|(letter, _)| *letter == given.call).unwrap_or(0);
        self.given[row][given.answer[0].min(15) as usize] += 1;
    }

    /// Prints the counts and says whether every number that can be given was.
    fn shown(&self) -> bool {
        let numbers: Vec<usize> = (0..16).filter(|n| *n != 11).collect();
        let row = |name: &str, cells: Vec<String>| {
            println!("{name:<10}{}", cells.iter().map(|cell| format!("{cell:>8}")).collect::<String>());
        };
        row("number", numbers.iter().map(|n| n.to_string()).collect());
        for (i, (_, name)) in CALLS.iter().enumerate().take(4) {
            row(name, numbers.iter().map(|n| self.given[i][*n].to_string()).collect());
        }
        println!("{} inputs; {} printed, {} not printed", self.inputs, self.given[4][0], self.skipped);
        // The reader gives 0, 1, 4; the builder 0, 2 to 13; the runs 0, 2 to 10, 14, 15, the generated one 12 and 13 too.
        let expected: [&[usize]; 4] = [
            &[0, 1, 4],
            &[0, 2, 3, 4, 5, 6, 7, 8, 9, 10, 12, 13],
            &[0, 2, 3, 4, 5, 6, 7, 8, 9, 10, 14, 15],
            &[0, 2, 3, 4, 5, 6, 7, 8, 9, 10, 12, 13, 14, 15],
        ];
        let mut whole = true;
        for (i, numbers) in expected.iter().enumerate() {
            for number in numbers.iter().filter(|n| self.given[i][**n] == 0) {
                println!("{} never gave {number}", CALLS[i].1);
                whole = false;
            }
        }
        whole
    }
}

/// Compares one input; a difference is printed with the input and ends the program.
fn compared(name: &str, input: &Input, side: &Side, counts: &mut Counts) {
    counts.inputs += 1;
    for (right, other) in by_model(input).iter().zip(side.given(input)) {
        let Some(other) = other else {
            counts.skipped += 1;
            continue;
        };
        counts.add(right);
        if *right != other {
            println!("difference at {name}");
            difference(right, &other);
            println!("{}", input::written(input));
            process::exit(1);
        }
    }
}

fn difference(right: &Given, other: &Given) {
    let call = CALLS.iter().find(|(letter, _)| *letter == right.call).map_or("", |(_, name)| name);
    println!("{call}: answer {:?} by the second program, {:?} by the other side", right.answer, other.answer);
    for (i, (a, b)) in right.tables.iter().zip(&other.tables).enumerate() {
        if right.call == 'p' {
            let text = |numbers: &[u32]| numbers.iter().map(|n| *n as u8 as char).collect::<String>();
            println!("printed {:?}\nagainst {:?}", text(a), text(b));
        } else if a.len() != b.len() {
            println!("lent table {i}: written outside its room");
        } else if let Some(at) = (0..a.len()).find(|at| a[*at] != b[*at]) {
            println!("lent table {i}, number {at}: {} and {}", a[at], b[at]);
        }
    }
}

/// Fixed inputs, then random ones.
fn inputs(seed: u64, count: u64) -> impl Iterator<Item = (String, Input)> {
    let mut random = Random::new(seed);
    let next = move |i| (format!("random input {i} of seed {seed}"), random::input(&mut random));
    fixed::all().into_iter().chain((0..count).map(next))
}

/// Compares all inputs and prints the counts.
fn compare_all(side: &Side, seed: u64, count: u64, names: bool) {
    let start = Instant::now();
    let mut counts = Counts::default();
    for (name, input) in inputs(seed, count) {
        if names {
            eprintln!("{name}");
        }
        compared(&name, &input, side, &mut counts);
    }
    println!("{} fixed inputs and {count} random ones of seed {seed} alike", counts.inputs - count);
    let whole = counts.shown();
    println!("{:.1} seconds", start.elapsed().as_secs_f64());
    if !whole {
        process::exit(1);
    }
}

/// An input with the marks of what the right model gives.
struct Marked {
    name: String,
    input: Input,
    marks: Vec<(char, u64)>,
}

fn marks(input: &Input) -> Vec<(char, u64)> {
    by_model(input).iter().map(|given| (given.call, given.mark())).collect()
}

/// The calls of an input that a variant answers otherwise.
fn caught(marked: &Marked, variant: Wrong) -> Vec<char> {
    wrong::set(variant);
    let other = marks(&marked.input);
    wrong::set(Wrong::Right);
    marked.marks.iter().zip(other).filter(|(right, other)| *right != other).map(|(right, _)| right.0).collect()
}

/// The first input that finds the variant in each of its calls; none where there isn't one.
fn finders<'a>(inputs: &'a [Marked], variant: &Variant) -> Vec<(char, Option<&'a str>)> {
    let mut found: Vec<(char, Option<&str>)> = variant.calls.chars().map(|call| (call, None)).collect();
    for marked in inputs {
        let wanted = |found: &(char, Option<&str>)| found.1.is_none() && marked.marks.iter().any(|m| m.0 == found.0);
        if !found.iter().any(wanted) {
            continue;
        }
        let calls = caught(marked, variant.wrong);
        for (call, name) in &mut found {
            if name.is_none() && calls.contains(call) {
                *name = Some(&marked.name);
            }
        }
    }
    found
}

/// Tries every variant on the fixed inputs, which must find it in each of its calls, and on random ones.
fn self_all(seed: u64, count: u64) {
    let start = Instant::now();
    let mark = |(name, input): (String, Input)| {
        let marks = marks(&input);
        Marked { name, input, marks }
    };
    let mut fixed: Vec<Marked> = inputs(seed, count).map(mark).collect();
    let random = fixed.split_off(fixed.len() - count as usize);
    println!("{} fixed inputs, {} random ones, {} variants", fixed.len(), random.len(), wrong::ALL.len());
    let mut missed = 0;
    let mut by_random = 0;
    for variant in wrong::ALL {
        let found = finders(&fixed, variant);
        let bare = random.iter().position(|marked| !caught(marked, variant.wrong).is_empty());
        by_random += usize::from(bare.is_some());
        let bad = found.is_empty() || found.iter().any(|(_, name)| name.is_none());
        missed += usize::from(bad);
        println!("{} {}: {}", if bad { "MISSED" } else { "caught" }, variant.name, variant.says);
        for (call, name) in found {
            println!("    {call} {}", name.unwrap_or("NOT FOUND"));
        }
        match bare {
            Some(i) => println!("    random input {i}"),
            None => println!("    no random input"),
        }
    }
    println!(
        "{} variants, {} caught by the fixed inputs in each of their calls, {by_random} by random ones too, {missed} missed",
        wrong::ALL.len(),
        wrong::ALL.len() - missed
    );
    println!("{:.1} seconds", start.elapsed().as_secs_f64());
    if missed > 0 {
        process::exit(1);
    }
}

fn named(name: &str) -> Wrong {
    if name == "Right" {
        return Wrong::Right;
    }
    wrong::ALL.iter().find(|variant| variant.name == name).map_or_else(
        || {
            eprintln!("no variant {name}; see --list");
            process::exit(2);
        },
        |variant| variant.wrong,
    )
}

fn usage() -> ! {
    eprintln!("usage: compare [--self NAME | --self-all | --graph PROGRAM] [--replay FILE | --input NAME | --list] [--names] [SEED [COUNT]]");
    process::exit(2);
}

fn main() {
    let mut arguments = std::env::args().skip(1);
    let mut side = Side::Library(None);
    let mut all = false;
    let mut names = false;
    let mut replay = None;
    let mut wanted = None;
    let mut numbers: Vec<u64> = Vec::new();
    while let Some(argument) = arguments.next() {
        let mut value = || arguments.next().unwrap_or_else(|| usage());
        match argument.as_str() {
            "--self" => side = Side::Variant(named(&value())),
            "--self-all" => all = true,
            "--graph" => side = Side::Library(Some(value())),
            "--replay" => replay = Some(value()),
            "--input" => wanted = Some(value()),
            "--names" => names = true,
            "--list" => {
                wrong::ALL.iter().for_each(|v| println!("{} ({}): {}", v.name, v.calls, v.says));
                return;
            }
            number => numbers.push(number.parse().unwrap_or_else(|_| usage())),
        }
    }
    let seed = numbers.first().copied().unwrap_or(1);
    let count = numbers.get(1).copied();
    if let Some(file) = replay {
        let form = std::fs::read_to_string(&file).unwrap_or_else(|error| {
            eprintln!("{file}: {error}");
            process::exit(2);
        });
        let Some(input) = input::parsed(&form) else {
            eprintln!("{file}: no input");
            process::exit(2);
        };
        compared(&file, &input, &side, &mut Counts::default());
        println!("{file}: alike");
    } else if let Some(wanted) = wanted {
        match inputs(seed, count.unwrap_or(200_000)).find(|(name, _)| *name == wanted) {
            Some((_, input)) => print!("{}", input::written(&input)),
            None => usage(),
        }
    } else if all {
        self_all(seed, count.unwrap_or(2000));
    } else {
        compare_all(&side, seed, count.unwrap_or(200_000), names);
    }
}
