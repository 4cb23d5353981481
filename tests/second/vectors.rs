//! Runs the vectors and the known answers of the paper: every text of `graph/` is printed as its `.out` says, every case
//! of `runs.txt` and every known answer is answered as it should be.
//!
//!     vectors FOLDER
//!
//! It is run against the model; built with `--cfg linked` it is run against the library that it is linked with. There the
//! texts go through the library's reader and builder, and the tables that these leave are printed here.
#![allow(unexpected_cfgs)]

#[allow(dead_code)]
mod fixed;
#[allow(dead_code)]
mod input;
mod known;
#[cfg(linked)]
mod library;
#[allow(dead_code)]
mod model;
#[allow(dead_code)]
mod wrong;

use input::{Given, Input, Run};
use std::collections::HashMap;
use std::path::Path;
use std::{env, fs, process};

fn main() {
    let Some(folder) = env::args().nth(1) else {
        eprintln!("usage: vectors FOLDER");
        process::exit(2);
    };
    let folder = Path::new(&folder);
    let (texts, bad_texts) = graphs(&folder.join("graph"));
    let (runs, bad_runs) = runs(&folder.join("runs.txt"));
    let (answers, bad_answers) = known_answers();
    let side = if cfg!(linked) { "library" } else { "second program" };
    println!(
        "{side}: {texts} texts, {bad_texts} bad; {runs} runs, {bad_runs} bad; {answers} known answers, {bad_answers} bad"
    );
    if texts == 0 || runs == 0 || bad_texts + bad_runs + bad_answers > 0 {
        process::exit(1);
    }
}

#[cfg(linked)]
fn given(input: &Input) -> Vec<Given> {
    library::given(input)
}

#[cfg(not(linked))]
fn given(input: &Input) -> Vec<Given> {
    input::by_model(input)
}

/// What is printed for a text, by the reader and the builder of the side that is tried.
fn printed(text: &[u8]) -> Vec<u8> {
    let (table_room, node_room, edge_room) = (320, 400 * 18, 900 * 7);
    let read = given(&Input::Read { text: text.to_vec(), room: table_room }).remove(0);
    let [number, place, model, lines] = read.answer;
    if number != 0 {
        return model::print_refused(number, place);
    }
    let table = read.tables[0][..5 * lines as usize].to_vec();
    let build = Input::Build { model: model as u32, table, nodes: node_room, edges: edge_room };
    let built = given(&build).remove(0);
    match built.answer {
        [0, 0, nodes, edges] => {
            model::print_graph(model, &built.tables[0][..18 * nodes as usize], &built.tables[1][..7 * edges as usize])
        }
        [number, place, ..] => model::print_refused(number, place),
    }
}

/// Counts the known answers and those answered otherwise.
fn known_answers() -> (usize, usize) {
    let all = known::all();
    let met = |known: &known::Known| {
        let given = given(&known.input);
        given.len() == known.wanted.len() && known.wanted.iter().zip(&given).all(|(wanted, given)| wanted.met(given))
    };
    let bad = all.iter().filter(|known| {
        let bad = !met(known);
        if bad {
            println!("{}: answered otherwise", known.name);
        }
        bad
    });
    let bad = bad.count();
    (all.len(), bad)
}

fn content(path: &Path) -> Vec<u8> {
    fs::read(path).unwrap_or_else(|error| {
        eprintln!("{}: {error}", path.display());
        process::exit(2);
    })
}

/// Counts the texts and those printed otherwise.
fn graphs(folder: &Path) -> (usize, usize) {
    let Ok(entries) = fs::read_dir(folder) else { return (0, 0) };
    let mut inputs: Vec<_> = entries.filter_map(|e| Some(e.ok()?.path())).collect();
    inputs.retain(|path| path.extension().is_some_and(|e| e == "in"));
    inputs.sort();
    let bad = inputs.iter().filter(|input| {
        let differs = printed(&content(input)) != content(&input.with_extension("out"));
        if differs {
            println!("{}: printed otherwise", input.display());
        }
        differs
    });
    let bad = bad.count();
    (inputs.len(), bad)
}

/// Counts the cases and those answered otherwise.
fn runs(path: &Path) -> (usize, usize) {
    let text = String::from_utf8_lossy(&content(path)).into_owned();
    let cases: Vec<&str> = text.split("\n\n").filter(|case| !case.trim().is_empty()).collect();
    let bad = cases.iter().filter(|case| !right(&parsed(case))).count();
    (cases.len(), bad)
}

/// One case: the first word of a line, with the index behind it for tables and registers, and the numbers.
fn parsed(case: &str) -> HashMap<String, Vec<u64>> {
    let mut fields = HashMap::new();
    for line in case.lines() {
        let mut words = line.split(' ').filter(|word| !word.is_empty());
        let Some(name) = words.next() else { continue };
        let mut name = name.to_string();
        if name == "table" || name == "registers" {
            name += words.next().unwrap_or("");
        }
        fields.insert(name, words.map(|word| word.parse().expect("a number")).collect());
    }
    fields
}

fn hash(numbers: &[u32]) -> u64 {
    let bytes = numbers.iter().flat_map(|n| n.to_le_bytes());
    bytes.fold(14695981039346656037, |hash, byte| (hash ^ u64::from(byte)).wrapping_mul(1099511628211))
}

fn right(case: &HashMap<String, Vec<u64>>) -> bool {
    let wide = |name: &str| case.get(name).cloned().unwrap_or_else(|| panic!("no {name}"));
    let narrow = |name: &str| wide(name).iter().map(|n| *n as u32).collect::<Vec<u32>>();
    let registers: Vec<u32> = (0..4).flat_map(|t| narrow(&format!("registers{t}"))).collect();
    let rooms: Vec<usize> = wide("rooms").iter().map(|n| *n as usize).collect();
    let given = given(&Input::Run(Box::new(Run {
        model: narrow("model")[0],
        threads: narrow("threads")[0],
        tables: [0, 1, 2, 3].map(|t| narrow(&format!("table{t}"))),
        rooms: rooms.try_into().expect("8 numbers"),
        memory: narrow("memory").try_into().expect("16 numbers"),
        registers: registers.try_into().expect("64 numbers"),
        schedule: narrow("schedule"),
    })));
    let alike = |call: char, name: &str| {
        let by = given.iter().find(|given| given.call == call);
        by.is_some_and(|by| by.answer.to_vec() == wide(name) && by.tables[0] == narrow(&format!("{name}-state")))
    };
    let (buffered, generated) = (alike('b', "buffered"), alike('g', "generated"));
    let left = given.iter().find(|given| given.call == 'g').map_or(vec![], |given| given.tables[1..].to_vec());
    let contents = left.iter().map(|room| hash(room)).collect::<Vec<u64>>() == wide("generated-rooms");
    if !(buffered && generated && contents) {
        println!("case {:?}: buffered {buffered}, generated {generated}, rooms {contents}", wide("case"));
    }
    buffered && generated && contents
}
