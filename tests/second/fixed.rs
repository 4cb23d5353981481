//! Fixed inputs, aimed at borders and at blocked steps, which random inputs rarely try.

use crate::input::{Input, Run};
use crate::model;

const NAMES: [&str; 12] =
    ["set", "copy", "add", "sub", "load", "storer", "storec", "fence", "cas", "branch", "jump", "return"];

/// A fixed input with its name.
pub type Fixed = (String, Input);

/// A table from lines parted by `;`, fields parted by blanks. A line may begin with a kind's number instead of its name.
pub fn code(lines: &str) -> Vec<u32> {
    let line = |line: &str| {
        let words: Vec<&str> = line.split_whitespace().collect();
        let kind = NAMES.iter().position(|name| *name == words[0]);
        let mut numbers = vec![kind.map_or_else(|| words[0].parse().expect("a kind"), |k| k as u32)];
        numbers.extend(words[1..].iter().map(|w| w.parse::<u32>().expect("a number")));
        numbers.resize(5, 0);
        numbers
    };
    lines.split(';').flat_map(line).collect()
}

/// A text from lines that end in `;`, fields parted by blanks; `_` is a real blank.
fn text(lines: &str) -> Vec<u8> {
    lines.replace(' ', "\t").replace(';', "\n").replace('_', " ").into_bytes()
}

fn repeated(line: &str, times: usize) -> String {
    vec![line; times].join(";")
}

/// Registers at the start: 0, 1, 2, 2^31, 2^32 - 1, 5, then small ones that differ from thread to thread.
pub fn start_registers() -> [u32; 64] {
    let mut registers = [0; 64];
    for (i, register) in registers.iter_mut().enumerate() {
        let (t, r) = (i as u32 / 16, i as u32 % 16);
        *register = [0, 1, 2, 1 << 31, u32::MAX, 5].get(r as usize).copied().unwrap_or(r + 20 * t);
    }
    registers[18] = 77;
    registers
}

/// Memory at the start: 0, 1, 2, then 13, 14 and so on.
pub fn start_memory() -> [u32; 16] {
    let mut memory = [0; 16];
    for (x, value) in memory.iter_mut().enumerate() {
        *value = if x < 3 { x as u32 } else { x as u32 + 10 };
    }
    memory
}

/// Every fixed input.
pub fn all() -> Vec<Fixed> {
    let mut inputs = texts();
    inputs.extend(borders());
    for (name, lines) in THREADS {
        for model in 0..2 {
            let name = format!("{name}/{}", ["tso", "pso"][model as usize]);
            inputs.extend(rooms(&name, model, &code(lines)));
            inputs.extend(schedules(&name, model, &code(lines)));
        }
    }
    inputs.extend(several());
    inputs.extend(large());
    inputs
}

// Texts.

/// Good and bad texts, `;` for a line feed, a blank for a tab, `_` for a blank.
const TEXTS: &[&str] = &[
    "",
    ";",
    "tso",
    "pso",
    "tso;",
    "pso;",
    "tso;;",
    ";return;",
    "tso;return",
    "tso;;return;",
    "tso;set 0 1;;return;",
    "tso;return;;",
    "tso;bad",
    "tso;bad;return",
    "tso;bad;set 0 1;bad;return;",
    "pso;set 0 1;bad;return;",
    "bad;set 0 1;return;",
    "xso;return;",
    "tsox;return;",
    "tso ;return;",
    " tso;return;",
    "tso_;return;",
    "pso 0;return;",
    "TSO;return;",
    "tso\r;return;",
    "tso;pso;return;",
    "tso;tso;return;",
    "tso;storec 0 1;load 0 1;return;",
    "pso;storec 1 1;storec 0 1;return;",
    "tso;set 1 2;copy 3 4;add 5 6 7;sub 8 9 10;load 11 12;fence;cas 1 2 3 4;branch 5 0;storer 3 5;jump 10;return;",
    "tso;set 16 1;return;",
    "tso;load 0 16;return;",
    "tso;jump 4294967295;",
    "tso;branch 0 64;return;",
    "tso;Set 0 1;return;",
    "tso;SET 0 1;return;",
    "tso;RETURN;",
    "tso;setx 0 1;return;",
    "tso;se 0 1;return;",
    "tso;returns;",
    "tso;store 0 1;return;",
    "tso;stbar;return;",
    "tso;pass;return;",
    "tso;set_0_1;return;",
    "tso;set 0_1;return;",
    "tso;set  0 1;return;",
    "tso;set 0  1;return;",
    "tso;set 0 1 ;return;",
    "tso;return ;",
    "tso; set 0 1;return;",
    "tso; return;",
    "tso; ;return;",
    "tso;_;return;",
    "tso;set 0 1_;return;",
    "tso;_set 0 1;return;",
    "tso;set 0 1\r;return;",
    "tso;set 0 1;return\r;",
    "tso\r;set 0 1\r;return\r;",
    "tso;set 0;return;",
    "tso;set;return;",
    "tso;cas 0 1 2;return;",
    "tso;jump;",
    "tso;set 0 1 2;return;",
    "tso;set 0 1 0;return;",
    "tso;cas 0 1 2 3 4;return;",
    "tso;return 0;",
    "tso;fence 0;return;",
    "tso;set 0 0;return;",
    "tso;set 0 00;return;",
    "tso;set 00 1;return;",
    "tso;set 0 01;return;",
    "tso;set 0 007;return;",
    "tso;set 0 4294967294;return;",
    "tso;set 0 4294967295;return;",
    "tso;set 0 4294967296;return;",
    "tso;set 0 4294967297;return;",
    "tso;set 0 04294967295;return;",
    "tso;set 0 9999999999;return;",
    "tso;set 0 10000000000;return;",
    "tso;set 0 42949672950;return;",
    "tso;set 0 18446744073709551615;return;",
    "tso;set 0 18446744073709551616;return;",
    "tso;set 0 18446744073709551623;return;",
    "tso;set 0 340282366920938463463374607431768211463;return;",
    "tso;set 0 2147483647;return;",
    "tso;set 0 2147483648;return;",
    "tso;set 0 999999999;return;",
    "tso;set 0 1000000000;return;",
    "tso;set 0 ;return;",
    "tso;set  1;return;",
    "tso;set 0 +1;return;",
    "tso;set 0 -1;return;",
    "tso;set 0 -0;return;",
    "tso;set 0 1x;return;",
    "tso;set 0 1.0;return;",
    "tso;set 0 0x1;return;",
    "tso;set 0 x;return;",
    "tso;set 0 1,5;return;",
    "tso;set 0 1_0;return;",
    "tso;set 0 :;return;",
    "tso;set 0 /;return;",
    "tso;set 0 1\0;return;",
    "tso;\0;return;",
    "tso;set 0 \u{b2};return;",
    "\u{feff}tso;return;",
];

fn texts() -> Vec<Fixed> {
    let mut texts: Vec<(String, Vec<u8>)> =
        TEXTS.iter().map(|lines| (format!("text {lines:?}"), text(lines))).collect();
    let sized = |sets: usize, last: &str| text(&format!("tso;{};{last}", repeated("set 0 1", sets)));
    for lines in [62, 63, 64, 65] {
        texts.push((format!("{lines} lines"), sized(lines - 1, "return;")));
        texts.push((format!("{lines} lines, one bad"), sized(lines - 1, "bad;")));
        texts.push((format!("{lines} lines, no feed"), sized(lines - 1, "return")));
    }
    // 6 bytes a fence, 7 a return.
    let bytes = |fences: usize, returns: usize, first: &str, last: &str| {
        text(&format!("tso;{first}{}{}{last}", "fence;".repeat(fences), "return;".repeat(returns)))
    };
    texts.push(("4095 bytes".into(), bytes(676, 5, "", "")));
    texts.push(("4096 bytes".into(), bytes(682, 0, "", "")));
    texts.push(("4097 bytes".into(), bytes(681, 1, "", "")));
    texts.push(("4098 bytes".into(), bytes(680, 2, "", "")));
    texts.push(("4096 bytes, bad line".into(), bytes(681, 0, "fencx;", "")));
    texts.push(("4097 bytes, bad line".into(), bytes(680, 1, "fencx;", "")));
    texts.push(("4096 bytes, no feed".into(), bytes(680, 1, "", "fence")));
    texts.push(("4097 bytes, no feed".into(), bytes(682, 0, "", "x")));
    texts.push(("4096 bytes, one line".into(), vec![b'x'; 4096]));
    texts.push(("4097 bytes, one line".into(), vec![b'x'; 4097]));
    texts.push(("4096 bytes, line feeds".into(), vec![b'\n'; 4096]));
    texts.push(("9000 bytes".into(), bytes(1000, 400, "", "")));
    // Graphs at the rooms of the printing program.
    let wide = |sets: usize| text(&format!("tso;{}{}{}return;", "set 0 1;".repeat(sets), stores(16), loads(14)));
    for (sets, nodes) in [(8, 399), (9, 400), (10, 401)] {
        texts.push((format!("{nodes} nodes printed"), wide(sets)));
    }
    let deep = |sets: usize| text(&format!("pso;{}{}return;", "set 0 1;".repeat(sets), stores(7)));
    for (sets, edges) in [(3, 899), (4, 900), (5, 901)] {
        texts.push((format!("{edges} edges printed"), deep(sets)));
    }
    let mut inputs = Vec::new();
    for (name, text) in texts {
        let lines = text.iter().filter(|b| **b == b'\n').count().saturating_sub(1).min(70);
        let exact = 5 * lines;
        for room in [320, 400, exact, exact + 3, exact.saturating_sub(1), exact.saturating_sub(5), 4, 0] {
            inputs.push((format!("{name}, room {room}"), Input::Read { text: text.clone(), room }));
        }
        inputs.push((format!("{name}, printed"), Input::Print { text }));
    }
    inputs
}

/// Stores to so many variables, each a line of a text.
fn stores(count: usize) -> String {
    (0..count).map(|x| format!("storec {x} {};", 4_000_000_000u32 + x as u32)).collect()
}

fn loads(count: usize) -> String {
    (0..count).map(|r| format!("load {r} {};", 15 - r)).collect()
}

// Tables at the borders of admission.

fn borders() -> Vec<Fixed> {
    let mut tables: Vec<(String, Vec<u32>)> = BORDERS.iter().map(|lines| (lines.to_string(), code(lines))).collect();
    tables.push(("empty table".into(), vec![]));
    for numbers in [1, 4, 6, 9, 319, 320, 321, 322, 324, 325, 326, 330] {
        let mut table = code(&repeated("set 0 1", 66));
        table.truncate(numbers);
        if numbers >= 5 {
            let last = numbers / 5 * 5 - 5;
            table[last..last + 5].copy_from_slice(&[11, 0, 0, 0, 0]);
        }
        tables.push((format!("{numbers} numbers"), table.clone()));
        if numbers >= 5 {
            table[0] = 12;
            tables.push((format!("{numbers} numbers, bad field"), table));
        }
    }
    for kind in 0..12 {
        for field in 1..5 {
            for value in [1, 7, 8, 14, 15, 16, 17, 63, 64, 255, 256, 271, 1 << 31, u32::MAX] {
                let mut table = vec![kind, 0, 0, 0, 0, 11, 0, 0, 0, 0];
                table[field] = value;
                tables.push((format!("{} with {value} in field {field}", NAMES[kind as usize]), table));
            }
        }
    }
    for kind in [12, 13, 255, 256, 267, 1 << 16, u32::MAX] {
        tables.push((format!("kind {kind}"), [vec![kind, 0, 0, 0, 0], code("return")].concat()));
    }
    // 16 and 17 stores, also where they can't be reached.
    for count in [15, 16, 17, 18, 20] {
        let many = repeated("storec 3 1", count);
        let from_registers = repeated("storer 3 1", count);
        tables.push((format!("{count} stores"), code(&format!("{many};return"))));
        tables.push((format!("{count} storer"), code(&format!("{from_registers};return"))));
        tables.push((format!("{count} stores, cas"), code(&format!("{many};cas 0 0 0 0;return"))));
        tables.push((format!("{count} unreachable stores"), code(&format!("return;{many};return"))));
        tables.push((format!("{count} stores, bad field"), code(&format!("{many};12 0 0 0 0;return"))));
        tables.push((format!("{count} stores, bad target"), code(&format!("jump 40;{many};return"))));
        tables.push((format!("{count} stores, no next"), code(&many)));
    }
    for lines in [2, 5, 64] {
        for target in [lines - 2, lines - 1, lines, lines + 1, 63, 64, 65, 128, u32::MAX as usize] {
            let sets = repeated("set 0 1", lines - 1);
            let jump = code(&format!("{sets};jump {target}"));
            tables.push((format!("{lines} lines, jump {target}"), jump));
            let branch = code(&format!("branch 1 {target};{}return", "set 0 1;".repeat(lines - 2)));
            tables.push((format!("{lines} lines, branch {target}"), branch));
        }
    }
    let mut inputs = Vec::new();
    for (name, table) in tables {
        for model in [0, 1] {
            let name = format!("border {name}, model {model}");
            inputs.push((name.clone(), Input::Build { model, table: table.clone(), nodes: 2000, edges: 1000 }));
            inputs.push((name, single(model, &table, [2000, 1000], &[])));
        }
    }
    for model in [2, 3, 255, 256, 257, 1 << 31, u32::MAX] {
        for lines in ["return", "storec 0 7;storec 1 1;return", "12 0 0 0 0", "storec 0 1;jump 0"] {
            let table = code(lines);
            let name = format!("model {model}, {lines}");
            inputs.push((name.clone(), Input::Build { model, table: table.clone(), nodes: 500, edges: 100 }));
            inputs.push((name, single(model, &table, [500, 100], &[])));
        }
        let name = format!("model {model}, empty table");
        inputs.push((name.clone(), Input::Build { model, table: vec![], nodes: 50, edges: 50 }));
        inputs.push((name, single(model, &[], [50, 50], &[])));
    }
    inputs
}

/// Tables aimed at one number or at two that compete.
const BORDERS: &[&str] = &[
    // 6: the lowest line, reachable or not.
    "set 0 1;12 0 0 0 0;set 16 0;return",
    "return;12 0 0 0 0;return",
    "return;load 0 16;return",
    "cas 0 0 0 16;return",
    "storec 16 1;return",
    "storer 16 1;return",
    "storer 1 16;return",
    "branch 16 0;return",
    "12 0 0 0 0;jump 9",
    // 8: the lowest line, reachable or not; before 9.
    "jump 1",
    "jump 0",
    "branch 0 9;return",
    "branch 0 0;return",
    "jump 2;return",
    "jump 1;return",
    "return;jump 9",
    "return;branch 0 2",
    "set 0 1;jump 9;jump 7;return",
    "jump 7;set 0 1",
    "jump 64;set 0 1",
    "set 0 1;branch 0 3;return",
    // 9: every kind as the last line.
    "set 0 1",
    "copy 0 1",
    "add 0 1 2",
    "sub 0 1 2",
    "load 0 1",
    "storer 0 1",
    "storec 0 1",
    "fence",
    "cas 0 1 2 3",
    "branch 0 0",
    "set 0 1;set 0 1",
    "set 0 1;branch 0 0",
    "set 0 1;jump 0",
    "return;set 0 1",
    "return;branch 0 0",
    "return;jump 0",
    "storec 0 1;jump 0;set 0 1",
    // 10: loops with and without a fence or cas, both ways of a branch, reachable or not.
    "storec 0 1;jump 0",
    "storec 0 1;fence;jump 0",
    "storec 0 1;cas 0 0 0 0;jump 0",
    "storer 0 1;jump 0",
    "storer 0 1;fence;jump 0",
    "storec 0 1;load 0 0;jump 0",
    "return;storec 0 1;jump 1",
    "storec 0 1;branch 0 3;fence;branch 1 0;return",
    "storec 0 1;branch 0 4;cas 1 0 0 0;jump 4;branch 1 0;return",
    "storec 0 1;branch 0 0;fence;return",
    "fence;storec 0 1;branch 0 1;return",
    "fence;storec 0 1;jump 1",
    "cas 0 0 0 0;storec 0 1;jump 1",
    "storec 0 1;branch 0 3;jump 0;return",
    "storec 0 1;branch 0 3;return;jump 0",
    "load 0 0;branch 0 0;return",
    "set 0 1;jump 0",
    "storec 0 1;storec 1 1;jump 0",
    "storec 0 1;fence;storec 1 1;jump 2",
    "set 0 1;storec 0 1;jump 0",
    "jump 2;return;storec 0 1;branch 0 2;jump 1",
    "storec 0 1;jump 3;return;branch 0 2;jump 0",
    "branch 0 3;storec 0 1;return;storec 1 1;jump 1",
    "storec 0 1;fence;storec 1 1;branch 0 0;return",
    "storec 0 1;fence;load 0 0;branch 0 2;return",
    "storec 0 1;load 0 1;branch 0 1;return",
    "branch 0 2;fence;storec 0 1;branch 1 0;return",
    "fence;branch 0 3;jump 0;storec 0 1;branch 1 1;return",
];

// Threads whose graphs and runs are tried with many rooms and schedules.

const THREADS: &[(&str, &str)] = &[
    ("end", "return"),
    ("spin", "jump 0"),
    ("set", "set 6 1;return"),
    ("P1", "storec 0 1;load 0 1;return"),
    ("P2", "storec 0 1;return"),
    ("P3", "storec 0 7;storec 1 1;return"),
    ("P5", "storec 0 1;load 0 0;return"),
    ("P6", "storec 0 1;fence;jump 0"),
    ("P8", "storec 0 1;load 0 1;branch 0 1;return"),
    ("fence", "fence;return"),
    ("fence waits", "storec 3 9;fence;set 6 9;return"),
    ("two wait at a fence", "storec 3 9;storec 4 8;fence;set 6 9;return"),
    ("cas succeeds", "cas 6 1 1 5;return"),
    ("cas fails", "cas 6 1 2 5;return"),
    ("cas waits and succeeds", "storec 3 9;cas 6 1 1 5;return"),
    ("cas waits and fails", "storec 3 9;cas 6 1 2 5;return"),
    ("cas waits for its own variable", "storec 1 9;cas 6 1 1 5;return"),
    ("cas result is t", "cas 5 1 1 5;return"),
    ("cas result is s", "cas 2 2 2 5;return"),
    ("cas result is s, fails", "cas 2 1 2 5;return"),
    ("cas all alike", "cas 1 1 1 1;cas 2 1 2 2;return"),
    ("cas on old values", "cas 6 3 0 5;cas 7 3 3 3;return"),
    ("cas on variable 15", "storec 15 1;fence;cas 6 15 1 4;load 7 15;return"),
    ("add wraps", "add 6 4 1;add 7 4 4;add 8 3 3;return"),
    ("add into an operand", "add 5 4 5;add 4 4 4;add 5 5 1;return"),
    ("sub wraps", "sub 6 0 1;sub 7 1 2;sub 8 3 4;return"),
    ("sub into an operand", "sub 5 1 5;sub 4 4 4;sub 2 2 1;return"),
    ("copy", "copy 6 4;copy 6 6;copy 0 5;return"),
    ("branch on 0", "branch 0 2;set 6 9;return"),
    ("branch on 1", "branch 1 2;set 6 9;return"),
    ("branch on 2", "branch 2 2;set 6 9;return"),
    ("branch on 2^31", "branch 3 2;set 6 9;return"),
    ("branch on 2^32 - 1", "branch 4 2;set 6 9;return"),
    ("branch to next", "branch 0 1;branch 1 2;return"),
    ("branch while a store waits", "storec 2 7;branch 0 3;branch 1 3;return"),
    ("jump over", "jump 2;set 6 1;return"),
    ("newest of two", "storec 0 1;storec 0 2;load 6 0;return"),
    ("newest of three", "storec 5 1;storec 5 2;storec 5 3;load 6 5;load 7 4;return"),
    ("take names a line", "set 6 1;storec 5 1;load 0 5;return"),
    ("load another", "storec 5 1;storec 6 2;load 0 5;load 1 6;load 2 7;return"),
    ("keep names a line", "set 6 1;storer 0 3;storec 0 3;return"),
    ("old value is put", "storer 0 5;set 5 9;return"),
    ("old value is taken", "storer 0 5;set 5 9;load 6 0;return"),
    ("old value twice", "storer 0 5;set 5 9;storer 0 5;set 5 8;return"),
    ("descending variables", "storec 1 1;storec 0 2;return"),
    ("three descending", "storec 9 1;storec 8 2;storec 3 4;return"),
    ("both ends", "storec 15 1;storec 0 2;storec 8 3;storec 7 4;return"),
    ("variable 8", "storec 8 1;return"),
    ("variable 7", "storec 7 1;return"),
    ("variable 15", "storec 15 1;load 6 15;return"),
    ("variable 14", "storec 14 1;load 6 14;return"),
    ("two queues", "storec 1 1;storec 0 2;storec 1 3;storec 0 4;return"),
    ("later line first", "jump 3;storec 0 1;return;storec 0 2;jump 1"),
    ("later line first, two variables", "jump 4;storec 0 1;storec 1 2;return;storec 1 3;storec 0 4;jump 1"),
    ("two arms", "branch 0 3;storec 0 1;jump 4;storec 1 2;storec 2 3;return"),
    ("two arms, one store", "branch 1 2;storec 0 1;storec 1 2;load 6 0;return"),
    ("fenced loop", "load 0 0;storec 1 3;fence;branch 0 0;return"),
    ("cas loop", "storec 3 1;cas 0 0 0 1;branch 0 4;jump 0;return"),
    ("storeless loop", "storec 3 1;load 0 3;branch 0 1;return"),
    ("loop of two ways", "branch 0 3;storec 0 1;fence;branch 1 0;return"),
    ("dead loop", "return;storec 0 1;jump 1"),
    ("dead stores", "jump 3;storec 0 1;storec 1 2;storec 2 3;return"),
    ("wait at return", "storec 0 1;storec 1 2;storec 0 3;return"),
    (
        "many lines",
        "set 6 1;set 7 2;copy 8 7;add 9 8 7;sub 10 9 6;load 11 3;storer 3 10;load 12 3;fence;cas 13 3 10 9;return",
    ),
    ("equal values", "storec 0 0;storec 1 0;load 0 0;return"),
    ("four of one", "storec 2 1;storec 2 2;storec 2 3;storec 2 4;load 6 2;return"),
    ("store after load", "load 6 0;storer 1 6;load 7 1;storer 0 7;return"),
    ("large values", "storec 0 4294967295;storec 1 2147483648;load 6 0;add 6 6 6;storer 0 6;return"),
];

/// One thread, the second room pair large enough for the others.
fn single(model: u32, table: &[u32], [nodes, edges]: [usize; 2], schedule: &[u32]) -> Input {
    Input::Run(Box::new(Run {
        model,
        threads: 1,
        tables: [table.to_vec(), vec![], vec![], vec![]],
        rooms: [nodes, edges, 20, 9, 0, 0, 1, 1],
        memory: start_memory(),
        registers: start_registers(),
        schedule: schedule.to_vec(),
    }))
}

/// Rooms: ample, exact, one record short, with a part record, none.
fn rooms(name: &str, model: u32, table: &[u32]) -> Vec<Fixed> {
    let ([number, _, n, e], ..) = model::build(model, table, 300 * 18, 900 * 7);
    assert!(number == 0, "{name} is refused with {number}");
    let (n, e) = (n as usize, e as usize);
    let (nodes, edges) = (18 * n, 7 * e);
    let (short_nodes, short_edges) = (nodes - 18, edges.saturating_sub(7));
    let pairs = [
        (nodes, edges),
        (nodes + 17, edges + 6),
        (nodes + 1, edges + 1),
        (nodes + 18, edges + 7),
        (nodes + 59, edges + 24),
        (nodes - 1, edges + 21),
        (short_nodes, edges + 21),
        (short_nodes + 17, edges),
        (nodes + 54, edges.saturating_sub(1)),
        (nodes + 54, short_edges),
        (nodes, short_edges + 6),
        (short_nodes, short_edges),
        (0, edges + 21),
        (17, edges + 21),
        (nodes + 54, 0),
        (nodes + 54, 6),
        (0, 0),
        (n, edges),
        (nodes, e),
    ];
    let mut inputs = Vec::new();
    for (nodes, edges) in pairs {
        let name = format!("{name}, rooms {nodes} and {edges}");
        inputs.push((name.clone(), Input::Build { model, table: table.to_vec(), nodes, edges }));
        inputs.push((name, single(model, table, [nodes, edges], &[0, 0])));
    }
    inputs
}

/// How a schedule is grown: program steps first, stores first, or in turn with the last store that may go.
#[derive(Clone, Copy)]
enum Way {
    Program,
    Stores,
    Turns,
}

/// Whole schedules, and at each of their places every kind of item that can't be done there.
fn schedules(name: &str, model: u32, table: &[u32]) -> Vec<Fixed> {
    let mut inputs = Vec::new();
    let ample = [18 * 60 + 5, 7 * 120 + 3];
    for (way, called) in [(Way::Program, "program first"), (Way::Stores, "stores first"), (Way::Turns, "in turn")] {
        let mut machine = model::Buffered::new(model, &[table], &start_memory(), &start_registers());
        let mut schedule: Vec<u32> = Vec::new();
        for place in 0..16 {
            let possible = machine.possible(0);
            let name = format!("{name}, {called}, {place} items");
            inputs.push((name.clone(), single(model, table, ample, &schedule)));
            if !matches!(way, Way::Stores) {
                for (thread, choice) in blocked(&possible, &machine.waiting(0)) {
                    let mut tried = schedule.clone();
                    tried.extend([thread, choice]);
                    // What can be done stands behind what can't.
                    tried.extend(possible.iter().flat_map(|c| [0, *c]));
                    inputs.push((format!("{name}, then {thread} {choice}"), single(model, table, ample, &tried)));
                }
                for lone in [0, 1, 2, 9, 17] {
                    let tried = [&schedule[..], &[lone]].concat();
                    inputs.push((format!("{name}, then {lone} alone"), single(model, table, ample, &tried)));
                }
            }
            let next = match way {
                Way::Program => possible.first(),
                Way::Turns if place % 2 == 0 => possible.first(),
                Way::Stores if possible.len() > 1 => possible.get(1),
                _ => possible.last(),
            };
            let Some(choice) = next.copied() else { break };
            machine.choose(0, choice);
            schedule.extend([0, choice]);
        }
    }
    inputs
}

/// Items that name no present thread or a choice that thread 0 hasn't got: blocked ones, stores that wait behind others,
/// variables without a store, numbers that are a choice or a thread only when folded or cut.
fn blocked(possible: &[u32], waiting: &[u32]) -> Vec<(u32, u32)> {
    let mut choices: Vec<u32> = vec![0, 1, 16];
    choices.extend(waiting.iter().map(|x| 1 + x));
    choices.extend((1..9).find(|c| !possible.contains(c)));
    choices.extend((9..17).find(|c| !possible.contains(c)));
    for c in possible {
        choices.extend([c + 16, c + 17, c + 32, c + 256, c + 65536, c.wrapping_sub(17)]);
    }
    choices.extend([17, 18, 1 << 31, u32::MAX]);
    choices.sort();
    choices.dedup();
    choices.retain(|c| !possible.contains(c));
    let mut items: Vec<(u32, u32)> = choices.into_iter().map(|c| (0, c)).collect();
    if let Some(c) = possible.first() {
        items.extend([1, 3, 4, 8, 256, 65536, u32::MAX].map(|thread| (thread, *c)));
    }
    items
}

// Several threads.

/// Threads parted by `|`, with the numbers lent for each and the schedule.
fn together(model: u32, threads: u32, lines: &str, rooms: [usize; 8], schedule: &[u32]) -> Input {
    let mut tables = [vec![], vec![], vec![], vec![]];
    for (table, lines) in tables.iter_mut().zip(lines.split('|')) {
        *table = code(lines);
    }
    let (memory, registers) = (start_memory(), start_registers());
    Input::Run(Box::new(Run { model, threads, tables, rooms, memory, registers, schedule: schedule.to_vec() }))
}

fn several() -> Vec<Fixed> {
    let ample = [18 * 20 + 7, 7 * 30 + 4].repeat(4).try_into().unwrap_or([0; 8]);
    let mut inputs: Vec<Fixed> = Vec::new();
    let mut add = |name: &str, input: Input| inputs.push((name.to_string(), input));

    // P9, P10 and P11, all zero at start.
    let zero = |model: u32, lines: &str, schedule: &[u32]| {
        let Input::Run(mut run) = together(model, 2, lines, ample, schedule) else { unreachable!() };
        run.memory = [0; 16];
        run.registers = [0; 64];
        Input::Run(run)
    };
    let p9 = "storec 0 1;load 0 1;return|storec 1 1;load 0 0;return";
    let p10 = "storec 0 7;storec 1 1;return|load 0 1;load 1 0;return";
    for model in [0, 1] {
        add("P9", zero(model, p9, &[0, 0, 1, 0, 0, 0, 1, 0]));
        add("P10 and P11", zero(model, p10, &[0, 0, 0, 0, 0, 2, 1, 0, 1, 0]));
    }

    // Threads that share lines, variables and registers by number only.
    let alike = "storec 0 1;load 6 0;return|storec 0 2;load 6 0;return|storer 0 5;load 6 0;return|load 6 0;return";
    for model in [0, 1] {
        for threads in 1..5 {
            let mut schedule = Vec::new();
            for choice in [0, 0, 1] {
                schedule.extend((0..threads.min(3)).flat_map(|t| [t, choice]));
            }
            add(&format!("{threads} alike"), together(model, threads, alike, ample, &schedule));
            let fifth: Vec<u32> = [0, 1, 2, 3].iter().flat_map(|t| [t % threads, 0]).collect();
            for thread in [threads, threads + 1, 3, 4, 5, 7, 255, 256, 257, 258, 259, 65536, 1 << 31, u32::MAX] {
                for choice in [0, 1] {
                    let schedule = [&fifth[..], &[thread, choice, 0, 0]].concat();
                    let name = format!("{threads} alike, item of {thread} with {choice}");
                    add(&name, together(model, threads, alike, ample, &schedule));
                }
                let schedule = [&fifth[..], &[thread]].concat();
                add(&format!("{threads} alike, {thread} alone"), together(model, threads, alike, ample, &schedule));
            }
        }
    }
    let passing = "storec 0 5;storec 1 6;return|load 6 1;load 7 0;cas 8 0 5 1;return";
    for model in [0, 1] {
        for schedule in [
            &[0, 0, 1, 0, 0, 0, 0, 1, 1, 0, 0, 2, 1, 0][..],
            &[0, 0, 0, 0, 0, 2, 1, 0, 0, 1, 1, 0, 1, 0],
            &[0, 0, 0, 1, 1, 0, 1, 0, 1, 0, 0, 0],
            &[1, 0, 1, 0, 1, 0, 1, 0],
            &[0, 1, 0, 0],
        ] {
            add(&format!("passing, schedule {schedule:?}"), together(model, 2, passing, ample, schedule));
        }
    }

    // 14, alone and against bad tables.
    for threads in [0, 5, 6, 7, 8, 255, 256, 257, 258, 260, 65537, 1 << 31, u32::MAX] {
        for lines in [alike, "set 0 1", "jump 0|12", "12|12|12|12"] {
            for schedule in [&[][..], &[0, 0], &[9]] {
                for model in [0, 2] {
                    let name = format!("{threads} of {lines}, model {model}, {} numbers", schedule.len());
                    add(&name, together(model, threads, lines, ample, schedule));
                }
            }
        }
    }

    // Which thread is named: good and bad ones side by side, also beyond the count.
    let faults = [
        "return",
        "12",
        "jump 9",
        "set 0 1",
        "storec 0 1;jump 0",
        "storec 0 1;storec 1 2;return",
        "storec 0 1;return",
        "set 0 1;set 0 2;set 0 3;set 0 4;return",
    ];
    let tight = [54, 14, 54, 14, 54, 14, 54, 14];
    let uneven = [54, 14, 200, 50, 0, 0, 36, 70];
    for (i, first) in faults.iter().enumerate() {
        for (j, second) in faults.iter().enumerate() {
            for threads in 1..5 {
                let third = faults[(i + j) % faults.len()];
                let lines = format!("{first}|{second}|{third}|{first}");
                for (rooms, called) in [(tight, "tight"), (uneven, "uneven")] {
                    let name = format!("{threads} of {lines}, {called} rooms");
                    add(&name, together(1, threads, &lines, rooms, &[0, 0, 0, 1]));
                }
                let lines = format!("return|{first}|{second}|{third}");
                add(&format!("{threads} of {lines}"), together(0, threads, &lines, tight, &[0, 0]));
            }
        }
    }
    inputs
}

// Graphs at the cap of 4,096 nodes.

fn large() -> Vec<Fixed> {
    let eleven = repeated_stores(11);
    let mut inputs = Vec::new();
    let mut add = |name: &str, model: u32, lines: &str, nodes: usize, edges: usize| {
        let input = Input::Build { model, table: code(lines), nodes: 18 * nodes, edges: 7 * edges };
        inputs.push((format!("{name}, room for {nodes} and {edges}"), input));
    };
    for (sets, nodes) in [(0, 4095), (1, 4096), (2, 4097)] {
        let lines = format!("{}{eleven};return", "set 0 1;".repeat(sets));
        add(&format!("{nodes} nodes"), 1, &lines, 4200, 23000);
    }
    let full = format!("set 0 1;{eleven};return");
    add("4096 nodes", 1, &full, 4096, 22529);
    add("4096 nodes", 1, &full, 4095, 22529);
    add("4096 nodes", 1, &full, 4096, 22528);
    let over = format!("set 0 1;set 0 1;{eleven};return");
    add("4097 nodes", 1, &over, 4097, 100);
    // The buffered run has no such cap.
    for (sets, nodes) in [(1, 4096), (2, 4097)] {
        let lines = format!("{}{eleven};return", "set 0 1;".repeat(sets));
        let schedule = [0, 0].repeat(5);
        let input = single(1, &code(&lines), [18 * 4200, 7 * 23000], &schedule);
        inputs.push((format!("run of {nodes} nodes"), input));
    }
    let sixteen = format!("{};return", repeated_stores(16));
    inputs.push(("run of 16 stores".into(), single(1, &code(&sixteen), [180, 70], &[0, 0].repeat(16))));
    inputs
}

fn repeated_stores(count: usize) -> String {
    (0..count).map(|x| format!("storec {x} {}", x + 1)).collect::<Vec<_>>().join(";")
}
