//! Random inputs from a seed: texts, tables, rooms, threads and schedules, good and damaged.

use crate::input::{Input, Run};
use crate::model;

/// An xorshift generator.
pub struct Random(u64);

impl Random {
    pub fn new(seed: u64) -> Random {
        let mut random = Random(seed.wrapping_mul(0x9e37_79b9_7f4a_7c15) | 1);
        for _ in 0..8 {
            random.next();
        }
        random
    }

    fn next(&mut self) -> u64 {
        self.0 ^= self.0 << 13;
        self.0 ^= self.0 >> 7;
        self.0 ^= self.0 << 17;
        self.0.wrapping_mul(0x2545_f491_4f6c_dd1d)
    }

    /// A number below `n`, which isn't 0.
    pub fn below(&mut self, n: usize) -> usize {
        ((self.next() >> 33) as usize) % n
    }

    /// True once in `n` times.
    fn once_in(&mut self, n: usize) -> bool {
        self.below(n) == 0
    }

    fn pick<T: Copy>(&mut self, from: &[T]) -> T {
        from[self.below(from.len())]
    }

    /// A value: mostly one that matters.
    fn value(&mut self) -> u32 {
        match self.below(12) {
            0 => self.next() as u32,
            1 => self.below(300) as u32,
            _ => self.pick(&[0, 0, 1, 1, 2, 3, 5, 1 << 31, u32::MAX, u32::MAX - 1]),
        }
    }
}

/// The next input.
pub fn input(random: &mut Random) -> Input {
    match random.below(100) {
        0..=21 => {
            let text = text(random);
            let room = text_room(random, &text);
            Input::Read { text, room }
        }
        22 => Input::Print { text: text(random) },
        23..=49 => {
            let model = model(random);
            let table = if random.once_in(3) { damaged(random, model) } else { thread(random, model) };
            let (nodes, edges) = rooms(random, model, &table);
            Input::Build { model, table, nodes, edges }
        }
        _ => Input::Run(Box::new(run(random))),
    }
}

fn model(random: &mut Random) -> u32 {
    match random.below(60) {
        0 => random.pick(&[2, 3, 256, 257, 1 << 31, u32::MAX]),
        n => n as u32 % 2,
    }
}

// Threads.

/// A thread that is accepted by 2 to 10 and has few nodes, mostly.
fn thread(random: &mut Random, model: u32) -> Vec<u32> {
    let variables: Vec<u32> = (0..1 + random.below(4)).map(|_| random.below(16) as u32).collect();
    let registers: Vec<u32> = (0..1 + random.below(4)).map(|_| random.below(16) as u32).collect();
    let lines = match random.below(20) {
        0..=8 => 1 + random.below(9),
        9..=17 => 6 + random.below(14),
        _ => 16 + random.below(49),
    };
    let mut stores = match random.below(12) {
        0..=4 => random.below(5),
        5..=9 => 2 + random.below(6),
        _ => 4 + random.below(13),
    };
    let mut table: Vec<u32> = Vec::new();
    for i in 0..lines {
        let last = i + 1 == lines;
        let mut line = [0; 5];
        line[0] = match random.below(40) {
            _ if last => random.pick(&[11, 11, 11, 10]),
            0..=2 => 0,
            3 => 1,
            4..=5 => 2,
            6..=7 => 3,
            8..=14 => 4,
            15..=20 if stores > 0 => 5,
            21..=27 if stores > 0 => 6,
            28..=29 => 7,
            30..=32 => 8,
            33..=36 => 9,
            37 => 10,
            38 if random.once_in(4) => 11,
            _ => 4,
        };
        if line[0] == 5 || line[0] == 6 {
            stores -= 1;
        }
        // Mostly forward, so that paths are long.
        let target = if random.once_in(3) { random.below(lines) } else { i + random.below(lines - i) } as u32;
        let used = uses(line[0]);
        for (field, used) in line[1..].iter_mut().zip(used) {
            *field = match used {
                b'r' => random.pick(&registers),
                b'x' => random.pick(&variables),
                b'v' => random.value(),
                b'l' => target,
                _ => 0,
            };
        }
        table.extend(line);
    }
    mended(random, model, table)
}

/// What the four fields of a kind are used for.
fn uses(kind: u32) -> [u8; 4] {
    *match kind {
        0 => b"rv--",
        1 => b"rr--",
        2 | 3 => b"rrr-",
        4 => b"rx--",
        5 => b"xr--",
        6 => b"xv--",
        8 => b"rxrr",
        9 => b"rl--",
        10 => b"l---",
        _ => b"----",
    }
}

/// Fences or loads in place of lines that make unfenced loops, and of stores that make too many nodes.
fn mended(random: &mut Random, model: u32, mut table: Vec<u32>) -> Vec<u32> {
    let model = model & 1;
    let most = match random.below(400) {
        0 => 1500,
        1..=9 => 500,
        _ => 150,
    };
    let lines = table.len() / 5;
    loop {
        match model::refusal(model, &table) {
            Some((10, place)) => {
                let place = place as usize;
                let behind = place + 1 + random.below(2);
                if behind + 1 < lines && random.once_in(2) {
                    table[5 * behind..5 * behind + 5].copy_from_slice(&[7, 0, 0, 0, 0]);
                } else {
                    let variable = table[5 * place + 1];
                    table[5 * place..5 * place + 5].copy_from_slice(&[4, 0, variable, 0, 0]);
                }
            }
            Some(_) => return table,
            None if model::counts(model, &table, most).is_some() => return table,
            None => {
                let Some(place) = (0..lines).rev().find(|i| (5..=6).contains(&table[5 * i])) else { return table };
                let variable = table[5 * place + 1];
                table[5 * place..5 * place + 5].copy_from_slice(&[4, 0, variable, 0, 0]);
            }
        }
    }
}

/// A table with something wrong, or nearly so.
fn damaged(random: &mut Random, model: u32) -> Vec<u32> {
    let mut table = thread(random, model);
    for _ in 0..1 + random.below(2) {
        let lines = table.len() / 5;
        match random.below(16) {
            0 => table.truncate(random.below(table.len() + 1)),
            1 => table.extend((0..1 + random.below(6)).map(|_| 0)),
            2 => {
                // About 64 lines.
                let line = [0, 1, 2, 0, 0];
                let numbers = random.pick(&[310, 315, 319, 320, 321, 322, 324, 325, 326, 330]);
                let end = if lines > 0 { table.split_off(5 * (lines - 1)) } else { vec![] };
                while table.len() + end.len() < numbers {
                    table.extend(line);
                }
                table.extend(end);
                if random.once_in(3) {
                    table.truncate(numbers);
                }
            }
            3 => {
                // About 16 stores.
                let end = if lines > 0 { table.split_off(5 * (lines - 1)) } else { vec![] };
                for _ in 0..14 + random.below(5) {
                    table.extend([6, random.below(2) as u32, 1, 0, 0]);
                }
                table.extend(end);
            }
            4 => return vec![],
            5..=7 if lines > 0 => {
                // A target near the line count.
                let i = random.below(lines);
                let target = (lines + 1 - random.below(3)) as u32;
                let line = if random.once_in(2) { [10, target, 0, 0, 0] } else { [9, 0, target, 0, 0] };
                table[5 * i..5 * i + 5].copy_from_slice(&line);
            }
            8 | 9 if lines > 0 => {
                // A last line that has no next.
                let kind = random.below(10) as u32;
                table[5 * lines - 5] = kind;
            }
            10 | 11 if lines > 2 => {
                // A way back.
                let i = 1 + random.below(lines - 1);
                let target = random.below(i) as u32;
                let line = if random.once_in(2) { [10, target, 0, 0, 0] } else { [9, 0, target, 0, 0] };
                table[5 * i..5 * i + 5].copy_from_slice(&line);
            }
            _ if !table.is_empty() => {
                let i = random.below(table.len());
                table[i] = random.pick(&[0, 1, 5, 6, 7, 9, 10, 11, 12, 13, 15, 16, 17, 63, 64, 255, 256, u32::MAX]);
            }
            _ => table.push(11),
        }
    }
    table
}

/// Node and edge room in numbers: ample, exact, one record short, with a part record, none.
fn rooms(random: &mut Random, model: u32, table: &[u32]) -> (usize, usize) {
    let known = if model::refusal(model, table).is_none() { model::counts(model, table, 1500) } else { None };
    let Some((n, e)) = known else { return (random.below(400), random.below(300)) };
    let (nodes, edges) = (18 * n, 7 * e);
    match random.below(16) {
        0..=3 => (nodes, edges),
        4..=6 => (nodes + random.below(18), edges + random.below(7)),
        7..=9 => (nodes + random.below(90), edges + random.below(70)),
        10 => (nodes - 1 - random.below(18), edges + random.below(9)),
        11 => (nodes + random.below(19), edges.saturating_sub(1 + random.below(7))),
        12 => (nodes - 1 - random.below(18), edges.saturating_sub(1 + random.below(7))),
        13 => (random.below(nodes + 1), random.below(edges + 1)),
        14 => (random.below(20), edges),
        _ => (nodes, random.below(9)),
    }
}

// Runs.

fn run(random: &mut Random) -> Run {
    let model = model(random);
    let threads = if random.once_in(25) {
        random.pick(&[0, 0, 5, 5, 6, 256, 257, 260, u32::MAX])
    } else {
        random.pick(&[1, 1, 1, 2, 2, 2, 3, 4])
    };
    let bad = random.once_in(12);
    let tight = random.once_in(10);
    let mut tables = [vec![], vec![], vec![], vec![]];
    let mut lent = [0; 8];
    for (t, table) in tables.iter_mut().enumerate() {
        let present = (t as u32) < threads;
        *table = match random.below(4) {
            0 | 1 if present && bad => damaged(random, model),
            0 | 1 if !present => damaged(random, model),
            2 if !present => vec![],
            _ => thread(random, model),
        };
        let (nodes, edges) = if !present {
            (random.below(40), random.below(20))
        } else if tight {
            rooms(random, model, table)
        } else {
            match model::counts(model & 1, table, 1500) {
                Some((n, e)) => (18 * n + random.below(40), 7 * e + random.below(20)),
                None => (random.below(400), random.below(200)),
            }
        };
        lent[2 * t] = nodes;
        lent[2 * t + 1] = edges;
    }
    let mut memory = [0; 16];
    memory.iter_mut().for_each(|value| *value = random.value());
    let mut registers = [0; 64];
    registers.iter_mut().for_each(|value| *value = random.value());
    let mut run = Run { model, threads, tables, rooms: lent, memory, registers, schedule: vec![] };
    run.schedule = schedule(random, &run);
    run
}

/// A schedule grown step by step, mostly of choices the threads have then; at the end perhaps an item they haven't got.
fn schedule(random: &mut Random, run: &Run) -> Vec<u32> {
    let tables = run.tables();
    let present = run.threads.min(4) as usize;
    let good = run.model < 2 && tables[..present].iter().all(|table| model::refusal(run.model, table).is_none());
    if present == 0 || !good {
        return (0..random.below(7)).map(|_| random.below(4) as u32).collect();
    }
    let mut machine = model::Buffered::new(run.model, &tables[..present], &run.memory, &run.registers);
    let items = match random.below(40) {
        0..=27 => random.below(30),
        28..=38 => 20 + random.below(120),
        _ => random.below(2500),
    };
    // How readily stores reach memory.
    let eager = random.pick(&[0, 0, 1, 1, 2, 4, 7]);
    let mut schedule = Vec::new();
    let mut stuck = None;
    for _ in 0..items {
        stuck = standing(random, &machine, present);
        if stuck.is_some() {
            break;
        }
        let choices: Vec<(u32, Vec<u32>)> =
            (0..present).map(|t| (t as u32, machine.possible(t))).filter(|(_, choices)| !choices.is_empty()).collect();
        if choices.is_empty() {
            break;
        }
        let (t, possible) = &choices[random.below(choices.len())];
        let choice = if possible[0] == 0 && random.below(8) >= eager { 0 } else { random.pick(possible) };
        machine.choose(*t as usize, choice);
        schedule.extend([*t, choice]);
    }
    match random.below(5) {
        0..=1 if stuck.is_none() => {}
        2 if stuck.is_none() => schedule.extend(random.pick(&[&[0][..], &[1], &[7], &[u32::MAX]])),
        _ => {
            let (t, choice) = stuck.unwrap_or_else(|| missing(random, &machine, present));
            schedule.extend([t, choice]);
            if random.once_in(2) {
                schedule.extend((0..random.below(6)).map(|_| random.below(3) as u32));
            }
        }
    }
    schedule
}

/// Now and then a step that a fence, a cas or an older store stands in the way of.
fn standing(random: &mut Random, machine: &model::Buffered, present: usize) -> Option<(u32, u32)> {
    let t = random.below(present);
    let waiting = machine.waiting(t);
    if waiting.is_empty() || !random.once_in(15) {
        return None;
    }
    let possible = machine.possible(t);
    let behind = waiting.iter().map(|x| 1 + x).find(|c| !possible.contains(c));
    let program = (!possible.contains(&0)).then_some(0);
    program.or(behind).map(|choice| (t as u32, choice))
}

/// An item that can't be done now, mostly.
fn missing(random: &mut Random, machine: &model::Buffered, present: usize) -> (u32, u32) {
    let t = random.below(present);
    let possible = machine.possible(t);
    let waiting = machine.waiting(t);
    let some = if possible.is_empty() { 0 } else { random.pick(&possible) };
    let thread = t as u32;
    match random.below(10) {
        0 => (random.pick(&[present as u32, 4, 5, thread + 4, thread + 256, thread + 65536, u32::MAX]), some),
        1 => (thread, some + random.pick(&[16, 17, 32, 256, 65536])),
        2 => (thread, random.pick(&[17, 18, 255, 256, 1 << 31, u32::MAX])),
        3..=4 if !waiting.is_empty() => (thread, 1 + random.pick(&waiting)),
        5..=6 if !possible.contains(&0) => (thread, 0),
        _ => (thread, random.below(17) as u32),
    }
}

// Texts.

fn text(random: &mut Random) -> Vec<u8> {
    let model = random.below(2) as u32;
    let table = if random.once_in(4) { damaged(random, model) } else { thread(random, model) };
    let mut text = format!("{}\n", ["tso", "pso"][model as usize]);
    for line in table.chunks_exact(5) {
        let kind = line[0] % 12;
        let names =
            ["set", "copy", "add", "sub", "load", "storer", "storec", "fence", "cas", "branch", "jump", "return"];
        text += names[kind as usize];
        for (field, used) in line[1..].iter().zip(uses(kind)) {
            if used != b'-' {
                text += &format!("\t{field}");
            }
        }
        text += "\n";
    }
    let mut text = text.into_bytes();
    if random.once_in(40) {
        // About 4,096 bytes.
        let end = 4094 + random.below(5);
        while text.len() + 20 < end {
            text.extend(random.pick(&[&b"fence\n"[..], b"return\n", b"jump\t0\n", b"cas\t1\t2\t3\t4\n"]));
        }
        while text.len() < end {
            let left = end - text.len();
            text.extend(if left % 7 == 0 || left > 13 { &b"return\n"[..] } else { b"fence\n" });
        }
    }
    if random.once_in(2) {
        for _ in 0..1 + random.below(2) {
            damage(random, &mut text);
        }
    }
    text
}

/// Changes a few bytes.
fn damage(random: &mut Random, text: &mut Vec<u8>) {
    if text.is_empty() {
        return;
    }
    let at = random.below(text.len());
    let odd = random.pick(b"\t\n \r0019+-x,s\0\xb2");
    let digit = (at..text.len()).find(|i| text[*i].is_ascii_digit());
    let feed = (at..text.len()).find(|i| text[*i] == b'\n').unwrap_or(text.len() - 1);
    let mut put = |at: usize, bytes: &[u8]| {
        text.splice(at..at, bytes.iter().copied());
    };
    match (random.below(16), digit) {
        (0, _) => text[at] = odd,
        (1, _) => put(at, &[odd]),
        (2, _) => {
            text.remove(at);
        }
        (3, _) => {
            text.pop();
        }
        (4, _) => put(feed, b"\t"),
        (5, _) => put(feed, b"\r"),
        (6, _) => put(feed, b"\t7"),
        (7, _) => put(feed, b"\n"),
        (8, _) => text.extend(random.pick(&[&b"return"[..], b"return\n", b"\n", b"x\n", b"tso\n"])),
        (9, Some(digit)) => put(digit, b"0"),
        (10..=14, Some(digit)) => {
            let large = random.pick(&[
                &b"4294967295"[..],
                b"4294967296",
                b"4294967301",
                b"9999999999",
                b"18446744073709551617",
                b"2147483648",
                b"",
                b"+1",
                b"-1",
                b"00",
                b"340282366920938463463374607431768211457",
            ]);
            let end = (digit..text.len()).find(|i| !text[*i].is_ascii_digit()).unwrap_or(text.len());
            text.splice(digit..end, large.iter().copied());
        }
        _ => text.truncate(at),
    }
}

/// Room of a lent table for a text: ample, exact, one line short, with a part line, none.
fn text_room(random: &mut Random, text: &[u8]) -> usize {
    let lines = text.iter().filter(|b| **b == b'\n').count().saturating_sub(1).min(70);
    match random.below(8) {
        0..=2 => 320,
        3 => 5 * lines,
        4 => (5 * lines).saturating_sub(1 + random.below(5)),
        5 => 5 * lines + random.below(11),
        6 => random.below(400),
        _ => random.below(6),
    }
}
