//! An input of the comparison: what is called with what. It can be written and read back, so that a difference can be
//! looked at again.

use crate::model;
use std::collections::HashMap;

/// The thread tables, the start and the schedule of one run; `rooms` are those of the generated run.
#[derive(Clone)]
pub struct Run {
    pub model: u32,
    pub threads: u32,
    pub tables: [Vec<u32>; 4],
    pub rooms: [usize; 8],
    pub memory: [u32; 16],
    pub registers: [u32; 64],
    pub schedule: Vec<u32>,
}

#[derive(Clone)]
pub enum Input {
    Read {
        text: Vec<u8>,
        room: usize,
    },
    Build {
        model: u32,
        table: Vec<u32>,
        nodes: usize,
        edges: usize,
    },
    /// Both runs.
    Run(Box<Run>),
    Print {
        text: Vec<u8>,
    },
}

/// What one call gave: r read, t build, b buffered run, g generated run, p print. A printed text has no answer.
#[derive(Clone, PartialEq, Debug)]
pub struct Given {
    pub call: char,
    pub answer: [u64; 4],
    pub tables: Vec<Vec<u32>>,
}

impl Given {
    pub fn printed(text: &[u8]) -> Given {
        Given { call: 'p', answer: [0; 4], tables: vec![text.iter().map(|b| u32::from(*b)).collect()] }
    }

    /// A short mark of everything given.
    pub fn mark(&self) -> u64 {
        let mut mark = 0x9e37_79b9_7f4a_7c15u64;
        let mut mix = |n: u64| mark = (mark ^ n).wrapping_mul(0x2545_f491_4f6c_dd1d).rotate_left(29);
        self.answer.iter().for_each(|n| mix(*n));
        for table in &self.tables {
            mix(table.len() as u64);
            table.iter().for_each(|n| mix(u64::from(*n)));
        }
        mark
    }
}

impl Run {
    pub fn tables(&self) -> [&[u32]; 4] {
        [&self.tables[0], &self.tables[1], &self.tables[2], &self.tables[3]]
    }
}

/// What the model gives.
pub fn by_model(input: &Input) -> Vec<Given> {
    match input {
        Input::Read { text, room } => {
            let (answer, table) = model::read(text, *room);
            vec![Given { call: 'r', answer, tables: vec![table] }]
        }
        Input::Build { model, table, nodes, edges } => {
            let (answer, nodes, edges) = model::build(*model, table, *nodes, *edges);
            vec![Given { call: 't', answer, tables: vec![nodes, edges] }]
        }
        Input::Run(run) => {
            let Run { model, threads, rooms, memory, registers, schedule, .. } = &**run;
            let (answer, state) = model::run_buffered(*model, *threads, run.tables(), memory, registers, schedule);
            let buffered = Given { call: 'b', answer, tables: vec![state.to_vec()] };
            let (answer, state, left) =
                model::run_generated(*model, *threads, run.tables(), *rooms, memory, registers, schedule);
            let tables = std::iter::once(state.to_vec()).chain(left).collect();
            vec![buffered, Given { call: 'g', answer, tables }]
        }
        Input::Print { text } => vec![Given::printed(&model::print(text))],
    }
}

fn joined<T: ToString>(numbers: &[T]) -> String {
    numbers.iter().map(|n| format!(" {}", n.to_string())).collect()
}

/// The written form: one field a line, texts as the numbers of their bytes.
pub fn written(input: &Input) -> String {
    match input {
        Input::Read { text, room } => format!("call read\nroom {room}\ntext{}\n", joined(text)),
        Input::Print { text } => format!("call print\ntext{}\n", joined(text)),
        Input::Build { model, table, nodes, edges } => {
            format!("call build\nmodel {model}\ntable 0{}\nrooms {nodes} {edges}\n", joined(table))
        }
        Input::Run(run) => {
            let mut form = format!("call run\nmodel {}\nthreads {}\n", run.model, run.threads);
            for (t, table) in run.tables.iter().enumerate() {
                form += &format!("table {t}{}\n", joined(table));
            }
            form += &format!("memory{}\n", joined(&run.memory));
            for (t, registers) in run.registers.chunks(16).enumerate() {
                form += &format!("registers {t}{}\n", joined(registers));
            }
            form + &format!("rooms{}\nschedule{}\n", joined(&run.rooms), joined(&run.schedule))
        }
    }
}

/// Reads the written form back.
pub fn parsed(form: &str) -> Option<Input> {
    let mut fields: HashMap<String, Vec<u32>> = HashMap::new();
    let mut call = "";
    for line in form.lines() {
        let mut words = line.split_whitespace();
        let Some(name) = words.next() else { continue };
        let mut name = name.to_string();
        match name.as_str() {
            "call" => call = words.next()?,
            "table" | "registers" => name += words.next()?,
            "model" | "threads" | "memory" | "rooms" | "schedule" | "room" | "text" => {}
            _ => continue,
        }
        fields.insert(name, words.map(|word| word.parse().ok()).collect::<Option<_>>()?);
    }
    let get = |name: &str| fields.get(name).cloned();
    let first = |name: &str| get(name)?.first().copied();
    let lens = |name: &str| Some(get(name)?.iter().map(|n| *n as usize).collect::<Vec<usize>>());
    let text = || Some(get("text")?.iter().map(|b| *b as u8).collect::<Vec<u8>>());
    match call {
        "read" => Some(Input::Read { text: text()?, room: first("room")? as usize }),
        "print" => Some(Input::Print { text: text()? }),
        "build" => {
            let [nodes, edges] = lens("rooms")?.try_into().ok()?;
            Some(Input::Build { model: first("model")?, table: get("table0")?, nodes, edges })
        }
        "run" => {
            let registers: Option<Vec<Vec<u32>>> = (0..4).map(|t| get(&format!("registers{t}"))).collect();
            Some(Input::Run(Box::new(Run {
                model: first("model")?,
                threads: first("threads")?,
                tables: [get("table0")?, get("table1")?, get("table2")?, get("table3")?],
                rooms: lens("rooms")?.try_into().ok()?,
                memory: get("memory")?.try_into().ok()?,
                registers: registers?.concat().try_into().ok()?,
                schedule: get("schedule")?,
            })))
        }
        _ => None,
    }
}
