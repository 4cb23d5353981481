//! The known answers of the paper, those that are proved among them, as inputs with what must be given.

use crate::fixed::code;
use crate::input::{Given, Input, Run};

/// What one call must give: its answer, and numbers at places of its lent tables (table, place, number).
pub struct Wanted {
    pub call: char,
    pub answer: [Option<u64>; 4],
    pub numbers: Vec<(usize, usize, u32)>,
}

/// A known answer: its name in the paper, the input, and what each call must give.
pub struct Known {
    pub name: String,
    pub input: Input,
    pub wanted: Vec<Wanted>,
}

impl Wanted {
    pub fn met(&self, given: &Given) -> bool {
        let same = |(wanted, given): (&Option<u64>, &u64)| wanted.is_none() || *wanted == Some(*given);
        let number = |(table, at, n): &(usize, usize, u32)| given.tables[*table][*at] == *n;
        self.call == given.call && self.answer.iter().zip(&given.answer).all(same) && self.numbers.iter().all(number)
    }
}

const TSO: u32 = 0;
const PSO: u32 = 1;

/// Room that is always enough: 4,096 nodes, and 18 edges for each.
const NODES: usize = 4096 * 18;
const EDGES: usize = 4096 * 18 * 7;

/// A graph with these counts, or a refusal with number and place.
enum Built {
    Graph(u64, u64),
    /// Counts that the paper doesn't give.
    Accepted,
    Refused(u64, u64),
}

fn built(name: &str, models: &[u32], lines: &str, built: &Built, numbers: &[(usize, usize, u32)]) -> Vec<Known> {
    let answer = match built {
        Built::Graph(nodes, edges) => [Some(0), Some(0), Some(*nodes), Some(*edges)],
        Built::Accepted => [Some(0), Some(0), None, None],
        Built::Refused(number, place) => [Some(*number), Some(*place), Some(0), Some(0)],
    };
    let known = |model: &u32| Known {
        name: format!("{name}, model {model}"),
        input: Input::Build { model: *model, table: code(lines), nodes: NODES, edges: EDGES },
        wanted: vec![Wanted { call: 't', answer, numbers: numbers.to_vec() }],
    };
    models.iter().map(known).collect()
}

/// Two threads, all zero at start. Both runs must give the answer and the numbers of the state.
fn run(name: &str, model: u32, lines: [&str; 2], schedule: &[u32], answer: [u64; 4], state: &[(usize, u32)]) -> Known {
    let numbers: Vec<(usize, usize, u32)> = state.iter().map(|(at, n)| (0, *at, *n)).collect();
    let wanted = |call| Wanted { call, answer: answer.map(Some), numbers: numbers.clone() };
    Known {
        name: format!("{name}, model {model}"),
        input: Input::Run(Box::new(Run {
            model,
            threads: 2,
            tables: [code(lines[0]), code(lines[1]), vec![], vec![]],
            rooms: [7200, 6300, 7200, 6300, 0, 0, 0, 0],
            memory: [0; 16],
            registers: [0; 64],
            schedule: schedule.to_vec(),
        })),
        wanted: vec![wanted('b'), wanted('g')],
    }
}

/// Where the state has register r of thread t: behind 16 numbers of memory, 50 a thread, each with its line first.
fn register(t: usize, r: usize) -> usize {
    16 + 50 * t + 1 + r
}

fn stores(count: usize) -> String {
    (0..count).map(|x| format!("storec {} 1;", x % 16)).collect()
}

fn runs() -> Vec<Known> {
    let sides = ["storec 0 1;load 0 1;return", "storec 1 1;load 0 0;return"];
    let passing = ["storec 0 7;storec 1 1;return", "load 0 1;load 1 0;return"];
    let turns = [0, 0, 1, 0, 0, 0, 1, 0];
    let mark_first = [0, 0, 0, 0, 0, 2, 1, 0, 1, 0];
    let zero = [(register(0, 0), 0), (register(1, 0), 0)];
    vec![
        run("P9", TSO, sides, &turns, [0, 0, 0, 4], &zero),
        run("P9", PSO, sides, &turns, [0, 0, 0, 4], &zero),
        run("P10", PSO, passing, &mark_first, [0, 0, 0, 5], &[(register(1, 0), 1), (register(1, 1), 0)]),
        run("P11", TSO, passing, &mark_first, [15, 2, 0, 2], &[]),
    ]
}

pub fn all() -> Vec<Known> {
    let both = [TSO, PSO];
    let one = |name, models: &[u32], lines: &str, as_: Built| built(name, models, lines, &as_, &[]);
    let eleven = stores(11);
    // Node 1's first edge record: from 1, operation 5 (take), register 0, line 0. Node 0 has one edge.
    let takes = [(1, 7, 1), (1, 7 + 2, 5), (1, 7 + 3, 0), (1, 7 + 4, 0)];
    let graphs = [
        one("P1", &both, "storec 0 1;load 0 1;return", Built::Graph(5, 5)),
        one("P2", &both, "storec 0 1;return", Built::Graph(3, 2)),
        one("P3", &[TSO], "storec 0 7;storec 1 1;return", Built::Graph(6, 6)),
        one("P4", &[PSO], "storec 0 7;storec 1 1;return", Built::Graph(7, 8)),
        built("P5", &both, "storec 0 1;load 0 0;return", &Built::Graph(5, 5), &takes),
        one("P6", &both, "storec 0 1;fence;jump 0", Built::Graph(4, 4)),
        one("P7", &both, "storec 0 1;jump 0", Built::Refused(10, 0)),
        one("P8", &[TSO], "storec 0 1;load 0 1;branch 0 1;return", Built::Graph(7, 10)),
        one("11 stores", &[PSO], &format!("{eleven}return"), Built::Graph(4095, 22528)),
        one("one set in front", &[PSO], &format!("set 0 1;{eleven}return"), Built::Graph(4096, 22529)),
        one("two sets in front", &[PSO], &format!("set 0 1;set 0 1;{eleven}return"), Built::Refused(12, 0)),
        one("64 lines", &both, &format!("{}return", "set 0 1;".repeat(63)), Built::Graph(64, 63)),
        one("65 lines", &both, &format!("{}return", "set 0 1;".repeat(64)), Built::Refused(4, 0)),
        one("16 store lines", &[TSO], &format!("{}return", stores(16)), Built::Accepted),
        // Check 7 is passed, and the graph is too large.
        one("16 store lines", &[PSO], &format!("{}return", stores(16)), Built::Refused(12, 0)),
        one("17 store lines", &both, &format!("{}return", stores(17)), Built::Refused(7, 16)),
    ];
    graphs.into_iter().flatten().chain(runs()).collect()
}
