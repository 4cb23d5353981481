//! The rows of the two runs: small ones, and how their cost grows with the schedule.

use crate::{code, head, shown, stores, time, timed, Work, JUNK, PSO, TSO};
use std::hint::black_box;

#[rustfmt::skip]
mod c {
    extern "C" {
        pub fn nardiplex_run_buffered(
            model: u32, threads: u32,
            t0: *const u32, t0_len: usize, t1: *const u32, t1_len: usize,
            t2: *const u32, t2_len: usize, t3: *const u32, t3_len: usize,
            memory: *const u32, registers: *const u32, schedule: *const u32, schedule_len: usize,
            state: *mut u32, answer: *mut u64,
        );
        pub fn nardiplex_run_generated(
            model: u32, threads: u32,
            t0: *const u32, t0_len: usize, t1: *const u32, t1_len: usize,
            t2: *const u32, t2_len: usize, t3: *const u32, t3_len: usize,
            n0: *mut u32, n0_len: usize, e0: *mut u32, e0_len: usize,
            n1: *mut u32, n1_len: usize, e1: *mut u32, e1_len: usize,
            n2: *mut u32, n2_len: usize, e2: *mut u32, e2_len: usize,
            n3: *mut u32, n3_len: usize, e3: *mut u32, e3_len: usize,
            memory: *const u32, registers: *const u32, schedule: *const u32, schedule_len: usize,
            state: *mut u32, answer: *mut u64,
        );
    }
}

/// Threads of one code, and what one run is given and lent.
struct Run {
    model: u32,
    threads: u32,
    table: Vec<u32>,
    schedule: Vec<u32>,
    memory: [u32; 16],
    registers: [u32; 64],
    rooms: [Vec<u32>; 8],
    state: [u32; 216],
}

impl Run {
    /// Rooms that just fit for the threads there are.
    fn new(model: u32, threads: u32, table: Vec<u32>, schedule: Vec<u32>) -> Run {
        let (mut nodes, mut edges) = (vec![0; 4096 * 18], vec![0; 4096 * 18 * 7]);
        let [number, _, node_count, edge_count] = plain::build(model, &table, &mut nodes, &mut edges);
        assert_eq!(number, 0);
        nodes.truncate(18 * node_count as usize);
        edges.truncate(7 * edge_count as usize);
        let room = |i: usize| match i {
            i if i as u32 / 2 >= threads => vec![],
            i if i % 2 == 0 => nodes.clone(),
            _ => edges.clone(),
        };
        let rooms = [0, 1, 2, 3, 4, 5, 6, 7].map(room);
        Run { model, threads, table, schedule, memory: [0; 16], registers: [0; 64], rooms, state: [0; 216] }
    }

    fn nodes(&self) -> usize {
        self.rooms[0].len() / 18
    }

    fn spoil(&mut self) {
        self.state.fill(JUNK);
        self.rooms.iter_mut().for_each(|room| room.fill(JUNK));
    }

    fn left(&self) -> Vec<Vec<u32>> {
        std::iter::once(self.state.to_vec()).chain(self.rooms.clone()).collect()
    }
}

struct Buffered(Run);

impl Work for Buffered {
    fn spoil(&mut self) {
        self.0.spoil();
    }
    fn plain(&mut self) -> [u64; 4] {
        let Run { model, threads, table, schedule, memory, registers, state, .. } = &mut self.0;
        plain::run_buffered(*model, *threads, [table; 4], memory, registers, black_box(schedule), state)
    }
    fn library(&mut self) -> [u64; 4] {
        let Run { model, threads, table, schedule, memory, registers, state, .. } = &mut self.0;
        let mut answer = [0; 4];
        let (t, n, schedule) = (table.as_ptr(), table.len(), black_box(schedule));
        let (m, r, s, k) = (memory.as_ptr(), registers.as_ptr(), schedule.as_ptr(), schedule.len());
        let (state, answer_at) = (state.as_mut_ptr(), answer.as_mut_ptr());
        // Every pointer goes to as many numbers as its length says; so below.
        unsafe { c::nardiplex_run_buffered(*model, *threads, t, n, t, n, t, n, t, n, m, r, s, k, state, answer_at) };
        answer
    }
    fn left(&self) -> Vec<Vec<u32>> {
        self.0.left()
    }
}

struct Generated(Run);

impl Work for Generated {
    fn spoil(&mut self) {
        self.0.spoil();
    }
    fn plain(&mut self) -> [u64; 4] {
        let Run { model, threads, table, schedule, memory, registers, rooms, state } = &mut self.0;
        let mut rooms = rooms.each_mut().map(Vec::as_mut_slice);
        plain::run_generated(*model, *threads, [table; 4], &mut rooms, memory, registers, black_box(schedule), state)
    }
    #[rustfmt::skip]
    fn library(&mut self) -> [u64; 4] {
        let Run { model, threads, table, schedule, memory, registers, rooms, state } = &mut self.0;
        let mut answer = [0; 4];
        let (t, n, schedule) = (table.as_ptr(), table.len(), black_box(schedule));
        let [n0, e0, n1, e1, n2, e2, n3, e3] = rooms.each_mut().map(|room| (room.as_mut_ptr(), room.len()));
        unsafe {
            c::nardiplex_run_generated(
                *model, *threads, t, n, t, n, t, n, t, n,
                n0.0, n0.1, e0.0, e0.1, n1.0, n1.1, e1.0, e1.1, n2.0, n2.1, e2.0, e2.1, n3.0, n3.1, e3.0, e3.1,
                memory.as_ptr(), registers.as_ptr(), schedule.as_ptr(), schedule.len(),
                state.as_mut_ptr(), answer.as_mut_ptr(),
            )
        };
        answer
    }
    fn left(&self) -> Vec<Vec<u32>> {
        self.0.left()
    }
}

/// A loop with so many stores, `sets` lines that do little, then a fence; and the choices of one turn. The sets stand behind
/// the stores, so that each of them is a node for each number of waiting stores.
fn looped(store_count: usize, sets: usize) -> (Vec<u32>, Vec<u32>) {
    let lines = format!("{}{}fence;jump 0", stores(store_count), "set 0 1;".repeat(sets));
    let mut turn = vec![0; store_count + sets];
    turn.extend((0..store_count).map(|x| 1 + x as u32));
    turn.extend([0, 0]);
    (code(&lines), turn)
}

/// So many items, thread after thread, each thread along its turns.
fn schedule(threads: u32, turn: &[u32], items: usize) -> Vec<u32> {
    let item = |i: usize| [i as u32 % threads, turn[i / threads as usize % turn.len()]];
    (0..items).flat_map(item).collect()
}

/// Times both runs for growing schedules, then says what an item more costs.
fn grown(name: &str, model: u32, threads: u32, (table, turn): (Vec<u32>, Vec<u32>), budget: f64) {
    let lengths = [10, 100, 1000, 10_000, 100_000, 1_000_000];
    for kind in ["buffered", "generated"] {
        let mut rows = vec![];
        let nodes = Run::new(model, threads, table.clone(), vec![]).nodes();
        head(&format!("{kind} run, {name}, {nodes} nodes a thread"));
        for items in lengths {
            let run = Run::new(model, threads, table.clone(), schedule(threads, &turn, items));
            let (row, answer) = if kind == "buffered" {
                timed(name, &mut Buffered(run), budget)
            } else {
                timed(name, &mut Generated(run), budget)
            };
            assert_eq!(answer, [0, 0, 0, items as u64], "{name}");
            shown(&format!("{items} items"), &row);
            rows.push(row);
        }
        let more = (lengths[5] - lengths[4]) as f64;
        let each = |a: f64, b: f64| time((b - a) / more);
        let (plain, library) = (each(rows[4].plain, rows[5].plain), each(rows[4].library, rows[5].library));
        println!("\nAn item more costs {plain} in plain Rust, {library} in the library.");
    }
}

pub fn all(budget: f64) {
    grown("TSO, a small loop, 2 threads", TSO, 2, looped(1, 0), budget);
    grown("PSO, a small loop, 2 threads", PSO, 2, looped(2, 0), budget);
    grown("TSO, 16 stores and 44 more lines, 2 threads", TSO, 2, looped(16, 44), budget);
    grown("PSO, 11 stores, 1 thread", PSO, 1, looped(11, 0), budget);
}
