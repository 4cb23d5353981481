//! The library through its C interface. Lent tables are filled with junk first, and numbers before and behind each must
//! stay as they were.

use crate::input::{Given, Input, Run};

#[allow(clippy::too_many_arguments)]
mod c {
    extern "C" {
        pub fn nardiplex_read(text: *const u8, text_len: usize, table: *mut u32, table_len: usize, answer: *mut u64);
        pub fn nardiplex_build(
            model: u32,
            table: *const u32,
            table_len: usize,
            nodes: *mut u32,
            nodes_len: usize,
            edges: *mut u32,
            edges_len: usize,
            answer: *mut u64,
        );
        pub fn nardiplex_run_buffered(
            model: u32,
            threads: u32,
            t0: *const u32,
            t0_len: usize,
            t1: *const u32,
            t1_len: usize,
            t2: *const u32,
            t2_len: usize,
            t3: *const u32,
            t3_len: usize,
            memory: *const u32,
            registers: *const u32,
            schedule: *const u32,
            schedule_len: usize,
            state: *mut u32,
            answer: *mut u64,
        );
        pub fn nardiplex_run_generated(
            model: u32,
            threads: u32,
            t0: *const u32,
            t0_len: usize,
            t1: *const u32,
            t1_len: usize,
            t2: *const u32,
            t2_len: usize,
            t3: *const u32,
            t3_len: usize,
            n0: *mut u32,
            n0_len: usize,
            e0: *mut u32,
            e0_len: usize,
            n1: *mut u32,
            n1_len: usize,
            e1: *mut u32,
            e1_len: usize,
            n2: *mut u32,
            n2_len: usize,
            e2: *mut u32,
            e2_len: usize,
            n3: *mut u32,
            n3_len: usize,
            e3: *mut u32,
            e3_len: usize,
            memory: *const u32,
            registers: *const u32,
            schedule: *const u32,
            schedule_len: usize,
            state: *mut u32,
            answer: *mut u64,
        );
    }
}

/// Numbers before and behind a lent table.
const BESIDE: usize = 4;
const JUNK: u32 = 0xa5a5_5a5a;

/// A lent table full of junk.
struct Lent(Vec<u32>);

impl Lent {
    fn new(len: usize) -> Lent {
        Lent(vec![JUNK; len + 2 * BESIDE])
    }

    fn at(&mut self) -> *mut u32 {
        self.0[BESIDE..].as_mut_ptr()
    }

    /// The contents; all of it if something was written outside, so that the length tells.
    fn contents(mut self) -> Vec<u32> {
        let end = self.0.len() - BESIDE;
        let beside = self.0[..BESIDE].iter().chain(&self.0[end..]);
        if beside.into_iter().all(|n| *n == JUNK) {
            self.0.truncate(end);
            self.0.drain(..BESIDE);
        }
        self.0
    }
}

const NO_ANSWER: [u64; 4] = [u64::MAX; 4];

pub fn given(input: &Input) -> Vec<Given> {
    match input {
        Input::Read { text, room } => {
            let mut answer = NO_ANSWER;
            let mut table = Lent::new(*room);
            // Every pointer goes to as many numbers as its length says.
            unsafe { c::nardiplex_read(text.as_ptr(), text.len(), table.at(), *room, answer.as_mut_ptr()) };
            vec![Given { call: 'r', answer, tables: vec![table.contents()] }]
        }
        Input::Build { model, table, nodes, edges } => {
            let mut answer = NO_ANSWER;
            let (mut n, mut e) = (Lent::new(*nodes), Lent::new(*edges));
            unsafe {
                c::nardiplex_build(
                    *model,
                    table.as_ptr(),
                    table.len(),
                    n.at(),
                    *nodes,
                    e.at(),
                    *edges,
                    answer.as_mut_ptr(),
                )
            };
            vec![Given { call: 't', answer, tables: vec![n.contents(), e.contents()] }]
        }
        Input::Run(run) => vec![buffered(run), generated(run)],
        Input::Print { .. } => vec![],
    }
}

fn buffered(run: &Run) -> Given {
    let mut answer = NO_ANSWER;
    let mut state = Lent::new(216);
    let [t0, t1, t2, t3] = run.tables();
    unsafe {
        c::nardiplex_run_buffered(
            run.model,
            run.threads,
            t0.as_ptr(),
            t0.len(),
            t1.as_ptr(),
            t1.len(),
            t2.as_ptr(),
            t2.len(),
            t3.as_ptr(),
            t3.len(),
            run.memory.as_ptr(),
            run.registers.as_ptr(),
            run.schedule.as_ptr(),
            run.schedule.len(),
            state.at(),
            answer.as_mut_ptr(),
        )
    };
    Given { call: 'b', answer, tables: vec![state.contents()] }
}

fn generated(run: &Run) -> Given {
    let mut answer = NO_ANSWER;
    let mut state = Lent::new(216);
    let mut rooms = run.rooms.map(Lent::new);
    let [n0, e0, n1, e1, n2, e2, n3, e3] = &mut rooms;
    let [n0_len, e0_len, n1_len, e1_len, n2_len, e2_len, n3_len, e3_len] = run.rooms;
    let [t0, t1, t2, t3] = run.tables();
    unsafe {
        c::nardiplex_run_generated(
            run.model,
            run.threads,
            t0.as_ptr(),
            t0.len(),
            t1.as_ptr(),
            t1.len(),
            t2.as_ptr(),
            t2.len(),
            t3.as_ptr(),
            t3.len(),
            n0.at(),
            n0_len,
            e0.at(),
            e0_len,
            n1.at(),
            n1_len,
            e1.at(),
            e1_len,
            n2.at(),
            n2_len,
            e2.at(),
            e2_len,
            n3.at(),
            n3_len,
            e3.at(),
            e3_len,
            run.memory.as_ptr(),
            run.registers.as_ptr(),
            run.schedule.as_ptr(),
            run.schedule.len(),
            state.at(),
            answer.as_mut_ptr(),
        )
    };
    let tables = std::iter::once(state).chain(rooms).map(Lent::contents).collect();
    Given { call: 'g', answer, tables }
}
