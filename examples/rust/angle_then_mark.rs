//! Builds the graph of a thread that stores an angle and then raises a mark, and runs it beside a thread that reads both:
//! under PSO the mark can reach memory while the angle still waits.

/// The library's functions, as include/nardiplex.h has them: a slice is a pointer and a length.
#[rustfmt::skip]
mod library {
    extern "C" {
        pub fn nardiplex_read(text: *const u8, text_len: usize, table: *mut u32, table_len: usize, answer: *mut u64);
        pub fn nardiplex_build(
            model: u32, table: *const u32, table_len: usize,
            nodes: *mut u32, nodes_len: usize, edges: *mut u32, edges_len: usize, answer: *mut u64,
        );
        pub fn nardiplex_run_buffered(
            model: u32, threads: u32,
            t0: *const u32, t0_len: usize, t1: *const u32, t1_len: usize,
            t2: *const u32, t2_len: usize, t3: *const u32, t3_len: usize,
            memory: *const u32, registers: *const u32, schedule: *const u32, schedule_len: usize,
            state: *mut u32, answer: *mut u64,
        );
        pub fn nardiplex_run_generated(
            model: u32, threads: u32,
            t0: *const u32, t0_len: usize, t1: *const u32, t1_len: usize,
            t2: *const u32, t2_len: usize, t3: *const u32, t3_len: usize,
            n0: *mut u32, n0_len: usize, e0: *mut u32, e0_len: usize,
            n1: *mut u32, n1_len: usize, e1: *mut u32, e1_len: usize,
            n2: *mut u32, n2_len: usize, e2: *mut u32, e2_len: usize,
            n3: *mut u32, n3_len: usize, e3: *mut u32, e3_len: usize,
            memory: *const u32, registers: *const u32, schedule: *const u32, schedule_len: usize,
            state: *mut u32, answer: *mut u64,
        );
    }
}

/// Number and place of a refusal.
type Refusal = (u64, u64);

/// The two numbers behind number and place, if there is no refusal.
fn accepted(answer: [u64; 4]) -> Result<(u64, u64), Refusal> {
    match answer {
        [0, _, third, fourth] => Ok((third, fourth)),
        [number, place, ..] => Err((number, place)),
    }
}

// The functions that a Rust program would call: references can't be null or overlap, and arrays have their size, so
// whatever the library asks of a caller holds. An empty slice has a pointer that isn't null.

/// The model and the table of a text.
fn read(text: &[u8]) -> Result<(u32, Vec<u32>), Refusal> {
    let mut answer = [0; 4];
    let mut table = vec![0; 320];
    unsafe { library::nardiplex_read(text.as_ptr(), text.len(), table.as_mut_ptr(), table.len(), answer.as_mut_ptr()) };
    let (model, lines) = accepted(answer)?;
    table.truncate(5 * lines as usize);
    Ok((model as u32, table))
}

/// How many nodes and edges are in the rooms.
fn build(model: u32, table: &[u32], nodes: &mut [u32], edges: &mut [u32]) -> Result<(u64, u64), Refusal> {
    let mut answer = [0; 4];
    let (nodes_len, edges_len) = (nodes.len(), edges.len());
    #[rustfmt::skip]
    unsafe {
        library::nardiplex_build(
            model, table.as_ptr(), table.len(), nodes.as_mut_ptr(), nodes_len, edges.as_mut_ptr(), edges_len,
            answer.as_mut_ptr(),
        )
    };
    accepted(answer)
}

/// What a run starts from.
struct Start<'a> {
    model: u32,
    threads: u32,
    tables: [&'a [u32]; 4],
    memory: [u32; 16],
    registers: [u32; 64],
    schedule: &'a [u32],
}

/// The end state and how many steps were done.
fn run_buffered(start: &Start) -> Result<([u32; 216], u64), Refusal> {
    let (mut answer, mut state) = ([0; 4], [0; 216]);
    let [t0, t1, t2, t3] = start.tables;
    #[rustfmt::skip]
    unsafe {
        library::nardiplex_run_buffered(
            start.model, start.threads,
            t0.as_ptr(), t0.len(), t1.as_ptr(), t1.len(), t2.as_ptr(), t2.len(), t3.as_ptr(), t3.len(),
            start.memory.as_ptr(), start.registers.as_ptr(), start.schedule.as_ptr(), start.schedule.len(),
            state.as_mut_ptr(), answer.as_mut_ptr(),
        )
    };
    Ok((state, accepted(answer)?.1))
}

/// The end state and how many steps were done; the graphs are in the rooms.
fn run_generated(start: &Start, rooms: &mut [Vec<u32>; 8]) -> Result<([u32; 216], u64), Refusal> {
    let (mut answer, mut state) = ([0; 4], [0; 216]);
    let [t0, t1, t2, t3] = start.tables;
    let [n0, e0, n1, e1, n2, e2, n3, e3] = rooms;
    #[rustfmt::skip]
    unsafe {
        library::nardiplex_run_generated(
            start.model, start.threads,
            t0.as_ptr(), t0.len(), t1.as_ptr(), t1.len(), t2.as_ptr(), t2.len(), t3.as_ptr(), t3.len(),
            n0.as_mut_ptr(), n0.len(), e0.as_mut_ptr(), e0.len(), n1.as_mut_ptr(), n1.len(), e1.as_mut_ptr(), e1.len(),
            n2.as_mut_ptr(), n2.len(), e2.as_mut_ptr(), e2.len(), n3.as_mut_ptr(), n3.len(), e3.as_mut_ptr(), e3.len(),
            start.memory.as_ptr(), start.registers.as_ptr(), start.schedule.as_ptr(), start.schedule.len(),
            state.as_mut_ptr(), answer.as_mut_ptr(),
        )
    };
    Ok((state, accepted(answer)?.1))
}

/// The end state in words; `of` says what the names of waiting values are.
fn show(run: &str, of: &str, (state, steps): &([u32; 216], u64)) {
    println!("{run} run: {steps} steps");
    println!("  in memory the angle is {} and the mark is {}", state[0], state[1]);
    for (t, thread) in state[16..].chunks(50).take(2).enumerate() {
        let (line, registers, count) = (thread[0], &thread[1..17], thread[17] as usize);
        let waiting = thread[34..34 + count].iter().zip(&thread[18..18 + count]);
        let waiting: String = waiting.map(|(value, name)| format!(", {value} {of} {name}")).collect();
        let [first, second] = [registers[0], registers[1]];
        println!(
            "  thread {t} stands at line {line}, register 0 is {first}, register 1 is {second}, {count} waiting{waiting}"
        );
    }
}

fn shown() -> Result<(), Refusal> {
    // examples/angle_then_mark.txt
    let (model, table) = read(b"pso\nstorec\t0\t7\nstorec\t1\t1\nreturn\n")?;
    println!("read: {}, {} lines", if model == 0 { "tso" } else { "pso" }, table.len() / 5);

    let room = || [vec![0; 400 * 18], vec![0; 900 * 7]];
    let [mut n0, mut e0] = room();
    let (nodes, edges) = build(model, &table, &mut n0, &mut e0)?;
    println!("graph: {nodes} nodes, {edges} edges");

    // The reader: the mark into register 0, then the angle into register 1.
    let reader = [4, 0, 1, 0, 0, 4, 1, 0, 0, 0, 11, 0, 0, 0, 0];
    // Thread 0 stores twice, its mark reaches memory, and thread 1 loads twice.
    let schedule = [0, 0, 0, 0, 0, 2, 1, 0, 1, 0];
    let start = Start {
        model,
        threads: 2,
        tables: [&table, &reader, &[], &[]],
        memory: [0; 16],
        registers: [0; 64],
        schedule: &schedule,
    };
    show("buffered", "for variable", &run_buffered(&start)?);
    let [n1, e1] = room();
    let mut rooms = [n0, e0, n1, e1, vec![], vec![], vec![], vec![]];
    show("generated", "of store line", &run_generated(&start, &mut rooms)?);
    Ok(())
}

fn main() {
    if let Err((number, place)) = shown() {
        println!("refused: number {number}, place {place}");
        std::process::exit(1);
    }
}
