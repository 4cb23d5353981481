//! Times the library against the plain baseline, on the same work in one run, and prints the tables of docs/BENCH.md.
//!
//!     bench [SECONDS]         about so many seconds for each row, 1 without the word
//!
//! A round is plain, library, plain: A B A. The ratio of a round is B against the mean of its two A's; its noise is the
//! second A against the first. A row has the medians of all rounds, and from where to where the middle eight tenths of them
//! go. Before a row is timed both sides must give the same answer and the same contents of all lent tables.
//! The baseline is a crate of its own, so that how it is compiled doesn't depend on this file.

mod library;
mod runs;

use std::hint::black_box;

pub const TSO: u32 = 0;
pub const PSO: u32 = 1;
const NODE: usize = 18;
const EDGE: usize = 7;
const JUNK: u32 = 0xa5a5_5a5a;

/// A piece of work that either side can do over and over, on tables of its own.
pub trait Work {
    /// Fills all lent tables with junk.
    fn spoil(&mut self);
    fn plain(&mut self) -> [u64; 4];
    fn library(&mut self) -> [u64; 4];
    /// What is left in the lent tables.
    fn left(&self) -> Vec<Vec<u32>>;
}

/// Medians and the middle eight tenths, over all rounds.
pub struct Row {
    /// Seconds for one call.
    pub plain: f64,
    pub library: f64,
    pub ratio: [f64; 3],
    pub noise: [f64; 3],
}

/// The tenth, the half and the nine tenths of what was measured.
fn spread(mut measured: Vec<f64>) -> [f64; 3] {
    measured.sort_by(f64::total_cmp);
    [1, 5, 9].map(|tenth| measured[(measured.len() - 1) * tenth / 10])
}

extern "C" {
    fn clock_gettime(clock: i32, time: *mut [i64; 2]) -> i32;
}

/// The processor time of this thread, in seconds: what others do on the machine counts for less than on a clock.
fn now() -> f64 {
    const THREAD_TIME: i32 = 3;
    let mut time = [0; 2];
    // On x86-64 Linux a time is two 64-bit numbers: seconds and nanoseconds.
    let status = unsafe { clock_gettime(THREAD_TIME, &mut time) };
    assert_eq!(status, 0);
    time[0] as f64 + time[1] as f64 / 1e9
}

fn seconds(calls: u32, mut call: impl FnMut() -> [u64; 4]) -> f64 {
    let start = now();
    for _ in 0..calls {
        black_box(call());
    }
    (now() - start) / f64::from(calls)
}

/// Both sides give the same, or the benchmark ends.
fn alike(name: &str, work: &mut dyn Work) -> [u64; 4] {
    work.spoil();
    let plain = (work.plain(), work.left());
    work.spoil();
    let library = (work.library(), work.left());
    if plain != library {
        println!("{name}: the two sides differ: plain {:?}, library {:?}", plain.0, library.0);
        std::process::exit(1);
    }
    plain.0
}

pub fn timed(name: &str, work: &mut dyn Work, budget: f64) -> (Row, [u64; 4]) {
    let answer = alike(name, work);
    let once = seconds(1, || work.plain()).max(1e-8);
    // A measurement takes half a millisecond or more, so that the clock doesn't count.
    let calls = (5e-4 / once).clamp(1.0, 1e5) as u32;
    let round = f64::from(calls) * (2.0 * once + seconds(1, || work.library()));
    let rounds = (budget / round).clamp(9.0, 401.0) as usize;
    let (mut plain, mut library, mut ratio, mut noise) = (vec![], vec![], vec![], vec![]);
    for _ in 0..rounds {
        let first = seconds(calls, || work.plain());
        let other = seconds(calls, || work.library());
        let second = seconds(calls, || work.plain());
        plain.extend([first, second]);
        library.push(other);
        ratio.push(2.0 * other / (first + second));
        noise.push(second / first);
    }
    let row = Row { plain: spread(plain)[1], library: spread(library)[1], ratio: spread(ratio), noise: spread(noise) };
    (row, answer)
}

/// A time in a unit that fits.
pub fn time(seconds: f64) -> String {
    match seconds {
        s if s < 1e-6 => format!("{:.0} ns", s * 1e9),
        s if s < 1e-3 => format!("{:.2} µs", s * 1e6),
        s => format!("{:.2} ms", s * 1e3),
    }
}

pub fn head(first: &str) {
    println!(
        "\n| {first} | plain | library | library / plain | of it eight tenths | plain / plain | of it eight tenths |"
    );
    println!("|---|---|---|---|---|---|---|");
}

pub fn shown(name: &str, row: &Row) {
    let [low, middle, high] = row.ratio;
    let [from, noise, to] = row.noise;
    println!(
        "| {name} | {} | {} | {middle:.2} | {low:.2} to {high:.2} | {noise:.2} | {from:.2} to {to:.2} |",
        time(row.plain),
        time(row.library)
    );
}

struct Read {
    text: Vec<u8>,
    table: Vec<u32>,
}

impl Work for Read {
    fn spoil(&mut self) {
        self.table.fill(JUNK);
    }
    fn plain(&mut self) -> [u64; 4] {
        plain::read(black_box(&self.text), &mut self.table)
    }
    fn library(&mut self) -> [u64; 4] {
        library::read(black_box(&self.text), &mut self.table)
    }
    fn left(&self) -> Vec<Vec<u32>> {
        vec![self.table.clone()]
    }
}

struct Build {
    model: u32,
    table: Vec<u32>,
    nodes: Vec<u32>,
    edges: Vec<u32>,
}

impl Build {
    fn new(model: u32, table: Vec<u32>, nodes: usize, edges: usize) -> Build {
        Build { model, table, nodes: vec![0; nodes * NODE], edges: vec![0; edges * EDGE] }
    }

    /// Room for just what the thread needs.
    fn fitting(model: u32, table: Vec<u32>) -> Build {
        let mut ample = Build::new(model, table, 4096, 4096 * 18);
        let [_, _, nodes, edges] = ample.plain();
        Build::new(model, ample.table, nodes as usize, edges as usize)
    }
}

impl Work for Build {
    fn spoil(&mut self) {
        self.nodes.fill(JUNK);
        self.edges.fill(JUNK);
    }
    fn plain(&mut self) -> [u64; 4] {
        plain::build(self.model, black_box(&self.table), &mut self.nodes, &mut self.edges)
    }
    fn library(&mut self) -> [u64; 4] {
        library::build(self.model, black_box(&self.table), &mut self.nodes, &mut self.edges)
    }
    fn left(&self) -> Vec<Vec<u32>> {
        vec![self.nodes.clone(), self.edges.clone()]
    }
}

/// A thread's text from lines parted by `;`, fields by blanks.
fn text(lines: &str) -> Vec<u8> {
    (lines.replace(' ', "\t").replace(';', "\n") + "\n").into_bytes()
}

/// A thread's table from lines parted by `;`, fields by blanks.
pub fn code(lines: &str) -> Vec<u32> {
    let mut table = vec![0; 320];
    let [number, _, _, count] = plain::read(&text(&format!("tso;{lines}")), &mut table);
    assert_eq!(number, 0, "{lines}");
    table.truncate(5 * count as usize);
    table
}

pub fn stores(count: usize) -> String {
    (0..count).map(|x| format!("storec {x} {};", x + 1)).collect()
}

const LOCK: &str =
    "set 1 0;set 2 1;cas 0 2 1 2;branch 0 5;jump 2;load 3 0;set 4 1;add 3 3 4;storer 0 3;fence;storec 2 0;return";

fn readers(budget: f64) {
    let long = format!("pso;{}return", "set 1 4294967295;add 2 3 4;cas 0 1 2 3;".repeat(21));
    let bad = format!("pso;{}return ", "set 1 4294967295;add 2 3 4;cas 0 1 2 3;".repeat(21));
    let rows = [
        ("the angle and the mark, 3 lines", text("pso;storec 0 7;storec 1 1;return")),
        ("the lock, 12 lines", text(&format!("tso;{LOCK}"))),
        ("64 lines", text(&long)),
        ("64 lines, the last one bad", text(&bad)),
        ("4,096 bytes of line feeds", vec![b'\n'; 4096]),
    ];
    head("reader");
    for (name, text) in rows {
        let mut work = Read { text, table: vec![0; 320] };
        shown(name, &timed(name, &mut work, budget).0);
    }
}

fn builders(budget: f64) {
    let sets = format!("{}return", "set 0 1;".repeat(63));
    let angle = "storec 0 7;storec 1 1;return";
    let rows = [
        ("the angle and the mark, PSO", Build::fitting(PSO, code(angle))),
        ("the same in room for 400 nodes and 900 edges", Build::new(PSO, code(angle), 400, 900)),
        ("the lock, TSO", Build::fitting(TSO, code(LOCK))),
        ("64 lines without a store", Build::fitting(TSO, code(&sets))),
        ("16 stores, TSO", Build::fitting(TSO, code(&format!("{}return", stores(16))))),
        (
            "16 stores and 44 more lines, TSO",
            Build::fitting(TSO, code(&format!("{}{}return", stores(16), "set 0 1;".repeat(44)))),
        ),
        ("refused: a loop without a fence", Build::new(TSO, code("load 0 1;storer 0 0;branch 0 0;return"), 400, 900)),
        (
            "refused: 12 stores, PSO, over 4,096 nodes",
            Build::new(PSO, code(&format!("{}return", stores(12))), 4096, 30000),
        ),
    ];
    head("builder");
    for (name, mut work) in rows {
        shown(name, &timed(name, &mut work, budget).0);
    }
}

/// How the builder's cost grows with the stores of a thread under PSO: the known nodes are searched from the first on.
fn growth(budget: f64) {
    head("builder, stores to as many variables, PSO");
    for count in 2..=11 {
        let mut work = Build::fitting(PSO, code(&format!("{}return", stores(count))));
        let (row, [_, _, nodes, edges]) = timed("stores", &mut work, budget);
        shown(&format!("{count} stores: {nodes} nodes, {edges} edges"), &row);
    }
}

fn main() {
    let budget = std::env::args().nth(1).map_or(1.0, |word| word.parse().expect("seconds"));
    readers(budget);
    builders(budget);
    growth(budget);
    runs::all(budget);
}
