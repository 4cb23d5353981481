//! The plain reader, builder and runs behind the C interface, so that the comparison can be tried on them.

mod plain;

use std::slice::{from_raw_parts, from_raw_parts_mut};

/// # Safety
/// Every pointer goes to as many numbers as its length says.
#[no_mangle]
pub unsafe extern "C" fn nardiplex_read(
    text: *const u8,
    text_len: usize,
    table: *mut u32,
    table_len: usize,
    answer: *mut [u64; 4],
) {
    *answer = plain::read(from_raw_parts(text, text_len), from_raw_parts_mut(table, table_len));
}

/// # Safety
/// Every pointer goes to as many numbers as its length says.
#[no_mangle]
pub unsafe extern "C" fn nardiplex_build(
    model: u32,
    table: *const u32,
    table_len: usize,
    nodes: *mut u32,
    nodes_len: usize,
    edges: *mut u32,
    edges_len: usize,
    answer: *mut [u64; 4],
) {
    let table = from_raw_parts(table, table_len);
    *answer = plain::build(model, table, from_raw_parts_mut(nodes, nodes_len), from_raw_parts_mut(edges, edges_len));
}

/// # Safety
/// Every pointer goes to as many numbers as its length says.
#[no_mangle]
pub unsafe extern "C" fn nardiplex_run_buffered(
    model: u32,
    threads: u32,
    t0: *const u32,
    t0_len: usize,
    t1: *const u32,
    t1_len: usize,
    t2: *const u32,
    t2_len: usize,
    t3: *const u32,
    t3_len: usize,
    memory: *const [u32; 16],
    registers: *const [u32; 64],
    schedule: *const u32,
    schedule_len: usize,
    state: *mut [u32; 216],
    answer: *mut [u64; 4],
) {
    let tables = [
        from_raw_parts(t0, t0_len),
        from_raw_parts(t1, t1_len),
        from_raw_parts(t2, t2_len),
        from_raw_parts(t3, t3_len),
    ];
    let schedule = from_raw_parts(schedule, schedule_len);
    *answer = plain::run_buffered(model, threads, tables, &*memory, &*registers, schedule, &mut *state);
}

/// # Safety
/// Every pointer goes to as many numbers as its length says.
#[no_mangle]
pub unsafe extern "C" fn nardiplex_run_generated(
    model: u32,
    threads: u32,
    t0: *const u32,
    t0_len: usize,
    t1: *const u32,
    t1_len: usize,
    t2: *const u32,
    t2_len: usize,
    t3: *const u32,
    t3_len: usize,
    n0: *mut u32,
    n0_len: usize,
    e0: *mut u32,
    e0_len: usize,
    n1: *mut u32,
    n1_len: usize,
    e1: *mut u32,
    e1_len: usize,
    n2: *mut u32,
    n2_len: usize,
    e2: *mut u32,
    e2_len: usize,
    n3: *mut u32,
    n3_len: usize,
    e3: *mut u32,
    e3_len: usize,
    memory: *const [u32; 16],
    registers: *const [u32; 64],
    schedule: *const u32,
    schedule_len: usize,
    state: *mut [u32; 216],
    answer: *mut [u64; 4],
) {
    let tables = [
        from_raw_parts(t0, t0_len),
        from_raw_parts(t1, t1_len),
        from_raw_parts(t2, t2_len),
        from_raw_parts(t3, t3_len),
    ];
    let mut rooms = [
        from_raw_parts_mut(n0, n0_len),
        from_raw_parts_mut(e0, e0_len),
        from_raw_parts_mut(n1, n1_len),
        from_raw_parts_mut(e1, e1_len),
        from_raw_parts_mut(n2, n2_len),
        from_raw_parts_mut(e2, e2_len),
        from_raw_parts_mut(n3, n3_len),
        from_raw_parts_mut(e3, e3_len),
    ];
    let schedule = from_raw_parts(schedule, schedule_len);
    *answer = plain::run_generated(model, threads, tables, &mut rooms, &*memory, &*registers, schedule, &mut *state);
}
