//! The library's functions as the benchmark calls them: nothing but the call.

mod c {
    extern "C" {
        pub fn nardiplex_read(text: *const u8, text_len: usize, table: *mut u32, table_len: usize, answer: *mut u64);
        pub fn nardiplex_build(
            model: u32,
            table: *const u32,
            table_len: usize,
            nodes: *mut u32,
            nodes_len: usize,
            edges: *mut u32,
            edges_len: usize,
            answer: *mut u64,
        );
    }
}

pub fn read(text: &[u8], table: &mut [u32]) -> [u64; 4] {
    let mut answer = [0; 4];
    // Every pointer goes to as many numbers as its length says; so below.
    unsafe { c::nardiplex_read(text.as_ptr(), text.len(), table.as_mut_ptr(), table.len(), answer.as_mut_ptr()) };
    answer
}

pub fn build(model: u32, table: &[u32], nodes: &mut [u32], edges: &mut [u32]) -> [u64; 4] {
    let mut answer = [0; 4];
    let (nodes_len, edges_len) = (nodes.len(), edges.len());
    let (nodes, edges) = (nodes.as_mut_ptr(), edges.as_mut_ptr());
    unsafe {
        c::nardiplex_build(model, table.as_ptr(), table.len(), nodes, nodes_len, edges, edges_len, answer.as_mut_ptr())
    };
    answer
}
