//! The library's entries. A slice's pointer and length agree and an answer's
//! array is as long as the entry writes, so a call is safe for any bytes.

extern "C" {
    fn rhythm_check(text: *const u8, len: usize) -> u32;
    fn rhythm_work_cells(text: *const u8, len: usize) -> u64;
    fn rhythm_tree_bytes(text: *const u8, len: usize) -> u64;
    fn rhythm_onset_unit(text: *const u8, len: usize, i: usize) -> u32;
    fn rhythm_bar_line(text: *const u8, len: usize, i: usize) -> u32;
    fn rhythm_price(
        text: *const u8,
        text_len: usize,
        list: *const u8,
        list_len: usize,
        answer: *mut [u64; 6],
    );
    fn rhythm_write(
        text: *const u8,
        text_len: usize,
        list: *const u8,
        list_len: usize,
        score: *mut u8,
        score_len: usize,
        answer: *mut [u64; 3],
    );
    fn rhythm_find(
        text: *const u8,
        text_len: usize,
        tree: *mut u8,
        tree_len: usize,
        work: *mut u64,
        work_len: usize,
        answer: *mut [u64; 6],
    );
}

/// What an answer holds before the call, so that a cell left alone is seen.
const UNWRITTEN: u64 = u64::MAX;

/// Refusal number × 65,536 + line; 0 when accepted.
pub fn check(text: &[u8]) -> u32 {
    unsafe { rhythm_check(text.as_ptr(), text.len()) }
}

/// The work slice's required cells; 0 when refused.
pub fn work_cells(text: &[u8]) -> u64 {
    unsafe { rhythm_work_cells(text.as_ptr(), text.len()) }
}

/// The tree slice's required bytes; 0 when refused.
pub fn tree_bytes(text: &[u8]) -> u64 {
    unsafe { rhythm_tree_bytes(text.as_ptr(), text.len()) }
}

/// The unit of an onset, from 0; 0 past the last and when refused.
pub fn onset_unit(text: &[u8], i: usize) -> u32 {
    unsafe { rhythm_onset_unit(text.as_ptr(), text.len(), i) }
}

/// The moment of a bar line, from 0; 0 past the last and when refused.
pub fn bar_line(text: &[u8], i: usize) -> u32 {
    unsafe { rhythm_bar_line(text.as_ptr(), text.len(), i) }
}

/// Number, line, nodes, R, D and total.
pub fn price(text: &[u8], list: &[u8]) -> [u64; 6] {
    let mut answer = [UNWRITTEN; 6];
    unsafe {
        rhythm_price(
            text.as_ptr(),
            text.len(),
            list.as_ptr(),
            list.len(),
            &mut answer,
        );
    }
    answer
}

/// Number, line and byte count.
pub fn write(text: &[u8], list: &[u8], score: &mut [u8]) -> [u64; 3] {
    let mut answer = [UNWRITTEN; 3];
    unsafe {
        rhythm_write(
            text.as_ptr(),
            text.len(),
            list.as_ptr(),
            list.len(),
            score.as_mut_ptr(),
            score.len(),
            &mut answer,
        );
    }
    answer
}

/// Number, line, nodes, R, D and total.
pub fn find(text: &[u8], tree: &mut [u8], work: &mut [u64]) -> [u64; 6] {
    let mut answer = [UNWRITTEN; 6];
    unsafe {
        rhythm_find(
            text.as_ptr(),
            text.len(),
            tree.as_mut_ptr(),
            tree.len(),
            work.as_mut_ptr(),
            work.len(),
            &mut answer,
        );
    }
    answer
}
