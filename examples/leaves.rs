//! Finds the first least tree of a sheet and prints its leaves: bar, place and length in units, n (4 is a rest), and the pitches placed
//! there.
use std::{error::Error, fs::File, io::Read, io::Write, num::ParseIntError, process::exit};

extern "C" {
    fn rhythm_tree_bytes(text: *const u8, length: usize) -> u64;
    fn rhythm_work_cells(text: *const u8, length: usize) -> u64;
    fn rhythm_find(text: *const u8, length: usize, tree: *mut u8, bytes: usize, work: *mut u64, cells: usize, answer: *mut [u64; 6]);
    fn rhythm_write(text: *const u8, length: usize, list: *const u8, nodes: usize, score: *mut u8, room: usize, answer: *mut [u64; 3]);
}

/// What is printed of a text, and the status: 1 for a refusal.
fn leaves(text: &[u8]) -> Result<(String, i32), Box<dyn Error>> {
    let (start, length) = (text.as_ptr(), text.len()); // of a refused text both lengths below are 0, and finding says why
    let mut tree = vec![0u8; unsafe { rhythm_tree_bytes(start, length) } as usize];
    let mut work = vec![0u64; unsafe { rhythm_work_cells(start, length) } as usize];
    let (mut found, mut written, mut score) = ([0; 6], [0; 3], vec![0u8; 780_533]); // no score has more bytes
    unsafe { rhythm_find(start, length, tree.as_mut_ptr(), tree.len(), work.as_mut_ptr(), work.len(), &mut found) };
    let [number, line, nodes, weight, distance, total] = found;
    if number != 0 { return Ok((format!("refusal {number}, line {line}\n"), 1)); }
    unsafe { rhythm_write(start, length, tree.as_ptr(), nodes as usize, score.as_mut_ptr(), score.len(), &mut written) };
    if written[0] != 0 { return Err("the score was refused".into()); }
    let mut page = format!("total {total}, R {weight}, D {distance}\n");
    for leaf in std::str::from_utf8(&score[..written[2] as usize])?.lines().skip(1) {
        let field = |from: usize, digits: usize| -> Result<u32, ParseIntError> { u32::from_str_radix(&leaf[from..from + digits], 16) };
        let (left, units, n, placed) = (field(2, 8)?, field(10, 4)?, field(14, 2)?, field(16, 2)? as usize);
        let pitches: Result<Vec<_>, _> = (0..placed).map(|i| field(18 + 2 * i, 2).map(|pitch| format!(" {pitch}"))).collect();
        page += &format!("bar {}, unit {}, length {units}, n {n}:{}\n", left / 20160 + 1, left % 20160, pitches?.concat());
    }
    Ok((page, 0))
}

fn run() -> Result<i32, Box<dyn Error>> {
    let mut text = Vec::new(); // one byte more than a sheet may have shows a longer text
    File::open(std::env::args().nth(1).ok_or("usage: leaves SHEET")?)?.take(16385).read_to_end(&mut text)?;
    let (page, status) = leaves(&text)?;
    std::io::stdout().write_all(page.as_bytes())?;
    Ok(status)
}

fn main() { exit(run().unwrap_or_else(|why| { eprintln!("leaves: {why}"); 2 })) }
