//! The library's calls, as include/rights.h has them.

extern "C" {
    fn rights_read(file: *const u8, len: usize) -> u32;
    fn rights_read_bits(file: *const u8, len: usize, bits: *mut u64) -> u32;
    fn rights_write_back(file: *const u8, len: usize, out: *mut u8, out_len: usize, length: *mut usize) -> u32;
    fn rights_start(
        file: *const u8, len: usize, sessions: *mut u64, n: usize, items: *mut u64, m: usize,
        next_session: *mut u64, next_item: *mut u64,
    ) -> u32;
    fn rights_step(
        file: *const u8, len: usize, sessions: *mut u64, n: usize, items: *mut u64, m: usize,
        next_session: *mut u64, next_item: *mut u64, row: u64,
    ) -> u32;
    fn rights_steps(
        file: *const u8, len: usize, sessions: *mut u64, n: usize, items: *mut u64, m: usize,
        next_session: *mut u64, next_item: *mut u64, rows: *const u64, r: usize, done: *mut u64,
    ) -> u32;
    fn rights_replay(
        file: *const u8, len: usize, question: *const u8, qlen: usize, rows: *const u64, r: usize,
        sessions: *mut u64, n: usize, items: *mut u64, m: usize,
    ) -> u32;
    fn rights_analyse(
        file: *const u8, len: usize, question: *const u8, qlen: usize, rows: *mut u64, r: usize,
        verdict: *mut u64, pairs: *mut u64, values: *mut u64, row_count: *mut u64,
    ) -> u32;
}

/// Lent cells and the next numbers.
#[derive(Clone, PartialEq, Debug)]
pub struct Live {
    pub sessions: Vec<u64>,
    pub items: Vec<u64>,
    pub next: [u64; 2],
}

pub fn read(file: &[u8]) -> u32 {
    unsafe { rights_read(file.as_ptr(), file.len()) }
}

/// The number, and how many bits reading took.
pub fn read_bits(file: &[u8]) -> (u32, u64) {
    let mut bits = u64::MAX;
    let number = unsafe { rights_read_bits(file.as_ptr(), file.len(), &mut bits) };
    (number, bits)
}

/// The number and the length.
pub fn write_back(file: &[u8], out: &mut [u8]) -> (u32, usize) {
    let mut length = 77;
    let number = unsafe { rights_write_back(file.as_ptr(), file.len(), out.as_mut_ptr(), out.len(), &mut length) };
    (number, length)
}

pub fn start(file: &[u8], live: &mut Live) -> u32 {
    let [session, item] = &mut live.next;
    unsafe {
        rights_start(
            file.as_ptr(), file.len(), live.sessions.as_mut_ptr(), live.sessions.len(), live.items.as_mut_ptr(),
            live.items.len(), session, item,
        )
    }
}

pub fn step(file: &[u8], live: &mut Live, row: u64) -> u32 {
    let [session, item] = &mut live.next;
    unsafe {
        rights_step(
            file.as_ptr(), file.len(), live.sessions.as_mut_ptr(), live.sessions.len(), live.items.as_mut_ptr(),
            live.items.len(), session, item, row,
        )
    }
}

/// The number, and how many rows were carried out.
pub fn steps(file: &[u8], live: &mut Live, rows: &[u64]) -> (u32, u64) {
    let [session, item] = &mut live.next;
    let mut done = 77;
    let number = unsafe {
        rights_steps(
            file.as_ptr(), file.len(), live.sessions.as_mut_ptr(), live.sessions.len(), live.items.as_mut_ptr(),
            live.items.len(), session, item, rows.as_ptr(), rows.len(), &mut done,
        )
    };
    (number, done)
}

pub fn replay(file: &[u8], question: &[u8], rows: &[u64], sessions: &mut [u64], items: &mut [u64]) -> u32 {
    unsafe {
        rights_replay(
            file.as_ptr(), file.len(), question.as_ptr(), question.len(), rows.as_ptr(), rows.len(),
            sessions.as_mut_ptr(), sessions.len(), items.as_mut_ptr(), items.len(),
        )
    }
}

/// The verdicts; none where a number is given.
pub const NONE: u64 = 0;
pub const SAFE: u64 = 1;
pub const LEAK: u64 = 2;

/// What the analyser tells.
#[derive(Clone, Copy, PartialEq, Debug)]
pub struct Told {
    pub number: u32,
    pub verdict: u64,
    pub pairs: u64,
    pub values: u64,
    pub rows: u64,
}

pub fn analyse(file: &[u8], question: &[u8], rows: &mut [u64]) -> Told {
    let [mut verdict, mut pairs, mut values, mut count] = [77; 4];
    let number = unsafe {
        rights_analyse(
            file.as_ptr(), file.len(), question.as_ptr(), question.len(), rows.as_mut_ptr(), rows.len(),
            &mut verdict, &mut pairs, &mut values, &mut count,
        )
    };
    Told { number, verdict, pairs, values, rows: count }
}
