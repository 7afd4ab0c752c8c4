//! What comes back from a call, and numbers in slices.

/// How many numbers an answer has: number, place and six values (BENCH_ANSWER of include/bench.h).
pub const ANSWER: usize = 8;

/// What a call returned, and every slice after it.
pub struct After {
    pub returned: bool,
    pub slices: Vec<Vec<u8>>,
}

pub fn to_numbers(bytes: &[u8]) -> Vec<i32> {
    let four = |chunk: &[u8]| i32::from_le_bytes([chunk[0], chunk[1], chunk[2], chunk[3]]);
    bytes.chunks_exact(4).map(four).collect()
}

pub fn to_bytes(numbers: &[i32]) -> Vec<u8> {
    numbers.iter().flat_map(|n| n.to_le_bytes()).collect()
}

/// The values of a call that was carried out.
pub fn values(answer: &[u8]) -> Option<[u64; 3]> {
    match to_answer(answer)[..] {
        [0, 0, first, second, third, 0, 0, 0] => Some([first, second, third]),
        _ => None,
    }
}

/// The numbers of an answer (as many as it has).
pub fn to_answer(bytes: &[u8]) -> Vec<u64> {
    let whole = |chunk: &[u8]| {
        chunk
            .iter()
            .rev()
            .fold(0, |n, &byte| n << 8 | u64::from(byte))
    };
    bytes.chunks_exact(8).map(whole).collect()
}
