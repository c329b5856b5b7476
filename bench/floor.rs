//! What a fast loop takes for the bytes that it reads and writes, eight digits at a time.
//!
//!     floor read FILE      cuts the file into its numbers, and prints how many there are, and their sum
//!     floor write ROWS     writes so many rows of two nodes and a weight
//!
//! `floor.py` times both.

#![forbid(unsafe_code)]

use std::io::{self, Read, Write};
use std::{env, fs, process};

const PIECE: usize = 1 << 16;

const ZEROS: u64 = 0x3030_3030_3030_3030;
const HIGH_BITS: u64 = 0x8080_8080_8080_8080;

/// How many of eight bytes are digits, from the first on.
fn digits_ahead(bytes: u64) -> u32 {
    let values = bytes ^ ZEROS;
    let others = (values.wrapping_add(0x7676_7676_7676_7676) | values) & HIGH_BITS;
    others.trailing_zeros() / 8
}

/// The number of eight digits, the first in the lowest byte: pairs of digits, then of pairs.
fn number_of(digits: u64) -> u64 {
    let digits = digits & 0x0f0f_0f0f_0f0f_0f0f;
    let pairs = (digits.wrapping_mul(10 << 8 | 1) >> 8) & 0x00ff_00ff_00ff_00ff;
    let fours = (pairs.wrapping_mul(100 << 16 | 1) >> 16) & 0x0000_ffff_0000_ffff;
    fours.wrapping_mul(10_000 << 32 | 1) >> 32
}

/// The eight bytes from an index on, with blanks behind the end.
fn eight_at(text: &[u8], at: usize) -> u64 {
    let here = &text[at..];
    if let Some(eight) = here.first_chunk() {
        return u64::from_le_bytes(*eight);
    }
    let mut bytes = [b' '; 8];
    bytes[..here.len()].copy_from_slice(here);
    u64::from_le_bytes(bytes)
}

/// How many numbers a text has, whatever stands between them, and their sum: eight bytes at a time.
fn numbers_of(text: &[u8]) -> (u64, u64) {
    let (mut count, mut sum, mut at) = (0u64, 0u64, 0);
    while at < text.len() {
        let mut number: u64 = 0;
        let mut bytes = eight_at(text, at);
        let mut ahead = digits_ahead(bytes);
        if ahead == 0 {
            at += 1;
            continue;
        }
        while ahead == 8 {
            number = number.wrapping_mul(100_000_000).wrapping_add(number_of(bytes));
            at += 8;
            bytes = eight_at(text, at);
            ahead = digits_ahead(bytes);
        }
        if ahead > 0 {
            let last = number_of(bytes << (64 - 8 * ahead));
            number = number.wrapping_mul(10u64.pow(ahead)).wrapping_add(last);
        }
        (count, sum) = (count + 1, sum.wrapping_add(number));
        at += ahead as usize + 1;
    }
    (count, sum)
}

/// Cuts a file into its numbers, a piece that ends with a line at a time.
fn read_numbers(name: &str) -> io::Result<(u64, u64)> {
    let mut file = fs::File::open(name)?;
    let mut piece = vec![0; 2 * PIECE];
    let (mut count, mut sum, mut held) = (0, 0u64, 0);
    loop {
        let taken = file.read(&mut piece[held..])?;
        let end = held + taken;
        let cut = match piece[..end].iter().rposition(|&byte| byte == b'\n') {
            Some(line) if taken > 0 => line + 1,
            _ => end,
        };
        let (more, of_more) = numbers_of(&piece[..cut]);
        (count, sum) = (count + more, sum.wrapping_add(of_more));
        if taken == 0 {
            return Ok((count, sum));
        }
        piece.copy_within(cut..end, 0);
        held = end - cut;
    }
}

/// The digits of a number below 10^8, the first in the lowest byte, with zeros in front.
fn eight_digits(number: u32) -> u64 {
    let fours = u64::from(number / 10_000) | u64::from(number % 10_000) << 32;
    let hundreds = ((fours * 10_486) >> 20) & 0x7f_0000_007f;
    let pairs = hundreds | (fours - 100 * hundreds) << 16;
    let tens = ((pairs * 103) >> 10) & 0x000f_000f_000f_000f;
    tens | (pairs - 10 * tens) << 8
}

/// Appends the digits of a number below 10^8 and a byte.
fn put(out: &mut Vec<u8>, number: u32, end: u8) {
    let digits = eight_digits(number);
    let skipped = (digits.trailing_zeros() / 8).min(7) as usize;
    let start = out.len();
    let shifted = (digits | ZEROS) >> (8 * skipped);
    out.extend_from_slice(&shifted.to_le_bytes());
    out.truncate(start + 8 - skipped);
    out.push(end);
}

/// Rows of two nodes below 2^16 and a weight below 2^12.
fn write_rows(rows: u32) -> io::Result<()> {
    let mut out = Vec::with_capacity(PIECE + 64);
    let mut drawn: u32 = 1;
    for _ in 0..rows {
        drawn = drawn.wrapping_mul(1_664_525).wrapping_add(1_013_904_223);
        put(&mut out, drawn >> 16, b' ');
        put(&mut out, drawn & 0xffff, b' ');
        put(&mut out, drawn >> 20, b'\n');
        if out.len() >= PIECE {
            io::stdout().write_all(&out)?;
            out.clear();
        }
    }
    io::stdout().write_all(&out)
}

fn main() -> io::Result<()> {
    let words: Vec<String> = env::args().skip(1).collect();
    match words.iter().map(String::as_str).collect::<Vec<_>>()[..] {
        ["read", name] => {
            let (count, sum) = read_numbers(name)?;
            println!("{count} {sum}");
        }
        ["write", rows] => write_rows(rows.parse().unwrap_or(0))?,
        _ => process::exit(2),
    }
    Ok(())
}
