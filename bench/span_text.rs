//! A reader of the same text as the program bench_calls reads, line by line, in Rust with the C library's memchr.

use std::io::Read;

#[derive(Clone, Copy)]
#[allow(dead_code)]
struct Span {
    x: u32,
    z: u32,
    bottom: u32,
    top: u32,
    area: u32,
}

unsafe extern "C" {
    fn memchr(bytes: *const u8, byte: i32, len: usize) -> *const u8;
}

fn first_line(text: &[u8]) -> Option<(&[u8], &[u8])> {
    let found = unsafe { memchr(text.as_ptr(), b'\n' as i32, text.len()) };
    if found.is_null() {
        return None;
    }
    let end = found as usize - text.as_ptr() as usize;
    Some((&text[..end], &text[end + 1..]))
}

fn number_at(bytes: &[u8]) -> Option<(u32, &[u8])> {
    let mut number: u64 = 0;
    let mut len = 0;
    while len < bytes.len() && bytes[len].is_ascii_digit() {
        number = number * 10 + (bytes[len] - b'0') as u64;
        if number > u32::MAX as u64 {
            return None;
        }
        len += 1;
    }
    let (digits, rest) = bytes.split_at(len);
    if !(digits.len() == 1 || digits.len() > 1 && digits[0] > b'0') {
        return None;
    }
    Some((number as u32, rest))
}

fn numbers_of<const COUNT: usize>(word: &[u8], line: &[u8]) -> Option<[u32; COUNT]> {
    let mut rest = line.strip_prefix(word)?;
    let mut numbers = [0; COUNT];
    for number in &mut numbers {
        let (value, after) = number_at(rest.strip_prefix(b" ")?)?;
        *number = value;
        rest = after;
    }
    rest.is_empty().then_some(numbers)
}

/// The number of spans and lines, or the line and kind of the first fault.
fn read_field(text: &[u8]) -> Result<(Vec<Span>, u32), (u32, u32)> {
    let mut rest = text;
    let mut sizes = [0; 2];
    for line_number in 1..=7 {
        let (line, after) = first_line(rest).ok_or((line_number, 7))?;
        if line_number == 2 {
            sizes = numbers_of::<2>(b"size", line).ok_or((2, 1))?;
        }
        rest = after;
    }
    let mut spans: Vec<Span> = Vec::new();
    let mut costs = [1; 64];
    let mut before = 0;
    let mut count = 7;
    while let Some((line, after)) = first_line(rest) {
        count += 1;
        if let Some([x, z, bottom, top, area]) = numbers_of::<5>(b"span", line) {
            if spans.len() == 2000000 {
                return Err((count, 6));
            }
            if !(x < sizes[0] && z < sizes[1] && bottom < top && top <= 8191 && area <= 63) {
                return Err((count, 2));
            }
            if let Some(last) = spans.last() {
                if (z, x) < (last.z, last.x) {
                    return Err((count, 3));
                }
                if (z, x) == (last.z, last.x) && bottom < last.top {
                    return Err((count, 4));
                }
            }
            spans.push(Span { x, z, bottom, top, area });
        } else if line == b"end" {
            std::hint::black_box(&costs);
            return Ok((spans, count));
        } else if let Some([area, cost]) = numbers_of::<2>(b"cost", line) {
            if !spans.is_empty() || area <= before || area > 63 {
                return Err((count, 3));
            }
            costs[area as usize] = cost;
            before = area;
        } else {
            return Err((count, 1));
        }
        rest = after;
    }
    Err((count + 1, 7))
}

fn main() {
    let mut input = Vec::new();
    std::io::stdin().read_to_end(&mut input).unwrap();
    let (line, text) = first_line(&input).unwrap();
    let rounds = number_at(line.strip_prefix(b"text ").unwrap()).unwrap().0;
    let mut summary = (0, 0);
    for _ in 0..rounds {
        match read_field(std::hint::black_box(text)) {
            Ok((spans, lines)) => {
                std::hint::black_box(&spans);
                summary = (spans.len(), lines);
            }
            Err(fault) => println!("fault {} {}", fault.0, fault.1),
        }
    }
    println!("{} spans, {} lines", summary.0, summary.1);
}
