//! Times the gate against the same gate in plain Rust: the tables are read from crates/automata/src/tables.rt, so both walk
//! the same ones. Answers and marks are compared first.
//!
//!     (cd crates/gate_c && rt lib) && mkdir -p target && cp crates/gate_c/out/libgate_c.a target/libgate.a
//!     rustc -O -o target/gate_times tools/gate_times.rs -L target -l static=gate
//!     target/gate_times
use std::time::Instant;

#[repr(C)]
#[derive(Clone, Copy, PartialEq, Debug)]
struct Verdict {
    number: u32,
    address: u32,
}

unsafe extern "C" {
    fn gate_judge(image: *const u8, n: usize, base: u32, count: u32, starts: *mut u8, s: usize, targets: *mut u8, t: usize) -> Verdict;
}

fn ours(image: &[u8], base: u32, count: u32, starts: &mut [u8], targets: &mut [u8]) -> Verdict {
    unsafe { gate_judge(image.as_ptr(), image.len(), base, count, starts.as_mut_ptr(), starts.len(), targets.as_mut_ptr(), targets.len()) }
}

struct Tables {
    pair: Vec<[u8; 256]>,
    straight: Vec<[u8; 256]>,
    direct: Vec<[u8; 256]>,
}

/// Reads the rows of one table from the generated source.
fn table(source: &str, prefix: &str) -> Vec<[u8; 256]> {
    let mut rows = Vec::new();
    for part in source.split("const ").skip(1) {
        if !part.starts_with(&format!("{prefix}_")) {
            continue;
        }
        let value = part.split_once('=').unwrap().1;
        let mut row = [0u8; 256];
        if let Some(bytes) = value.split_once("*b\"") {
            let digits: Vec<u8> = bytes.1.split("\\x").skip(1).map(|d| u8::from_str_radix(&d[..2], 16).unwrap()).collect();
            row.copy_from_slice(&digits[..256]);
        } else {
            row = [value.trim().trim_start_matches('[').split(';').next().unwrap().trim().parse().unwrap(); 256];
        }
        rows.push(row);
    }
    rows
}

fn walk(table: &[[u8; 256]], code: &[u8], at: usize) -> Option<usize> {
    let mut state = 2usize;
    for i in at..code.len() {
        state = table[state][code[i] as usize] as usize;
        if state < 2 {
            return if state == 1 { Some(i + 1 - at) } else { None };
        }
    }
    None
}

fn mark(marks: &mut [u8], i: usize) {
    marks[i / 8] |= 1 << (i % 8);
}

fn plain(tables: &Tables, image: &[u8], base: u32, count: u32, starts: &mut [u8], targets: &mut [u8]) -> Verdict {
    let n = image.len();
    let no = |number: u32, address: usize| Verdict { number, address: address as u32 };
    if n == 0 || n > 65536 || n % 32 != 0 {
        return no(1, 0);
    }
    if starts.len() < n / 8 || targets.len() < n / 8 {
        return no(2, 0);
    }
    if count > 64 || (base as usize) < n || base % 32 != 0 || base as u64 + 32 * count as u64 > 1 << 32 {
        return no(3, 0);
    }
    starts[..n / 8].fill(0);
    targets[..n / 8].fill(0);
    let verdict = examine(tables, image, base, count, starts, targets);
    if verdict.number != 0 {
        starts[..n / 8].fill(0);
        targets[..n / 8].fill(0);
    }
    verdict
}

fn examine(tables: &Tables, image: &[u8], base: u32, count: u32, starts: &mut [u8], targets: &mut [u8]) -> Verdict {
    let n = image.len();
    let no = |number: u32, address: usize| Verdict { number, address: address as u32 };
    let mut at = 0;
    while at < n {
        mark(starts, at);
        if let Some(length) = walk(&tables.pair, image, at) {
            at += length;
        } else if let Some(length) = walk(&tables.straight, image, at) {
            at += length;
        } else if let Some(length) = walk(&tables.direct, image, at) {
            let end = at + length;
            let displacement = if length == 2 {
                image[end - 1] as i8 as i32 as u32
            } else {
                u32::from_le_bytes([image[end - 4], image[end - 3], image[end - 2], image[end - 1]])
            };
            let target = (end as u32).wrapping_add(displacement);
            if (target as usize) < n {
                mark(targets, target as usize);
            } else if target < base || (target - base) % 32 != 0 || (target - base) / 32 >= count {
                return no(5, at);
            }
            at = end;
        } else {
            return no(4, at);
        }
    }
    for i in 0..n / 8 {
        if i % 4 == 0 && starts[i] & 1 == 0 {
            return no(6, 8 * i);
        }
        let wrong = targets[i] & !starts[i];
        if wrong != 0 {
            return no(7, 8 * i + wrong.trailing_zeros() as usize);
        }
    }
    no(0, 0)
}

fn best(mut f: impl FnMut()) -> f64 {
    (0..400).map(|_| { let start = Instant::now(); f(); start.elapsed().as_secs_f64() }).fold(f64::MAX, f64::min)
}

fn main() {
    let source = std::fs::read_to_string("crates/automata/src/tables.rt").unwrap();
    let tables = Tables { pair: table(&source, "PAIR"), straight: table(&source, "STRAIGHT"), direct: table(&source, "DIRECT") };
    assert_eq!((tables.pair.len(), tables.straight.len(), tables.direct.len()), (28, 21, 8));
    let mut block = vec![0x83, 0xE0, 0xE0, 0xFF, 0xE0];
    block.resize(32, 0x90);
    for (name, image) in [("NOP", vec![0x90; 65536]), ("pair and 27 NOPs", block.repeat(2048)), ("EB 00", vec![0xEB, 0x00].repeat(32768))] {
        let (mut s1, mut t1, mut s2, mut t2) = (vec![0; 8192], vec![0; 8192], vec![0; 8192], vec![0; 8192]);
        let (a, b) = (ours(&image, 65536, 1, &mut s1, &mut t1), plain(&tables, &image, 65536, 1, &mut s2, &mut t2));
        assert_eq!((a, &s1, &t1), (b, &s2, &t2));
        assert_eq!(a.number, 0);
        let first = best(|| { s1.fill(0); t1.fill(0); std::hint::black_box(ours(std::hint::black_box(&image), 65536, 1, &mut s1, &mut t1)); });
        let second = best(|| { s2.fill(0); t2.fill(0); std::hint::black_box(plain(&tables, std::hint::black_box(&image), 65536, 1, &mut s2, &mut t2)); });
        println!("{name}: ours {:.0} us, plain Rust {:.0} us, ratio {:.2}", first * 1e6, second * 1e6, first / second);
    }
}
