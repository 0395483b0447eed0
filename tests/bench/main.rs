// Blocks corrected in a second: the proved Reed-Solomon corrector beside the same equations in Rust, with the same tables.
use std::time::Instant;

extern "C" {
    fn link_reed_solomon_correct(q: u8, m: usize, k: *const u8, kn: usize, level: usize, b: *mut u8, bn: usize, s: *mut u8, sn: usize) -> u8;
}

const POWERS: [u8; 15] = [1, 2, 4, 8, 3, 6, 12, 11, 5, 10, 7, 14, 15, 13, 9];
const LOGS: [u8; 16] = [0, 0, 1, 4, 2, 8, 5, 10, 3, 14, 9, 7, 6, 13, 11, 12];

#[inline]
fn product(a: u8, b: u8) -> u8 {
    if a == 0 || b == 0 { 0 } else { POWERS[(LOGS[a as usize] + LOGS[b as usize]) as usize % 15] }
}

#[inline]
fn inverse(a: u8) -> u8 {
    POWERS[(15 - LOGS[a as usize]) as usize % 15]
}

// Gauss-Jordan elimination on `count` rows of w symbols, the last of each the right-hand side. Unknowns without a pivot are 0.
fn solve(rows: &mut [u8], count: usize, w: usize, xs: &mut [u8]) -> bool {
    let n = w - 1;
    let mut pivot_of = [usize::MAX; 32];
    let mut top = 0;
    for column in 0..n {
        if top == count {
            break;
        }
        let found = match (top..count).find(|r| rows[r * w + column] != 0) {
            Some(row) => row,
            None => continue,
        };
        if found != top {
            let (upper, lower) = rows.split_at_mut(found * w);
            upper[top * w..top * w + w].swap_with_slice(&mut lower[..w]);
        }
        let scale = inverse(rows[top * w + column]);
        let (upper, lower) = rows.split_at_mut((top + 1) * w);
        let pivot = &upper[top * w..];
        for row in lower.chunks_exact_mut(w) {
            let factor = product(row[column], scale);
            for c in column..w {
                row[c] ^= product(factor, pivot[c]);
            }
        }
        pivot_of[column] = top;
        top += 1;
    }
    if (top..count).any(|r| rows[r * w + n] != 0) {
        return false;
    }
    for column in (0..n).rev() {
        let row = pivot_of[column];
        xs[column] = 0;
        if row != usize::MAX {
            let mut sum = rows[row * w + n];
            for c in column + 1..n {
                sum ^= product(rows[row * w + c], xs[c]);
            }
            xs[column] = product(inverse(rows[row * w + column]), sum);
        }
    }
    true
}

fn value(coefficients: &[u8], x: u8) -> u8 {
    coefficients.iter().rev().fold(0, |value, c| c ^ product(x, value))
}

fn correct(block: &mut [u8], k: usize, scratch: &mut [u8]) -> bool {
    let m = block.len();
    let t = (m - k) / 2;
    let mut locator = [0; 32];
    let w = k + 2 * t + 1;
    if t > 0 {
        for (i, y) in block.iter().enumerate() {
            let row = &mut scratch[i * w..(i + 1) * w];
            let mut p = *y;
            for place in &mut row[..t] {
                *place = p;
                p = product(p, i as u8);
            }
            row[w - 1] = p;
            let mut p = 1;
            for place in &mut row[t..w - 1] {
                *place = p;
                p = product(p, i as u8);
            }
        }
        if !solve(&mut scratch[..m * w], m, w, &mut locator[..w - 1]) {
            return false;
        }
    }
    locator[t] = 1;
    let w = k + 1;
    for (i, y) in block.iter().enumerate() {
        let e = value(&locator[..t + 1], i as u8);
        let row = &mut scratch[i * w..(i + 1) * w];
        let mut p = e;
        for place in &mut row[..k] {
            *place = p;
            p = product(p, i as u8);
        }
        row[k] = product(e, *y);
    }
    let mut message = [0; 32];
    if !solve(&mut scratch[..m * w], m, w, &mut message[..k]) {
        return false;
    }
    let mut word = [0; 32];
    for (i, place) in word[..m].iter_mut().enumerate() {
        *place = value(&message[..k], i as u8);
    }
    if word[..m].iter().zip(block.iter()).filter(|(a, b)| a != b).count() > t {
        return false;
    }
    block.copy_from_slice(&word[..m]);
    true
}

// A message's word with some symbols in a row spoilt.
fn damaged(seed: usize, k: usize, errors: usize) -> [u8; 15] {
    let mut message = [0; 15];
    for (i, place) in message[..k].iter_mut().enumerate() {
        *place = ((seed * 7 + i * 5 + seed / 16) % 16) as u8;
    }
    let mut block = [0; 15];
    for (i, place) in block.iter_mut().enumerate() {
        *place = value(&message[..k], i as u8);
    }
    for i in 0..errors {
        block[(seed + i) % 15] ^= 1 + (seed % 15) as u8;
    }
    block
}

fn main() {
    let count = std::env::args().nth(1).and_then(|n| n.parse().ok()).unwrap_or(1_000_000 / 9);
    let sizes = [11u8, 9, 2];
    let mut scratch = vec![0; 4096];
    let (mut ours, mut theirs) = (0.0, 0.0);
    println!("GF(16), m = 15: {count} blocks of each line, blocks in a second");
    for (level, k) in sizes.iter().enumerate() {
        let t = (15 - *k as usize) / 2;
        for errors in [0, 1, t] {
            let blocks: Vec<[u8; 15]> = (0..count).map(|seed| damaged(seed, *k as usize, errors)).collect();
            let mut proved = blocks.clone();
            let start = Instant::now();
            for block in &mut proved {
                unsafe { link_reed_solomon_correct(16, 15, sizes.as_ptr(), 3, level + 1, block.as_mut_ptr(), 15, scratch.as_mut_ptr(), 4096) };
            }
            let a = start.elapsed().as_secs_f64();
            let mut rust = blocks.clone();
            let start = Instant::now();
            for block in &mut rust {
                correct(block, *k as usize, &mut scratch);
            }
            let b = start.elapsed().as_secs_f64();
            if proved != rust {
                println!("the two answer differently");
                std::process::exit(1);
            }
            println!("k {k} errors {errors}: proved {:.0}, Rust {:.0}, time ratio {:.2}", count as f64 / a, count as f64 / b, a / b);
            ours += a;
            theirs += b;
        }
    }
    println!("all: time ratio {:.2}", ours / theirs);
}
