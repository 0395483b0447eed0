// Compares the proved chains with an independent implementation, on random chains, messages and damaged blocks.
mod codes;
mod reference;

use reference::*;

extern "C" {
    fn link_plain_encode(q: u8, m: usize, k: *const u8, kn: usize, level: usize, x: *const u8, xn: usize, out: *mut u8, on: usize) -> u8;
    fn link_plain_correct(q: u8, m: usize, k: *const u8, kn: usize, level: usize, b: *mut u8, bn: usize, s: *mut u8, sn: usize) -> u8;
    fn link_plain_strip(q: u8, m: usize, k: *const u8, kn: usize, level: usize, b: *const u8, bn: usize, out: *mut u8, on: usize) -> u8;
    fn link_reed_solomon_encode(q: u8, m: usize, k: *const u8, kn: usize, level: usize, x: *const u8, xn: usize, out: *mut u8, on: usize) -> u8;
    fn link_reed_solomon_correct(q: u8, m: usize, k: *const u8, kn: usize, level: usize, b: *mut u8, bn: usize, s: *mut u8, sn: usize) -> u8;
    fn link_reed_solomon_strip(q: u8, m: usize, k: *const u8, kn: usize, level: usize, b: *const u8, bn: usize, out: *mut u8, on: usize) -> u8;
}

struct Proved<'a> {
    chain: Chain,
    q: u8,
    m: usize,
    levels: &'a [u8],
}

impl Proved<'_> {
    fn encode(&self, level: usize, x: &[u8], out: &mut [u8]) -> u8 {
        let call = if self.chain == Chain::Plain { link_plain_encode } else { link_reed_solomon_encode };
        unsafe { call(self.q, self.m, self.levels.as_ptr(), self.levels.len(), level, x.as_ptr(), x.len(), out.as_mut_ptr(), out.len()) }
    }

    fn correct(&self, level: usize, block: &mut [u8], scratch: &mut [u8]) -> u8 {
        let call = if self.chain == Chain::Plain { link_plain_correct } else { link_reed_solomon_correct };
        unsafe { call(self.q, self.m, self.levels.as_ptr(), self.levels.len(), level, block.as_mut_ptr(), block.len(), scratch.as_mut_ptr(), scratch.len()) }
    }

    fn strip(&self, level: usize, block: &[u8], out: &mut [u8]) -> u8 {
        let call = if self.chain == Chain::Plain { link_plain_strip } else { link_reed_solomon_strip };
        unsafe { call(self.q, self.m, self.levels.as_ptr(), self.levels.len(), level, block.as_ptr(), block.len(), out.as_mut_ptr(), out.len()) }
    }
}

// A fixed sequence of numbers, the same at every run.
pub struct Random(u64);

impl Random {
    pub fn below(&mut self, n: usize) -> usize {
        self.0 ^= self.0 << 13;
        self.0 ^= self.0 >> 7;
        self.0 ^= self.0 << 17;
        (self.0 >> 11) as usize % n
    }

    pub fn word(&mut self, n: usize, q: usize) -> Vec<u8> {
        (0..n).map(|_| self.below(q) as u8).collect()
    }
}

fn check(good: bool, what: &str, q: u8, chain: Chain, m: usize, levels: &[u8]) {
    if !good {
        println!("{what} differs: {chain:?} over {q} symbols, m {m}, levels {levels:?}");
        std::process::exit(1);
    }
}

pub fn levels(random: &mut Random, chain: Chain, m: usize) -> Vec<u8> {
    let mut numbers: Vec<u8> = (0..random.below(6)).map(|_| random.below(if chain == Chain::Plain { 4 } else { m + 2 }) as u8).collect();
    // Mostly in the order that has no flaw.
    if random.below(4) > 0 {
        numbers.sort();
        if chain == Chain::ReedSolomon {
            numbers.reverse();
        }
    }
    numbers
}

fn one_chain(random: &mut Random, f: &Field, chain: Chain, m: usize, numbers: &[u8], blocks: usize) -> usize {
    let q = f.q as u8;
    let proved = Proved { chain, q, m, levels: numbers };
    let mut scratch = vec![0; 4096];
    let flaw = flaw(f, chain, m, numbers);
    if flaw != 0 {
        let mut block = random.word(m, f.q);
        let before = block.clone();
        check(proved.correct(1, &mut block, &mut scratch) == flaw && block == before, "flaw", q, chain, m, numbers);
        return 1;
    }
    for _ in 0..blocks {
        let at = random.below(numbers.len());
        let (number, level) = (numbers[at], at + 1);
        let k = size(chain, m, number);
        let d = least_distance(chain, m, number);
        let t = (d - 1) / 2;
        let message = random.word(k, f.q);
        let word = encode(f, chain, m, number, &message);
        let mut out = vec![0; m];
        check(proved.encode(level, &message, &mut out) == 0 && out == word, "encode", q, chain, m, numbers);
        // Damage from 0 to d places.
        let mut block = word.clone();
        for _ in 0..random.below(d + 1) {
            block[random.below(m)] = random.below(f.q) as u8;
        }
        let small = f.q.checked_pow(k as u32).map_or(false, |n| n <= 400);
        let want = if small {
            nearest_of_all(f, chain, m, number, t, &block).map(|x| encode(f, chain, m, number, &x))
        } else if chain == Chain::ReedSolomon {
            correct_reed_solomon(f, m, k, &block)
        } else {
            // The other large plain codes correct nothing.
            let x = &block[..k];
            let again = encode(f, chain, m, number, x);
            if again == block { Some(again) } else { None }
        };
        let mut kept = block.clone();
        let answer = proved.correct(level, &mut kept, &mut scratch);
        let (wanted, left) = match &want {
            Some(word) => (0, word.clone()),
            None => (3, block.clone()),
        };
        check(answer == wanted && kept == left, "correct", q, chain, m, numbers);
        let mut stripped = vec![7; k];
        let answer = proved.strip(level, &word, &mut stripped);
        check(answer == 0 && stripped == message, "strip", q, chain, m, numbers);
    }
    blocks
}

// With two file names: writes a script of random codes and what the console must print for it.
fn main() {
    let mut random = Random(0x9e37_79b9_7f4a_7c15);
    let files: Vec<String> = std::env::args().skip(1).collect();
    if let [script, expected] = &files[..] {
        let (text, output, sound) = codes::write(&mut random, 70_000);
        std::fs::write(script, text).unwrap();
        std::fs::write(expected, output).unwrap();
        println!("70000 codes, {sound} of them without a flaw");
        return;
    }
    let mut total = 0;
    for q in [3, 7, 16, 17] {
        let f = Field::new(q);
        for chain in [Chain::Plain, Chain::ReedSolomon] {
            let mut done = 0;
            while done < 100_000 {
                let m = 1 + random.below(if chain == Chain::Plain { 33 } else { q + 1 });
                let numbers = levels(&mut random, chain, m);
                done += one_chain(&mut random, &f, chain, m, &numbers, 200);
            }
            total += done;
        }
    }
    println!("{total} blocks agree");
}
