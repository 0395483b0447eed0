// Random codes as a console script, with the output that an independent implementation expects of it.
use crate::reference::*;
use crate::Random;
use std::fmt::Write;

fn spaced(symbols: &[u8]) -> String {
    symbols.iter().map(|s| s.to_string()).collect::<Vec<_>>().join(" ")
}

// Whether the square matrix of some columns of the first rows has an inverse.
fn is_regular(f: &Field, rows: &[Vec<u8>], columns: &[usize]) -> bool {
    let n = columns.len();
    // The combinations of the rows that are 0 in the columns: only the one with all coefficients 0.
    let mut equations: Vec<Vec<u8>> = columns
        .iter()
        .map(|j| {
            let mut row: Vec<u8> = rows[..n].iter().map(|r| r[*j]).collect();
            row.push(0);
            row
        })
        .collect();
    for first in 0..n {
        // A solution whose unknown `first` is 1 would be such a combination.
        let mut with_one = equations.clone();
        let mut row = vec![0; n + 1];
        row[first] = 1;
        row[n] = 1;
        with_one.push(row);
        if solve(f, &mut with_one, n).is_some() {
            return false;
        }
    }
    equations.clear();
    true
}

fn is_nonsingular(f: &Field, rows: &[Vec<u8>], l: usize) -> bool {
    (1..1usize << l).all(|set| {
        let columns: Vec<usize> = (0..l).filter(|j| set >> j & 1 == 1).collect();
        columns.len() > rows.len() || is_regular(f, rows, &columns)
    })
}

struct Code<'a> {
    f: &'a Field,
    chain: Chain,
    m: usize,
    numbers: &'a [u8],
    l: usize,
    entries: &'a [u8],
}

impl Code<'_> {
    fn rows(&self) -> Vec<Vec<u8>> {
        self.entries.chunks(self.l).map(|row| row.to_vec()).collect()
    }

    fn flaw(&self) -> u8 {
        let chain = flaw(self.f, self.chain, self.m, self.numbers);
        let s = self.numbers.len();
        if chain != 0 {
            chain
        } else if self.l < s || self.l > 8 || self.entries.len() != s * self.l {
            7
        } else if self.entries.iter().any(|a| *a as usize >= self.f.q) {
            8
        } else if !is_nonsingular(self.f, &self.rows(), self.l) {
            9
        } else {
            0
        }
    }

    fn size(&self, i: usize) -> usize {
        size(self.chain, self.m, self.numbers[i])
    }

    fn k(&self) -> usize {
        (0..self.numbers.len()).map(|i| self.size(i)).sum()
    }

    fn d(&self) -> usize {
        (0..self.numbers.len()).map(|i| (self.l - i) * least_distance(self.chain, self.m, self.numbers[i])).min().unwrap()
    }

    fn choices(&self) -> usize {
        (0..self.numbers.len()).map(|i| self.l - i).product()
    }

    fn encode(&self, message: &[u8]) -> Vec<u8> {
        let rows = self.rows();
        let mut out = vec![0; self.m * self.l];
        let mut start = 0;
        for (i, number) in self.numbers.iter().enumerate() {
            let part = &message[start..start + self.size(i)];
            start += self.size(i);
            let word = encode(self.f, self.chain, self.m, *number, part);
            for j in 0..self.l {
                for x in 0..self.m {
                    let place = j * self.m + x;
                    out[place] = self.f.sum(out[place], self.f.product(rows[i][j], word[x]));
                }
            }
        }
        out
    }

    fn sheet(&self) -> String {
        let mut text = format!("field q {}\n", self.f.q);
        let chain = flaw(self.f, self.chain, self.m, self.numbers);
        if chain != 0 {
            writeln!(text, "chain flaw {chain} m 0 s 0").unwrap();
        } else {
            writeln!(text, "chain flaw 0 m {} s {}", self.m, self.numbers.len()).unwrap();
            for (i, number) in self.numbers.iter().enumerate() {
                let d = least_distance(self.chain, self.m, *number);
                writeln!(text, "level {} k {} d {d} t {}", i + 1, self.size(i), (d - 1) / 2).unwrap();
            }
        }
        let flaw = self.flaw();
        writeln!(text, "code flaw {flaw}").unwrap();
        if flaw == 0 {
            for row in self.rows() {
                writeln!(text, "row {}", spaced(&row)).unwrap();
            }
            let d = self.d();
            writeln!(text, "k {} n {} d {d} t {} choices {}", self.k(), self.m * self.l, (d - 1) / 2, self.choices()).unwrap();
        }
        text
    }
}

// A matrix of powers of different symbols, whose columns cannot be singular, or any entries.
fn entries(random: &mut Random, f: &Field, s: usize, l: usize) -> Vec<u8> {
    let wrong = match random.below(12) {
        0 => 1,
        _ => 0,
    };
    let count = s * l + wrong;
    match random.below(4) {
        0 => (0..count).map(|_| random.below(f.q + 1) as u8).collect(),
        1 => (0..count).map(|_| random.below(f.q) as u8).collect(),
        _ => {
            let shift = random.below(f.q);
            (0..count)
                .map(|at| {
                    let x = ((at % l.max(1)) + shift) % f.q;
                    (0..at / l.max(1)).fold(1, |p, _| f.product(p, x as u8))
                })
                .collect()
        }
    }
}

pub fn write(random: &mut Random, count: usize) -> (String, String, usize) {
    let mut script = String::new();
    let mut expected = String::new();
    let mut sound = 0;
    let fields = [Field::new(3), Field::new(7), Field::new(16), Field::new(17)];
    for _ in 0..count {
        let f = &fields[random.below(4)];
        let chain = if random.below(2) == 0 { Chain::Plain } else { Chain::ReedSolomon };
        let m = 1 + random.below(if chain == Chain::Plain { 12 } else { f.q });
        let numbers = crate::levels(random, chain, m);
        let l = if random.below(8) == 0 { random.below(10) } else { (numbers.len() + random.below(3)).min(8) };
        let entries = entries(random, f, numbers.len(), l);
        let code = Code { f, chain, m, numbers: &numbers, l, entries: &entries };
        let name = if chain == Chain::Plain { "plain" } else { "reed-solomon" };
        let mut say = |command: String, answer: String| {
            let command = command.trim_end().to_string();
            writeln!(script, "{command}").unwrap();
            write!(expected, "> {command}\n{answer}").unwrap();
        };
        say(format!("field {}", f.q), format!("field q {}\n", f.q));
        say(format!("{name} {m} {}", spaced(&numbers)), format!("chain flaw {}\n", flaw(f, chain, m, &numbers)));
        let flaw = code.flaw();
        say(format!("code {l} {}", spaced(&entries)), format!("code flaw {flaw}\n"));
        say("sheet".to_string(), code.sheet());
        if flaw != 0 {
            say("encode 0".to_string(), format!("refused {flaw}\n"));
        } else {
            sound += 1;
            let message = random.word(code.k(), f.q);
            say(format!("encode {}", spaced(&message)), format!("{}\n", spaced(&code.encode(&message))));
        }
    }
    (script, expected, sound)
}
