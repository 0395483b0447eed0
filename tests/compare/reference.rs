// An independent implementation of the fields and chains, to compare the proved one with.

pub struct Field {
    pub q: usize,
    add: Vec<u8>,
    mul: Vec<u8>,
}

impl Field {
    pub fn new(q: usize) -> Field {
        let mut f = Field { q, add: vec![0; q * q], mul: vec![0; q * q] };
        for a in 0..q {
            for b in 0..q {
                let (sum, product) = if q == 16 { (a ^ b, carryless(a, b)) } else { ((a + b) % q, a * b % q) };
                f.add[a * q + b] = sum as u8;
                f.mul[a * q + b] = product as u8;
            }
        }
        f
    }

    #[inline]
    pub fn sum(&self, a: u8, b: u8) -> u8 {
        self.add[a as usize * self.q + b as usize]
    }

    #[inline]
    pub fn product(&self, a: u8, b: u8) -> u8 {
        self.mul[a as usize * self.q + b as usize]
    }

    pub fn opposite(&self, a: u8) -> u8 {
        (0..self.q as u8).find(|b| self.sum(a, *b) == 0).unwrap()
    }

    pub fn inverse(&self, a: u8) -> u8 {
        (0..self.q as u8).find(|b| self.product(a, *b) == 1).unwrap()
    }
}

// The product of two polynomials over two elements, by Russian multiplication modulo x⁴ + x + 1.
fn carryless(mut a: usize, mut b: usize) -> usize {
    let mut product = 0;
    while b > 0 {
        if b & 1 == 1 {
            product ^= a;
        }
        a <<= 1;
        if a & 16 != 0 {
            a ^= 19;
        }
        b >>= 1;
    }
    product
}

pub fn distance(a: &[u8], b: &[u8]) -> usize {
    a.iter().zip(b).filter(|(x, y)| x != y).count()
}

#[derive(Clone, Copy, PartialEq, Debug)]
pub enum Chain {
    Plain,
    ReedSolomon,
}

// The flaw's number, or 0.
pub fn flaw(f: &Field, chain: Chain, m: usize, levels: &[u8]) -> u8 {
    let (least, most) = match chain {
        Chain::Plain => (2, 32),
        Chain::ReedSolomon => (1, f.q.min(32)),
    };
    if m < least || m > most {
        return 4;
    }
    if levels.is_empty() || levels.len() > 4 {
        return 5;
    }
    let fits = match chain {
        Chain::Plain => {
            let ones = (0..m).fold(0, |sum, _| f.sum(sum, 1));
            levels.iter().all(|k| *k <= 2)
                && levels.windows(2).all(|w| w[0] <= w[1])
                && !(levels.contains(&1) && levels.contains(&2) && ones != 0)
        }
        Chain::ReedSolomon => levels.iter().all(|k| *k >= 1 && *k as usize <= m) && levels.windows(2).all(|w| w[0] >= w[1]),
    };
    if fits { 0 } else { 6 }
}

pub fn size(chain: Chain, m: usize, number: u8) -> usize {
    match (chain, number) {
        (Chain::ReedSolomon, k) => k as usize,
        (Chain::Plain, 0) => m,
        (Chain::Plain, 1) => m - 1,
        (Chain::Plain, _) => 1,
    }
}

pub fn least_distance(chain: Chain, m: usize, number: u8) -> usize {
    match (chain, number) {
        (Chain::ReedSolomon, k) => m - k as usize + 1,
        (Chain::Plain, 0) => 1,
        (Chain::Plain, 1) => 2,
        (Chain::Plain, _) => m,
    }
}

pub fn encode(f: &Field, chain: Chain, m: usize, number: u8, message: &[u8]) -> Vec<u8> {
    match (chain, number) {
        (Chain::ReedSolomon, _) => (0..m as u8)
            .map(|x| message.iter().rev().fold(0, |value, c| f.sum(*c, f.product(x, value))))
            .collect(),
        (Chain::Plain, 0) => message.to_vec(),
        (Chain::Plain, 1) => {
            let mut word = message.to_vec();
            word.push(f.opposite(message.iter().fold(0, |sum, x| f.sum(sum, *x))));
            word
        }
        (Chain::Plain, _) => vec![message[0]; m],
    }
}

// The message whose word is within the radius, by trying all messages.
pub fn nearest_of_all(f: &Field, chain: Chain, m: usize, number: u8, radius: usize, block: &[u8]) -> Option<Vec<u8>> {
    let mut message = vec![0; size(chain, m, number)];
    loop {
        if distance(&encode(f, chain, m, number, &message), block) <= radius {
            return Some(message);
        }
        let mut place = 0;
        loop {
            if place == message.len() {
                return None;
            }
            message[place] += 1;
            if (message[place] as usize) < f.q {
                break;
            }
            message[place] = 0;
            place += 1;
        }
    }
}

// A solution of the equations, each a row of coefficients followed by the right-hand side.
pub fn solve(f: &Field, rows: &mut [Vec<u8>], unknowns: usize) -> Option<Vec<u8>> {
    let mut pivots = Vec::with_capacity(unknowns);
    let mut top = 0;
    for column in 0..unknowns {
        let found = match (top..rows.len()).find(|r| rows[*r][column] != 0) {
            Some(row) => row,
            None => continue,
        };
        rows.swap(top, found);
        let scale = f.inverse(rows[top][column]);
        for c in column..=unknowns {
            rows[top][c] = f.product(rows[top][c], scale);
        }
        for r in 0..rows.len() {
            if r != top && rows[r][column] != 0 {
                let factor = f.opposite(rows[r][column]);
                for c in column..=unknowns {
                    let subtracted = f.product(factor, rows[top][c]);
                    rows[r][c] = f.sum(rows[r][c], subtracted);
                }
            }
        }
        pivots.push(column);
        top += 1;
    }
    if rows[top..].iter().any(|row| row[unknowns] != 0) {
        return None;
    }
    let mut solution = vec![0; unknowns];
    for (row, column) in pivots.iter().enumerate() {
        solution[*column] = rows[row][unknowns];
    }
    Some(solution)
}

// The same equations as the proved corrector: a monic locator, then the message, then the distance.
pub fn correct_reed_solomon(f: &Field, m: usize, k: usize, block: &[u8]) -> Option<Vec<u8>> {
    let t = (m - k) / 2;
    let power = |x: u8, n: usize| (0..n).fold(1, |p, _| f.product(p, x));
    let mut rows: Vec<Vec<u8>> = (0..m)
        .map(|i| {
            let x = i as u8;
            let mut row: Vec<u8> = (0..t).map(|n| f.product(block[i], power(x, n))).collect();
            row.extend((0..k + t).map(|n| f.opposite(power(x, n))));
            row.push(f.opposite(f.product(block[i], power(x, t))));
            row
        })
        .collect();
    let found = solve(f, &mut rows, k + 2 * t)?;
    let mut rows: Vec<Vec<u8>> = (0..m)
        .map(|i| {
            let x = i as u8;
            let mut e = power(x, t);
            for n in 0..t {
                e = f.sum(e, f.product(found[n], power(x, n)));
            }
            let mut row: Vec<u8> = (0..k).map(|n| f.product(e, power(x, n))).collect();
            row.push(f.product(e, block[i]));
            row
        })
        .collect();
    let message = solve(f, &mut rows, k)?;
    let word = encode(f, Chain::ReedSolomon, m, k as u8, &message);
    if distance(&word, block) <= t { Some(word) } else { None }
}
