//! What a record stands for: the generator, encodings, messages, and the words of the code.
use super::field::{is_prime, Field};

fn gcd(a: usize, b: usize) -> usize {
    if b == 0 {
        a
    } else {
        gcd(b, a % b)
    }
}

/// Lemma 2's shifts: of each n/g places the first k/g, where g = gcd(k, n).
fn even_shifts(n: usize, k: usize) -> Vec<u8> {
    let g = gcd(k, n);
    let shifts: Vec<u8> = (0..n)
        .filter(|place| place % (n / g) < k / g)
        .map(|place| place as u8)
        .collect();
    assert_eq!(shifts.len(), k);
    shifts
}

/// Rows of n−k+1 nodes laid end to end: each begins where the last one ended, and one node further if a row began there.
fn laid_shifts(n: usize, k: usize) -> Vec<u8> {
    let mut taken = vec![false; n];
    let mut node = 0;
    (0..k)
        .map(|_| {
            if taken[node] {
                node = (node + 1) % n;
            }
            taken[node] = true;
            let shift = (n - node) % n;
            node = (node + n - k + 1) % n;
            shift as u8
        })
        .collect()
}

/// The bytes of a symbol of a field with so many.
pub fn width(size: u32) -> usize {
    if size <= 256 {
        1
    } else {
        2
    }
}

/// The buffer of symbols of such a field, high byte first.
pub fn bytes_of(size: u32, symbols: &[u16]) -> Vec<u8> {
    symbols
        .iter()
        .flat_map(|x| x.to_be_bytes()[2 - width(size)..].to_vec())
        .collect()
}

/// What a record stands for.
pub struct Code {
    pub field: Field,
    pub n: usize,
    pub k: usize,
    pub d: usize,
    pub low: usize,
    pub high: usize,
    pub shifts: Vec<u8>,
    pub base: Vec<u16>,
    /// Node j's point, root^j.
    pub points: Vec<u16>,
}

impl Code {
    /// The code of a record, or the number that turns it away.
    pub fn of(record: &[u8]) -> Result<Code, u8> {
        let kind = *record.first().ok_or(1)?;
        let body = &record[1..];
        let (field, root, n, k) = match kind {
            1 => {
                if body.len() != 4 {
                    return Err(2);
                }
                let p = u32::from(body[0]);
                if !is_prime(p) || !(3..=251).contains(&p) {
                    return Err(3);
                }
                (Field::Prime(p), u16::from(body[1]), body[2] as usize, body[3] as usize)
            }
            2 => {
                if body.len() != 3 {
                    return Err(2);
                }
                (Field::bytes(), u16::from(body[0]), body[1] as usize, body[2] as usize)
            }
            3 => {
                if body.len() != 6 {
                    return Err(2);
                }
                let pair = |at: usize| u16::from(body[at]) * 256 + u16::from(body[at + 1]);
                let p = u32::from(pair(0));
                if !is_prime(p) || !(257..=65_521).contains(&p) {
                    return Err(3);
                }
                (Field::Prime(p), pair(2), body[4] as usize, body[5] as usize)
            }
            _ => return Err(1),
        };
        if n < 2 || k == 0 || k > n {
            return Err(4);
        }
        if u32::from(root) >= field.size() || field.order(root) != n {
            return Err(5);
        }
        let d = n - k + 1;
        let shifts = if k * d % n == 0 {
            even_shifts(n, k)
        } else {
            laid_shifts(n, k)
        };
        let mut points = vec![1];
        for j in 1..n {
            points.push(field.mul(points[j - 1], root));
        }
        let mut code = Code {
            field,
            n,
            k,
            d,
            low: k * d / n,
            high: k * d / n + usize::from(k * d % n != 0),
            shifts,
            base: Vec::new(),
            points,
        };
        code.base = (0..n).map(|j| code.entry(0, j)).collect();
        Ok(code)
    }

    /// Entry (r, j): the product of (x − root^i) for i from 0 to k−2, at x = root^(j + s_r − d).
    pub fn entry(&self, r: usize, j: usize) -> u16 {
        let x = self.points[(j + self.shifts[r] as usize + self.n - self.d) % self.n];
        let factors = self.points[..self.k - 1].iter().map(|&point| self.field.sub(x, point));
        factors.fold(1, |product, factor| self.field.mul(product, factor))
    }

    /// The node at which each row begins: its entry is not zero, and that of the node before it is, unless none is.
    pub fn firsts(&self) -> Vec<u8> {
        let begins = |row: &Vec<u16>| (0..self.n).find(|&j| row[j] != 0 && row[(j + self.n - 1) % self.n] == 0);
        self.generator().iter().map(|row| begins(row).unwrap_or(0) as u8).collect()
    }

    /// The generator, row by row.
    pub fn generator(&self) -> Vec<Vec<u16>> {
        (0..self.k)
            .map(|r| {
                (0..self.n)
                    .map(|j| self.base[(j + self.shifts[r] as usize) % self.n])
                    .collect()
            })
            .collect()
    }

    pub fn lanes_fault(lanes: u32) -> Result<usize, u8> {
        if lanes == 0 || lanes > 4096 {
            Err(7)
        } else {
            Ok(lanes as usize)
        }
    }

    /// The bytes of so many symbols in a buffer.
    pub fn size(&self, count: usize) -> usize {
        count * width(self.field.size())
    }

    /// The symbols of a buffer, high byte first.
    pub fn symbols(&self, bytes: &[u8]) -> Vec<u16> {
        let number = |digits: &[u8]| digits.iter().fold(0, |x, &digit| x * 256 + u16::from(digit));
        bytes.chunks(self.size(1)).map(number).collect()
    }

    /// The buffer of symbols.
    pub fn bytes(&self, symbols: &[u16]) -> Vec<u8> {
        bytes_of(self.field.size(), symbols)
    }

    pub fn numbers_fault(&self, numbers: &[u32]) -> Result<(), u8> {
        if numbers.iter().any(|&x| x >= self.field.size()) {
            Err(11)
        } else {
            Ok(())
        }
    }

    pub fn symbols_fault(&self, symbols: &[u16]) -> Result<(), u8> {
        let numbers: Vec<u32> = symbols.iter().map(|&x| u32::from(x)).collect();
        self.numbers_fault(&numbers)
    }

    /// The encoding of each lane, lane after lane.
    pub fn encoding(&self, lanes: usize, message: &[u16]) -> Vec<u16> {
        let rows = self.generator();
        let mut shares = vec![0; self.n * lanes];
        for (r, row) in rows.iter().enumerate() {
            for (j, &entry) in row.iter().enumerate() {
                for t in 0..lanes {
                    let at = t * self.n + j;
                    shares[at] = self.field.add(shares[at], self.field.mul(entry, message[r * lanes + t]));
                }
            }
        }
        shares
    }

    /// Adds to the counts, by their nodes that are not zero, the words that begin with the rows before r as `word` has them.
    pub fn count_words(&self, r: usize, word: &[u16], counts: &mut [u32]) {
        if r == self.k {
            counts[word.iter().filter(|&&x| x != 0).count()] += 1;
            return;
        }
        let row = &self.generator()[r];
        for symbol in 0..self.field.size() {
            let next: Vec<u16> = word
                .iter()
                .zip(row)
                .map(|(&x, &entry)| self.field.add(x, self.field.mul(symbol as u16, entry)))
                .collect();
            self.count_words(r + 1, &next, counts);
        }
    }

    /// The message whose encoding holds the shares at the nodes: the k equations solved by elimination, for all lanes at once.
    pub fn message(&self, lanes: usize, nodes: &[u8], shares: &[u16]) -> Vec<u16> {
        let (f, k) = (&self.field, self.k);
        let rows = self.generator();
        // row i is the equation of node i: the k entries, then the node's symbols
        let equation = |i: usize| {
            let entries = rows.iter().map(|row| row[nodes[i] as usize]);
            entries.chain((0..lanes).map(|t| shares[t * k + i])).collect()
        };
        let mut m: Vec<Vec<u16>> = (0..k).map(equation).collect();
        for c in 0..k {
            let found = (c..k).find(|&i| m[i][c] != 0).expect("any k nodes fix the message");
            m.swap(c, found);
            let scale = f.inverse(m[c][c]);
            let pivot: Vec<u16> = m[c][c..].iter().map(|&x| f.mul(x, scale)).collect();
            for row in &mut m {
                let factor = row[c];
                for (x, &y) in row[c..].iter_mut().zip(&pivot) {
                    *x = f.sub(*x, f.mul(factor, y));
                }
            }
            m[c][c..].copy_from_slice(&pivot);
        }
        m.iter().flat_map(|row| row[k..].to_vec()).collect()
    }

    /// For each node from k on, what it holds of the polynomial that goes through the first k nodes.
    pub fn extension(&self) -> Vec<Vec<u16>> {
        let f = &self.field;
        let (first, others) = self.points.split_at(self.k);
        // the product of x − y over the first k points y but x itself
        let product = |x: u16| {
            let factors = first.iter().filter(|&&y| y != x).map(|&y| f.sub(x, y));
            factors.fold(1, |a, b| f.mul(a, b))
        };
        let scales: Vec<u16> = first.iter().map(|&y| product(y)).collect();
        let row = |&x: &u16| {
            let whole = product(x);
            let weight = |(&y, &scale): (&u16, &u16)| f.mul(whole, f.inverse(f.mul(f.sub(x, y), scale)));
            first.iter().zip(&scales).map(weight).collect()
        };
        others.iter().map(row).collect()
    }
}
