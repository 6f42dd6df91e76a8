//! The word of the code that is near to a lane, by Gao's algorithm: Euclid's algorithm on x^n − 1 and the polynomial through
//! all n symbols, up to where the remainder is the message's polynomial times the errors' polynomial.
use super::{Code, Field};

/// Coefficients, the lowest first, with no zero at the end.
pub type Polynomial = Vec<u16>;

pub fn trimmed(mut a: Polynomial) -> Polynomial {
    while a.last() == Some(&0) {
        a.pop();
    }
    a
}

/// The quotient and the remainder.
pub fn divided(f: &Field, mut a: Polynomial, b: &Polynomial) -> (Polynomial, Polynomial) {
    let scale = f.inverse(b[b.len() - 1]);
    let mut quotient = vec![0; (a.len() + 1).saturating_sub(b.len())];
    while a.len() >= b.len() {
        let at = a.len() - b.len();
        let x = f.mul(a[a.len() - 1], scale);
        quotient[at] = x;
        for (i, &y) in b.iter().enumerate() {
            a[at + i] = f.sub(a[at + i], f.mul(x, y));
        }
        a = trimmed(a);
    }
    (trimmed(quotient), a)
}

/// a − b·c
pub fn less_product(f: &Field, a: &Polynomial, b: &Polynomial, c: &Polynomial) -> Polynomial {
    let mut sum = a.clone();
    sum.resize(a.len().max(b.len() + c.len()), 0);
    for (i, &x) in b.iter().enumerate() {
        for (j, &y) in c.iter().enumerate() {
            sum[i + j] = f.sub(sum[i + j], f.mul(x, y));
        }
    }
    trimmed(sum)
}

/// The polynomial of degree below n whose values at the nodes' points are the lane: 1/n times the sums of the symbols with the
/// powers of 1/root.
fn through(code: &Code, lane: &[u16]) -> Polynomial {
    let f = &code.field;
    let scale = f.inverse((0..code.n).fold(0, |sum, _| f.add(sum, 1)));
    let coefficient = |i: usize| {
        let sum = (0..code.n).fold(0, |sum, j| f.add(sum, f.mul(lane[j], code.points[(code.n - i) * j % code.n])));
        f.mul(scale, sum)
    };
    trimmed((0..code.n).map(coefficient).collect())
}

/// The word that differs from the lane at no more than (n − k)/2 nodes, rounded down.
pub fn nearest(code: &Code, lane: &[u16]) -> Option<Vec<u16>> {
    let (f, n, k) = (&code.field, code.n, code.k);
    let mut whole = vec![0; n + 1];
    whole[0] = f.sub(0, 1);
    whole[n] = 1;
    let (mut before, mut now) = (whole, through(code, lane));
    let (mut factor_before, mut factor) = (vec![], vec![1]);
    while 2 * now.len() >= n + k + 2 {
        let (quotient, rest) = divided(f, before, &now);
        let next = less_product(f, &factor_before, &quotient, &factor);
        (before, now) = (now, rest);
        (factor_before, factor) = (factor, next);
    }
    let (message, rest) = divided(f, now, &factor);
    if !rest.is_empty() || message.len() > k {
        return None;
    }
    let value = |&x: &u16| message.iter().rev().fold(0, |y, &c| f.add(f.mul(y, x), c));
    let word: Vec<u16> = code.points.iter().map(value).collect();
    let differing = word.iter().zip(lane).filter(|(x, y)| x != y).count();
    (differing <= (n - k) / 2).then_some(word)
}
