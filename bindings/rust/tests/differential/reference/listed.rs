//! The message of listed nodes, some of which are wrong: Gao's algorithm over the listed nodes' points alone.
use super::nearest::{divided, less_product, trimmed, Polynomial};
use super::{list_faults, Code};

/// The polynomial through the listed symbols, of degree below s, and the one that is zero at all listed points: node after node, the
/// first is set right at the next point by a multiple of the second so far (Newton).
fn through(code: &Code, nodes: &[u8], symbols: &[u16]) -> (Polynomial, Polynomial) {
    let f = &code.field;
    let value = |a: &Polynomial, x: u16| a.iter().rev().fold(0, |y, &c| f.add(f.mul(y, x), c));
    let (mut through, mut zero) = (vec![], vec![1]);
    for (&j, &symbol) in nodes.iter().zip(symbols) {
        let x = code.points[j as usize];
        let scale = f.mul(f.sub(symbol, value(&through, x)), f.inverse(value(&zero, x)));
        through = less_product(f, &through, &zero, &trimmed(vec![f.sub(0, scale)]));
        // zero times (x − point)
        zero = less_product(f, &vec![], &zero, &vec![x, f.sub(0, 1)]);
    }
    (through, zero)
}

/// What every node holds for the message whose encoding differs from the listed symbols at no more than (s − k)/2, rounded down.
fn near_word(code: &Code, nodes: &[u8], symbols: &[u16]) -> Option<Vec<u16>> {
    let (f, s, k) = (&code.field, nodes.len(), code.k);
    let (mut now, mut before) = through(code, nodes, symbols);
    let (mut factor_before, mut factor) = (vec![], vec![1]);
    while 2 * now.len() >= s + k + 2 {
        let (quotient, rest) = divided(f, before, &now);
        let next = less_product(f, &factor_before, &quotient, &factor);
        (before, now) = (now, rest);
        (factor_before, factor) = (factor, next);
    }
    let (message, rest) = divided(f, now, &factor);
    if !rest.is_empty() || message.len() > k {
        return None;
    }
    let value = |&x: &u16| message.iter().rev().fold(0, |y, &c| f.add(f.mul(y, x), c));
    let word: Vec<u16> = code.points.iter().map(value).collect();
    (differing(&word, nodes, symbols).len() <= (s - k) / 2).then_some(word)
}

/// The places of the list where the word has another symbol.
fn differing(word: &[u16], nodes: &[u8], symbols: &[u16]) -> Vec<usize> {
    (0..nodes.len()).filter(|&i| word[nodes[i] as usize] != symbols[i]).collect()
}

/// The message and the counts of the places.
pub fn correct_listed(
    record: &[u8],
    lanes: u32,
    nodes: &[u8],
    shares: &[u8],
    message: usize,
    wrong: usize,
) -> Result<(Vec<u8>, Vec<u32>), u8> {
    let code = Code::of(record)?;
    let l = Code::lanes_fault(lanes)?;
    let s = nodes.len();
    if !(code.k..=code.n).contains(&s) || shares.len() != code.size(s * l) || message != code.size(code.k * l) || wrong != s
    {
        return Err(8);
    }
    let shares = code.symbols(shares);
    list_faults(&code, nodes, 0, &shares)?;
    // lanes that agree with the message of the first k listed nodes are right
    let firsts: Vec<u16> = shares.chunks(s).flat_map(|lane| lane[..code.k].to_vec()).collect();
    let words = code.encoding(l, &code.message(l, &nodes[..code.k], &firsts));
    let (mut counts, mut first) = (vec![0; s], Vec::new());
    for (lane, word) in shares.chunks(s).zip(words.chunks(code.n)) {
        let word = match differing(word, nodes, lane).is_empty() {
            true => word.to_vec(),
            false => near_word(&code, nodes, lane).ok_or(14)?,
        };
        differing(&word, nodes, lane).into_iter().for_each(|i| counts[i] += 1);
        first.extend(&word[..code.k]);
    }
    let nodes: Vec<u8> = (0..code.k as u8).collect();
    Ok((code.bytes(&code.message(l, &nodes, &first)), counts))
}
