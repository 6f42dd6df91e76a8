//! Repair by traces, from the formula: with u_j = root^(j − t) for the target t, node j sends the trace of
//! u_j/(u_j − 1)·E(u_j)·s_j, and the target's symbol is the sum of (u_j − 1) times what came, where E is the polynomial that is 1 at 1 and 0
//! at the u of the missing nodes. The trace of x onto 2^b elements is the sum of the powers of x by 1, 2^b, 4^b and so on.
use super::{Code, Field};

/// The bits of a symbol that a node sends, or 0.
fn bits(code: &Code, missing: usize) -> usize {
    let left = (code.n - code.k).saturating_sub(missing);
    let fit = [1, 2, 4].into_iter().find(|b| left >= 1 << (8 - b));
    match code.field {
        Field::Bytes { .. } => fit.unwrap_or(0),
        Field::Prime(_) => 0,
    }
}

/// The trace of x onto the field of 2^b elements.
fn trace(f: &Field, b: usize, x: u16) -> u16 {
    (0..8 / b).fold(0, |sum, i| f.add(sum, f.power(x, 1 << (b * i))))
}

/// The elements of that field, by their lowest b bits: the traces of all bytes.
fn elements(f: &Field, b: usize) -> Vec<u16> {
    let mut elements = vec![0; 1 << b];
    for x in 0..256 {
        let element = trace(f, b, x);
        elements[element as usize % (1 << b)] = element;
    }
    elements
}

/// u_j
fn ratio(code: &Code, target: usize, j: usize) -> u16 {
    code.points[(j + code.n - target) % code.n]
}

/// u_j/(u_j − 1)·E(u_j)
fn factor(code: &Code, target: usize, missing: &[u8], j: usize) -> u16 {
    let (f, u) = (&code.field, ratio(code, target, j));
    let quotient = |a: u16, b: u16| f.mul(a, f.inverse(b));
    missing.iter().fold(quotient(u, f.sub(u, 1)), |product, &gone| {
        let v = ratio(code, target, gone.into());
        f.mul(product, quotient(f.sub(u, v), f.sub(1, v)))
    })
}

/// Numbers 9, 10 and 17.
fn target_faults(code: &Code, target: u32, missing: &[u8]) -> Result<(), u8> {
    let n = code.n as u32;
    if target >= n || missing.iter().any(|&j| u32::from(j) >= n || u32::from(j) == target) {
        return Err(9);
    }
    if (1..missing.len()).any(|i| missing[..i].contains(&missing[i])) {
        return Err(10);
    }
    if bits(code, missing.len()) == 0 {
        return Err(17);
    }
    Ok(())
}

/// The bits, and how many further nodes may be missing with as few.
pub fn repair_plan(record: &[u8], missing: u32) -> Result<(u32, u32), u8> {
    let code = Code::of(record)?;
    let b = bits(&code, missing as usize);
    if b == 0 {
        return Err(17);
    }
    let further = (0..255).take_while(|more| bits(&code, missing as usize + more) == b).count();
    Ok((b as u32, further as u32 - 1))
}

#[allow(clippy::too_many_arguments)]
pub fn repair_bits(
    record: &[u8],
    lanes: u32,
    node: u32,
    target: u32,
    missing: &[u8],
    share: &[u8],
    out: usize,
) -> Result<Vec<u8>, u8> {
    let code = Code::of(record)?;
    let l = Code::lanes_fault(lanes)?;
    let (b, plane) = (bits(&code, missing.len()), l.div_ceil(8));
    if share.len() != code.size(l) || out != b * plane {
        return Err(8);
    }
    if node as usize >= code.n || node == target || missing.iter().any(|&j| u32::from(j) == node) {
        return Err(9);
    }
    target_faults(&code, target, missing)?;
    let c = factor(&code, target as usize, missing, node as usize);
    let mut sent = vec![0; b * plane];
    for (t, &symbol) in share.iter().enumerate() {
        let digit = trace(&code.field, b, code.field.mul(c, symbol.into()));
        (0..b).for_each(|e| sent[e * plane + t / 8] |= ((digit >> e & 1) << (t % 8)) as u8);
    }
    Ok(sent)
}

pub fn repair_share(record: &[u8], lanes: u32, target: u32, missing: &[u8], rows: &[u8], out: usize) -> Result<Vec<u8>, u8> {
    let code = Code::of(record)?;
    let l = Code::lanes_fault(lanes)?;
    let (b, plane) = (bits(&code, missing.len()), l.div_ceil(8));
    let senders = (code.n - 1).saturating_sub(missing.len());
    if rows.len() != senders * b * plane || out != code.size(l) {
        return Err(8);
    }
    target_faults(&code, target, missing)?;
    let (f, elements) = (&code.field, elements(&code.field, b));
    let sending = (0..code.n).filter(|&j| j != target as usize && !missing.contains(&(j as u8)));
    let mut share = vec![0; l];
    for (j, row) in sending.zip(rows.chunks(b * plane)) {
        let weight = f.sub(ratio(&code, target as usize, j), 1);
        for (t, symbol) in share.iter_mut().enumerate() {
            let digit = (0..b).fold(0, |digit, e| digit | (row[e * plane + t / 8] as usize >> (t % 8) & 1) << e);
            *symbol = f.add(*symbol, f.mul(weight, elements[digit]));
        }
    }
    Ok(code.bytes(&share))
}
