//! The calls of the store once more, written from the description of the product alone, as plainly as possible: powers and
//! logarithms for the field of 256 elements, every entry of the generator as a product, messages by elimination, words by
//! interpolation, near words by Euclid's algorithm. Nothing here is shared with the library.
mod carry;
mod code;
mod differences;
mod field;
mod lanes;
mod listed;
mod nearest;
mod repair;
mod roster;

pub use carry::{carried_len, carry_change, carry_in, carry_out, mask_of};
pub use code::{bytes_of, width, Code};
pub use differences::{add_share, differences, update_lanes};
pub use field::{is_prime, Field};
pub use lanes::{added, find_update, mends};
pub use listed::correct_listed;
pub use roster::{Event, History};

pub use repair::{repair_bits, repair_plan, repair_share};

pub fn encode(record: &[u8], lanes: u32, message: &[u8], out: usize) -> Result<Vec<u8>, u8> {
    let code = Code::of(record)?;
    let l = Code::lanes_fault(lanes)?;
    if message.len() != code.size(code.k * l) || out != code.size(code.n * l) {
        return Err(8);
    }
    let message = code.symbols(message);
    code.symbols_fault(&message)?;
    Ok(code.bytes(&code.encoding(l, &message)))
}

pub fn update(
    record: &[u8],
    lanes: u32,
    symbol: u32,
    lane: u32,
    old: u32,
    new: u32,
    shares: &[u8],
) -> Result<(Vec<u8>, u32), u8> {
    let code = Code::of(record)?;
    let l = Code::lanes_fault(lanes)?;
    if shares.len() != code.size(code.n * l) {
        return Err(8);
    }
    if symbol as usize >= code.k || lane >= lanes {
        return Err(9);
    }
    let at = |j: usize| lane as usize * code.n + j;
    code.numbers_fault(&[old, new])?;
    let before = code.symbols(shares);
    let word = &before[at(0)..at(0) + code.n];
    code.symbols_fault(word)?;
    if !is_word(&code, &code.extension(), word) {
        return Err(12);
    }
    let first: Vec<u8> = (0..code.k as u8).collect();
    if u32::from(code.message(1, &first, &word[..code.k])[symbol as usize]) != old {
        return Err(13);
    }
    let mut after = before.clone();
    let change = code.field.sub(new as u16, old as u16);
    for j in 0..code.n {
        after[at(j)] = code
            .field
            .add(after[at(j)], code.field.mul(change, code.entry(symbol as usize, j)));
    }
    let altered = before.iter().zip(&after).filter(|(x, y)| x != y).count();
    // bytes of other lanes stay, whatever they are
    let mut written = shares.to_vec();
    written[code.size(at(0))..code.size(at(code.n))].copy_from_slice(&code.bytes(&after[at(0)..at(code.n)]));
    Ok((written, altered as u32))
}

fn list_faults(code: &Code, nodes: &[u8], target: u32, shares: &[u16]) -> Result<(), u8> {
    if target as usize >= code.n || nodes.iter().any(|&j| j as usize >= code.n) {
        return Err(9);
    }
    let mut sorted = nodes.to_vec();
    sorted.sort();
    sorted.dedup();
    if sorted.len() != nodes.len() {
        return Err(10);
    }
    code.symbols_fault(shares)
}

pub fn recover(record: &[u8], lanes: u32, nodes: &[u8], shares: &[u8], out: usize) -> Result<Vec<u8>, u8> {
    let code = Code::of(record)?;
    let l = Code::lanes_fault(lanes)?;
    if nodes.len() != code.k || shares.len() != code.size(code.k * l) || out != code.size(code.k * l) {
        return Err(8);
    }
    let shares = code.symbols(shares);
    list_faults(&code, nodes, 0, &shares)?;
    Ok(code.bytes(&code.message(l, nodes, &shares)))
}

pub fn rebuild(record: &[u8], lanes: u32, nodes: &[u8], shares: &[u8], target: u32, out: usize) -> Result<Vec<u8>, u8> {
    let code = Code::of(record)?;
    let l = Code::lanes_fault(lanes)?;
    if nodes.len() != code.k || shares.len() != code.size(code.k * l) || out != code.size(l) {
        return Err(8);
    }
    let shares = code.symbols(shares);
    list_faults(&code, nodes, target, &shares)?;
    let all = code.encoding(l, &code.message(l, nodes, &shares));
    let share: Vec<u16> = (0..l).map(|t| all[t * code.n + target as usize]).collect();
    Ok(code.bytes(&share))
}

/// The smallest lane that is no word, or the number of lanes.
pub fn belongs(record: &[u8], lanes: u32, shares: &[u8]) -> Result<u32, u8> {
    let code = Code::of(record)?;
    let l = Code::lanes_fault(lanes)?;
    if shares.len() != code.size(code.n * l) {
        return Err(8);
    }
    let shares = code.symbols(shares);
    code.symbols_fault(&shares)?;
    let rows = code.extension();
    let wrong = shares.chunks(code.n).position(|lane| !is_word(&code, &rows, lane));
    Ok(wrong.unwrap_or(l) as u32)
}

fn is_word(code: &Code, rows: &[Vec<u16>], lane: &[u16]) -> bool {
    rows.iter().enumerate().all(|(i, row)| {
        let value = row
            .iter()
            .enumerate()
            .fold(0, |sum, (e, &c)| code.field.add(sum, code.field.mul(c, lane[e])));
        value == lane[code.k + i]
    })
}

/// Each lane replaced by the word near to it, and the number of symbols that differ.
pub fn correct(record: &[u8], lanes: u32, shares: &[u8]) -> Result<(Vec<u8>, u32), u8> {
    let code = Code::of(record)?;
    let l = Code::lanes_fault(lanes)?;
    if shares.len() != code.size(code.n * l) {
        return Err(8);
    }
    let shares = code.symbols(shares);
    code.symbols_fault(&shares)?;
    let rows = code.extension();
    let mut after = shares.clone();
    for lane in after.chunks_mut(code.n).filter(|lane| !is_word(&code, &rows, lane)) {
        lane.copy_from_slice(&nearest::nearest(&code, lane).ok_or(14)?);
    }
    let altered = shares.iter().zip(&after).filter(|(x, y)| x != y).count();
    Ok((code.bytes(&after), altered as u32))
}

/// Shares from node after node to lane after lane.
pub fn to_lanes(record: &[u8], lanes: u32, by_node: &[u8], out: usize) -> Result<Vec<u8>, u8> {
    lane_after_lane(&Code::of(record)?, |code| code.n, lanes, by_node, out)
}

/// And back.
pub fn to_nodes(record: &[u8], lanes: u32, by_lane: &[u8], out: usize) -> Result<Vec<u8>, u8> {
    node_after_node(&Code::of(record)?, |code| code.n, lanes, by_lane, out)
}

/// The same with the shares of k listed nodes.
pub fn listed_to_lanes(record: &[u8], lanes: u32, by_node: &[u8], out: usize) -> Result<Vec<u8>, u8> {
    lane_after_lane(&Code::of(record)?, |code| code.k, lanes, by_node, out)
}

pub fn listed_to_nodes(record: &[u8], lanes: u32, by_lane: &[u8], out: usize) -> Result<Vec<u8>, u8> {
    node_after_node(&Code::of(record)?, |code| code.k, lanes, by_lane, out)
}

fn lane_after_lane(code: &Code, rows: fn(&Code) -> usize, lanes: u32, read: &[u8], out: usize) -> Result<Vec<u8>, u8> {
    let (w, rows, l) = rearranged_size(code, rows(code), lanes, read, out)?;
    let symbols: Vec<&[u8]> = read.chunks(w).collect();
    let places = (0..l).flat_map(|t| (0..rows).map(move |j| j * l + t));
    Ok(places.flat_map(|at| symbols[at].to_vec()).collect())
}

fn node_after_node(code: &Code, rows: fn(&Code) -> usize, lanes: u32, read: &[u8], out: usize) -> Result<Vec<u8>, u8> {
    let (w, rows, l) = rearranged_size(code, rows(code), lanes, read, out)?;
    let symbols: Vec<&[u8]> = read.chunks(w).collect();
    let places = (0..rows).flat_map(|j| (0..l).map(move |t| t * rows + j));
    Ok(places.flat_map(|at| symbols[at].to_vec()).collect())
}

/// The bytes of a symbol, the rows and the lanes.
fn rearranged_size(code: &Code, rows: usize, lanes: u32, read: &[u8], out: usize) -> Result<(usize, usize, usize), u8> {
    let l = Code::lanes_fault(lanes)?;
    if read.len() != code.size(rows * l) || out != code.size(rows * l) {
        return Err(8);
    }
    Ok((code.size(1), rows, l))
}

/// How many messages have an encoding with each number of nodes that are not zero, by going through all messages.
pub fn weights(record: &[u8], out: usize) -> Result<Vec<u32>, u8> {
    let code = Code::of(record)?;
    if out != code.n + 1 {
        return Err(8);
    }
    let mut messages = 1u64;
    for _ in 0..code.k {
        messages = (messages * u64::from(code.field.size())).min(1 << 20);
    }
    if messages > 65_536 {
        return Err(16);
    }
    let mut counts = vec![0; code.n + 1];
    code.count_words(0, &vec![0; code.n], &mut counts);
    Ok(counts)
}
