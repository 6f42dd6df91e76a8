//! The calls on single lanes.
use super::Code;

/// x times a row of the generator added to a lane.
pub fn added(code: &Code, lane: &[u16], row: &[u16], x: u16) -> Vec<u16> {
    lane.iter()
        .zip(row)
        .map(|(&symbol, &entry)| code.field.add(symbol, code.field.mul(x, entry)))
        .collect()
}

/// 0 for equal lanes, 1 with the symbol and the amount, or 2 where none leads from the first to the second: each row is
/// tried with the one amount that is right at a node where the row is not zero.
pub fn find_update(record: &[u8], before: &[u8], after: &[u8]) -> Result<(u32, u32, u32), u8> {
    let code = Code::of(record)?;
    if before.len() != code.size(code.n) || after.len() != code.size(code.n) {
        return Err(8);
    }
    let (before, after) = (code.symbols(before), code.symbols(after));
    code.symbols_fault(&before)?;
    code.symbols_fault(&after)?;
    if before == after {
        return Ok((0, 0, 0));
    }
    for (r, row) in code.generator().iter().enumerate() {
        let j = row.iter().position(|&entry| entry != 0).expect("no row is zero");
        let x = code
            .field
            .mul(code.field.sub(after[j], before[j]), code.field.inverse(row[j]));
        if added(&code, &before, row, x) == after {
            return Ok((1, r as u32, u32::from(x)));
        }
    }
    Ok((2, 0, 0))
}

/// The nodes and the buffer of new symbols whose single change makes the lane a word. What each node from k on holds less what the first k
/// nodes say that it holds must be made zero: that is tried at each node with the one change that is right at the first.
pub fn mends(record: &[u8], lane: &[u8], nodes: usize, symbols: usize) -> Result<(Vec<u8>, Vec<u8>), u8> {
    let code = Code::of(record)?;
    if lane.len() != code.size(code.n) || nodes != code.n || symbols != code.size(code.n) {
        return Err(8);
    }
    let lane = code.symbols(lane);
    code.symbols_fault(&lane)?;
    let (f, rows) = (&code.field, code.extension());
    let wrong: Vec<u16> = rows
        .iter()
        .enumerate()
        .map(|(i, row)| {
            row.iter()
                .zip(&lane)
                .fold(lane[code.k + i], |sum, (&c, &x)| f.sub(sum, f.mul(c, x)))
        })
        .collect();
    if wrong.iter().all(|&x| x == 0) {
        return Ok((Vec::new(), Vec::new()));
    }
    // what 1 more at node j adds to each
    let adds = |i: usize, j: usize| match j.checked_sub(code.k) {
        None => f.sub(0, rows[i][j]),
        Some(own) => u16::from(own == i),
    };
    let mended = (0..code.n).filter_map(|j| {
        let first = (0..rows.len()).find(|&i| adds(i, j) != 0).expect("every node is checked");
        let more = f.mul(f.sub(0, wrong[first]), f.inverse(adds(first, j)));
        let zero = (0..rows.len()).all(|i| f.add(wrong[i], f.mul(adds(i, j), more)) == 0);
        zero.then(|| (j as u8, f.add(lane[j], more)))
    });
    let (nodes, symbols): (Vec<u8>, Vec<u16>) = mended.unzip();
    Ok((nodes, code.bytes(&symbols)))
}
