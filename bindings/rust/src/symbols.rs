//! Symbols of two bytes, as the buffers of a record of kind 3 hold them: high byte first.

/// The buffer that holds these symbols.
pub fn symbols_to_bytes(symbols: &[u16]) -> Vec<u8> {
    symbols.iter().flat_map(|symbol| symbol.to_be_bytes()).collect()
}

/// The symbols that a buffer holds. A last byte with none after it is left out.
pub fn symbols_from_bytes(bytes: &[u8]) -> Vec<u16> {
    bytes
        .chunks_exact(2)
        .map(|pair| u16::from_be_bytes([pair[0], pair[1]]))
        .collect()
}
