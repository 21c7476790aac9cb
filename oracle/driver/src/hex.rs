//! Buffers as text: hex digits, `-` for an empty one, `HEX*N` for a piece N times over.

pub fn parse(text: &str) -> Result<Vec<u8>, String> {
    if text == "-" {
        return Ok(Vec::new());
    }
    let (digits, times) = match text.split_once('*') {
        Some((d, n)) => (d, n.parse::<usize>().map_err(|_| format!("bad count in {text}"))?),
        None => (text, 1),
    };
    if digits.len() % 2 != 0 || !digits.bytes().all(|b| b.is_ascii_hexdigit()) {
        return Err(format!("bad hex digits: {:.40}", digits));
    }
    let piece: Vec<u8> = (0..digits.len() / 2)
        .map(|i| u8::from_str_radix(&digits[2 * i..2 * i + 2], 16).expect("two hex digits"))
        .collect();
    if times == 1 {
        return Ok(piece);
    }
    if piece == [0] {
        return Ok(vec![0; times]);
    }
    Ok(piece.repeat(times))
}

/// A long buffer of equal bytes is written `HH*N`.
pub fn show(bytes: &[u8]) -> String {
    if bytes.is_empty() {
        return "-".to_string();
    }
    if bytes.len() > 4096 && bytes.iter().all(|b| *b == bytes[0]) {
        return format!("{:02x}*{}", bytes[0], bytes.len());
    }
    const DIGITS: &[u8; 16] = b"0123456789abcdef";
    let mut out = String::with_capacity(2 * bytes.len());
    for b in bytes {
        out.push(DIGITS[(b >> 4) as usize] as char);
        out.push(DIGITS[(b & 15) as usize] as char);
    }
    out
}
