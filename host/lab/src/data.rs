//! The 512 bytes of a page: from a seed, and in words.
use bokuhira::DATA;

/// The bytes of a seed, as the trace format gives them.
pub fn seeded(seed: u64) -> Vec<u8> {
    (0..DATA as u64).map(|i| 31u64.wrapping_mul(seed).wrapping_add(7 * i + 13 * (i / 256)) as u8).collect()
}

/// A page's data in a few words: a text, a seed, or its first bytes.
pub fn data_words(data: &[u8]) -> String {
    let end = data.iter().rposition(|b| *b != 0).map_or(0, |i| i + 1);
    match std::str::from_utf8(&data[..end]) {
        Ok("") => "all zero".into(),
        Ok(text) if text.chars().all(|c| !c.is_control() || c == '\n') => {
            let mut short: String = text.chars().take(40).collect();
            if short.len() < text.len() {
                short += "..";
            }
            format!("{short:?}")
        }
        _ if data.iter().all(|b| *b == 0xFF) => "all 0xFF".into(),
        _ => match seed_of(data) {
            Some(seed) => format!("seed {seed}"),
            None => format!("bytes {:02X} {:02X} {:02X} {:02X} ..", data[0], data[1], data[2], data[3]),
        },
    }
}

/// The seed below 256 that gives these bytes. Byte 0 is 31 times the seed, and 31 × 223 is 1 modulo 256.
fn seed_of(data: &[u8]) -> Option<u64> {
    let seed = data[0].wrapping_mul(223) as u64;
    (data == seeded(seed)).then_some(seed)
}

#[cfg(test)]
mod tests {
    use super::*;

    #[test]
    fn a_seed_gives_the_bytes_of_the_traces() {
        assert_eq!(seeded(3)[..3], [93, 100, 107]);
        assert_eq!(seeded(0)[256], (7 * 256 + 13) as u8);
    }
}
