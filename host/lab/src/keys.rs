//! The bytes of a terminal as keys: letters in UTF-8, control bytes, and the sequences behind an escape byte.

#[derive(Clone, Copy, PartialEq, Eq, Debug)]
pub enum Key {
    Letter(char),
    Enter,
    Tab,
    Left,
    Right,
    Home,
    End,
    Up,
    Down,
    /// Takes away the letter before the cursor, or the one under it.
    Backspace,
    Delete,
    /// Takes away all before the cursor, all from it on, or the word before it.
    Before,
    After,
    Word,
    Clear,
    Break,
    /// Ctrl-D: the end of the input, or as `Delete` where something is typed.
    EndOrDelete,
}

const ESCAPE: u8 = 27;

/// Bytes that are not yet a key.
#[derive(Default)]
pub struct Keys {
    open: Vec<u8>,
}

impl Keys {
    /// One more byte; the key that it completes, if any. What is no key is dropped.
    pub fn byte(&mut self, byte: u8) -> Option<Key> {
        match self.open.as_slice() {
            [] if byte < 32 || byte == 127 => return self.control(byte),
            [ESCAPE, ..] if byte == ESCAPE => self.open = vec![ESCAPE],
            [ESCAPE] if byte == b'[' || byte == b'O' => self.open.push(byte),
            [ESCAPE] => self.open.clear(),
            // parameters are digits and signs below @; the byte that ends a sequence is not
            [ESCAPE, rest @ ..] if byte >= b'@' => {
                let key = sequence(&rest[1..], byte);
                self.open.clear();
                return key;
            }
            [ESCAPE, ..] if self.open.len() < 16 => self.open.push(byte),
            [ESCAPE, ..] => self.open.clear(),
            _ => {
                self.open.push(byte);
                return self.letter();
            }
        }
        None
    }

    fn control(&mut self, byte: u8) -> Option<Key> {
        Some(match byte {
            1 => Key::Home,
            2 => Key::Left,
            3 => Key::Break,
            4 => Key::EndOrDelete,
            5 => Key::End,
            6 => Key::Right,
            8 | 127 => Key::Backspace,
            9 => Key::Tab,
            10 | 13 => Key::Enter,
            11 => Key::After,
            12 => Key::Clear,
            14 => Key::Down,
            16 => Key::Up,
            21 => Key::Before,
            23 => Key::Word,
            ESCAPE => {
                self.open.push(ESCAPE);
                return None;
            }
            _ => return None,
        })
    }

    /// The letter that the open bytes are, once they are one; bytes that begin none are dropped.
    fn letter(&mut self) -> Option<Key> {
        match std::str::from_utf8(&self.open) {
            Ok(text) => {
                let letter = text.chars().next().map(Key::Letter);
                self.open.clear();
                letter
            }
            Err(e) => {
                if e.error_len().is_some() {
                    self.open.clear();
                }
                None
            }
        }
    }
}

/// The key of a sequence with these parameters and that last byte.
fn sequence(parameters: &[u8], last: u8) -> Option<Key> {
    Some(match (last, parameters) {
        (b'A', _) => Key::Up,
        (b'B', _) => Key::Down,
        (b'C', _) => Key::Right,
        (b'D', _) => Key::Left,
        (b'H', _) | (b'~', b"1" | b"7") => Key::Home,
        (b'F', _) | (b'~', b"4" | b"8") => Key::End,
        (b'~', b"3") => Key::Delete,
        _ => return None,
    })
}

#[cfg(test)]
mod tests {
    use super::*;

    fn keys(bytes: &[u8]) -> Vec<Key> {
        let mut keys = Keys::default();
        bytes.iter().filter_map(|b| keys.byte(*b)).collect()
    }

    #[test]
    fn letters_may_be_several_bytes_long() {
        assert_eq!(keys("aü港".as_bytes()), [Key::Letter('a'), Key::Letter('ü'), Key::Letter('港')]);
        assert_eq!(keys(b"\xFFa\xC3(b"), [Key::Letter('a'), Key::Letter('b')]);
    }

    #[test]
    fn every_terminals_arrows_are_known() {
        assert_eq!(keys(b"\x1b[A\x1bOB\x1b[C\x1b[1;5D"), [Key::Up, Key::Down, Key::Right, Key::Left]);
        assert_eq!(
            keys(b"\x1b[H\x1bOF\x1b[1~\x1b[4~\x1b[7~\x1b[8~\x1b[3~"),
            [Key::Home, Key::End, Key::Home, Key::End, Key::Home, Key::End, Key::Delete]
        );
    }

    #[test]
    fn what_is_no_key_is_dropped() {
        assert_eq!(keys(b"\x1b[15~\x1bx\x1b\x1b[Da\x00\x1a"), [Key::Left, Key::Letter('a')]);
    }

    #[test]
    fn control_bytes_edit() {
        assert_eq!(
            keys(&[1, 5, 21, 23, 11, 12, 3, 4, 127, 8, 13, 9]),
            [
                Key::Home,
                Key::End,
                Key::Before,
                Key::Word,
                Key::After,
                Key::Clear,
                Key::Break,
                Key::EndOrDelete,
                Key::Backspace,
                Key::Backspace,
                Key::Enter,
                Key::Tab
            ]
        );
    }
}
