//! Standard output. Where its reader has gone, as in `lab .. | head`, the rest is dropped without a word.
use std::io::{stdout, Error, ErrorKind, Result, Write};

#[derive(Default)]
pub struct Out {
    /// Nobody reads any more.
    pub gone: bool,
}

impl Out {
    /// Writes a text at once; any other error than a reader who has gone is one.
    pub fn say(&mut self, text: &str) -> std::result::Result<(), String> {
        self.write_all(text.as_bytes()).and_then(|()| self.flush()).map_err(unwritable)
    }

    fn unless_gone<T>(&mut self, dropped: T, write: impl FnOnce() -> Result<T>) -> Result<T> {
        if self.gone {
            return Ok(dropped);
        }
        match write() {
            Err(e) if e.kind() == ErrorKind::BrokenPipe => {
                self.gone = true;
                Ok(dropped)
            }
            done => done,
        }
    }
}

impl Write for Out {
    fn write(&mut self, bytes: &[u8]) -> Result<usize> {
        self.unless_gone(bytes.len(), || stdout().write(bytes))
    }

    fn flush(&mut self) -> Result<()> {
        self.unless_gone((), || stdout().flush())
    }
}

pub fn unwritable(e: Error) -> String {
    format!("the output cannot be written: {e}")
}
