//! Standard output whose reader may leave before the end.

use std::io::{self, ErrorKind, Write};

/// What is written goes to the reader while there is one, and nowhere once it has gone: who reads the first lines and closes the
/// pipe has what they wanted, and the page is written all the same.
pub struct Heard<W> {
    out: W,
    gone: bool,
}

impl<W: Write> Heard<W> {
    pub fn new(out: W) -> Self {
        Heard { out, gone: false }
    }

    /// What the reader took, or what counts where it has gone.
    fn told<T>(&mut self, told: io::Result<T>, gone: T) -> io::Result<T> {
        match told {
            Err(e) if e.kind() == ErrorKind::BrokenPipe => {
                self.gone = true;
                Ok(gone)
            }
            told => told,
        }
    }
}

impl<W: Write> Write for Heard<W> {
    fn write(&mut self, bytes: &[u8]) -> io::Result<usize> {
        let told = if self.gone { Ok(bytes.len()) } else { self.out.write(bytes) };
        self.told(told, bytes.len())
    }

    fn flush(&mut self) -> io::Result<()> {
        let told = if self.gone { Ok(()) } else { self.out.flush() };
        self.told(told, ())
    }
}
