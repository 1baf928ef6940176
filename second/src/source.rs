//! The lines of a stream, one at a time, in constant memory.

use std::io::{self, BufRead, ErrorKind, Read};

use crate::lines::LONGEST;

const BUFFER: usize = 1 << 16;

pub struct Source<R> {
    input: R,
    buffer: Box<[u8]>,
    start: usize,
    end: usize,
}

impl<R: Read> Source<R> {
    pub fn new(input: R) -> Source<R> {
        Source { input, buffer: vec![0; BUFFER].into_boxed_slice(), start: 0, end: 0 }
    }

    /// The next line with its LF, or what is left without one at the end of the input; `None` where nothing is.
    /// A line too long for any message is given as an empty one, which no reader takes either.
    pub fn next_line(&mut self) -> io::Result<Option<&[u8]>> {
        loop {
            let start = self.start;
            let (length, whole) = line_length(&self.buffer[start..self.end])?;
            if whole {
                self.start += length;
                return Ok(Some(&self.buffer[start..start + length]));
            }
            if length > LONGEST {
                self.skip_line()?;
                return Ok(Some(&[]));
            }
            if !self.fill()? {
                self.start = self.end;
                return Ok((length > 0).then_some(&self.buffer[..length]));
            }
        }
    }

    /// Reads past the rest of a line, up to its LF or the end of the input.
    fn skip_line(&mut self) -> io::Result<()> {
        loop {
            let (length, whole) = line_length(&self.buffer[self.start..self.end])?;
            self.start += length;
            if whole || !self.fill()? {
                return Ok(());
            }
        }
    }

    /// Moves what is left to the front and reads more after it; false at the end of the input.
    fn fill(&mut self) -> io::Result<bool> {
        self.buffer.copy_within(self.start..self.end, 0);
        self.end -= self.start;
        self.start = 0;
        loop {
            match self.input.read(&mut self.buffer[self.end..]) {
                Ok(read) => {
                    self.end += read;
                    return Ok(read > 0);
                }
                Err(error) if error.kind() == ErrorKind::Interrupted => {}
                Err(error) => return Err(error),
            }
        }
    }
}

/// How many bytes the first line has, up to its LF if that is there, and whether it is.
fn line_length(mut bytes: &[u8]) -> io::Result<(usize, bool)> {
    let all = bytes;
    let length = bytes.skip_until(b'\n')?;
    Ok((length, all[..length].ends_with(b"\n")))
}
