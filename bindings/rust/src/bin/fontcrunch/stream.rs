//! The lines of a stream, in memory that does not grow with them.

use std::io::{self, ErrorKind, Read};

const CHUNK: usize = 65_536;

/// What ends the reading of lines before their end.
#[derive(Debug)]
pub enum Stopped {
    Reading(io::Error),
    Writing(io::Error),
}

/// The lines of an input. Byte 10 ends a line; what stands after the last one is a line where it is not
/// empty.
pub struct Lines<R> {
    input: R,
    chunk: Box<[u8]>,
    /// What is left of the chunk.
    from: usize,
    until: usize,
    line: Vec<u8>,
    kept: usize,
    ended: bool,
}

impl<R: Read> Lines<R> {
    /// With one byte more than a line may have, a full buffer is a line too long; what follows is dropped.
    pub fn new(input: R, longest: usize) -> Lines<R> {
        Lines {
            input,
            chunk: vec![0; CHUNK].into(),
            from: 0,
            until: 0,
            line: Vec::new(),
            kept: longest + 1,
            ended: false,
        }
    }

    /// The next line without its end, cut to one byte more than a line may have; None after the last. `send` is called before
    /// input is waited for, so that what was answered goes out first.
    pub fn next(&mut self, mut send: impl FnMut() -> io::Result<()>) -> Result<Option<&[u8]>, Stopped> {
        self.line.clear();
        while !self.take_to_line_end() {
            if self.ended {
                return Ok(None);
            }
            send().map_err(Stopped::Writing)?;
            self.ended = self.read_chunk().map_err(Stopped::Reading)? == 0;
            if self.ended && !self.line.is_empty() {
                break;
            }
        }
        Ok(Some(&self.line))
    }

    /// Moves the chunk's bytes, up to the next line end, to the line. True where there is an end.
    fn take_to_line_end(&mut self) -> bool {
        let left = &self.chunk[self.from..self.until];
        let end = left.iter().position(|&byte| byte == b'\n');
        let part = &left[..end.unwrap_or(left.len())];
        let room = self.kept - self.line.len();
        self.line.extend_from_slice(&part[..part.len().min(room)]);
        self.from += part.len() + usize::from(end.is_some());
        end.is_some()
    }

    fn read_chunk(&mut self) -> io::Result<usize> {
        loop {
            match self.input.read(&mut self.chunk) {
                Err(error) if error.kind() == ErrorKind::Interrupted => continue,
                Err(error) => return Err(error),
                Ok(count) => {
                    (self.from, self.until) = (0, count);
                    return Ok(count);
                }
            }
        }
    }
}

#[cfg(test)]
mod tests;
