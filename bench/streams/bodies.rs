//! The bodies of the exchanges: how they are sent, and how each byte of them is looked at.

use crate::{BUFFER, fault};
use std::io::{Read, Result, Write};
use std::net::TcpStream;

/// A body repeats itself after so many bytes.
pub const MEBIBYTE: usize = 1024 * 1024;

/// How many bytes of data a chunk has.
const CHUNK: usize = 4096;

/// Which way the body of an exchange goes, how it is framed, how long it is, and how much of it is written at once.
#[derive(Clone, Copy)]
pub struct Form {
    pub down: bool,
    pub chunked: bool,
    pub bytes: usize,
    pub unit: usize,
}

/// The byte of a body at a place; within a mebibyte no piece is like the one before it.
fn byte_at(place: usize) -> u8 {
    (place % MEBIBYTE % 251) as u8
}

/// A body: what a mebibyte of it is sent as, and its data, with what a read may reach into the next mebibyte.
pub struct Body {
    pub form: Form,
    text: Vec<u8>,
    data: Vec<u8>,
}

impl Body {
    pub fn new(form: Form) -> Body {
        let data: Vec<u8> = (0..MEBIBYTE + BUFFER).map(byte_at).collect();
        let mut text = Vec::new();
        if form.chunked {
            for chunk in data[..MEBIBYTE].chunks(CHUNK) {
                text.extend_from_slice(format!("{:x}\r\n", chunk.len()).as_bytes());
                text.extend_from_slice(chunk);
                text.extend_from_slice(b"\r\n");
            }
        } else {
            text.extend_from_slice(&data[..MEBIBYTE]);
        }
        Body { form, text, data }
    }

    /// The field that says how it is framed.
    pub fn framing(&self) -> String {
        if self.form.chunked {
            return "Transfer-Encoding: chunked\r\n".to_string();
        }
        format!("Content-Length: {}\r\n", self.form.bytes)
    }

    /// Sends a head and the body, whose first unit leaves with the head, and whose end with the last.
    pub fn send(&self, stream: &mut TcpStream, head: &str) -> Result<()> {
        let mut ahead = head.as_bytes().to_vec();
        for _ in 0..self.form.bytes / MEBIBYTE {
            for unit in self.text.chunks(self.form.unit) {
                if ahead.is_empty() {
                    stream.write_all(unit)?;
                } else {
                    ahead.extend_from_slice(unit);
                    stream.write_all(&ahead)?;
                    ahead.clear();
                }
            }
        }
        if self.form.chunked {
            stream.write_all(b"0\r\n\r\n")?;
        }
        Ok(())
    }

    /// Takes the whole body, of which some bytes are ahead, and looks at each byte.
    pub fn take(&self, stream: &mut TcpStream, ahead: &[u8]) -> Result<()> {
        let mut taking = Taking::new(self);
        let mut buffer = vec![0; BUFFER];
        for piece in ahead.chunks(BUFFER) {
            taking.take(piece)?;
        }
        while !taking.whole {
            let count = stream.read(&mut buffer)?;
            if count == 0 {
                return Err(fault("the connection ended inside the body"));
            }
            taking.take(&buffer[..count])?;
        }
        if taking.came != self.form.bytes {
            return Err(fault("a body of another length"));
        }
        Ok(())
    }
}

/// Where a body is taken: how much data came, how much is left of it or of a chunk, and the line that has begun.
struct Taking<'a> {
    body: &'a Body,
    came: usize,
    left: usize,
    line: Vec<u8>,
    last: bool,
    whole: bool,
}

impl Taking<'_> {
    fn new(body: &Body) -> Taking<'_> {
        Taking {
            body,
            came: 0,
            left: if body.form.chunked {
                0
            } else {
                body.form.bytes
            },
            line: Vec::new(),
            last: false,
            whole: false,
        }
    }

    fn data(&mut self, data: &[u8]) -> Result<()> {
        let at = self.came % MEBIBYTE;
        if *data != self.body.data[at..at + data.len()] {
            return Err(fault("a body of other bytes"));
        }
        self.came += data.len();
        self.left -= data.len();
        Ok(())
    }

    /// A line of chunked coding; the one behind a chunk's data is empty, and so is the one that ends the body.
    fn line(&mut self) -> Result<()> {
        let text = String::from_utf8_lossy(&self.line).into_owned();
        self.line.clear();
        let text = text
            .strip_suffix("\r\n")
            .ok_or_else(|| fault("a line with another end"))?;
        if text.is_empty() {
            self.whole = self.last;
            return Ok(());
        }
        self.left = usize::from_str_radix(text, 16).map_err(|_| fault("a chunk of no size"))?;
        self.last = self.left == 0;
        Ok(())
    }

    /// Takes what came; nothing may come behind the body.
    fn take(&mut self, bytes: &[u8]) -> Result<()> {
        let mut rest = bytes;
        while let Some(first) = rest.first() {
            if self.whole {
                return Err(fault("bytes behind the body"));
            }
            let count = rest.len().min(self.left).max(1);
            if self.left > 0 {
                self.data(&rest[..count])?;
                self.whole = !self.body.form.chunked && self.left == 0;
            } else {
                self.line.push(*first);
                if *first == b'\n' {
                    self.line()?;
                }
            }
            rest = &rest[count..];
        }
        Ok(())
    }
}
