//! What the benchmark of streamed bodies measures with: a backend, a client, and a plain proxy to compare with.
//!
//!     peers backend FORM BYTES UNIT            takes part in one exchange of each connection
//!     peers plain BACKEND                      copies what comes of each connection to a backend, and then what comes
//!                                              back, on a thread for each
//!     peers single BACKEND                     the same on one thread, with one buffer
//!     peers client PORT FORM BYTES UNIT TIMES PID   has so many exchanges, and prints the nanoseconds of processor time
//!                                              that each took the process PID, on an average
//!     peers counts FILE                        how many bodies came, and the medians of the reads and writes of one, as
//!                                              counts.rs has them
//!     peers calls FILE                         the same of a trace by strace
//!
//! `backend` and `plain` choose a free port, print it, and serve until they are killed. FORM is `down-length`,
//! `down-chunked` or `up-length`; a body has BYTES bytes, of which UNIT are written at once. Whoever takes a body looks at
//! each byte of it, and a body that isn't the one that is due ends the client with status 1.

mod bodies;
mod trace;

use crate::bodies::{Body, Form, MEBIBYTE};
use crate::trace::{calls, counts};
use std::env;
use std::io::{Error, ErrorKind, Read, Result, Write};
use std::net::{Ipv4Addr, Shutdown, TcpListener, TcpStream};
use std::process::ExitCode;
use std::thread;
use std::time::Duration;

/// How many bytes are read at once.
pub const BUFFER: usize = 128 * 1024;

pub fn fault(text: &str) -> Error {
    Error::new(ErrorKind::InvalidData, text)
}

fn listen() -> Result<TcpListener> {
    let listener = TcpListener::bind((Ipv4Addr::LOCALHOST, 0))?;
    println!("{}", listener.local_addr()?.port());
    Ok(listener)
}

fn connect(port: u16) -> Result<TcpStream> {
    let stream = TcpStream::connect((Ipv4Addr::LOCALHOST, port))?;
    stream.set_nodelay(true)?;
    stream.set_read_timeout(Some(Duration::from_secs(30)))?;
    Ok(stream)
}

/// Reads a head; what came behind it is given back.
fn hear_head(stream: &mut TcpStream) -> Result<(String, Vec<u8>)> {
    let mut came = Vec::new();
    let mut buffer = vec![0; BUFFER];
    loop {
        let count = stream.read(&mut buffer)?;
        if count == 0 {
            return Err(Error::from(ErrorKind::UnexpectedEof));
        }
        came.extend_from_slice(&buffer[..count]);
        if let Some(at) = came.windows(4).position(|four| four == b"\r\n\r\n") {
            let rest = came.split_off(at + 4);
            let head = String::from_utf8(came).map_err(|_| fault("a head that is no text"))?;
            return Ok((head, rest));
        }
    }
}

// ---- the backend

fn answer(stream: &mut TcpStream, body: &Body) -> Result<()> {
    stream.set_nodelay(true)?;
    let (_, ahead) = hear_head(stream)?;
    if body.form.down {
        let head = format!("HTTP/1.1 200 OK\r\n{}\r\n", body.framing());
        return body.send(stream, &head);
    }
    body.take(stream, &ahead)?;
    stream.write_all(b"HTTP/1.1 200 OK\r\nContent-Length: 0\r\n\r\n")
}

fn backend(form: Form) -> Result<()> {
    let body = Body::new(form);
    for stream in listen()?.incoming() {
        let mut stream = stream?;
        // a client that breaks off is no concern of the backend
        if let Err(error) = answer(&mut stream, &body)
            && error.kind() == ErrorKind::InvalidData
        {
            eprintln!("backend: {error}");
        }
    }
    Ok(())
}

// ---- the plain proxy

/// Copies up to the end of a link, and ends the other.
fn copy(source: &mut TcpStream, target: &mut TcpStream, buffer: &mut [u8]) -> Result<()> {
    loop {
        let count = source.read(buffer)?;
        if count == 0 {
            return target.shutdown(Shutdown::Write);
        }
        target.write_all(&buffer[..count])?;
    }
}

fn pass(mut client: TcpStream, port: u16, buffer: &mut [u8]) -> Result<()> {
    client.set_nodelay(true)?;
    let mut backend = connect(port)?;
    copy(&mut client, &mut backend, buffer)?;
    copy(&mut backend, &mut client, buffer)
}

fn plain(port: u16) -> Result<()> {
    for client in listen()?.incoming() {
        let client = client?;
        thread::spawn(move || pass(client, port, &mut vec![0; BUFFER]));
    }
    Ok(())
}

fn single(port: u16) -> Result<()> {
    let mut buffer = vec![0; BUFFER];
    for client in listen()?.incoming() {
        // a client that breaks off is no concern of the next one
        let _ = pass(client?, port, &mut buffer);
    }
    Ok(())
}

// ---- the client

#[repr(C)]
#[derive(Default)]
struct Timespec {
    seconds: i64,
    nanoseconds: i64,
}

unsafe extern "C" {
    fn clock_gettime(clock: i32, time: *mut Timespec) -> i32;
}

/// The processor time of all threads of a process, also of those that have ended, in nanoseconds.
fn processor_time(process: i32) -> Result<i64> {
    // as clock_getcpuclockid(3) makes the clock's number
    let clock = (!process << 3) | 2;
    let mut time = Timespec::default();
    // SAFETY: the time is written to a place that lives as long as the call.
    if unsafe { clock_gettime(clock, &mut time) } != 0 {
        return Err(Error::last_os_error());
    }
    Ok(time.seconds * 1_000_000_000 + time.nanoseconds)
}

/// One exchange; its connection ends with it.
fn ask(port: u16, body: &Body) -> Result<()> {
    let mut stream = connect(port)?;
    if body.form.down {
        stream.write_all(b"GET / HTTP/1.1\r\nHost: bench\r\n\r\n")?;
    } else {
        let head = format!("POST / HTTP/1.1\r\nHost: bench\r\n{}\r\n", body.framing());
        body.send(&mut stream, &head)?;
    }
    // a proxy that copies up to the end turns around by this
    stream.shutdown(Shutdown::Write)?;
    let (head, ahead) = hear_head(&mut stream)?;
    if !head.starts_with("HTTP/1.1 200 ") {
        return Err(fault("another reply"));
    }
    if body.form.down {
        body.take(&mut stream, &ahead)?;
    }
    match stream.read(&mut [0; 1])? {
        0 => Ok(()),
        _ => Err(fault("bytes behind the reply")),
    }
}

fn client(port: u16, form: Form, times: u32, process: i32) -> Result<()> {
    let body = Body::new(form);
    let settle = || thread::sleep(Duration::from_millis(5));
    settle();
    let before = processor_time(process)?;
    for _ in 0..times {
        ask(port, &body)?;
    }
    settle();
    let took = processor_time(process)? - before;
    println!("{}", took / i64::from(times));
    Ok(())
}

// ---- the words

fn number<N: std::str::FromStr>(word: &str) -> Result<N> {
    word.parse().map_err(|_| fault("a word that is no number"))
}

fn form(name: &str, bytes: &str, unit: &str) -> Result<Form> {
    let (down, chunked) = match name {
        "down-length" => (true, false),
        "down-chunked" => (true, true),
        "up-length" => (false, false),
        _ => return Err(fault("no such form")),
    };
    let (bytes, unit) = (number(bytes)?, number(unit)?);
    if bytes == 0 || bytes % MEBIBYTE != 0 || unit == 0 {
        return Err(fault("neither whole mebibytes nor a unit"));
    }
    Ok(Form {
        down,
        chunked,
        bytes,
        unit,
    })
}

fn run(words: &[&str]) -> Result<()> {
    match words {
        ["backend", name, bytes, unit] => backend(form(name, bytes, unit)?),
        ["plain", port] => plain(number(port)?),
        ["single", port] => single(number(port)?),
        ["port"] => listen().map(drop),
        ["client", port, name, bytes, unit, times, process] => client(
            number(port)?,
            form(name, bytes, unit)?,
            number(times)?,
            number(process)?,
        ),
        ["counts", file] => counts(file),
        ["calls", file] => calls(file),
        _ => Err(fault("words that are no command")),
    }
}

fn main() -> ExitCode {
    let words: Vec<String> = env::args().skip(1).collect();
    let words: Vec<&str> = words.iter().map(String::as_str).collect();
    match run(&words) {
        Ok(()) => ExitCode::SUCCESS,
        Err(error) => {
            eprintln!("peers {}: {error}", words.join(" "));
            ExitCode::FAILURE
        }
    }
}
