//! Both ends of the benchmark: a small backend, and clients that ask it or the gateway.
//!
//!     peers backend                                        listens on a free port, prints it, and serves until it is killed
//!     peers clients PORT BYTES CONNECTIONS seconds COUNT   asks for bodies of so many bytes, for so many seconds
//!     peers clients PORT BYTES CONNECTIONS requests COUNT  asks so many times, all connections together
//!     peers port                                           prints a port that is free
//!
//! `clients` prints how many replies came and in how many seconds. A reply that isn't exactly the one that is due ends
//! it with status 1, so that nothing but whole replies is counted.

use std::env;
use std::io::{Error, ErrorKind, Read, Result, Write};
use std::net::{Ipv4Addr, TcpListener, TcpStream};
use std::process::ExitCode;
use std::sync::Barrier;
use std::thread;
use std::time::{Duration, Instant};

/// More than a request's head or the longest reply has.
const BUFFER: usize = 64 * 1024;

/// What every body consists of.
const FILLING: u8 = b'x';

fn fault(text: &str) -> Error {
    Error::new(ErrorKind::InvalidData, text)
}

/// Behind the first empty line.
fn head_end(bytes: &[u8]) -> Option<usize> {
    bytes
        .windows(4)
        .position(|four| four == b"\r\n\r\n")
        .map(|at| at + 4)
}

fn listener() -> Result<(TcpListener, u16)> {
    let listener = TcpListener::bind((Ipv4Addr::LOCALHOST, 0))?;
    let port = listener.local_addr()?.port();
    Ok((listener, port))
}

// ---- the backend

/// The reply to `GET /BYTES`: a body of so many bytes.
fn reply(head: &[u8]) -> Result<Vec<u8>> {
    let head = std::str::from_utf8(head).map_err(|_| fault("a request that is no text"))?;
    let target = head
        .strip_prefix("GET /")
        .and_then(|rest| rest.split(' ').next());
    let bytes: usize = target
        .and_then(|text| text.parse().ok())
        .filter(|bytes| *bytes < BUFFER / 2)
        .ok_or_else(|| fault("a request that isn't GET /BYTES"))?;
    let mut reply = format!(
        "HTTP/1.1 200 OK\r\nDate: Thu, 01 Jan 2026 00:00:00 GMT\r\nContent-Type: text/plain\r\nContent-Length: {bytes}\r\n\r\n"
    )
    .into_bytes();
    reply.resize(reply.len() + bytes, FILLING);
    Ok(reply)
}

/// Answers the requests of one connection until its end. Requests mostly repeat, so the last reply is kept.
fn answer(mut stream: TcpStream) -> Result<()> {
    stream.set_nodelay(true)?;
    let mut buffer = vec![0; BUFFER];
    let mut filled = 0;
    let mut last = (Vec::new(), Vec::new());
    loop {
        let read = stream.read(&mut buffer[filled..])?;
        if read == 0 {
            return Ok(());
        }
        filled += read;
        while let Some(end) = head_end(&buffer[..filled]) {
            let head = &buffer[..end];
            if last.0 != head {
                last = (head.to_vec(), reply(head)?);
            }
            stream.write_all(&last.1)?;
            buffer.copy_within(end..filled, 0);
            filled -= end;
        }
    }
}

fn serve() -> Result<()> {
    let (listener, port) = listener()?;
    println!("{port}");
    for stream in listener.incoming() {
        let stream = stream?;
        thread::spawn(move || {
            // a client that breaks off is no concern of the backend
            if let Err(error) = answer(stream)
                && error.kind() == ErrorKind::InvalidData
            {
                eprintln!("backend: {error}");
            }
        });
    }
    Ok(())
}

// ---- the clients

/// How long a client goes on.
#[derive(Clone, Copy)]
enum Until {
    Passed(Duration),
    Asked(u64),
}

/// The length of the reply to which this head belongs, with the head.
fn reply_length(head: &[u8], bytes: usize) -> Result<usize> {
    let text = std::str::from_utf8(head).map_err(|_| fault("a reply's head that is no text"))?;
    if !text.starts_with("HTTP/1.1 200 ") {
        return Err(fault(text.lines().next().unwrap_or_default()));
    }
    let length = text.lines().find_map(|line| {
        let (name, value) = line.split_once(':')?;
        name.eq_ignore_ascii_case("content-length")
            .then(|| value.trim())
    });
    match length.and_then(|value| value.parse::<usize>().ok()) {
        Some(length) if length == bytes => Ok(head.len() + length),
        _ => Err(fault("a reply of another length")),
    }
}

/// Reads one reply, whole and with nothing behind it. The body's bytes are looked at where `thorough` says so.
fn hear(stream: &mut TcpStream, buffer: &mut [u8], bytes: usize, thorough: bool) -> Result<()> {
    let mut filled = 0;
    let mut length = None;
    loop {
        let read = stream.read(&mut buffer[filled..])?;
        if read == 0 {
            return Err(fault("the connection ended before the reply's end"));
        }
        filled += read;
        if length.is_none()
            && let Some(end) = head_end(&buffer[..filled])
        {
            length = Some((end, reply_length(&buffer[..end], bytes)?));
        }
        match length {
            Some((_, length)) if filled > length => return Err(fault("bytes behind the reply")),
            Some((end, length)) if filled == length => {
                if thorough && buffer[end..length].iter().any(|byte| *byte != FILLING) {
                    return Err(fault("a reply with another body"));
                }
                return Ok(());
            }
            _ => {}
        }
    }
}

/// How many replies a client had, and when.
struct Heard {
    count: u64,
    begun: Instant,
    ended: Instant,
}

/// Asks over one connection, one request after the other.
fn ask(port: u16, bytes: usize, until: Until, ready: &Barrier) -> Result<Heard> {
    let connected = connect(port);
    // also where the connection failed, or the others would wait for ever
    ready.wait();
    let mut stream = connected?;
    let request = format!("GET /{bytes} HTTP/1.1\r\nHost: 127.0.0.1:{port}\r\n\r\n").into_bytes();
    let mut buffer = vec![0; BUFFER];
    let begun = Instant::now();
    let mut count = 0;
    loop {
        let goes_on = match until {
            Until::Passed(time) => begun.elapsed() < time,
            Until::Asked(requests) => count < requests,
        };
        if !goes_on {
            let ended = Instant::now();
            return Ok(Heard {
                count,
                begun,
                ended,
            });
        }
        stream.write_all(&request)?;
        hear(&mut stream, &mut buffer, bytes, count == 0)?;
        count += 1;
    }
}

fn connect(port: u16) -> Result<TcpStream> {
    let stream = TcpStream::connect((Ipv4Addr::LOCALHOST, port))?;
    stream.set_nodelay(true)?;
    stream.set_read_timeout(Some(Duration::from_secs(10)))?;
    Ok(stream)
}

/// How much falls to each of so many connections.
fn share(until: Until, connection: u64, connections: u64) -> Until {
    match until {
        Until::Passed(time) => Until::Passed(time),
        Until::Asked(all) => {
            Until::Asked(all / connections + u64::from(connection < all % connections))
        }
    }
}

fn ask_all(port: u16, bytes: usize, connections: u64, until: Until) -> Result<()> {
    let ready = Barrier::new(connections as usize);
    let heard = thread::scope(|scope| {
        let clients: Vec<_> = (0..connections)
            .map(|connection| {
                let (until, ready) = (share(until, connection, connections), &ready);
                scope.spawn(move || ask(port, bytes, until, ready))
            })
            .collect();
        let join = |client: thread::ScopedJoinHandle<Result<Heard>>| {
            client
                .join()
                .unwrap_or_else(|_| Err(fault("a client that panicked")))
        };
        clients.into_iter().map(join).collect::<Result<Vec<_>>>()
    })?;
    let count: u64 = heard.iter().map(|heard| heard.count).sum();
    let begun = heard.iter().map(|heard| heard.begun).min();
    let ended = heard.iter().map(|heard| heard.ended).max();
    let (Some(begun), Some(ended)) = (begun, ended) else {
        return Err(fault("no connections"));
    };
    println!("{count} {:.6}", (ended - begun).as_secs_f64());
    Ok(())
}

// ---- the words

fn number<N: std::str::FromStr>(word: &str) -> Result<N> {
    word.parse().map_err(|_| fault("a word that is no number"))
}

fn run(words: &[&str]) -> Result<()> {
    match words {
        ["backend"] => serve(),
        ["port"] => listener().map(|(_, port)| println!("{port}")),
        ["clients", port, bytes, connections, kind, count] => {
            let until = match *kind {
                "seconds" => Until::Passed(Duration::from_secs(number(count)?)),
                "requests" => Until::Asked(number(count)?),
                _ => return Err(fault("neither seconds nor requests")),
            };
            ask_all(number(port)?, number(bytes)?, number(connections)?, until)
        }
        _ => Err(fault("words that are no command")),
    }
}

fn main() -> ExitCode {
    let words: Vec<String> = env::args().skip(1).collect();
    let words: Vec<&str> = words.iter().map(String::as_str).collect();
    match run(&words) {
        Ok(()) => ExitCode::SUCCESS,
        Err(error) => {
            eprintln!("peers {}: {error}", words.join(" "));
            ExitCode::FAILURE
        }
    }
}
