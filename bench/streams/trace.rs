//! Medians of the counts of calls: of those that are counted at full speed, and of those in a trace by strace.

use crate::bodies::MEBIBYTE;
use crate::fault;
use std::collections::BTreeMap;
use std::fs;
use std::io::Result;

/// How often a link was read and written to, and how many bytes came and went.
#[derive(Clone, Copy, Default)]
struct Link {
    reads: u64,
    came: u64,
    writes: u64,
    went: u64,
}

fn median(mut counts: Vec<u64>) -> u64 {
    counts.sort_unstable();
    counts.get(counts.len() / 2).copied().unwrap_or_default()
}

/// How many links brought a body, and the median of their reads and of the writes of those that took one.
fn print_medians(links: &[Link]) {
    let body = MEBIBYTE as u64;
    let brought: Vec<u64> = links
        .iter()
        .filter(|link| link.came >= body)
        .map(|link| link.reads)
        .collect();
    let took: Vec<u64> = links
        .iter()
        .filter(|link| link.went >= body)
        .map(|link| link.writes)
        .collect();
    println!("{} {} {}", brought.len(), median(brought), median(took));
}

/// The number that begins a text.
fn number_in(text: &str) -> Option<u64> {
    let end = text
        .find(|letter: char| !letter.is_ascii_digit())
        .unwrap_or(text.len());
    text[..end].parse().ok()
}

// ---- counted at full speed

/// The medians of the lines that `counts.rs` wrote.
pub fn counts(file: &str) -> Result<()> {
    let mut links = Vec::new();
    for line in fs::read_to_string(file)?.lines() {
        let numbers: Vec<u64> = line.split(' ').filter_map(number_in).collect();
        let [reads, came, writes, went] = numbers[..] else {
            return Err(fault("a line of other counts"));
        };
        links.push(Link {
            reads,
            came,
            writes,
            went,
        });
    }
    print_medians(&links);
    Ok(())
}

// ---- in a trace

/// The links of a trace. A link's number serves one exchange after another, and so do threads: an exchange begins where a
/// thread's first call stands, or its first behind an accept.
struct Trace {
    accepts: BTreeMap<u64, u64>,
    begun: BTreeMap<u64, u64>,
    links: BTreeMap<(u64, u64, u64), Link>,
}

impl Trace {
    /// Takes a line, which is a call or an end of one that began in a line of its thread before.
    fn line(&mut self, line: &str) -> Option<()> {
        let (thread, call) = line.split_once(' ')?;
        let thread = number_in(thread)?;
        let call = call.trim_start();
        let name = call.trim_start_matches("<... ");
        if name == call
            && let Some((_, arguments)) = call.split_once('(')
        {
            self.begun
                .insert(thread, number_in(arguments).unwrap_or(u64::MAX));
        }
        let (_, answer) = call.rsplit_once(" = ")?;
        let count = number_in(answer).filter(|count| *count > 0)?;
        if name.starts_with("accept") {
            *self.accepts.entry(thread).or_default() += 1;
            return Some(());
        }
        let accepts = self.accepts.get(&thread).copied().unwrap_or_default();
        let number = *self.begun.get(&thread)?;
        let link = self.links.entry((thread, accepts, number)).or_default();
        if name.starts_with("recv") || name.starts_with("read") {
            link.reads += 1;
            link.came += count;
        } else if name.starts_with("send") || name.starts_with("write") {
            link.writes += 1;
            link.went += count;
        }
        Some(())
    }
}

/// The medians of a trace.
pub fn calls(file: &str) -> Result<()> {
    let mut trace = Trace {
        accepts: BTreeMap::new(),
        begun: BTreeMap::new(),
        links: BTreeMap::new(),
    };
    for line in fs::read_to_string(file)?.lines() {
        // a line of another form, as a signal's, tells nothing of calls
        let _ = trace.line(line);
    }
    let links: Vec<Link> = trace.links.into_values().collect();
    print_medians(&links);
    Ok(())
}
