//! Counts the reads and writes of each link of a program at its full speed, where a trace would slow it down. It is loaded
//! before the C library (LD_PRELOAD), and adds a line to the file that COUNTS names when a link is closed: how often it was
//! read, how many bytes came, how often it was written to, and how many bytes went.

use std::env;
use std::fs::OpenOptions;
use std::io::Write;
use std::ptr::null_mut;
use std::sync::atomic::{AtomicU64, Ordering::Relaxed};

struct Link {
    reads: AtomicU64,
    came: AtomicU64,
    writes: AtomicU64,
    went: AtomicU64,
}

static LINKS: [Link; 1024] = [const {
    Link {
        reads: AtomicU64::new(0),
        came: AtomicU64::new(0),
        writes: AtomicU64::new(0),
        went: AtomicU64::new(0),
    }
}; 1024];

unsafe extern "C" {
    fn recvfrom(
        link: i32,
        buffer: *mut u8,
        length: usize,
        flags: i32,
        peer: *mut u8,
        room: *mut u32,
    ) -> isize;
    fn sendto(
        link: i32,
        bytes: *const u8,
        length: usize,
        flags: i32,
        peer: *const u8,
        room: u32,
    ) -> isize;
    fn __close(link: i32) -> i32;
}

fn link(number: i32) -> Option<&'static Link> {
    LINKS.get(usize::try_from(number).ok()?)
}

/// # Safety
/// As of recv(2).
#[unsafe(no_mangle)]
pub unsafe extern "C" fn recv(number: i32, buffer: *mut u8, length: usize, flags: i32) -> isize {
    // SAFETY: a recv is a recvfrom that asks for no address.
    let count = unsafe { recvfrom(number, buffer, length, flags, null_mut(), null_mut()) };
    if let (Some(link), 1..) = (link(number), count) {
        link.reads.fetch_add(1, Relaxed);
        link.came.fetch_add(count as u64, Relaxed);
    }
    count
}

/// # Safety
/// As of send(2).
#[unsafe(no_mangle)]
pub unsafe extern "C" fn send(number: i32, bytes: *const u8, length: usize, flags: i32) -> isize {
    // SAFETY: a send is a sendto that names no address.
    let count = unsafe { sendto(number, bytes, length, flags, null_mut(), 0) };
    if let (Some(link), 1..) = (link(number), count) {
        link.writes.fetch_add(1, Relaxed);
        link.went.fetch_add(count as u64, Relaxed);
    }
    count
}

/// # Safety
/// As of close(2).
#[unsafe(no_mangle)]
pub unsafe extern "C" fn close(number: i32) -> i32 {
    if let Some(link) = link(number) {
        tell(link);
    }
    // SAFETY: as the caller's.
    unsafe { __close(number) }
}

/// Begins anew for the link that has the number next.
fn tell(link: &Link) {
    let line = [&link.reads, &link.came, &link.writes, &link.went]
        .map(|count| count.swap(0, Relaxed).to_string())
        .join(" ");
    if line == "0 0 0 0" {
        return;
    }
    let Ok(name) = env::var("COUNTS") else { return };
    if let Ok(mut file) = OpenOptions::new().create(true).append(true).open(name) {
        let _ = writeln!(file, "{line}");
    }
}
