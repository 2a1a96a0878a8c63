//! Byte strings that begin right after an unreadable page or end right before one. An input's page can be
//! read alone: a write to it is a fault too. The few calls of the system that this takes are declared here.

use crate::calls::{told, Given};
use std::ffi::{c_char, c_int, c_long, c_void};
use std::ptr;

extern "C" {
    fn mmap(
        at: *mut c_void,
        n: usize,
        prot: c_int,
        flags: c_int,
        fd: c_int,
        from: c_long,
    ) -> *mut c_void;
    fn memfd_create(name: *const c_char, flags: u32) -> c_int;
    fn ftruncate(fd: c_int, n: c_long) -> c_int;
    fn sysconf(name: c_int) -> c_long;
    fn signal(number: c_int, handler: usize) -> usize;
    fn _exit(status: c_int) -> !;
}

/// Linux's numbers.
const NONE: c_int = 0;
const READ: c_int = 1;
const READ_WRITE: c_int = 3;
const SHARED: c_int = 1;
const PRIVATE: c_int = 2;
const FIXED: c_int = 16;
const ANONYMOUS: c_int = 32;
const PAGE_SIZE: c_int = 30;
const FAULTS: [c_int; 3] = [11, 7, 4]; // SIGSEGV, SIGBUS, SIGILL

/// Bytes of the longest string that is placed, at least.
const ROOM: usize = 65_536;

/// Which end of a string touches an unreadable page.
#[derive(Clone, Copy, PartialEq, Debug)]
pub enum Edge {
    Begin,
    End,
}

/// Room between two unreadable pages, and the same room elsewhere where it can be written.
pub struct Pages {
    seen: *mut u8,
    written: *mut u8,
    room: usize,
}

fn mapped(at: *mut u8, n: usize, prot: c_int, flags: c_int, fd: c_int) -> *mut u8 {
    let got = unsafe { mmap(at.cast(), n, prot, flags, fd, 0) };
    assert!(got as isize != -1, "no memory is mapped");
    got.cast()
}

impl Pages {
    /// For inputs: as an entry sees them they can be read alone.
    pub fn of_input() -> Pages {
        Pages::new(READ)
    }

    pub fn of_output() -> Pages {
        Pages::new(READ_WRITE)
    }

    fn new(prot: c_int) -> Pages {
        let page = unsafe { sysconf(PAGE_SIZE) } as usize;
        let room = ROOM.next_multiple_of(page);
        let fd = unsafe { memfd_create(c"pages".as_ptr(), 0) };
        assert!(fd >= 0 && unsafe { ftruncate(fd, room as c_long) } == 0, "no memory file");
        let all = mapped(ptr::null_mut(), room + 2 * page, NONE, PRIVATE | ANONYMOUS, -1);
        let seen = mapped(unsafe { all.add(page) }, room, prot, SHARED | FIXED, fd);
        let written = mapped(ptr::null_mut(), room, READ_WRITE, SHARED, fd);
        Pages { seen, written, room }
    }

    fn start(&self, length: usize, edge: Edge) -> usize {
        assert!(length <= self.room, "too long to be placed");
        if edge == Edge::Begin {
            0
        } else {
            self.room - length
        }
    }

    /// The bytes, placed.
    pub fn put(&mut self, bytes: &[u8], edge: Edge) -> &'static [u8] {
        let start = self.start(bytes.len(), edge);
        unsafe {
            ptr::copy(bytes.as_ptr(), self.written.add(start), bytes.len());
            std::slice::from_raw_parts(self.seen.add(start), bytes.len())
        }
    }

    /// The first so many of the cells (where they begin at the edge) or the last (where they end there) are
    /// lent. The others stand beside them, to be watched.
    pub fn lend(&mut self, cells: &[u8], length: usize, edge: Edge) -> &'static mut [u8] {
        let start = self.start(cells.len(), edge);
        let skipped = if edge == Edge::Begin { 0 } else { cells.len() - length };
        unsafe {
            ptr::copy(cells.as_ptr(), self.written.add(start), cells.len());
            std::slice::from_raw_parts_mut(self.seen.add(start + skipped), length)
        }
    }

    /// All cells, as they are now.
    pub fn cells(&self, count: usize, edge: Edge) -> &[u8] {
        let start = self.start(count, edge);
        unsafe { std::slice::from_raw_parts(self.written.add(start), count) }
    }
}

/// The call that is under way, and how much is lent to it: told should it end in a fault.
static mut UNDER_WAY: Option<(Given<'static>, [usize; 2])> = None;

pub fn set_under_way(given: &Given<'static>, lent: [usize; 2]) {
    unsafe { UNDER_WAY = Some((*given, lent)) }
}

extern "C" fn fault(number: c_int) {
    match unsafe { UNDER_WAY } {
        Some((given, lent)) => println!("fault, signal {number}, in {}", told(&given, lent)),
        None => println!("fault, signal {number}"),
    }
    unsafe { _exit(1) }
}

/// A fault ends the run, with the call that made it.
pub fn tell_faults() {
    FAULTS.iter().for_each(|number| {
        unsafe { signal(*number, fault as extern "C" fn(c_int) as usize) };
    });
}
