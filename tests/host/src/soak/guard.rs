//! Memory between two pages that nobody may touch. A slice that is lent ends exactly where the upper one begins, or begins exactly
//! where the lower one ends; bytes on its open side are watched.

use std::os::raw::{c_int, c_void};

extern "C" {
    fn mmap(addr: *mut c_void, length: usize, prot: c_int, flags: c_int, fd: c_int, offset: i64) -> *mut c_void;
    fn mprotect(addr: *mut c_void, length: usize, prot: c_int) -> c_int;
}

const PAGE: usize = 4096;
const READ_WRITE: c_int = 3;
const PRIVATE_ANONYMOUS: c_int = 0x22;
const WATCHED: usize = 64;
const CANARY: u8 = 0xc5;

/// Which end of a slice lies at a guard page.
#[derive(Clone, Copy, PartialEq)]
pub enum Side {
    End,
    Start,
}

pub struct Arena {
    base: *mut u8,
    room: usize,
    at: usize,
    length: usize,
}

impl Arena {
    pub fn new(bytes: usize) -> Self {
        let room = (bytes + WATCHED).div_ceil(PAGE) * PAGE;
        // No access at first: the first and the last page stay so.
        let all = unsafe { mmap(std::ptr::null_mut(), room + 2 * PAGE, 0, PRIVATE_ANONYMOUS, -1, 0) } as *mut u8;
        assert!(all as isize != -1, "memory is mapped");
        let base = unsafe { all.add(PAGE) };
        assert!(unsafe { mprotect(base.cast(), room, READ_WRITE) } == 0, "memory is opened");
        Self { base, room, at: 0, length: 0 }
    }

    /// A copy of the items at the guard page.
    pub fn place<T: Copy>(&mut self, items: &[T], side: Side) -> &'static mut [T] {
        self.length = std::mem::size_of_val(items);
        assert!(self.length + WATCHED <= self.room, "the arena has room");
        self.at = if side == Side::End { self.room - self.length } else { 0 };
        self.watched().iter_mut().for_each(|b| *b = CANARY);
        unsafe {
            let start = self.base.add(self.at).cast::<T>();
            std::ptr::copy_nonoverlapping(items.as_ptr(), start, items.len());
            std::slice::from_raw_parts_mut(start, items.len())
        }
    }

    /// The bytes on the open side of the slice.
    fn watched(&mut self) -> &mut [u8] {
        let at = if self.at == 0 { self.length } else { self.at - WATCHED };
        unsafe { std::slice::from_raw_parts_mut(self.base.add(at), WATCHED) }
    }

    pub fn is_kept(&mut self) -> bool {
        self.watched().iter().all(|b| *b == CANARY)
    }
}
