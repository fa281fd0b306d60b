//! Memory to lend.

use std::alloc::{alloc, dealloc, handle_alloc_error, Layout};
use std::ptr::NonNull;

/// Bytes that the library is lent and that nobody looks at here.
///
/// They are not filled first. The library takes what lies in unused slots and in the scratch as it is, so that zeros would say nothing; and of all that
/// a tree owns, few pages are used: to fill the rest would take longer than to open the tree.
pub(crate) struct Room {
    start: NonNull<u8>,
    length: usize,
}

// SAFETY: the bytes are the room's own, as a vector's are.
unsafe impl Send for Room {}
// SAFETY: behind a shared reference nothing can be done but to ask where they are, and to copy them.
unsafe impl Sync for Room {}

impl Room {
    /// Room for so many bytes.
    pub fn new(length: usize) -> Room {
        if length == 0 {
            return Room { start: NonNull::dangling(), length };
        }
        let layout = Room::layout(length);
        // SAFETY: the layout is not empty.
        let start = NonNull::new(unsafe { alloc(layout) }).unwrap_or_else(|| handle_alloc_error(layout));
        Room { start, length }
    }

    fn layout(length: usize) -> Layout {
        Layout::array::<u8>(length).expect("a workspace fits in memory")
    }

    pub fn len(&self) -> usize {
        self.length
    }

    pub fn as_ptr(&self) -> *const u8 {
        self.start.as_ptr()
    }

    pub fn as_mut_ptr(&mut self) -> *mut u8 {
        self.start.as_ptr()
    }

    /// Takes over `length` bytes from `at` on, to the same place.
    ///
    /// # Panics
    /// If they do not lie in both.
    pub fn take_over(&mut self, other: &Room, at: usize, length: usize) {
        let end = at.checked_add(length).expect("a place in memory");
        assert!(end <= self.length && end <= other.length, "bytes {at} to {end} lie outside");
        // SAFETY: both rooms have these bytes, as was just seen, and are two, as one is borrowed as nobody else's.
        unsafe { other.start.as_ptr().add(at).copy_to_nonoverlapping(self.start.as_ptr().add(at), length) }
    }
}

impl Drop for Room {
    fn drop(&mut self) {
        if self.length != 0 {
            // SAFETY: `new` got them with this layout.
            unsafe { dealloc(self.start.as_ptr(), Room::layout(self.length)) }
        }
    }
}

#[cfg(test)]
mod tests {
    use super::Room;

    #[test]
    fn bytes_are_taken_over() {
        let (mut a, mut b) = (Room::new(8), Room::new(4));
        for i in 0..4 {
            // SAFETY: b has four bytes.
            unsafe { b.as_mut_ptr().add(i).write(i as u8) };
        }
        a.take_over(&b, 1, 3);
        // SAFETY: bytes 1 to 3 of a were written by the line above.
        assert_eq!((1..4).map(|i| unsafe { a.as_ptr().add(i).read() }).collect::<Vec<_>>(), [1, 2, 3]);
        a.take_over(&Room::new(0), 0, 0);
        assert_eq!((a.len(), Room::new(0).len()), (8, 0));
    }

    #[test]
    #[should_panic(expected = "lie outside")]
    fn bytes_outside_are_not() {
        Room::new(8).take_over(&Room::new(4), 2, 3);
    }
}
