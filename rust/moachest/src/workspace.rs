//! A tree's slots, and the scratch of its edits.

use crate::raw;
use crate::room::Room;

/// What is lent to the calls of one tree, of the lengths that the library asks for.
pub(crate) struct Workspace {
    pub slots: usize,
    pub heads: Vec<u64>,
    pub bytes: Room,
    pub scratch: Room,
}

/// Words of a slot, and those that say how many of its bytes are in use and that it is to be written.
const SLOT_WORDS: usize = 9;
const BYTES_USED: usize = 2;
const DIRTY: usize = 7;

fn length(asked: u64) -> usize {
    usize::try_from(asked).expect("a workspace fits in memory")
}

impl Workspace {
    /// Room for so many slots; none where the library takes no such numbers.
    ///
    /// The words are zeros at first: the library asks some of them before it has written them, and though any answer will do, it is to be the same
    /// each time, which memory that nobody wrote need not give. No byte of a slot or of the scratch is asked before it is written, as valgrind sees
    /// in the tests.
    pub fn new(slots: usize, size: usize) -> Workspace {
        Workspace {
            slots,
            heads: vec![0; length(raw::moachest_workspace_words(slots))],
            bytes: Room::new(length(raw::moachest_workspace_bytes(slots, size))),
            scratch: Room::new(length(raw::moachest_scratch_bytes(slots, size))),
        }
    }

    /// Whether slot n is to be written.
    pub fn is_dirty(&self, n: usize) -> bool {
        self.heads[SLOT_WORDS * n + DIRTY] == 1
    }

    /// Twice as many slots, at most so many.
    ///
    /// Slots in use keep their numbers: their words and bytes are at the start of both slices, and what lies behind them is unused.
    pub fn grow(&mut self, size: usize, most: usize, used: usize) {
        let mut more = Workspace::new((2 * self.slots).min(most).max(self.slots), size);
        let words = SLOT_WORDS * used;
        more.heads[..words].copy_from_slice(&self.heads[..words]);
        let room = self.bytes.len() / (2 * self.slots);
        for n in 0..used {
            let length = usize::try_from(self.heads[SLOT_WORDS * n + BYTES_USED]).map_or(room, |length| length.min(room));
            more.bytes.take_over(&self.bytes, room * n, length);
        }
        *self = more;
    }
}
