//! Why a call is refused.

use std::error::Error;
use std::fmt;

macro_rules! refusals {
    ($($name:ident = $number:literal, $sentence:literal;)*) => {
        /// Why a call is refused. A refused call changes nothing, so that it can be made again.
        ///
        /// The numbers are those of the rules (docs/RULES.md, "The numbers").
        #[derive(Clone, Copy, Debug, PartialEq, Eq, Hash, PartialOrd, Ord)]
        #[non_exhaustive]
        #[repr(u64)]
        pub enum Refusal {
            $(#[doc = $sentence] $name = $number,)*
        }

        impl Refusal {
            /// All refusals, in the order of their numbers.
            pub const ALL: &'static [Refusal] = &[$(Refusal::$name),*];

            /// The refusal with a number; none for 0, which is accepted, and for numbers that are none.
            pub fn from_number(number: u64) -> Option<Refusal> {
                match number {
                    $($number => Some(Refusal::$name),)*
                    _ => None,
                }
            }

            /// The sentence that says it, without a full stop.
            pub fn sentence(self) -> &'static str {
                match self {
                    $(Refusal::$name => $sentence,)*
                }
            }
        }
    };
}

refusals! {
    Lent = 1, "a lent size or number is wrong, or the slots do not hold together";
    Address = 2, "an address lies outside the image";
    Fletcher = 3, "a block's Fletcher sum is wrong";
    Kind = 4, "a block is no B-tree node";
    Hashed = 5, "a node is hashed";
    Layout = 6, "a node's layout, level, flags or id is not what its place asks for";
    Level = 7, "a node is not one level below its parent";
    Entry = 8, "a node's entry lies outside its block, or its entries are not a node's";
    Keys = 9, "a node's keys do not rise, lie outside their bounds or have a wrong length";
    Root = 10, "the root's storage class or stored node size is wrong";
    NoSlot = 11, "no slot is free";
    Argument = 12, "a key or value has a length that the tree does not take, or the tree is no object map";
    Single = 13, "a single entry is too large for a node";
    NoCut = 14, "no cut leaves two parts that fit";
    NewRoot = 15, "the new root above a cut root would not fit, or would be at level 33";
    Full = 16, "there are fewer usable blocks than nodes to write";
    Count = 17, "a count or an id would leave its range";
    Unmapped = 18, "the object map has no mapping of an id";
    Encrypted = 19, "a node is encrypted";
    Output = 20, "the output is too short for the answer";
}

impl Refusal {
    /// Its number.
    pub fn number(self) -> u64 {
        self as u64
    }

    /// What a call's answer says.
    ///
    /// # Panics
    /// If the number is no refusal's. The library's contract gives no other.
    pub(crate) fn check(number: u64) -> Result<(), Refusal> {
        if number == 0 {
            return Ok(());
        }
        Err(Refusal::from_number(number).unwrap_or_else(|| panic!("the library answered {number}, which is no refusal: is it of another version?")))
    }
}

impl fmt::Display for Refusal {
    fn fmt(&self, f: &mut fmt::Formatter<'_>) -> fmt::Result {
        write!(f, "refused with {}: {}", self.number(), self.sentence())
    }
}

impl Error for Refusal {}
