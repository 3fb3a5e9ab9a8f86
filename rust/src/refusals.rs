//! Why an operation, an access or a line is refused.
use crate::abi;
use std::{error, fmt};

macro_rules! refusals {
    ($($name:ident = $number:literal),+ $(,)?) => {
        /// Why an operation, an access or a line is refused. The numbers are those of a verdict of `capcheck judge`,
        /// `capdiag run` or `capdiag heap`.
        #[derive(Clone, Copy, Debug, PartialEq, Eq, Hash)]
        #[repr(u8)]
        #[allow(missing_docs)]
        pub enum Refusal { $($name = $number),+ }

        impl Refusal {
            /// The refusal with a number; none for any other number.
            pub fn of(number: u8) -> Option<Refusal> {
                match number {
                    $($number => Some(Refusal::$name),)+
                    _ => None,
                }
            }
        }
    };
}

refusals! {
    BadHeader = 1, LineTooLong = 2, BadLine = 3, Misplaced = 4, Truncated = 5, WrongCount = 6, PlaceTaken = 7,
    UnsoundRoot = 8, SourceUntagged = 9, SourceSealed = 10, BoundsEscape = 11, NotExact = 12, NotRepresentable = 13,
    AuthorityUntagged = 14, AuthoritySealed = 15, AuthorityPermission = 16, AuthorityBounds = 17, TypeOutOfRange = 18,
    TypeMismatch = 19, Misaligned = 20, StoreCapPermission = 21, StoreLocalPermission = 22, WrongResult = 23,
    LimitPassed = 24, BadMode = 25, AddressTaken = 26, OutsideHeap = 27, Overlaps = 28, NotLive = 29, UnsoundResult = 30, BeyondSource = 31, SealChanged = 32, NotInvokable = 33,
    NoCapability = 34, HasOwner = 35, StillHeld = 36, NoOwner = 37, AlreadyFreed = 38, OwnerFreed = 39, NoObject = 40,
    NotOwned = 41, BadArgument = 255,
}

impl Refusal {
    /// The name that a verdict prints, such as `BoundsEscape`.
    pub fn name(self) -> String {
        abi::text(&unsafe { abi::capcheck_refusal_name(self as u8) }.text)
    }

    /// A sentence that says why a line is refused. It is empty for `BadArgument`.
    pub fn sentence(self) -> String {
        abi::text(&unsafe { abi::capcheck_refusal_sentence(self as u8) }.text)
    }
}

impl fmt::Display for Refusal {
    fn fmt(&self, to: &mut fmt::Formatter<'_>) -> fmt::Result {
        to.pad(&self.name())
    }
}

impl error::Error for Refusal {}
