use std::error::Error;
use std::fmt;

/// The enum and what goes by its names, of one list.
macro_rules! refusals {
    ($($name:ident = $number:literal, $sentence:literal;)*) => {
        /// Why something is refused. Each has a number, the same in every language, and a sentence.
        ///
        /// Of several that hold, the one given is the first of 2, 1, 4; the others follow, in the order of the work.
        /// This crate lends what the library asks for, so it never meets [`ShortTray`](Refusal::ShortTray). More
        /// refusals may come, so a `match` needs an arm for all others.
        ///
        /// ```
        /// use light_tree::{AliasTable, Refusal};
        ///
        /// let refusal = AliasTable::build(&[1.0, -1.0]).unwrap_err();
        /// assert_eq!(refusal, Refusal::OutOfRange);
        /// assert_eq!(refusal.number(), 8);
        /// assert_eq!(Refusal::BadU.to_string(), "u is not a number from 0 to 1");
        /// ```
        #[derive(Clone, Copy, Debug, Eq, Hash, PartialEq)]
        #[non_exhaustive]
        pub enum Refusal {
            $(#[doc = concat!($number, ": ", $sentence, ".")] $name,)*
            /// Not of the library, so without a number (0): the system has no thread of 4 MiB to build a tree on.
            NoThread,
            /// Any other number: the library that the program is linked with is not the one that this crate is for.
            #[non_exhaustive]
            Unknown(u32),
        }

        impl Refusal {
            /// The number; 0 for [`NoThread`](Refusal::NoThread), which is none of the library's.
            ///
            /// ```
            /// assert_eq!(light_tree::Refusal::BadU.number(), 11);
            /// ```
            pub fn number(self) -> u32 {
                match self {
                    $(Refusal::$name => $number,)*
                    Refusal::NoThread => 0,
                    Refusal::Unknown(number) => number,
                }
            }

            /// The refusal of a number, none where this crate knows none.
            ///
            /// ```
            /// use light_tree::Refusal;
            ///
            /// assert_eq!(Refusal::from_number(11), Some(Refusal::BadU));
            /// assert_eq!(Refusal::from_number(0), None);
            /// ```
            pub fn from_number(number: u32) -> Option<Refusal> {
                match number {
                    $($number => Some(Refusal::$name),)*
                    _ => None,
                }
            }
        }

        impl fmt::Display for Refusal {
            fn fmt(&self, f: &mut fmt::Formatter) -> fmt::Result {
                f.write_str(match self {
                    $(Refusal::$name => $sentence,)*
                    Refusal::NoThread => "the system has no thread of 4 MiB to build the tree on",
                    Refusal::Unknown(_) => "a reason that light_tree does not know: its library is of another version",
                })
            }
        }
    };
}

// `tools/refusals --write` makes these lines of crates/words/src/refusals.rt
refusals! {
    Ragged = 1, "a length or layout is wrong, a kind or side unknown, or lights and records differ in number";
    Crowded = 2, "over 4,096 lamps (columns: 512), weights or table words, 8,191 nodes, or 2^20 words";
    ShortTray = 3, "a slice that is lent for output or for work is shorter than its reserve";
    Misplaced = 4, "a handle is not its lamp's place";
    NotFinite = 5, "a coordinate or a value of a record is infinite or NaN, such as a power that overflows";
    Inverted = 6, "a box has a min above its max";
    NoDirection = 7, "a direction, normal or way from a box's centre to the point has no length to divide by";
    OutOfRange = 8, "an emission, intensity, scale, weight, power or cosine is out of its range";
    NoArea = 9, "a triangle's area is not a finite number above 0, or a group has no triangle";
    LostUnion = 10, "bounds of lamps or triangles cannot be joined, since some fail their check";
    BadU = 11, "u is not a number from 0 to 1";
    BrokenTree = 12, "the nodes are no tree (wrong kind, side, index or child, endless walk), or k or box differs";
    TooWide = 13, "a packed handle or child is above 2^31 - 1";
}

impl Error for Refusal {}
