//! The numbers of refusal, as in docs/RULES.md and crates/layout/specs/Refusals.antt. Their list is that of the C header.

use std::error::Error;
use std::fmt;

/// A number that is not in the list: what [`Refusal::Other`] holds. Only [`Refusal::from_number`] makes one, so that no number of the list
/// stands here.
///
/// ```compile_fail
/// let three = property_area::Unlisted(3); // the field is private
/// ```
#[derive(Clone, Copy, Debug, PartialEq, Eq, Hash)]
pub struct Unlisted(u32);

impl Unlisted {
    /// The number.
    #[must_use]
    pub const fn number(self) -> u32 {
        self.0
    }
}

/// Makes the enum of its rows: number, case, sentence; then the sentence of any other number.
macro_rules! refusals {
    ($($number:literal $case:ident $sentence:literal)* else $other:literal) => {
        /// Why a call refused. Its [`number`](Refusal::number) is the archive's; it displays as a number and a sentence.
        ///
        /// Refusals 1, 2, 3, 8 and 10, every refusal of [`AreaMut::update`](crate::AreaMut::update), and every refusal of a call on
        /// [`Area`](crate::Area) leave every byte of the area. What an add that is refused with 4, 5 or 9 has linked by then stays.
        ///
        /// ```
        /// use property_area::Refusal;
        ///
        /// assert_eq!(Refusal::Missing.number(), 3);
        /// assert_eq!(Refusal::Missing.to_string(), "refusal 3: the area has no entry of that name");
        /// assert_eq!(Refusal::Missing.sentence(), "the area has no entry of that name");
        /// assert_eq!(Refusal::from_number(3), Some(Refusal::Missing));
        /// ```
        #[derive(Clone, Copy, Debug, PartialEq, Eq, Hash)]
        pub enum Refusal {
            $(#[doc = concat!(stringify!($number), ": ", $sentence, ".")] $case,)*
            /// A number that is not in the list. The archive that this was written for gives none; a later one might.
            Other(Unlisted),
        }

        impl Refusal {
            /// The refusal of a number; none for 0, which stands for accepted.
            #[must_use]
            pub const fn from_number(number: u32) -> Option<Refusal> {
                Some(match number {
                    0 => return None,
                    $($number => Refusal::$case,)*
                    other => Refusal::Other(Unlisted(other)),
                })
            }

            /// Its number.
            #[must_use]
            pub const fn number(self) -> u32 {
                match self {
                    $(Refusal::$case => $number,)*
                    Refusal::Other(unlisted) => unlisted.number(),
                }
            }

            /// What it means, as a sentence without a full stop.
            #[must_use]
            pub const fn sentence(self) -> &'static str {
                match self {
                    $(Refusal::$case => $sentence,)*
                    Refusal::Other(_) => $other,
                }
            }
        }
    };
}

include!(concat!(env!("OUT_DIR"), "/refusals.rs"));

impl fmt::Display for Refusal {
    fn fmt(&self, f: &mut fmt::Formatter<'_>) -> fmt::Result {
        write!(f, "refusal {}: {}", self.number(), self.sentence())
    }
}

impl Error for Refusal {}

/// What a number that is returned alone, or beside a result, stands for.
pub(crate) fn accepted(number: u32) -> Result<(), Refusal> {
    Refusal::from_number(number).map_or(Ok(()), Err)
}
