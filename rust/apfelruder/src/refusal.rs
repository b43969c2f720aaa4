//! The table of refusals (RULES 5.2) as a Rust type.
use crate::raw::Answer;
use core::{error, fmt};

/// Why a call was refused.
///
/// A refusal stands for three numbers, [`code`](Refusal::code), [`operand`](Refusal::operand) and
/// [`place`](Refusal::place), and keeps them all. Where the table leaves a number open it is a field: an operand counts
/// the inputs of the call from 1 and is 0 if no single one is meant, a place is an index from 0. A board that deploy refuses
/// has the refusal of its split alone: operand 1 is that board's list.
///
/// A later version of the library may have more codes, so a `match` needs a last arm for the rest.
#[derive(Clone, Copy, Debug, PartialEq, Eq, Hash)]
#[non_exhaustive]
pub enum Refusal {
    /// Code 1: split of the empty list, which is zero and is no product of parts; audit, if that is the approved list. Operand 1.
    Zero,
    /// Code 2: a list has more than 1,024 terms; from read, the block says so; from read text, so many are written, or the
    /// text has more than 65,536 bytes; from audit also, more than 64 parts are given; from deploy, more than 64 boards.
    TooMany {
        /// Which list: 1 or 2 from multiply, 1 to 4 (a, d, b, c) from same products, 1 (approved) to 65 from audit, 1 else.
        /// 0 from audit if there are too many given parts, from deploy if there are too many boards.
        operand: u64,
    },
    /// Code 3: a term is not above the one before it. Terms ascend and none stands twice.
    Order {
        /// Which list: 1 or 2 from multiply, 1 to 4 (a, d, b, c) from same products, 1 (approved) to 65 from audit, 1 else.
        operand: u64,
        /// The index in that list of the first such term, 1 or more; from read, of the term and not of a byte.
        place: u64,
    },
    /// Code 4: multiply, a variable is in both lists. Operand 0, for it takes both.
    Shared,
    /// Code 5: multiply, the lengths of the lists multiply to more than 1,024; write text, the text would have more than
    /// 65,536 bytes.
    TooLarge {
        /// 0 from multiply, for it takes both lists; 1 from write text.
        operand: u64,
    },
    /// Code 6: a lent output is too short. Only raw calls can give it: the others lend enough.
    Room {
        /// 0 from multiply, whose room depends on both lists, and from deploy if the answers have too little; 1 else.
        operand: u64,
    },
    /// Code 7: split and audit, the work area is shorter than 4 words a term. Operand 1. Only raw calls can give it.
    Work,
    /// Code 8: read, the form number is not 1. Operand 1, as for all that follow and have no operand of their own.
    Form,
    /// Code 9: read, the block says n above 64.
    Wide,
    /// Code 10: read, the bytes end before the block does, and under 3 bytes is always this; audit and deploy, the lengths
    /// add to more words than were lent. The safe ones lend what they count, so only the raw calls can give it.
    Short {
        /// 1 from read, 0 from audit and deploy.
        operand: u64,
    },
    /// Code 11: read, the block's n is larger than one more than the highest variable of its list.
    Misfit,
    /// Code 12: read, there are bytes after the block; audit and deploy, the lengths add to fewer words than were lent,
    /// which only the raw calls can give.
    Extra {
        /// 1 from read, 0 from audit and deploy.
        operand: u64,
    },
    /// Code 13: read, one of the bits that fill up the last byte is set.
    Pad,
    /// Code 14: read text, no equation goes on so, or the text ends too early.
    Sign {
        /// The index of the first byte with which no equation goes on; the length of the text if it ends too early.
        place: u64,
    },
    /// Code 15: read text, a variable stands again in its term.
    Twice {
        /// The index of the `+`, `*` or line feed behind it.
        place: u64,
    },
    /// Numbers that are not in the table. This version of the library never gives them; an archive of a later one may.
    Unknown {
        /// The code, as it came.
        code: u64,
        /// The operand, as it came.
        operand: u64,
        /// The place, as it came.
        place: u64,
    },
}

impl Refusal {
    /// The refusal that stands for these numbers. It keeps them, whatever they are: what is not in the table is unknown.
    pub(crate) fn of(code: u64, operand: u64, place: u64) -> Refusal {
        let unknown = Refusal::Unknown { code, operand, place };
        let tabled = match code {
            1 => Refusal::Zero,
            2 => Refusal::TooMany { operand },
            3 => Refusal::Order { operand, place },
            4 => Refusal::Shared,
            5 => Refusal::TooLarge { operand },
            6 => Refusal::Room { operand },
            7 => Refusal::Work,
            8 => Refusal::Form,
            9 => Refusal::Wide,
            10 => Refusal::Short { operand },
            11 => Refusal::Misfit,
            12 => Refusal::Extra { operand },
            13 => Refusal::Pad,
            14 => Refusal::Sign { place },
            15 => Refusal::Twice { place },
            _ => unknown,
        };
        let kept = tabled.operand() == operand && tabled.place() == place;
        if kept {
            tabled
        } else {
            unknown
        }
    }

    /// The number of the refusal, as in the C header.
    #[must_use]
    pub const fn code(self) -> u64 {
        match self {
            Refusal::Zero => 1,
            Refusal::TooMany { .. } => 2,
            Refusal::Order { .. } => 3,
            Refusal::Shared => 4,
            Refusal::TooLarge { .. } => 5,
            Refusal::Room { .. } => 6,
            Refusal::Work => 7,
            Refusal::Form => 8,
            Refusal::Wide => 9,
            Refusal::Short { .. } => 10,
            Refusal::Misfit => 11,
            Refusal::Extra { .. } => 12,
            Refusal::Pad => 13,
            Refusal::Sign { .. } => 14,
            Refusal::Twice { .. } => 15,
            Refusal::Unknown { code, .. } => code,
        }
    }

    /// Which input is meant, from 1 in the order of the call; 0 if no single one is.
    #[must_use]
    pub const fn operand(self) -> u64 {
        match self {
            Refusal::TooMany { operand }
            | Refusal::Order { operand, .. }
            | Refusal::TooLarge { operand }
            | Refusal::Room { operand }
            | Refusal::Short { operand }
            | Refusal::Extra { operand }
            | Refusal::Unknown { operand, .. } => operand,
            Refusal::Shared => 0,
            _ => 1,
        }
    }

    /// The index of the first term out of order, or of the byte of a text that is wrong; 0 with every refusal but
    /// [`Order`](Refusal::Order), [`Sign`](Refusal::Sign) and [`Twice`](Refusal::Twice).
    #[must_use]
    pub const fn place(self) -> u64 {
        match self {
            Refusal::Order { place, .. }
            | Refusal::Sign { place }
            | Refusal::Twice { place }
            | Refusal::Unknown { place, .. } => place,
            _ => 0,
        }
    }
}

/// An operand in words.
struct List(u64);

impl fmt::Display for List {
    fn fmt(&self, f: &mut fmt::Formatter<'_>) -> fmt::Result {
        match self.0 {
            1 => f.write_str("the first list"),
            2 => f.write_str("the second list"),
            3 => f.write_str("the third list"),
            4 => f.write_str("the fourth list"),
            number => write!(f, "list {number}"),
        }
    }
}

/// A sentence for the designer of the equation.
impl fmt::Display for Refusal {
    fn fmt(&self, f: &mut fmt::Formatter<'_>) -> fmt::Result {
        let sentence = match *self {
            Refusal::TooMany { operand: 0 } => "more than 64 parts or boards are given",
            Refusal::TooMany { operand: 1 } => {
                "the first list has more than 1,024 terms, or the text more than 65,536 bytes"
            }
            Refusal::TooMany { operand } => return write!(f, "{} has more than 1,024 terms", List(operand)),
            Refusal::Order { operand, place } => {
                let list = List(operand);
                return write!(f, "{list} is out of order at index {place}: the term is not above the one before it");
            }
            Refusal::Sign { place } => {
                return write!(
                    f,
                    "no equation goes on with the byte at index {place} of the text, or it ends there too early"
                );
            }
            Refusal::Twice { place } => {
                return write!(f, "a variable stands twice in a term, before the byte at index {place} of the text");
            }
            Refusal::Unknown { code, operand, place } => {
                return write!(f, "refused for an unknown reason: code {code}, operand {operand}, place {place}");
            }
            Refusal::Zero => "the list is empty: zero has no parts",
            Refusal::Shared => "a variable is in both lists",
            Refusal::TooLarge { operand: 0 } => "the product would have more than 1,024 terms",
            Refusal::TooLarge { .. } => "the text would have more than 65,536 bytes",
            Refusal::Room { .. } => "an output buffer is too short",
            Refusal::Work => "the work area is shorter than 4 words a term",
            Refusal::Form => "the form number of the block is not 1",
            Refusal::Wide => "the block says n above 64",
            Refusal::Short { operand: 0 } => "the given lengths add to more words than were lent",
            Refusal::Short { .. } => "the bytes end before the block does",
            Refusal::Misfit => "the block says a larger n than its highest variable asks for",
            Refusal::Extra { operand: 0 } => "the given lengths add to fewer words than were lent",
            Refusal::Extra { .. } => "there are bytes after the block",
            Refusal::Pad => "a padding bit at the end of the block is set",
        };
        f.write_str(sentence)
    }
}

impl error::Error for Refusal {}

/// The four numbers of a refused answer.
impl From<Refusal> for Answer {
    fn from(refusal: Refusal) -> Answer {
        Answer { code: refusal.code(), operand: refusal.operand(), place: refusal.place(), count: 0 }
    }
}
