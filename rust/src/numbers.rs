//! Numbers of `include/uss.h` as enums. A number that comes from the archive is looked up: none is taken for an enum as it stands.

use core::fmt;

/// An enum of numbers that the archive gives: each case with its number, and `Other` for every number that is not known.
macro_rules! numbers {
    ($(#[$about:meta])* $name:ident: $($(#[$doc:meta])* $case:ident = $number:literal,)+) => {
        $(#[$about])*
        #[derive(Clone, Copy, Debug, PartialEq, Eq, Hash)]
        #[non_exhaustive]
        pub enum $name {
            $($(#[$doc])* $case,)+
            /// A number that this crate does not know.
            Other(u32),
        }

        impl $name {
            /// The number.
            pub const fn number(self) -> u32 {
                match self {
                    $(Self::$case => $number,)+
                    Self::Other(number) => number,
                }
            }
        }

        impl From<u32> for $name {
            fn from(number: u32) -> Self {
                match number {
                    $($number => Self::$case,)+
                    number => Self::Other(number),
                }
            }
        }

        /// The number, and its name in brackets.
        impl fmt::Display for $name {
            fn fmt(&self, f: &mut fmt::Formatter<'_>) -> fmt::Result {
                write!(f, "{} ({:?})", self.number(), self)
            }
        }
    };
}

numbers! {
    /// Why a call was refused. A refusal writes nothing and changes nothing.
    Refusal:
    /// Fewer than 5 bytes received.
    Short = 10,
    /// First byte not 02.
    Start = 11,
    /// LGE not 3 to 254.
    Lge = 12,
    /// Byte count not LGE + 2.
    Count = 13,
    /// BCC wrong.
    Check = 14,
    /// ADR bit 7, or bits 5 and 6 together; in a reply also bit 5 or bit 6.
    Address = 15,
    /// Not a broadcast, and another node's.
    OtherNode = 16,
    /// Not a mirror, and not 2 * (PKW + PZD) net bytes.
    OtherLength = 17,
    /// A broadcast that commands nothing.
    VoidBroadcast = 18,
    /// Node over 31, PKW not 0, 3, 4, PZD over 4, or both 0.
    BadSetup = 20,
    /// The table breaks a rule.
    BadTable = 21,
    /// Value count wrong, or a value outside its limits.
    BadValues = 22,
    /// Reply buffer under 256 bytes.
    ShortReply = 23,
    /// List not one place per record, or not the sums.
    BadPlaces = 25,
    /// Master: set-up as 20.
    UnfitSetup = 30,
    /// Master: request not expressible.
    NotAskable = 31,
    /// Master: buffer under 256 bytes.
    ShortOut = 32,
    /// Master: a sound telegram, but no reply to this task.
    NotTheReply = 33,
    /// Hertz: reference not 1 to 650.
    BadReference = 50,
}

numbers! {
    /// Why a drive did not do a task: the value of a reply with ID 7.
    ParameterError:
    /// No such parameter.
    NoParameter = 0,
    /// The parameter can only be read.
    NotWritable = 1,
    /// The value is outside the limits.
    OutsideLimits = 2,
    /// Array, and index not below its element count.
    NoElement = 3,
    /// Not an array, and index over 1.
    NoArray = 4,
    /// Word task on a double parameter, or the reverse.
    OtherWidth = 5,
    /// Double parameter in a three-word area.
    NeedsFour = 102,
    /// Task 4, 5, 10 or 15.
    NoSuchTask = 106,
}

numbers! {
    /// A rule of a table and its values (docs/TABLES.md of the repository), in the order in which they are looked at.
    Rule:
    /// The length is not whole records of 12 bytes.
    PartRecord = 1,
    /// More than 512 records.
    ManyRecords = 2,
    /// Number not over that of the record before it.
    NumberOrder = 3,
    /// Number over 31999.
    HighNumber = 4,
    /// Elements over 254.
    ManyElements = 5,
    /// A spare bit is set.
    SpareBit = 6,
    /// A word's limit has an upper half.
    UpperHalf = 7,
    /// Minimum over maximum.
    LimitOrder = 8,
    /// Over 4096 places with this record.
    ManyPlaces = 9,
    /// Another number of values than the table has places.
    ValueCount = 10,
    /// A value outside its record's limits.
    OutsideLimits = 11,
}

/// What a master asks of a parameter. These are the tasks that can be asked: a number of another is refused by `try_from`.
#[derive(Clone, Copy, Debug, Default, PartialEq, Eq, Hash)]
#[repr(u8)]
pub enum Task {
    /// Nothing; parameter, index and value are 0.
    #[default]
    None = 0,
    /// Read.
    Read = 1,
    /// Change a word.
    ChangeWord = 2,
    /// Change a double.
    ChangeDouble = 3,
    /// Read an element.
    ReadElement = 6,
    /// Change an element, a word.
    ChangeElementWord = 7,
    /// Change an element, a double.
    ChangeElementDouble = 8,
    /// Ask how many elements there are.
    CountElements = 9,
    /// As `ChangeElementDouble`, and asks for saving.
    SaveElementDouble = 11,
    /// As `ChangeElementWord`, and asks for saving.
    SaveElementWord = 12,
    /// As `ChangeDouble`, and asks for saving.
    SaveDouble = 13,
    /// As `ChangeWord`, and asks for saving.
    SaveWord = 14,
}

impl TryFrom<u8> for Task {
    type Error = Refusal;

    /// The task of a number; `NotAskable`, as the call would answer, where there is none.
    fn try_from(number: u8) -> Result<Self, Refusal> {
        const ALL: [Task; 12] = [
            Task::None, Task::Read, Task::ChangeWord, Task::ChangeDouble, Task::ReadElement, Task::ChangeElementWord,
            Task::ChangeElementDouble, Task::CountElements, Task::SaveElementDouble, Task::SaveElementWord, Task::SaveDouble,
            Task::SaveWord,
        ];
        ALL.into_iter().find(|task| *task as u8 == number).ok_or(Refusal::NotAskable)
    }
}

/// What a reply says of the parameter.
#[derive(Clone, Copy, Debug, PartialEq, Eq, Hash)]
#[non_exhaustive]
pub enum Content {
    /// Nothing: the answer to task 0, or there is no parameter area (ID 0).
    None,
    /// A word, as bits: `as i16` where the parameter is signed (ID 1).
    Word(u16),
    /// A double, as bits (ID 2).
    Double(u32),
    /// An element, a word (ID 4).
    ElementWord(u16),
    /// An element, a double (ID 5).
    ElementDouble(u32),
    /// How many elements there are, 1 where there is no array (ID 6).
    Elements(u16),
    /// The task was not done (ID 7).
    Error(ParameterError),
    /// The master has no right to change (ID 8).
    NoRight,
    /// A reply ID with a value that this crate does not know.
    Other {
        /// The reply ID.
        id: u32,
        /// The value that came with it.
        value: u32,
    },
}

impl Content {
    /// What a reply ID and its value say.
    pub(crate) fn of(id: u32, value: u32) -> Self {
        match (id, u16::try_from(value)) {
            (0, Ok(0)) => Self::None,
            (1, Ok(word)) => Self::Word(word),
            (2, _) => Self::Double(value),
            (4, Ok(word)) => Self::ElementWord(word),
            (5, _) => Self::ElementDouble(value),
            (6, Ok(word)) => Self::Elements(word),
            (7, _) => Self::Error(ParameterError::from(value)),
            (8, Ok(0)) => Self::NoRight,
            _ => Self::Other { id, value },
        }
    }
}

#[cfg(test)]
mod tests {
    use super::*;

    #[test]
    fn contents_that_no_reply_has_are_other() {
        for (id, value) in [(0, 1), (1, 0x1_0000), (3, 0), (4, 0x1_0000), (6, 0x1_0000), (8, 1), (9, 0), (u32::MAX, 5)] {
            assert_eq!(Content::of(id, value), Content::Other { id, value });
        }
    }
}
