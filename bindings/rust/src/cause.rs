use std::error::Error;
use std::fmt;

/// The causes of a refusal, each with its number and in the words of document 01, or of document 02 where that changed it.
#[derive(Clone, Copy, PartialEq, Eq, Hash, Debug)]
#[non_exhaustive]
#[repr(u8)]
pub enum Cause {
    /// "under 3 bytes, over 4,101, or not 3 plus the count", with 15,621 for 4,101
    Length = 1,
    /// "neither 1 nor 2", and "let 3 pass too"
    Version = 2,
    /// "n is 0 or above 16"
    OptionCount = 3,
    /// "a size is 0 or above 16", or above 32 in versions 2 and 3
    Size = 4,
    /// "p above n(n-1)/2"
    TableCount = 5,
    /// "a field is cut off, or bytes are left over"
    CutOff = 6,
    /// "a of 0, b of 0, or either above n"
    Pair = 7,
    /// "row has a bit at or above the size of b"
    Row = 8,
    /// "state not sound"
    NotSound = 9,
    /// "option number 0 or above n"
    OptionNumber = 10,
    /// "the two options equal, or one not live"; leader: "the named option is not live"; a follower's value: the option named is live
    NotLive = 11,
    /// "pair not stated"
    NotStated = 12,
    /// "not functional from leader to follower"
    NotFunctional = 13,
    /// "build buffer not n bytes"; finding an order: "a buffer not of n bytes"
    BuildLength = 14,
    /// "completer: a live value not in its list; tester: a value at or above its size"; a follower's value: not in the list of its leader
    Value = 15,
    /// "completer: two live values that their stated pair does not allow"
    ValuesForbidden = 16,
    /// "written sheet longer than the buffer"
    BufferLength = 17,
    /// "writer: a follower exists or a list is not full"
    NotAsRead = 18,
    /// "a is not below b"
    PairOrder = 19,
    /// "the pair is not after the one before"
    PairSequence = 20,
    /// added table: "two equal options"
    SameOptions = 21,
    /// added table: "a wrong count of rows or a bit at or above the size"
    TableRows = 22,
    /// search: "the product of the live list sizes exceeds 1,000,000"; survey: that of the live options stated with another live one
    TooManyChoices = 23,
    /// writer: "an unknown version or a size above 16 in version 1"
    NotInVersion = 24,
    /// page nine: "fewer than two options or where option 1 or 2 is not of size four"
    NotFlatMeter = 25,
    /// version 3 "forbids an all-zero row": in a sheet, or in a state to be written
    BlankRow = 26,
    /// stock: "the records aren't exactly those options and values in that order"
    BinRecords = 27,
    /// stock: "a non-build (a wrong number of bytes included), an option number 0 or above n, a value at or above the size, or a count
    /// that would exceed 32 bits"
    NotInStock = 28,
    /// stock: "a bin too low"
    BinTooLow = 29,
    /// planning: "the order does not hold each option exactly once and nothing else"
    OrderNumbers = 30,
    /// paired profile: a table that is not "functional both ways on the full lists"
    NotPaired = 31,
}

use Cause::*;

impl Cause {
    /// All causes, in the order of their numbers.
    pub const ALL: [Cause; 31] = [
        Length,
        Version,
        OptionCount,
        Size,
        TableCount,
        CutOff,
        Pair,
        Row,
        NotSound,
        OptionNumber,
        NotLive,
        NotStated,
        NotFunctional,
        BuildLength,
        Value,
        ValuesForbidden,
        BufferLength,
        NotAsRead,
        PairOrder,
        PairSequence,
        SameOptions,
        TableRows,
        TooManyChoices,
        NotInVersion,
        NotFlatMeter,
        BlankRow,
        BinRecords,
        NotInStock,
        BinTooLow,
        OrderNumbers,
        NotPaired,
    ];

    /// The greatest number that a cause has.
    pub const GREATEST: u8 = NotPaired as u8;

    /// The cause that has this number; none for 0, which stands for "not refused", and for a number that no cause has.
    #[must_use]
    pub fn of(number: u8) -> Option<Cause> {
        Self::ALL.into_iter().find(|cause| cause.number() == number)
    }

    #[must_use]
    pub fn number(self) -> u8 {
        self as u8
    }
}

/// The cause in English, as `sheet_cause_text` of `include/sheet.h` has it.
impl fmt::Display for Cause {
    fn fmt(&self, f: &mut fmt::Formatter) -> fmt::Result {
        f.write_str(match self {
            Length => "the sheet is under 3 bytes or over 15,621, or its count of bytes is wrong",
            Version => "the version is none of 1, 2 and 3",
            OptionCount => "the number of options is 0 or above 16",
            Size => "the size of an option is 0, above 32, or above 16 in version 1",
            TableCount => "there are more tables than pairs of options",
            CutOff => "a field is cut off, or bytes are left over",
            Pair => "a table names an option 0 or above the number of options",
            Row => "a row allows a value at or above the size of its option",
            NotSound => "the state is not sound",
            OptionNumber => "an option number is 0 or above the number of options",
            NotLive => "the two options are equal, an option named is not live, or one named as a follower is live",
            NotStated => "the two options have no table",
            NotFunctional => "the table is not functional from leader to follower",
            BuildLength => "the buffer does not have one byte for each option",
            Value => "a value is not in the list of its live option, or at or above the size of its option",
            ValuesForbidden => "a table forbids the values of two live options",
            BufferLength => "the sheet is longer than the buffer",
            NotAsRead => "an option follows another, or a list is not full",
            PairOrder => "the first option of a table is not below its second",
            PairSequence => "a table's pair is not after the one before",
            SameOptions => "the table is for one option and itself",
            TableRows => "the table does not have a row for each value of its first option, or a row allows a value at or above the size of its second",
            TooManyChoices => "the lists of the live options have more than 1,000,000 choices",
            NotInVersion => "the version to write is unknown, or a size is above what it can hold",
            NotFlatMeter => "there are fewer than two options, or option 1 or 2 does not have four values",
            BlankRow => "a row is all-zero, which version 3 forbids",
            BinRecords => "the bins are not one for each value of each option, in their order",
            NotInStock => "there is no such build or value, or a count would exceed 32 bits",
            BinTooLow => "a bin holds too few",
            OrderNumbers => "the order does not hold each option exactly once and nothing else",
            NotPaired => "a table is not functional both ways",
        })
    }
}

impl Error for Cause {}
