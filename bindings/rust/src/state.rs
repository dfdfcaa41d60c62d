//! The state and the bins, laid out as in `include/sheet.h`.
use std::mem::{offset_of, size_of};

/// The largest sheet.
pub const LARGEST_BYTES: usize = 15621;
/// How many options a state has room for.
pub const MOST_OPTIONS: usize = 16;
/// How many values an option can have.
pub const MOST_VALUES: usize = 32;
/// How many rows a state has room for in each pair.
pub const PAIR_ROWS: usize = 32;
/// The rows of the 120 pairs.
pub const ROWS: usize = MOST_OPTIONS * (MOST_OPTIONS - 1) / 2 * PAIR_ROWS;
/// The bins of a sheet of 16 options of 32 values.
pub const MOST_BINS: usize = MOST_OPTIONS * MOST_VALUES;
/// Room for every text that sheetcut prints.
pub const TEXT_BYTES: usize = 512;

/// A value for each option, zero past n.
pub type Build = [u8; MOST_OPTIONS];

/// Each pair of options once, from its lower one: see [`row_place`].
pub type Rows = [u32; ROWS];

/// Where the row of value `a` of option `i` against the higher option `j` stands in [`State::rows`], options counted from 0. Bit
/// `b` of it: value `a` of `i` goes with value `b` of `j`.
#[inline]
#[must_use]
pub const fn row_place(i: usize, j: usize, a: usize) -> usize {
    assert!(i < j && j < MOST_OPTIONS && a < PAIR_ROWS);
    (j * (j - 1) / 2 + i) * PAIR_ROWS + a
}

/// The state of a sheet. It may hold anything: a call that takes one tests first that it is sound.
#[repr(C)]
#[derive(Clone, Copy, PartialEq, Eq, Debug)]
pub struct State {
    /// How many options, 1 to 16.
    pub n: usize,
    /// How many values each has, 1 to 32.
    pub sizes: [u8; MOST_OPTIONS],
    /// Bit `v`: value `v` is still open; of a follower, it is the partner of a value in its leader's list.
    pub lists: [u32; MOST_OPTIONS],
    /// 0 for a live option, else the number of its leader, counted from 1.
    pub leaders: [u8; MOST_OPTIONS],
    /// Bit `j` of `stated[i]`: options `i` and `j` have a table.
    pub stated: [u32; MOST_OPTIONS],
    pub rows: Rows,
}

impl State {
    /// The state of a refused sheet, which is not sound.
    pub const ZERO: State = State {
        n: 0,
        sizes: [0; MOST_OPTIONS],
        lists: [0; MOST_OPTIONS],
        leaders: [0; MOST_OPTIONS],
        stated: [0; MOST_OPTIONS],
        rows: [0; ROWS],
    };

    /// Whether the table of options `i` and `j` allows value `a` of `i` with value `b` of `j`, whichever option is lower; options
    /// counted from 0. No where the two are not stated, where `i` is `j`, and for numbers that no state has: of every state, a sound
    /// one or not.
    #[must_use]
    pub fn allows(&self, i: usize, a: usize, j: usize, b: usize) -> bool {
        let (i, a, j, b) = if i < j { (i, a, j, b) } else { (j, b, i, a) };
        let numbers = i != j && j < MOST_OPTIONS && a < PAIR_ROWS && b < PAIR_ROWS;
        numbers && self.stated[i] >> j & 1 == 1 && self.stated[j] >> i & 1 == 1 && self.rows[row_place(i, j, a)] >> b & 1 == 1
    }
}

/// A bin of the stock: how many there are of one value of one option.
#[repr(C)]
#[derive(Clone, Copy, PartialEq, Eq, Debug)]
pub struct Bin {
    /// Counted from 1.
    pub option: u8,
    /// Counted from 0.
    pub value: u8,
    pub count: u32,
}

// the layout by which the library was compiled, as include/sheet.h has it
const _: () = {
    assert!(offset_of!(State, sizes) == 8 && offset_of!(State, lists) == 24 && offset_of!(State, leaders) == 88);
    assert!(offset_of!(State, stated) == 104 && offset_of!(State, rows) == 168 && size_of::<State>() == 15528);
    assert!(offset_of!(Bin, value) == 1 && offset_of!(Bin, count) == 4 && size_of::<Bin>() == 8);
};
