//! The calls with their answers as C has them: a number, which is 0 where a call is not refused, and beside it parts that are zero
//! where it is, but for a place. For tests of the library; [the calls of the crate](crate) tell the same as a `Result`.
use crate::state::*;
use std::mem::{offset_of, size_of};

#[repr(C)]
#[derive(Clone, Copy, PartialEq, Eq, Debug)]
pub struct Read {
    pub number: u8,
    pub place: usize,
}

#[repr(C)]
#[derive(Clone, Copy, PartialEq, Eq, Debug)]
pub struct Stepped {
    pub number: u8,
    pub steps: usize,
}

#[repr(C)]
#[derive(Clone, Copy, PartialEq, Eq, Debug)]
pub struct Written {
    pub number: u8,
    pub length: usize,
}

#[repr(C)]
#[derive(Clone, Copy, PartialEq, Eq, Debug)]
pub struct Tested {
    pub number: u8,
    pub is_build: bool,
}

#[repr(C)]
#[derive(Clone, Copy, PartialEq, Eq, Debug)]
pub struct Value {
    pub number: u8,
    pub value: u8,
}

#[repr(C)]
#[derive(Clone, Copy, PartialEq, Eq, Debug)]
pub struct TestedOrder {
    pub number: u8,
    pub is_good: bool,
}

/// What a verdict or a search can say, a search never OPEN: nothing, with a refusal;
pub const NO_VERDICT: u8 = 0;
/// there is no build;
pub const NONE: u8 = 1;
/// a build is shown;
pub const BUILT: u8 = 2;
/// or two live options are stated together.
pub const OPEN: u8 = 3;

#[repr(C)]
#[derive(Clone, Copy, PartialEq, Eq, Debug)]
pub struct Verdict {
    pub number: u8,
    pub kind: u8,
    pub build: [u8; MOST_OPTIONS],
}

/// What [`survey`] answers; zero but for the number where it is refused.
#[repr(C)]
#[derive(Clone, Copy, PartialEq, Eq, Debug)]
pub struct Survey {
    pub number: u8,
    /// There are more builds than `count` says.
    pub more: bool,
    /// Bit `v` of `words[i]`: some build has value `v` at option `i`; zero past n.
    pub words: [u32; MOST_OPTIONS],
    /// How many builds there are, at most [`u64::MAX`].
    pub count: u64,
}

#[repr(C)]
#[derive(Clone, Copy, PartialEq, Eq, Debug)]
pub struct Cut {
    pub number: u8,
    pub place: usize,
    pub steps: usize,
    pub kind: u8,
    pub build: [u8; MOST_OPTIONS],
}

// the layout by which the library was compiled, as include/sheet.h has it
const _: () = {
    assert!(offset_of!(Read, place) == 8 && size_of::<Read>() == 16);
    assert!(offset_of!(Stepped, steps) == 8 && size_of::<Stepped>() == 16);
    assert!(offset_of!(Written, length) == 8 && size_of::<Written>() == 16);
    assert!(offset_of!(Tested, is_build) == 1 && size_of::<Tested>() == 2);
    assert!(offset_of!(Value, value) == 1 && size_of::<Value>() == 2);
    assert!(offset_of!(TestedOrder, is_good) == 1 && size_of::<TestedOrder>() == 2);
    assert!(offset_of!(Verdict, kind) == 1 && offset_of!(Verdict, build) == 2 && size_of::<Verdict>() == 18);
    assert!(offset_of!(Survey, more) == 1 && offset_of!(Survey, words) == 4 && offset_of!(Survey, count) == 72 && size_of::<Survey>() == 80);
    assert!(offset_of!(Cut, place) == 8 && offset_of!(Cut, steps) == 16 && offset_of!(Cut, kind) == 24);
    assert!(offset_of!(Cut, build) == 25 && size_of::<Cut>() == 48);
};

// A slice crosses as a pointer and a length, a state as its arrays.
extern "C" {
    fn sheet_read_parts(
        bytes: *const u8,
        length: usize,
        n: &mut usize,
        sizes: &mut [u8; MOST_OPTIONS],
        lists: &mut [u32; MOST_OPTIONS],
        leaders: &mut [u8; MOST_OPTIONS],
        stated: &mut [u32; MOST_OPTIONS],
        rows: &mut Rows,
    ) -> Read;
    fn sheet_read_paired_parts(
        bytes: *const u8,
        length: usize,
        n: &mut usize,
        sizes: &mut [u8; MOST_OPTIONS],
        lists: &mut [u32; MOST_OPTIONS],
        leaders: &mut [u8; MOST_OPTIONS],
        stated: &mut [u32; MOST_OPTIONS],
        rows: &mut Rows,
    ) -> Read;
    fn sheet_write_parts(
        n: usize,
        sizes: &[u8; MOST_OPTIONS],
        lists: &[u32; MOST_OPTIONS],
        leaders: &[u8; MOST_OPTIONS],
        stated: &[u32; MOST_OPTIONS],
        rows: &Rows,
        version: usize,
        buffer: *mut u8,
        length: usize,
    ) -> Written;
    fn sheet_is_sound_parts(
        n: usize,
        sizes: &[u8; MOST_OPTIONS],
        lists: &[u32; MOST_OPTIONS],
        leaders: &[u8; MOST_OPTIONS],
        stated: &[u32; MOST_OPTIONS],
        rows: &Rows,
    ) -> bool;
    fn sheet_eliminate_parts(
        n: usize,
        sizes: &[u8; MOST_OPTIONS],
        lists: &mut [u32; MOST_OPTIONS],
        leaders: &mut [u8; MOST_OPTIONS],
        stated: &mut [u32; MOST_OPTIONS],
        rows: &mut Rows,
        leader: usize,
        follower: usize,
    ) -> Stepped;
    fn sheet_reduce_parts(
        n: usize,
        sizes: &[u8; MOST_OPTIONS],
        lists: &mut [u32; MOST_OPTIONS],
        leaders: &mut [u8; MOST_OPTIONS],
        stated: &mut [u32; MOST_OPTIONS],
        rows: &mut Rows,
    ) -> Stepped;
    fn sheet_trim_parts(
        n: usize,
        sizes: &[u8; MOST_OPTIONS],
        lists: &mut [u32; MOST_OPTIONS],
        leaders: &mut [u8; MOST_OPTIONS],
        stated: &mut [u32; MOST_OPTIONS],
        rows: &mut Rows,
    ) -> Stepped;
    fn sheet_lead_parts(
        n: usize,
        sizes: &[u8; MOST_OPTIONS],
        lists: &mut [u32; MOST_OPTIONS],
        leaders: &mut [u8; MOST_OPTIONS],
        stated: &mut [u32; MOST_OPTIONS],
        rows: &mut Rows,
        leader: usize,
    ) -> Stepped;
    fn sheet_add_table_parts(
        n: usize,
        sizes: &[u8; MOST_OPTIONS],
        lists: &mut [u32; MOST_OPTIONS],
        leaders: &mut [u8; MOST_OPTIONS],
        stated: &mut [u32; MOST_OPTIONS],
        rows: &mut Rows,
        first: usize,
        second: usize,
        table: *const u32,
        length: usize,
    ) -> Stepped;
    fn sheet_test_parts(
        n: usize,
        sizes: &[u8; MOST_OPTIONS],
        lists: &[u32; MOST_OPTIONS],
        leaders: &[u8; MOST_OPTIONS],
        stated: &[u32; MOST_OPTIONS],
        rows: &Rows,
        build: *const u8,
        length: usize,
    ) -> Tested;
    fn sheet_complete_parts(
        n: usize,
        sizes: &[u8; MOST_OPTIONS],
        lists: &[u32; MOST_OPTIONS],
        leaders: &[u8; MOST_OPTIONS],
        stated: &[u32; MOST_OPTIONS],
        rows: &Rows,
        build: *mut u8,
        length: usize,
    ) -> u8;
    fn sheet_follower_value_parts(
        n: usize,
        sizes: &[u8; MOST_OPTIONS],
        lists: &[u32; MOST_OPTIONS],
        leaders: &[u8; MOST_OPTIONS],
        stated: &[u32; MOST_OPTIONS],
        rows: &Rows,
        option: usize,
        value: usize,
    ) -> Value;
    fn sheet_test_order_parts(
        n: usize,
        sizes: &[u8; MOST_OPTIONS],
        lists: &[u32; MOST_OPTIONS],
        leaders: &[u8; MOST_OPTIONS],
        stated: &[u32; MOST_OPTIONS],
        rows: &Rows,
        order: *const u8,
        length: usize,
    ) -> TestedOrder;
    fn sheet_find_order_parts(
        n: usize,
        sizes: &[u8; MOST_OPTIONS],
        lists: &[u32; MOST_OPTIONS],
        leaders: &[u8; MOST_OPTIONS],
        stated: &[u32; MOST_OPTIONS],
        rows: &Rows,
        order: *mut u8,
        length: usize,
    ) -> u8;
    fn sheet_deliver_parts(
        n: usize,
        sizes: &[u8; MOST_OPTIONS],
        lists: &[u32; MOST_OPTIONS],
        leaders: &[u8; MOST_OPTIONS],
        stated: &[u32; MOST_OPTIONS],
        rows: &Rows,
        bins: *mut Bin,
        bin_count: usize,
        option: usize,
        value: usize,
        amount: u32,
    ) -> u8;
    fn sheet_call_off_parts(
        n: usize,
        sizes: &[u8; MOST_OPTIONS],
        lists: &[u32; MOST_OPTIONS],
        leaders: &[u8; MOST_OPTIONS],
        stated: &[u32; MOST_OPTIONS],
        rows: &Rows,
        bins: *mut Bin,
        bin_count: usize,
        build: *const u8,
        length: usize,
        amount: u32,
    ) -> u8;
    fn sheet_verdict_parts(
        n: usize,
        sizes: &[u8; MOST_OPTIONS],
        lists: &[u32; MOST_OPTIONS],
        leaders: &[u8; MOST_OPTIONS],
        stated: &[u32; MOST_OPTIONS],
        rows: &Rows,
    ) -> Verdict;
    fn sheet_search_parts(
        n: usize,
        sizes: &[u8; MOST_OPTIONS],
        lists: &[u32; MOST_OPTIONS],
        leaders: &[u8; MOST_OPTIONS],
        stated: &[u32; MOST_OPTIONS],
        rows: &Rows,
    ) -> Verdict;
    fn sheet_survey_parts(
        n: usize,
        sizes: &[u8; MOST_OPTIONS],
        lists: &[u32; MOST_OPTIONS],
        leaders: &[u8; MOST_OPTIONS],
        stated: &[u32; MOST_OPTIONS],
        rows: &Rows,
    ) -> Survey;
    fn sheet_cut_parts(
        bytes: *const u8,
        length: usize,
        n: &mut usize,
        sizes: &mut [u8; MOST_OPTIONS],
        lists: &mut [u32; MOST_OPTIONS],
        leaders: &mut [u8; MOST_OPTIONS],
        stated: &mut [u32; MOST_OPTIONS],
        rows: &mut Rows,
    ) -> Cut;
    fn meter_fit_parts(
        n: usize,
        sizes: &[u8; MOST_OPTIONS],
        lists: &mut [u32; MOST_OPTIONS],
        leaders: &mut [u8; MOST_OPTIONS],
        stated: &mut [u32; MOST_OPTIONS],
        rows: &mut Rows,
    ) -> Verdict;
    fn sheet_version() -> u32;
    fn sheet_text(bytes: *const u8, length: usize, text: &mut [u8; TEXT_BYTES]) -> usize;
}

// SAFETY, for every call below: the function has no `requires`, so it takes any state and any slice and keeps to what it is lent;
// a reference or a slice lends what the type says; the types are laid out as the library was compiled.

#[inline]
pub fn read(bytes: &[u8], state: &mut State) -> Read {
    let s = state;
    unsafe {
        sheet_read_parts(
            bytes.as_ptr(),
            bytes.len(),
            &mut s.n,
            &mut s.sizes,
            &mut s.lists,
            &mut s.leaders,
            &mut s.stated,
            &mut s.rows,
        )
    }
}

#[inline]
pub fn read_paired(bytes: &[u8], state: &mut State) -> Read {
    let s = state;
    unsafe {
        sheet_read_paired_parts(
            bytes.as_ptr(),
            bytes.len(),
            &mut s.n,
            &mut s.sizes,
            &mut s.lists,
            &mut s.leaders,
            &mut s.stated,
            &mut s.rows,
        )
    }
}

#[inline]
pub fn write(state: &State, version: usize, buffer: &mut [u8]) -> Written {
    let s = state;
    unsafe {
        sheet_write_parts(
            s.n,
            &s.sizes,
            &s.lists,
            &s.leaders,
            &s.stated,
            &s.rows,
            version,
            buffer.as_mut_ptr(),
            buffer.len(),
        )
    }
}

#[inline]
pub fn is_sound(state: &State) -> bool {
    let s = state;
    unsafe { sheet_is_sound_parts(s.n, &s.sizes, &s.lists, &s.leaders, &s.stated, &s.rows) }
}

#[inline]
pub fn eliminate(state: &mut State, leader: usize, follower: usize) -> Stepped {
    let s = state;
    unsafe {
        sheet_eliminate_parts(
            s.n,
            &s.sizes,
            &mut s.lists,
            &mut s.leaders,
            &mut s.stated,
            &mut s.rows,
            leader,
            follower,
        )
    }
}

#[inline]
pub fn reduce(state: &mut State) -> Stepped {
    let s = state;
    unsafe { sheet_reduce_parts(s.n, &s.sizes, &mut s.lists, &mut s.leaders, &mut s.stated, &mut s.rows) }
}

#[inline]
pub fn trim(state: &mut State) -> Stepped {
    let s = state;
    unsafe { sheet_trim_parts(s.n, &s.sizes, &mut s.lists, &mut s.leaders, &mut s.stated, &mut s.rows) }
}

#[inline]
pub fn lead(state: &mut State, leader: usize) -> Stepped {
    let s = state;
    unsafe {
        sheet_lead_parts(
            s.n,
            &s.sizes,
            &mut s.lists,
            &mut s.leaders,
            &mut s.stated,
            &mut s.rows,
            leader,
        )
    }
}

#[inline]
pub fn add_table(state: &mut State, first: usize, second: usize, table: &[u32]) -> Stepped {
    let s = state;
    unsafe {
        sheet_add_table_parts(
            s.n,
            &s.sizes,
            &mut s.lists,
            &mut s.leaders,
            &mut s.stated,
            &mut s.rows,
            first,
            second,
            table.as_ptr(),
            table.len(),
        )
    }
}

#[inline]
pub fn test(state: &State, build: &[u8]) -> Tested {
    let s = state;
    unsafe {
        sheet_test_parts(
            s.n,
            &s.sizes,
            &s.lists,
            &s.leaders,
            &s.stated,
            &s.rows,
            build.as_ptr(),
            build.len(),
        )
    }
}

#[inline]
pub fn complete(state: &State, build: &mut [u8]) -> u8 {
    let s = state;
    unsafe {
        sheet_complete_parts(
            s.n,
            &s.sizes,
            &s.lists,
            &s.leaders,
            &s.stated,
            &s.rows,
            build.as_mut_ptr(),
            build.len(),
        )
    }
}

#[inline]
pub fn follower_value(state: &State, option: usize, value: usize) -> Value {
    let s = state;
    unsafe { sheet_follower_value_parts(s.n, &s.sizes, &s.lists, &s.leaders, &s.stated, &s.rows, option, value) }
}

#[inline]
pub fn test_order(state: &State, order: &[u8]) -> TestedOrder {
    let s = state;
    unsafe {
        sheet_test_order_parts(
            s.n,
            &s.sizes,
            &s.lists,
            &s.leaders,
            &s.stated,
            &s.rows,
            order.as_ptr(),
            order.len(),
        )
    }
}

#[inline]
pub fn find_order(state: &State, order: &mut [u8]) -> u8 {
    let s = state;
    unsafe {
        sheet_find_order_parts(
            s.n,
            &s.sizes,
            &s.lists,
            &s.leaders,
            &s.stated,
            &s.rows,
            order.as_mut_ptr(),
            order.len(),
        )
    }
}

#[inline]
pub fn verdict(state: &State) -> Verdict {
    let s = state;
    unsafe { sheet_verdict_parts(s.n, &s.sizes, &s.lists, &s.leaders, &s.stated, &s.rows) }
}

#[inline]
pub fn search(state: &State) -> Verdict {
    let s = state;
    unsafe { sheet_search_parts(s.n, &s.sizes, &s.lists, &s.leaders, &s.stated, &s.rows) }
}

#[inline]
pub fn survey(state: &State) -> Survey {
    let s = state;
    unsafe { sheet_survey_parts(s.n, &s.sizes, &s.lists, &s.leaders, &s.stated, &s.rows) }
}

#[inline]
pub fn deliver(state: &State, bins: &mut [Bin], option: usize, value: usize, amount: u32) -> u8 {
    let s = state;
    unsafe {
        sheet_deliver_parts(
            s.n,
            &s.sizes,
            &s.lists,
            &s.leaders,
            &s.stated,
            &s.rows,
            bins.as_mut_ptr(),
            bins.len(),
            option,
            value,
            amount,
        )
    }
}

#[inline]
pub fn call_off(state: &State, bins: &mut [Bin], build: &[u8], amount: u32) -> u8 {
    let s = state;
    unsafe {
        sheet_call_off_parts(
            s.n,
            &s.sizes,
            &s.lists,
            &s.leaders,
            &s.stated,
            &s.rows,
            bins.as_mut_ptr(),
            bins.len(),
            build.as_ptr(),
            build.len(),
            amount,
        )
    }
}

#[inline]
pub fn cut(bytes: &[u8], state: &mut State) -> Cut {
    let s = state;
    unsafe {
        sheet_cut_parts(
            bytes.as_ptr(),
            bytes.len(),
            &mut s.n,
            &mut s.sizes,
            &mut s.lists,
            &mut s.leaders,
            &mut s.stated,
            &mut s.rows,
        )
    }
}

#[inline]
pub fn meter_fit(state: &mut State) -> Verdict {
    let s = state;
    unsafe { meter_fit_parts(s.n, &s.sizes, &mut s.lists, &mut s.leaders, &mut s.stated, &mut s.rows) }
}

#[inline]
pub fn text(bytes: &[u8], text: &mut [u8; TEXT_BYTES]) -> usize {
    unsafe { sheet_text(bytes.as_ptr(), bytes.len(), text) }
}

#[inline]
pub fn version() -> u32 {
    unsafe { sheet_version() }
}
