//! Option sheets: safe calls of the proved library.
//!
//! A call takes any bytes and any state, does what its comment says, and ends; the comments at the top of `include/sheet.h` say
//! what is proved and what is not, and how much stack a call takes. A refusal is a [`Cause`], with the place in the sheet where that is
//! refused ([`Refused`]). Its number stands in the comments; where several hold, the one tested first is answered. A refused call changes
//! nothing that it is lent, but for a state that a sheet is read into. No call panics.
//!
//! ```
//! use sheet::{Cause, State, Verdict};
//!
//! let case_a = [1, 0, 19, 3, 2, 3, 2, 2, 1, 2, 0, 1, 0, 4, 2, 3, 0, 2, 0, 1, 0, 1];
//! let mut state = State::ZERO;
//! sheet::read(&case_a, &mut state)?;
//! assert_eq!(sheet::eliminate(&mut state, 1, 3), Err(Cause::NotStated));
//! assert_eq!(sheet::reduce(&mut state)?, 2);
//! let Verdict::Built(build) = sheet::verdict(&state)? else { panic!() };
//! assert_eq!(build[..3], [0, 0, 1]);
//! assert_eq!(state.lists[1], 0x0005); // option 2 follows, and value 1 is the partner of no value of its leader
//! assert_eq!(sheet::lead(&mut state, 2), Err(Cause::NotLive));
//! sheet::add_table(&mut state, 3, 2, &[0x0004, 0x0006])?;
//! assert_eq!(sheet::verdict(&state)?.build().unwrap()[..3], [1, 2, 0]);
//!
//! let flat_meter = [1, 0, 25, 3, 4, 4, 2, 2, 1, 2, 0, 1, 0, 2, 0, 4, 0, 8, 1, 3, 0, 1, 0, 1, 0, 2, 0, 2];
//! assert_eq!(sheet::cut(&flat_meter, &mut state)?.verdict.build().unwrap()[..3], [0, 0, 0]);
//! assert_eq!(sheet::meter_fit(&mut state)?.build().unwrap()[..3], [1, 1, 0]);
//!
//! let short = sheet::read(&case_a[..4], &mut state).unwrap_err();
//! assert_eq!((short.cause, short.cause.number(), short.place), (Cause::Length, 1, 0));
//! assert!(short.to_string().ends_with("its count of bytes is wrong"));
//! # Ok::<(), Box<dyn std::error::Error>>(())
//! ```
mod answers;
mod cause;
#[doc(hidden)]
pub mod raw;
mod state;

pub use answers::{Cut, Refused, Survey, Verdict};
pub use cause::Cause;
pub use state::*;

use answers::told;

/// Reads a sheet of any length and contents: full lists, no leader, and exactly the tables of the sheet are stated.
///
/// Numbers 1 to 8, 19, 20 and 26: "Number 1 is tested first, then 2, then fields in file order; at each field 6 precedes its own
/// number." A refusal has its place and stores [`State::ZERO`]. What the state held before does not matter.
#[inline]
pub fn read(bytes: &[u8], state: &mut State) -> Result<(), Refused> {
    raw::read(bytes, state).told()
}

/// Reads a sheet of the paired profile: of "only tables functional both ways on the full lists", in which no row has two values and
/// no value of the higher option stands in two rows. Rows and values without a partner are allowed where [`read`] allows them.
///
/// Numbers 1 to 8, 19, 20 and 26 as [`read`], with the same places; then, "after all other tests of reading", 31 for "a sheet that
/// has another kind of table", with the place of the first such pair, that of its lower option. A refusal has its place and stores
/// [`State::ZERO`]. What it accepts has the answer and the state of [`read`]. After [`reduce`] then, and whatever calls were made
/// before that but [`add_table`] and [`meter_fit`], no two live options are stated together: the verdict "is never OPEN", and
/// [`Verdict::None`] "is said exactly when no build exists".
///
/// ```
/// let one_to_one = [1, 0, 10, 2, 2, 2, 1, 1, 2, 0, 1, 0, 2];
/// let both_to_0 = [1, 0, 10, 2, 2, 2, 1, 1, 2, 0, 1, 0, 1];
/// let mut state = sheet::State::ZERO;
/// sheet::read_paired(&one_to_one, &mut state)?;
/// let refused = sheet::read_paired(&both_to_0, &mut state).unwrap_err();
/// assert_eq!((refused.cause, refused.place), (sheet::Cause::NotPaired, 7));
/// assert_eq!(state, sheet::State::ZERO);
/// sheet::read(&both_to_0, &mut state)?;
/// # Ok::<(), sheet::Refused>(())
/// ```
#[inline]
pub fn read_paired(bytes: &[u8], state: &mut State) -> Result<(), Refused> {
    raw::read_paired(bytes, state).told()
}

/// Writes the sheet of a state that is as just read, in version 1, 2 or 3, and answers its length; bytes past its end are left as
/// they were.
///
/// Numbers 9, 18, 24, 26, 17, tested in this order: 26 in version 3, "where a stated table has such a row for its lower-numbered
/// option". A refusal leaves the buffer as it was. Reading what was written gives the same state; writing what was read in its own
/// version, into enough space, gives the same bytes.
#[inline]
pub fn write(state: &State, version: usize, buffer: &mut [u8]) -> Result<usize, Cause> {
    raw::write(state, version, buffer).told()
}

/// Whether a state is sound, which every other call on a state tests first. By document 01, with sizes up to 32 by document 02:
///
/// - "n is 1 to 16, sizes are 1 to 16, each list lies within its size, and all entries past n are zero;
/// - no option is paired with itself, rows lie within sizes, unstated pairs allow nothing, and a pair seen from its two options says
///   the same;
/// - a leader is a live option other than the follower;
/// - a follower is stated with its leader and with no other option;
/// - each value in a leader's list has exactly one allowed partner in each of its followers' lists."
///
/// And by document 02:
///
/// - "A value stays in a follower's list exactly when it is the partner of a value in the leader's list."
///
/// "An empty list is allowed in a sound state, since a step may produce one." Whoever shortens the list of a leader himself leaves its
/// followers the partners of what is left. A state that was kept from a library before 5.0 may lack the last rule: read its sheet
/// again, and make the same calls.
#[inline]
#[must_use]
pub fn is_sound(state: &State) -> bool {
    raw::is_sound(state)
}

/// One follow step, `follower` to follow `leader`, options counted from 1: rules 1, 2 and 3 of document 01, and it "also trims the
/// lists of all followers of the leader concerned, new ones included. A value stays in a follower's list exactly when it is the
/// partner of a value in the leader's list". Lists of other followers do not change. Answers 1 step.
///
/// Numbers 9 to 13, tested upward. A refusal leaves the state as it was. The builds of the state stay the same: none is lost and none
/// gained. The table of two options "is functional from i to j when no value in the list of i has more than one allowed partner in
/// the list of j. So an empty table is functional."
#[inline]
pub fn eliminate(state: &mut State, leader: usize, follower: usize) -> Result<usize, Cause> {
    raw::eliminate(state, leader, follower).told()
}

/// The full reduction: "takes the lowest i that has a legal j, with the lowest such j, and repeats until no step is legal". Answers
/// how many steps it took, at most n - 1.
///
/// Number 9. A refusal leaves the state as it was. The builds of the state stay the same.
#[inline]
pub fn reduce(state: &mut State) -> Result<usize, Cause> {
    raw::reduce(state).told()
}

/// Trims the live lists against each other: "A value of a live option that has no partner in some live neighbour should vanish ..
/// Remove such values until none is left. What remains is the largest choice of lists within the given ones in which every value has
/// a partner in each stated live pair." A neighbour is a live option that it is stated with, and a partner one in its list. The
/// followers of an option whose list became shorter are trimmed as in a follow step; rows stay as they are. "This trimming comes
/// first; then reduce fully, and alternate until neither changes anything." Answers how many steps all reductions took together, at
/// most n - 1.
///
/// Number 9. A refusal leaves the state as it was. The builds of the state stay the same. An empty list empties those of all live
/// options that stated live pairs lead to from it; it reaches no others. It does not decide all that [`reduce`] does: with shorter
/// lists the reduction goes another way, and may end OPEN where that ends BUILT.
#[inline]
pub fn trim(state: &mut State) -> Result<usize, Cause> {
    raw::trim(state).told()
}

/// The option `leader`, counted from 1, leads: "Only it takes followers, the lowest possible one each time, until none can follow";
/// each step as in [`eliminate`], and after each the lowest is sought anew, since a follower may make a lower one possible. Whoever
/// had another leader keeps it, unless that one comes to follow `leader`: then it follows `leader` too. Answers how many steps it
/// took, at most n - 1; those that come along are no steps.
///
/// Numbers 9, 10, 11, tested in this order: 11 "when the named option is not live". A refusal leaves the state as it was. The builds
/// of the state stay the same. "On a sheet just accepted, if every other option can be reached from it through tables functional
/// along the way, it ends as the only live option and the verdict is never OPEN": it is then [`Verdict::None`] exactly when the sheet
/// has no build, and else shows one.
///
/// ```
/// let case_b = [1, 0, 19, 3, 2, 3, 2, 2, 1, 2, 0, 1, 0, 6, 2, 3, 0, 1, 0, 2, 0, 2];
/// let mut state = sheet::State::ZERO;
/// sheet::read(&case_b, &mut state)?;
/// assert_eq!(sheet::lead(&mut state, 1), Ok(0)); // nobody can follow option 1
/// assert_eq!(sheet::lead(&mut state, 2), Ok(2));
/// assert_eq!(state.leaders[..3], [2, 0, 2]);
/// assert_eq!(sheet::lead(&mut state, 4), Err(sheet::Cause::OptionNumber));
/// assert_eq!(sheet::lead(&mut state, 3), Err(sheet::Cause::NotLive));
/// # Ok::<(), sheet::Refused>(())
/// ```
#[inline]
pub fn lead(state: &mut State, leader: usize) -> Result<usize, Cause> {
    raw::lead(state, leader).told()
}

/// Adds a table for the options `first` and `second`, counted from 1, live or not: a row for each value of the first, value 0 first;
/// bit v of a row says that value v of the second is allowed. The first may have the higher number. Where the two have one leader, or
/// one leads the other, the leader's list loses values, and the lists of all its followers are trimmed as in a follow step; otherwise
/// no list changes.
///
/// Numbers 9, 10, 21, 22, tested in this order; 22 goes by the sizes of the two options named. A refusal leaves the state as it was.
/// Of the builds of the state exactly those stay that keep to the table.
#[inline]
pub fn add_table(state: &mut State, first: usize, second: usize, table: &[u32]) -> Result<(), Cause> {
    raw::add_table(state, first, second, table).told().map(|_| ())
}

/// The tester, on n bytes, a value for each option: "yes exactly when each value is in its option's list and each stated pair allows
/// its two values".
///
/// Numbers 9, 14, 15, tested in this order.
#[inline]
pub fn test(state: &State, build: &[u8]) -> Result<bool, Cause> {
    raw::test(state, build).told()
}

/// The completer, on n bytes: "reads the bytes of live options and writes those of followers; what the follower bytes held before
/// does not matter". What it leaves is the only build of the state with these values of the live options.
///
/// Numbers 9, 14, 15, 16, tested in this order. A refusal leaves the buffer as it was.
#[inline]
pub fn complete(state: &State, build: &mut [u8]) -> Result<(), Cause> {
    told(raw::complete(state, build), ())
}

/// The value that `option`, counted from 1, has where its leader has the value `value`: what [`complete`] writes for it then, without
/// a buffer. So what a choice of the leader fixes can be shown beside it.
///
/// Numbers 9, 10, 11, 15, tested in this order: 11 where the option follows none, 15 where its leader's list does not have the value.
///
/// ```
/// let case_a = [1, 0, 19, 3, 2, 3, 2, 2, 1, 2, 0, 1, 0, 4, 2, 3, 0, 2, 0, 1, 0, 1];
/// let mut state = sheet::State::ZERO;
/// sheet::cut(&case_a, &mut state)?;
/// assert_eq!([0, 1].map(|value| sheet::follower_value(&state, 2, value)), [Ok(0), Ok(2)]);
/// assert_eq!([0, 1].map(|value| sheet::follower_value(&state, 3, value)), [Ok(1), Ok(0)]);
/// assert_eq!(sheet::follower_value(&state, 1, 0), Err(sheet::Cause::NotLive)); // option 1 leads
/// assert_eq!(sheet::follower_value(&state, 4, 0), Err(sheet::Cause::OptionNumber));
/// assert_eq!(sheet::follower_value(&state, 2, 2), Err(sheet::Cause::Value));
/// # Ok::<(), sheet::Refused>(())
/// ```
#[inline]
pub fn follower_value(state: &State, option: usize, value: usize) -> Result<u8, Cause> {
    raw::follower_value(state, option, value).told()
}

/// Tests an order to plan in, on n bytes, each option's number once, counted from 1. "An order is good when, for an earlier option i
/// and a later option j, a path from j to i through tables functional along the way implies such a path from i to j": so "none
/// precedes one that governs it", where an option governs another if a path leads from it to the other and none leads back. "The
/// stated tables and lists of the given state count, followers included." Nothing is reduced, and a state and the same state reduced
/// may have other good orders.
///
/// Numbers 9, 30, tested in this order: 30 "when the order does not hold each option exactly once and nothing else", so also for
/// another length.
///
/// ```
/// let case_b = [1, 0, 19, 3, 2, 3, 2, 2, 1, 2, 0, 1, 0, 6, 2, 3, 0, 1, 0, 2, 0, 2];
/// let mut state = sheet::State::ZERO;
/// sheet::read(&case_b, &mut state)?;
/// assert_eq!(sheet::test_order(&state, &[1, 2, 3]), Ok(false)); // option 2 governs option 1
/// assert_eq!(sheet::test_order(&state, &[2, 3, 1]), Ok(true));
/// assert_eq!(sheet::test_order(&state, &[2, 2, 1]), Err(sheet::Cause::OrderNumbers));
/// let mut order = [0; 3];
/// assert_eq!(sheet::find_order(&state, &mut order), Ok(()));
/// assert_eq!(order, [2, 1, 3]);
/// assert_eq!(sheet::find_order(&state, &mut order[..2]), Err(sheet::Cause::BuildLength));
/// # Ok::<(), sheet::Refused>(())
/// ```
#[inline]
pub fn test_order(state: &State, order: &[u8]) -> Result<bool, Cause> {
    raw::test_order(state, order).told()
}

/// Finds the first good order and writes it on n bytes, options counted from 1: "the smallest permitted number at each place", one
/// that some good order has there after what was placed. What the bytes held before does not matter. There always is a good order,
/// and the one found is good by [`test_order`]. "A good one need not keep such a part together": options that lead to each other may
/// stand apart.
///
/// Numbers 9, 14, tested in this order. A refusal leaves the buffer as it was.
#[inline]
pub fn find_order(state: &State, order: &mut [u8]) -> Result<(), Cause> {
    told(raw::find_order(state, order), ())
}

/// The verdict of a state as it is: NONE if some live list is empty; else "BUILT when no live list is empty and no two live options
/// are stated together. Each live option then takes its lowest value"; else OPEN. "The verdict does not reduce first."
///
/// Number 9.
#[inline]
pub fn verdict(state: &State) -> Result<Verdict, Cause> {
    raw::verdict(state).told()
}

/// The search, which settles what the verdict leaves OPEN: it "finds the first build, live options compared in ascending number and
/// lower values first, or says there is none". [`Verdict::Built`] comes with that build, and [`Verdict::None`] is said exactly when
/// the state has no build. It does not reduce first: reducing leaves fewer live options, and which build is the first goes by those.
///
/// Numbers 9 and 23, tested in this order: 23 "when the product of the live list sizes exceeds 1,000,000; an empty list makes that
/// product 0".
#[inline]
pub fn search(state: &State) -> Result<Verdict, Cause> {
    raw::search(state).told()
}

/// The survey: how many builds the state has, and for each option exactly those values that some build has. An open list may hold values
/// that no build has; they are not in its word. After any calls on an accepted sheet these are the builds of that sheet that keep to the
/// tables added. It changes nothing and does not reduce first.
///
/// Numbers 9 and 23, tested in this order: 23 when the product of the list sizes of those live options that are stated with another live
/// option exceeds 1,000,000; an empty list of any live option makes that product 0.
///
/// ```
/// let sheet = [1, 0, 17, 3, 2, 2, 3, 2, 1, 3, 0, 6, 0, 2, 2, 3, 0, 5, 0, 1];
/// let mut state = sheet::State::ZERO;
/// sheet::read(&sheet, &mut state)?;
/// let survey = sheet::survey(&state)?;
/// assert_eq!((survey.count, survey.more, &survey.words[..3]), (1, false, &[1, 1, 4][..])); // the one build is 0 0 2
/// # Ok::<(), Box<dyn std::error::Error>>(())
/// ```
#[inline]
pub fn survey(state: &State) -> Result<Survey, Cause> {
    raw::survey(state).told()
}

/// A delivery: adds `amount` to the bin of `value` of `option`, options counted from 1.
///
/// "The bins are a list of records, one for each value below each option's size, ascending by option and then by value": of values
/// that are in no list any more, too.
///
/// Numbers 9, 27, 28, tested in this order: 27 "when the records aren't exactly those options and values in that order", 28 for "an
/// option number 0 or above n, a value at or above the size, or a count that would exceed 32 bits". A refusal changes no bin. An
/// amount of 0 is taken, and so is a value that no build has. "Each entry is one call with its own answer, and the next entry meets
/// the bins as that call left them." Over any list of deliveries and call-offs, on one state or on several, "opening count plus
/// accepted deliveries equals count on hand plus accepted call-offs" for each bin.
///
/// ```
/// use sheet::{call_off, deliver, Cause};
/// let case_j = [1, 0, 10, 2, 2, 1, 1, 1, 2, 0, 1, 0, 0];
/// let mut state = sheet::State::ZERO;
/// sheet::read(&case_j, &mut state)?;
/// let bin = |option, value, count| sheet::Bin { option, value, count };
/// let mut bins = [bin(1, 0, 5), bin(1, 1, 0), bin(2, 0, 9)];
/// assert_eq!(deliver(&state, &mut bins, 1, 1, u32::MAX), Ok(())); // no build has value 1 of option 1
/// assert_eq!(deliver(&state, &mut bins, 1, 1, 1), Err(Cause::NotInStock));
/// assert_eq!(call_off(&state, &mut bins, &[0, 0], 3), Ok(()));
/// assert_eq!(bins, [bin(1, 0, 2), bin(1, 1, u32::MAX), bin(2, 0, 6)]);
/// assert_eq!(call_off(&state, &mut bins, &[0, 0], 3), Err(Cause::BinTooLow));
/// assert_eq!(call_off(&state, &mut bins, &[1, 0], 0), Err(Cause::NotInStock));
/// assert_eq!(call_off(&state, &mut bins[..2], &[0, 0], 0), Err(Cause::BinRecords));
/// assert_eq!(bins[2].count, 6);
/// # Ok::<(), sheet::Refused>(())
/// ```
#[inline]
pub fn deliver(state: &State, bins: &mut [Bin], option: usize, value: usize, amount: u32) -> Result<(), Cause> {
    told(raw::deliver(state, bins, option, value, amount), ())
}

/// A call-off: "names a build and a number, and draws that number from the bin of each of its values, or from none". Every bin is
/// looked at before any is drawn. The build has n bytes, a value for each option.
///
/// Numbers 9, 27, 28, 29, tested in this order: 27 as [`deliver`]; 28 for "a non-build (a wrong number of bytes included)", that is
/// for what [`test()`] does not say yes to; 29 for "a bin too low". A refusal changes no bin. Of a build an amount of 0 is taken.
/// What is called off after any calls on an accepted sheet is a build of that sheet that keeps to the tables added.
#[inline]
pub fn call_off(state: &State, bins: &mut [Bin], build: &[u8], amount: u32) -> Result<(), Cause> {
    told(raw::call_off(state, bins, build, amount), ())
}

/// What [`read`], [`reduce`] and [`verdict`] answer one after the other; the reduced state is stored.
///
/// Numbers 1 to 8, 19, 20 and 26, as [`read`]. A refusal has its place and stores [`State::ZERO`].
#[inline]
pub fn cut(bytes: &[u8], state: &mut State) -> Result<Cut, Refused> {
    raw::cut(bytes, state).told()
}

/// Page nine of the flat meter: option 1 is the cell, of 1,200, 1,900, 2,600 or 3,600 mAh, option 2 the sending interval, of 8, 16,
/// 32 or 64 s. Adds which of them go together as a table, reduces fully, and answers the verdict of the state then.
///
/// Numbers 9, 25, tested in this order; 25 goes by the sizes of the two options. A refusal leaves the state as it was. Of the builds
/// of the state exactly those stay whose cell and interval go together.
#[inline]
pub fn meter_fit(state: &mut State) -> Result<Verdict, Cause> {
    raw::meter_fit(state).told()
}

/// The text that sheetcut prints for these bytes, which may be a refusal's, is stored in `text`, with zeros past it. Answers how many
/// bytes it has, fewer than [`TEXT_BYTES`]. Nothing is refused.
#[inline]
#[must_use]
pub fn text(bytes: &[u8], text: &mut [u8; TEXT_BYTES]) -> usize {
    raw::text(bytes, text)
}

/// The version that the library was built with: 65536 × major + minor. This crate has the same two numbers.
#[inline]
#[must_use]
pub fn version() -> u32 {
    raw::version()
}
