//! How long each call takes in the proved library and in plain Rust: nanoseconds, medians, both in one run by turns.
use bench::inputs::{
    barred_sheet, half_table, hard_sheet, sheet_in, Random, Shape, Sheet, Table, FAMILIES, HARD, LONG_SURVEYS, NEAR_MILLION,
};
use bench::plain;
use bench::proved::{self, Bin, Cause, State};
use std::hint::black_box;
use std::time::Instant;

/// Sheets of one family and size.
const SHEETS: usize = 8;
const ROUNDS: usize = 61;
const REPEATS: usize = 4;

/// A state at the start of a cache line, wherever it stands: how long it takes to read depends on that.
#[derive(Clone, Copy)]
#[repr(align(64))]
struct Lined(State);

impl std::ops::Deref for Lined {
    type Target = State;

    fn deref(&self) -> &State {
        &self.0
    }
}

struct Case {
    sheet: Sheet,
    fresh: Lined,
    reduced: Lined,
    /// The lowest legal step, or else one that is refused.
    step: (usize, usize),
    /// For the first option and the last, and for the last and the second.
    table: Table,
    turned: Table,
    /// The first good one.
    order: Vec<u8>,
    /// The last follower of the reduced state and a value of its leader, or else what is refused.
    follower: (usize, usize),
}

fn case(sheet: Sheet, random: &mut Random) -> Case {
    let mut fresh = State::ZERO;
    proved::read(&sheet.bytes, &mut fresh).expect("a sheet that is accepted");
    let mut reduced = fresh;
    proved::reduce(&mut reduced).expect("a sound state");
    let n = fresh.n;
    let pairs = || (1..=n).flat_map(|i| (1..=n).map(move |j| (i, j)));
    let lowest = |answer| pairs().find(|&(i, j)| proved::eliminate(&mut fresh.clone(), i, j) == answer);
    let mut table = |first: usize, second: usize| {
        let value = |option: usize| sheet.build[option - 1] as usize;
        half_table(first, second, &fresh.sizes, value(first), value(second), random)
    };
    let mut order = vec![0; n];
    assert_eq!(proved::find_order(&fresh, &mut order), Ok(()));
    let last = (1..=n).rev().find(|&option| reduced.leaders[option - 1] > 0);
    let follower = last.map_or((1, 0), |option| {
        (
            option,
            reduced.lists[reduced.leaders[option - 1] as usize - 1].trailing_zeros() as usize,
        )
    });
    Case {
        follower,
        table: table(1, n),
        turned: table(n, 2),
        order,
        step: lowest(Ok(1)).or_else(|| lowest(Err(Cause::NotFunctional))).unwrap_or((1, 2)),
        sheet,
        fresh: Lined(fresh),
        reduced: Lined(reduced),
    }
}

/// What calls write into beside a state: a buffer, and the bins of the cases, which have the same sizes, full enough for every call-off.
struct Room {
    bytes: Vec<u8>,
    bins: Vec<Bin>,
}

fn room(case: &Case) -> Room {
    let sizes = &case.fresh.sizes[..case.fresh.n];
    let count = 1 << 30;
    let bins = sizes
        .iter()
        .zip(1..)
        .flat_map(|(&size, option)| (0..size).map(move |value| Bin { option, value, count }));
    Room {
        bytes: vec![0; 15621],
        bins: bins.collect(),
    }
}

/// A call on a case, with a scratch state and room.
type Call = fn(&Case, &mut State, &mut Room);

/// The scratch state of a call, as just read or reduced.
type Start = fn(&Case) -> &State;

const AS_READ: Start = |case| &case.fresh;
const REDUCED: Start = |case| &case.reduced;

/// Each call in the proved library and in plain Rust. Both are lent the state, and work in place. "paired" reads a sheet of the
/// paired profile, which the bijective ones are; "lead" has option 1 lead; "led" adds a table to a reduced
/// state, whose options may follow others; "follower" asks for the value of the last follower; "deliver" and "call_off" are accepted.
const CALLS: [(&str, Start, Call, Call); 22] = [
    (
        "read",
        AS_READ,
        |c, s, _| look(proved::read(&c.sheet.bytes, s)),
        |c, s, _| look(plain::read(&c.sheet.bytes, s)),
    ),
    (
        "paired",
        AS_READ,
        |c, s, _| look(proved::read_paired(&c.sheet.bytes, s)),
        |c, s, _| look(plain::read_paired(&c.sheet.bytes, s)),
    ),
    (
        "sound",
        AS_READ,
        |c, _, _| look(proved::is_sound(&c.fresh)),
        |c, _, _| look(plain::is_sound(&c.fresh)),
    ),
    (
        "eliminate",
        AS_READ,
        |c, s, _| look(proved::eliminate(s, c.step.0, c.step.1)),
        |c, s, _| look(plain::eliminate(s, c.step.0, c.step.1)),
    ),
    (
        "reduce",
        AS_READ,
        |_, s, _| look(proved::reduce(s)),
        |_, s, _| look(plain::reduce(s)),
    ),
    (
        "trim",
        AS_READ,
        |_, s, _| look(proved::trim(s)),
        |_, s, _| look(plain::trim(s)),
    ),
    (
        "lead",
        AS_READ,
        |_, s, _| look(proved::lead(s, 1)),
        |_, s, _| look(plain::lead(s, 1)),
    ),
    (
        "add",
        AS_READ,
        |c, s, _| look(proved::add_table(s, c.table.first, c.table.second, &c.table.rows)),
        |c, s, _| look(plain::add_table(s, c.table.first, c.table.second, &c.table.rows)),
    ),
    (
        "led",
        REDUCED,
        |c, s, _| look(proved::add_table(s, c.turned.first, c.turned.second, &c.turned.rows)),
        |c, s, _| look(plain::add_table(s, c.turned.first, c.turned.second, &c.turned.rows)),
    ),
    (
        "verdict",
        AS_READ,
        |c, _, _| look(proved::verdict(&c.reduced)),
        |c, _, _| look(plain::verdict(&c.reduced)),
    ),
    (
        "complete",
        AS_READ,
        |c, _, r| look(proved::complete(&c.reduced, build(c, r))),
        |c, _, r| look(plain::complete(&c.reduced, build(c, r))),
    ),
    (
        "follower",
        AS_READ,
        |c, _, _| look(proved::follower_value(&c.reduced, c.follower.0, c.follower.1)),
        |c, _, _| look(plain::follower_value(&c.reduced, c.follower.0, c.follower.1)),
    ),
    (
        "test",
        AS_READ,
        |c, _, _| look(proved::test(&c.fresh, &c.sheet.build)),
        |c, _, _| look(plain::test(&c.fresh, &c.sheet.build)),
    ),
    (
        "test_order",
        AS_READ,
        |c, _, _| look(proved::test_order(&c.fresh, &c.order)),
        |c, _, _| look(plain::test_order(&c.fresh, &c.order)),
    ),
    (
        "find_order",
        AS_READ,
        |c, _, r| look(proved::find_order(&c.fresh, build(c, r))),
        |c, _, r| look(plain::find_order(&c.fresh, build(c, r))),
    ),
    (
        "deliver",
        AS_READ,
        |c, _, r| look(proved::deliver(&c.fresh, &mut r.bins, 1, 0, 1)),
        |c, _, r| look(plain::deliver(&c.fresh, &mut r.bins, 1, 0, 1)),
    ),
    (
        "call_off",
        AS_READ,
        |c, _, r| look(proved::call_off(&c.fresh, &mut r.bins, &c.sheet.build, 1)),
        |c, _, r| look(plain::call_off(&c.fresh, &mut r.bins, &c.sheet.build, 1)),
    ),
    (
        "write",
        AS_READ,
        |c, _, r| look(proved::write(&c.fresh, c.sheet.bytes[0] as usize, &mut r.bytes)),
        |c, _, r| look(plain::write(&c.fresh, c.sheet.bytes[0] as usize, &mut r.bytes)),
    ),
    (
        "cut",
        AS_READ,
        |c, s, _| look(proved::cut(&c.sheet.bytes, s)),
        |c, s, _| look(plain::cut(&c.sheet.bytes, s)),
    ),
    (
        "text",
        AS_READ,
        |c, _, r| look(proved::text(&c.sheet.bytes, r.bytes.first_chunk_mut().unwrap())),
        |c, _, r| look(plain::text(&c.sheet.bytes, r.bytes.first_chunk_mut().unwrap())),
    ),
    (
        "search",
        AS_READ,
        |c, _, _| look(proved::search(&c.reduced)),
        |c, _, _| look(plain::search(&c.reduced)),
    ),
    (
        "survey",
        AS_READ,
        |c, _, _| look(proved::survey(&c.reduced)),
        |c, _, _| look(plain::survey(&c.reduced)),
    ),
];

/// Keeps an answer from being optimised away; it is not copied.
fn look<T>(answer: T) {
    black_box(&answer);
}

/// The case's build at the start of the buffer.
fn build<'a>(case: &Case, room: &'a mut Room) -> &'a mut [u8] {
    let build = &mut room.bytes[..case.sheet.build.len()];
    build.copy_from_slice(&case.sheet.build);
    build
}

/// The time of one call over all cases: each scratch state is set anew outside the time that is taken.
fn timed(cases: &[Case], start: Start, scratch: &mut [Lined], room: &mut Room, call: Call) -> f64 {
    let mut total = 0;
    for _ in 0..REPEATS {
        for (case, state) in cases.iter().zip(scratch.iter_mut()) {
            state.0 = *start(case);
        }
        let clock = Instant::now();
        for (case, state) in cases.iter().zip(scratch.iter_mut()) {
            call(black_box(case), &mut state.0, room);
        }
        total += clock.elapsed().as_nanos();
    }
    total as f64 / (REPEATS * cases.len()) as f64
}

fn median(mut times: Vec<f64>) -> f64 {
    times.sort_by(f64::total_cmp);
    times[times.len() / 2]
}

/// Both by turns; the medians.
fn both(cases: &[Case], start: Start, one: Call, other: Call) -> (f64, f64) {
    let mut scratch = vec![Lined(State::ZERO); cases.len()];
    let mut room = room(&cases[0]);
    let (mut ones, mut others) = (Vec::new(), Vec::new());
    for _ in 0..ROUNDS {
        ones.push(timed(cases, start, &mut scratch, &mut room, one));
        others.push(timed(cases, start, &mut scratch, &mut room, other));
    }
    (median(ones), median(others))
}

/// A version, with options and their values.
const SIZES: [(u8, usize, u8); 5] = [(1, 4, 4), (1, 8, 8), (1, 16, 16), (2, 16, 32), (3, 16, 32)];

/// A ratio, with the place of its call and of its size.
struct Ratio {
    call: usize,
    size: usize,
    ratio: f64,
}

fn main() {
    let only = std::env::args().nth(1);
    println!(
        "{:10} {:7} {:6} {:9} {:>9} {:>9} {:>6}",
        "call", "version", "size", "family", "proved", "plain", "ratio"
    );
    let mut ratios = Vec::new();
    for (size, (version, options, values)) in SIZES.into_iter().enumerate() {
        for family in FAMILIES {
            // tables have random numbers of their own, so that the sheets do not depend on them
            let (mut random, mut tables) = (Random(values as u64), Random(values as u64 + 1));
            let cases: Vec<Case> = (0..SHEETS)
                .map(|_| {
                    let sheet = sheet_in(version, family, &vec![values; options], &mut random);
                    case(sheet, &mut tables)
                })
                .collect();
            for (call, &(name, start, one, other)) in CALLS.iter().enumerate() {
                if only.as_deref().is_some_and(|word| word != name) {
                    continue;
                }
                let (proved, plain) = both(&cases, start, one, other);
                let ratio = proved / plain;
                let (across, family) = (format!("{options}x{values}"), format!("{family:?}"));
                println!("{name:10} {version:7} {across:6} {family:9} {proved:9.0} {plain:9.0} {ratio:6.2}");
                ratios.push(Ratio { call, size, ratio });
            }
        }
    }
    summary(&ratios);
    if only.as_deref().is_none_or(|word| word == "search") {
        searches();
    }
    if only.is_none_or(|word| word == "survey") {
        surveys();
    }
}

/// The lowest and the highest ratio over the families, for each call and size.
fn summary(ratios: &[Ratio]) {
    println!("\n| proved to plain | 4x4 | 8x8 | 16x16 | 16x32, version 2 | 16x32, version 3 |\n|---|---|---|---|---|---|");
    for (call, (name, ..)) in CALLS.iter().enumerate() {
        if ratios.iter().all(|r| r.call != call) {
            continue;
        }
        print!("| {name} |");
        for size in 0..SIZES.len() {
            let here = ratios.iter().filter(|r| r.call == call && r.size == size);
            let (low, high) = here.fold((f64::MAX, 0f64), |(low, high), r| (low.min(r.ratio), high.max(r.ratio)));
            print!(" {low:.2} to {high:.2} |");
        }
        println!();
    }
}

/// Whether an answer is the one that is expected, so that it has to be made.
type Answers = fn(&State) -> bool;

/// Seconds and nanoseconds, as C has them on 64 bits.
#[repr(C)]
struct Moment {
    seconds: i64,
    nanoseconds: i64,
}

extern "C" {
    fn clock_gettime(clock: i32, moment: *mut Moment) -> i32;
}

/// The milliseconds that this thread has run: calls that take long are interrupted by other work, which is not to count.
fn thread_time() -> f64 {
    const CLOCK_THREAD_CPUTIME_ID: i32 = 3;
    let mut moment = Moment {
        seconds: 0,
        nanoseconds: 0,
    };
    // SAFETY: the clock of Linux writes into the moment, which is lent for the call
    assert_eq!(unsafe { clock_gettime(CLOCK_THREAD_CPUTIME_ID, &mut moment) }, 0);
    moment.seconds as f64 * 1e3 + moment.nanoseconds as f64 / 1e6
}

/// The time of one call in milliseconds, over enough of them to be measured.
fn one_call(state: &State, answers: Answers) -> f64 {
    let (start, clock) = (thread_time(), Instant::now());
    let mut times = 0;
    while times < 1000 && clock.elapsed().as_micros() < 200 {
        assert!(black_box(answers(black_box(state))));
        times += 1;
    }
    (thread_time() - start) / times as f64
}

/// Prints the milliseconds of both by turns, medians; the ones of the proved library and their ratio to those of plain Rust.
fn by_turns(name: &str, state: &State, one: Answers, other: Answers) -> (f64, f64) {
    let (mut ones, mut others) = (Vec::new(), Vec::new());
    // calls that take long need few rounds
    let rounds = if one_call(state, one) > 1.0 { ROUNDS / 4 } else { ROUNDS };
    for _ in 0..rounds {
        ones.push(one_call(state, one));
        others.push(one_call(state, other));
    }
    let (proved, plain) = (median(ones), median(others));
    println!("{name:56} {proved:9.4} {plain:9.4} {:6.2}", proved / plain);
    (proved, proved / plain)
}

fn state_of(bytes: &[u8]) -> State {
    let mut state = State::ZERO;
    proved::read(bytes, &mut state).expect("a sheet that is accepted");
    state
}

/// The search of states as read, near 1,000,000 choices and without a build.
fn searches() {
    println!(
        "\n{:56} {:>9} {:>9} {:>6}",
        "search, milliseconds", "proved", "plain", "ratio"
    );
    let one: Answers = |state| proved::search(state) == Ok(proved::Verdict::None);
    let other: Answers = |state| plain::search(state).kind == proved::raw::NONE;
    let mut random = Random(1);
    for sizes in NEAR_MILLION {
        for hard in HARD {
            let state = state_of(&hard_sheet(hard, sizes, &mut random));
            by_turns(&format!("{}x{} {hard:?}", sizes.len(), sizes[0]), &state, one, other);
        }
    }
    by_turns(
        "4x20, 11x1, 6, each of the four bars one",
        &state_of(&barred_sheet()),
        one,
        other,
    );
}

const SURVEYED: Answers = |state| proved::survey(state).is_ok();
const SURVEYED_PLAIN: Answers = |state| plain::survey(state).number == 0;

/// How many random shapes are climbed from, and how many changes each climb tries.
const CLIMBS: usize = 6;
const CHANGES: usize = 200;

/// From a shape to dearer ones, a change at a time.
fn climb(start: Shape, random: &mut Random) -> Shape {
    let cost = |shape: &Shape| {
        let state = state_of(&shape.sheet());
        (0..3).map(|_| one_call(&state, SURVEYED)).fold(f64::MAX, f64::min)
    };
    let mut dearest = cost(&start);
    let mut shape = start;
    for _ in 0..CHANGES {
        let next = shape.near(random);
        let cost = cost(&next);
        if cost > dearest {
            (shape, dearest) = (next, cost);
        }
    }
    shape
}

/// Sizes, with runs of the same size told by their length.
fn runs(sizes: &[u8]) -> String {
    let told = |run: &[u8]| match run.len() {
        1 => format!("{}", run[0]),
        length => format!("{length} of {}", run[0]),
    };
    sizes.chunk_by(|a, b| a == b).map(told).collect::<Vec<_>>().join(", ")
}

/// The survey of states as read, at most 1,000,000 choices: shapes where every pair has a table that allows everything, and those that climbs end at, with
/// how many pairs have no table and how many rows lack a value. A climb starts at the dearest of the former, and others at random shapes.
fn surveys() {
    println!(
        "\n{:56} {:>9} {:>9} {:>6}",
        "survey, milliseconds", "proved", "plain", "ratio"
    );
    let survey = |name: &str, shape: &Shape| by_turns(name, &state_of(&shape.sheet()), SURVEYED, SURVEYED_PLAIN);
    let full = LONG_SURVEYS.map(Shape::full);
    let mut found: Vec<(f64, f64)> = full.iter().map(|shape| survey(&runs(&shape.sizes), shape)).collect();
    let dearest = (0..full.len()).max_by(|&a, &b| f64::total_cmp(&found[a].0, &found[b].0));
    let mut random = Random(1);
    let mut starts = vec![full[dearest.unwrap_or(0)].clone()];
    starts.extend((0..CLIMBS).map(|_| Shape::any(&mut random)));
    for start in starts {
        let shape = climb(start, &mut random);
        let name = format!("{}; 1/{} 1/{}", runs(&shape.sizes), shape.apart, shape.lacking);
        found.push(survey(&name.replace("1/0", "0"), &shape));
    }
    let (time, ratio) = found
        .iter()
        .fold((0f64, 0f64), |(time, ratio), r| (time.max(r.0), ratio.max(r.1)));
    println!("at most {time:.2} milliseconds, ratio at most {ratio:.2}");
}
