//! Compares the proved library with plain Rust: number, place, state, buffer and text of every call, as they cross; and that the safe call of the bindings tells
//! the same. `differ [SHEETS]` sets how many sheets are made.
use bench::inputs::*;
use bench::plain;
use bench::proved::raw::{self, Cut, Read};
use bench::proved::{self, Bin, Cause, Refused, State, Verdict};

/// What was compared, and how the calls answered.
struct Counts {
    inputs: [(&'static str, usize); 7],
    calls: [usize; CALLS.len()],
    numbers: [[usize; NUMBERS]; CALLS.len()],
    differences: usize,
}

const CALLS: [&str; 21] = [
    "read",
    "write",
    "sound",
    "eliminate",
    "reduce",
    "test",
    "complete",
    "verdict",
    "cut",
    "text",
    "add_table",
    "search",
    "trim",
    "lead",
    "test_order",
    "find_order",
    "read_paired",
    "deliver",
    "call_off",
    "follower",
    "survey",
];
/// The numbers that a call can answer: 0, which stands for "not refused", and those of the causes.
const NUMBERS: usize = Cause::GREATEST as usize + 1;
const SHEET: usize = 0;
const DAMAGED_SHEET: usize = 1;
const RANDOM_BYTES: usize = 2;
const READ_STATE: usize = 3;
const STEPPED_STATE: usize = 4;
const DAMAGED_STATE: usize = 5;
const RANDOM_STATE: usize = 6;

impl Counts {
    fn note<T: PartialEq>(&mut self, call: usize, number: u8, one: &T, other: &T) {
        self.calls[call] += 1;
        self.numbers[call][number as usize] += 1;
        if one != other {
            self.differences += 1;
            if self.differences <= 20 {
                println!("difference in {}, number {number} of the proved library", CALLS[call]);
            }
        }
    }

    fn input(&mut self, kind: usize) {
        self.inputs[kind].1 += 1;
    }
}

/// What the safe call tells: the cause that has the number, or else the rest of the answer.
fn tells<T: PartialEq>(told: Result<T, Cause>, number: u8, rest: T) -> bool {
    match told {
        Ok(found) => number == 0 && found == rest,
        Err(cause) => cause.number() == number,
    }
}

/// The same of a call that reads a sheet, with the place.
fn tells_at<T: PartialEq>(told: Result<T, Refused>, number: u8, place: usize, rest: T) -> bool {
    tells(told.as_ref().map_err(|refused| refused.cause), number, &rest)
        && told.map_or_else(|refused| refused.place, |_| 0) == place
}

/// A kind and a build as the safe calls tell them.
fn verdict_of(kind: u8, build: [u8; 16]) -> Verdict {
    match kind {
        raw::BUILT => Verdict::Built(build),
        raw::OPEN => Verdict::Open,
        _ => Verdict::None,
    }
}

/// Every call on bytes, into a state that held something: a text counts by the number of its reading. The state read.
fn read(bytes: &[u8], before: &State, counts: &mut Counts) -> State {
    let (mut here, mut there) = (*before, *before);
    let one = raw::read(bytes, &mut here);
    let (number, place) = plain::read(bytes, &mut there);
    let mut again = *before;
    let told = tells_at(proved::read(bytes, &mut again), number, place, ()) && again == here;
    counts.note(0, one.number, &(one, here, told), &(Read { number, place }, there, true));
    read_paired(bytes, before, counts);
    cut(bytes, before, counts);
    let (mut mine, mut theirs) = ([1; 512], [2; 512]);
    let printed = (proved::text(bytes, &mut mine), mine);
    let other = (plain::text(bytes, &mut theirs), theirs);
    counts.note(9, one.number, &printed, &other);
    here
}

/// A sheet of the paired profile. Reduced, it is never OPEN.
fn read_paired(bytes: &[u8], before: &State, counts: &mut Counts) {
    let (mut here, mut there) = (*before, *before);
    let one = raw::read_paired(bytes, &mut here);
    let (number, place) = plain::read_paired(bytes, &mut there);
    let mut again = *before;
    let told = tells_at(proved::read_paired(bytes, &mut again), number, place, ()) && again == here;
    let open = one.number == 0 && proved::reduce(&mut again).is_ok() && proved::verdict(&again) == Ok(Verdict::Open);
    counts.note(
        16,
        one.number,
        &(one, here, told, open),
        &(Read { number, place }, there, true, false),
    );
}

fn cut(bytes: &[u8], before: &State, counts: &mut Counts) {
    let (mut here, mut there) = (*before, *before);
    let one = raw::cut(bytes, &mut here);
    let found = plain::cut(bytes, &mut there);
    let other = Cut {
        number: found.number,
        place: found.place,
        steps: found.steps,
        kind: found.kind,
        build: found.build,
    };
    let mut again = *before;
    let rest = proved::Cut {
        steps: found.steps,
        verdict: verdict_of(found.kind, found.build),
    };
    let told = tells_at(proved::cut(bytes, &mut again), found.number, found.place, rest) && again == here;
    counts.note(8, one.number, &(one, here, told), &(other, there, true));
}

/// A version to write in: 1, 2 or 3, and now and then one that there is not.
fn any_version(random: &mut Random) -> usize {
    if random.chance(8) {
        [0, 4, 255, 257, usize::MAX][random.below(5)]
    } else {
        1 + random.below(3)
    }
}

fn write(state: &State, version: usize, length: usize, random: &mut Random, counts: &mut Counts) {
    let before: Vec<u8> = (0..length).map(|_| random.next() as u8).collect();
    let (mut here, mut there, mut again) = (before.clone(), before.clone(), before);
    let one = raw::write(state, version, &mut here);
    let other = plain::write(state, version, &mut there);
    let told = tells(proved::write(state, version, &mut again), other.number, other.length) && again == here;
    counts.note(1, one.number, &(one, here, told), &(other, there, true));
}

/// One follow step; the state left, which after a refusal is the one given.
fn eliminate(state: &State, leader: usize, follower: usize, counts: &mut Counts) -> State {
    let (mut here, mut there, mut again) = (*state, *state, *state);
    let one = raw::eliminate(&mut here, leader, follower);
    let other = plain::eliminate(&mut there, leader, follower);
    let kept = one.number == 0 || here == *state;
    let told = tells(proved::eliminate(&mut again, leader, follower), other.number, other.steps) && again == here;
    counts.note(3, one.number, &(one, here, kept, told), &(other, there, true, true));
    here
}

/// The full reduction; the state left, which after a refusal is the one given.
fn reduce(state: &State, counts: &mut Counts) -> State {
    let (mut here, mut there, mut again) = (*state, *state, *state);
    let one = raw::reduce(&mut here);
    let other = plain::reduce(&mut there);
    let kept = one.number == 0 || here == *state;
    let told = tells(proved::reduce(&mut again), other.number, other.steps) && again == here;
    counts.note(4, one.number, &(one, here, kept, told), &(other, there, true, true));
    here
}

/// Live lists trimmed in turn with full reductions; the state left, which after a refusal is the one given.
fn trim(state: &State, counts: &mut Counts) -> State {
    let (mut here, mut there, mut again) = (*state, *state, *state);
    let one = raw::trim(&mut here);
    let other = plain::trim(&mut there);
    let kept = one.number == 0 || here == *state;
    let told = tells(proved::trim(&mut again), other.number, other.steps) && again == here;
    counts.note(12, one.number, &(one, here, kept, told), &(other, there, true, true));
    here
}

/// One option leads; the state left, which after a refusal is the one given.
fn lead(state: &State, leader: usize, counts: &mut Counts) -> State {
    let (mut here, mut there, mut again) = (*state, *state, *state);
    let one = raw::lead(&mut here, leader);
    let other = plain::lead(&mut there, leader);
    let kept = one.number == 0 || here == *state;
    let told = tells(proved::lead(&mut again, leader), other.number, other.steps) && again == here;
    counts.note(13, one.number, &(one, here, kept, told), &(other, there, true, true));
    here
}

/// A table added; the state left, which after a refusal is the one given.
fn add_table(state: &State, table: &Table, counts: &mut Counts) -> State {
    let (mut here, mut there, mut again) = (*state, *state, *state);
    let one = raw::add_table(&mut here, table.first, table.second, &table.rows);
    let other = plain::add_table(&mut there, table.first, table.second, &table.rows);
    let kept = one.number == 0 || here == *state;
    let told = tells(
        proved::add_table(&mut again, table.first, table.second, &table.rows),
        other.number,
        (),
    ) && again == here;
    counts.note(10, one.number, &(one, here, kept, told), &(other, there, true, true));
    here
}

fn test_and_complete(state: &State, build: &[u8], counts: &mut Counts) {
    let (one, other) = (raw::test(state, build), plain::test(state, build));
    let told = tells(proved::test(state, build), other.number, other.is_build);
    counts.note(5, one.number, &(one, told), &(other, true));
    let (mut here, mut there, mut again) = (build.to_vec(), build.to_vec(), build.to_vec());
    let one = raw::complete(state, &mut here);
    let other = plain::complete(state, &mut there);
    let told = tells(proved::complete(state, &mut again), other, ()) && again == here;
    let values = one != 0 || followers_have(state, &here);
    counts.note(6, one, &(one, here, told, values), &(other, there, true, true));
}

/// What the completer writes for each follower is its value at that of its leader.
fn followers_have(state: &State, build: &[u8]) -> bool {
    let mut followers = (0..state.n).filter(|&i| state.leaders[i] > 0);
    followers.all(|i| {
        let value = build[state.leaders[i] as usize - 1] as usize;
        proved::follower_value(state, i + 1, value) == Ok(build[i])
    })
}

/// A value, most often one up to the greatest in the list of the option's leader.
fn any_value(state: &State, option: usize, random: &mut Random) -> usize {
    let at = |number: usize| number.checked_sub(1).filter(|&i| i < 16);
    let leader = at(option).and_then(|i| at(state.leaders[i] as usize));
    let list = leader.map_or(0, |leader| state.lists[leader]);
    match random.below(8) {
        0 => random.next() as usize,
        1 => random.below(33),
        _ => random.below(33 - list.leading_zeros() as usize),
    }
}

/// The value of a follower, at any option and any value.
fn follower_value(state: &State, option: usize, value: usize, counts: &mut Counts) {
    let one = raw::follower_value(state, option, value);
    let other = plain::follower_value(state, option, value);
    let told = tells(proved::follower_value(state, option, value), other.number, other.value);
    counts.note(19, one.number, &(one, told), &(other, true));
}

/// An order tested, and one found in a buffer that held it.
fn orders(state: &State, order: &[u8], counts: &mut Counts) {
    let (one, other) = (raw::test_order(state, order), plain::test_order(state, order));
    let told = tells(proved::test_order(state, order), other.number, other.is_good);
    counts.note(14, one.number, &(one, told), &(other, true));
    let (mut here, mut there, mut again) = (order.to_vec(), order.to_vec(), order.to_vec());
    let one = raw::find_order(state, &mut here);
    let other = plain::find_order(state, &mut there);
    let good = one != 0 || proved::test_order(state, &here) == Ok(true);
    let told = tells(proved::find_order(state, &mut again), other, ()) && again == here;
    counts.note(15, one, &(one, here, good, told), &(other, there, true, true));
}

/// Bins, those that both leave, and what was accepted for each: deliveries and call-offs.
struct Year {
    opening: Vec<Bin>,
    here: Vec<Bin>,
    there: Vec<Bin>,
    accepted: Vec<(u64, u64)>,
}

impl Year {
    fn of(state: &State, random: &mut Random) -> Year {
        let opening = any_bins(state, random);
        Year {
            here: opening.clone(),
            there: opening.clone(),
            accepted: vec![(0, 0); opening.len()],
            opening,
        }
    }

    /// Some entries, each with its own answer. A refusal changes no bin, and after each entry every bin balances.
    fn run(&mut self, state: &State, build: &[u8], random: &mut Random, counts: &mut Counts) {
        for _ in 0..1 + random.below(5) {
            let entry = any_entry(state, build, random);
            let (before, mut again) = (self.here.clone(), self.here.clone());
            let (call, one, other, told) = match &entry {
                &Entry::Delivery { option, value, amount } => (
                    17,
                    raw::deliver(state, &mut self.here, option, value, amount),
                    plain::deliver(state, &mut self.there, option, value, amount),
                    proved::deliver(state, &mut again, option, value, amount),
                ),
                Entry::CallOff { build, amount } => (
                    18,
                    raw::call_off(state, &mut self.here, build, *amount),
                    plain::call_off(state, &mut self.there, build, *amount),
                    proved::call_off(state, &mut again, build, *amount),
                ),
            };
            if one == 0 {
                self.accept(&entry);
            }
            let kept = one == 0 || self.here == before;
            let told = tells(told, other, ()) && again == self.here;
            counts.note(
                call,
                one,
                &(one, &self.here, kept, told, self.balances()),
                &(other, &self.there, true, true, true),
            );
        }
    }

    fn accept(&mut self, entry: &Entry) {
        for (bin, sums) in self.opening.iter().zip(&mut self.accepted) {
            match entry {
                &Entry::Delivery { option, value, amount } if (bin.option as usize, bin.value as usize) == (option, value) => {
                    sums.0 += amount as u64
                }
                Entry::CallOff { build, amount } if build[bin.option as usize - 1] == bin.value => sums.1 += *amount as u64,
                _ => {}
            }
        }
    }

    fn balances(&self) -> bool {
        let bins = self.opening.iter().zip(&self.here).zip(&self.accepted);
        bins.into_iter().all(|((open, now), (delivered, called_off))| {
            open.count as u64 + delivered == now.count as u64 + called_off && (open.option, open.value) == (now.option, now.value)
        })
    }
}

/// The survey; where there are few tuples of values each is tested too.
fn survey(state: &State, counts: &mut Counts) {
    let (one, other) = (raw::survey(state), plain::survey(state));
    let rest = proved::Survey {
        count: other.count,
        more: other.more,
        words: other.words,
    };
    let told = tells(proved::survey(state), other.number, rest);
    let counted = one.number != 0 || tuples(state) > FEW_TUPLES || tried(state) == (one.count, one.words);
    counts.note(20, one.number, &(one, told, counted), &(other, true, true));
}

/// So many tuples are all tested.
const FEW_TUPLES: usize = 96;

/// How many tuples of values there are, within the sizes and not the lists, up to one too many.
fn tuples(state: &State) -> usize {
    let sizes = &state.sizes[..state.n];
    sizes
        .iter()
        .fold(1, |product, &size| (product * size as usize).min(FEW_TUPLES + 1))
}

/// How many tuples are builds by the tester, and the values that they have.
fn tried(state: &State) -> (u64, [u32; 16]) {
    let (mut count, mut words) = (0, [0; 16]);
    let mut build = vec![0; state.n];
    for tuple in 0..tuples(state) {
        let mut rest = tuple;
        for (value, &size) in build.iter_mut().zip(&state.sizes) {
            *value = (rest % size as usize) as u8;
            rest /= size as usize;
        }
        if plain::test(state, &build).is_build {
            count += 1;
            for (word, value) in words.iter_mut().zip(&build) {
                *word |= 1 << value;
            }
        }
    }
    (count, words)
}

/// Every call on one state.
fn calls(state: &State, build: &[u8], random: &mut Random, counts: &mut Counts) {
    let sound = proved::is_sound(state);
    counts.note(2, if sound { 0 } else { 9 }, &sound, &plain::is_sound(state));
    let (one, other) = (raw::verdict(state), plain::verdict(state));
    let told = tells(proved::verdict(state), other.number, verdict_of(other.kind, other.build));
    counts.note(7, one.number, &(one, told), &(other, true));
    let (one, other) = (raw::search(state), plain::search(state));
    let told = tells(proved::search(state), other.number, verdict_of(other.kind, other.build));
    counts.note(11, one.number, &(one, told), &(other, true));
    survey(state, counts);
    let n = state.n.min(16);
    for _ in 0..2 {
        let (leader, follower) = (random.below(n + 2), random.below(n + 2));
        eliminate(state, leader, follower, counts);
    }
    if random.chance(16) {
        eliminate(state, random.next() as usize, random.next() as usize, counts);
        lead(state, random.next() as usize, counts);
    }
    reduce(state, counts);
    trim(state, counts);
    lead(state, random.below(n + 2), counts);
    for _ in 0..2 {
        add_table(state, &any_table(state, random), counts);
    }
    for _ in 0..2 {
        let length = if random.chance(2) { n } else { random.below(21) };
        test_and_complete(state, &buffer(build, length, random), counts);
    }
    test_and_complete(state, build, counts);
    for _ in 0..2 {
        orders(state, &any_order(n, random), counts);
    }
    let mut beside = random.beside();
    for option in 0..n + 2 {
        follower_value(state, option, any_value(state, option, &mut beside), counts);
    }
    follower_value(state, beside.next() as usize, beside.below(2), counts);
    let mut stock = random.beside();
    Year::of(state, &mut stock).run(state, build, &mut stock, counts);
    write(
        state,
        any_version(random),
        [random.below(21), random.below(600), 15621][random.below(3)],
        random,
        counts,
    );
}

/// A state as read, with every length of a buffer, and those that a list of calls leads to.
fn from_sheet(sheet: &Sheet, random: &mut Random, counts: &mut Counts) {
    let mut state = read(&sheet.bytes, &State::ZERO, counts);
    counts.input(READ_STATE);
    calls(&state, &sheet.build, random, counts);
    for length in 0..=20 {
        test_and_complete(&state, &buffer(&sheet.build, length, random), counts);
    }
    let whole = sheet.bytes.len();
    let own = sheet.bytes[0] as usize;
    for length in [whole - 1, whole, whole + 1, random.below(whole)] {
        write(&state, own, length, random, counts);
    }
    for version in 1..=3 {
        write(&state, version, 15621, random, counts);
    }
    // bins that go along, while the state changes between entries
    let mut stock = random.beside();
    let mut year = Year::of(&state, &mut stock);
    for _ in 0..1 + random.below(6) {
        year.run(&state, &sheet.build, &mut stock, counts);
        let n = state.n;
        state = match random.below(10) {
            0 => reduce(&state, counts),
            1 => trim(&state, counts),
            2 => lead(&state, 1 + random.below(n), counts),
            3 | 4 => add_table(&state, &any_table(&state, random), counts),
            _ => eliminate(&state, 1 + random.below(n), 1 + random.below(n), counts),
        };
        counts.input(STEPPED_STATE);
        calls(&state, &sheet.build, random, counts);
        let mut damaged = state;
        damage_state(&mut damaged, random);
        counts.input(DAMAGED_STATE);
        calls(&damaged, &sheet.build, random, counts);
    }
}

/// Each kind of damage at every place of a sheet.
fn damaged(bytes: &[u8], random: &mut Random, counts: &mut Counts) {
    for at in 0..bytes.len() {
        for what in 0..DAMAGES {
            counts.input(DAMAGED_SHEET);
            read(&damaged_sheet(bytes, at, what, random), &State::ZERO, counts);
        }
    }
}

/// Every call on sheets that keep a survey or a search long; `at` says which.
fn long_surveys(at: usize, random: &mut Random, counts: &mut Counts) {
    let full = Shape::full(LONG_SURVEYS[at % LONG_SURVEYS.len()]);
    for bytes in [full.sheet(), Shape::any(random).sheet(), barred_sheet()] {
        counts.input(SHEET);
        let state = read(&bytes, &State::ZERO, counts);
        counts.input(READ_STATE);
        calls(&state, &vec![0; state.n], random, counts);
    }
}

/// Every call on states with few tables, and with some 2^64 builds or more.
fn many_builds(random: &mut Random, counts: &mut Counts) {
    let mut sizes = vec![32; 12];
    sizes.push([15, 16, 17][random.below(3)]);
    sizes.extend((0..random.below(4)).map(|_| 1 + random.below(3) as u8));
    let bare = Shape {
        apart: 1,
        ..Shape::full(&sizes)
    };
    counts.input(SHEET);
    let mut state = read(&bare.sheet(), &State::ZERO, counts);
    counts.input(READ_STATE);
    calls(&state, &vec![0; sizes.len()], random, counts);
    for _ in 0..3 {
        state = add_table(&state, &any_table(&state, random), counts);
        counts.input(STEPPED_STATE);
        calls(&state, &vec![0; sizes.len()], random, counts);
    }
}

/// One sheet and what comes of it, with bytes and states beside it; `at` says which.
fn round(at: usize, random: &mut Random, counts: &mut Counts) {
    let sizes = if at % 16 == 0 {
        let size = [4, 8, 16, 27, 32][random.below(5)];
        vec![size; size.min(16) as usize]
    } else {
        any_sizes(random)
    };
    let family = FAMILIES[at % FAMILIES.len()];
    // small sizes in versions 2 and 3 too
    let sheet = match at % 4 {
        0 => sheet_in(2, family, &sizes, random),
        1 => sheet_in(3, family, &sizes, random),
        _ => sheet(family, &sizes, random),
    };
    counts.input(SHEET);
    from_sheet(&sheet, random, counts);
    if sheet.bytes[0] == 2 {
        // as version 3, which refuses its rows of zeros
        let mut bytes = sheet.bytes.clone();
        bytes[0] = 3;
        counts.input(DAMAGED_SHEET);
        read(&bytes, &State::ZERO, counts);
    }
    if at % 200 == 0 || sheet.bytes.len() < 60 && at % 20 == 1 {
        damaged(&sheet.bytes, random, counts);
    }
    if at % 400 == 0 {
        let sizes = NEAR_MILLION[random.below(NEAR_MILLION.len())];
        let bytes = hard_sheet(HARD[at / 400 % HARD.len()], sizes, random);
        counts.input(SHEET);
        let state = read(&bytes, &State::ZERO, counts);
        counts.input(READ_STATE);
        calls(&state, &vec![0; sizes.len()], random, counts);
    }
    if at % 400 == 200 {
        long_surveys(at / 400, &mut random.beside(), counts);
    }
    if at % 40 == 20 {
        many_builds(&mut random.beside(), counts);
    }
    counts.input(RANDOM_BYTES);
    let state = random_state(random);
    read(&random_bytes(random), &state, counts);
    if at % 8 == 0 {
        read(&sheet.bytes, &state, counts);
        counts.input(RANDOM_STATE);
        calls(&state, &sheet.build, random, counts);
    }
}

fn main() {
    let sheets: usize = std::env::args()
        .nth(1)
        .map_or(12_000, |word| word.parse().expect("a number of sheets"));
    let names = [
        "sheets",
        "damaged sheets",
        "random bytes",
        "states as read",
        "states after calls",
        "damaged states",
        "random states",
    ];
    let mut counts = Counts {
        inputs: names.map(|name| (name, 0)),
        calls: [0; CALLS.len()],
        numbers: [[0; NUMBERS]; CALLS.len()],
        differences: 0,
    };
    let mut random = Random(1);
    for at in 0..sheets {
        round(at, &mut random, &mut counts);
    }
    report(&counts);
}

fn report(counts: &Counts) {
    let mut inputs = 0;
    for (name, count) in counts.inputs {
        println!("{name}: {count}");
        inputs += count;
    }
    println!("inputs {inputs}");
    for (call, name) in CALLS.iter().enumerate() {
        let numbers: Vec<String> = (0..NUMBERS)
            .filter(|&k| counts.numbers[call][k] > 0)
            .map(|k| format!("{k}: {}", counts.numbers[call][k]))
            .collect();
        println!("{name:11} {:8} calls; by number: {}", counts.calls[call], numbers.join(", "));
    }
    println!("differences {}", counts.differences);
    std::process::exit((counts.differences > 0) as i32);
}
