//! Sheets, states and buffers to try.
use crate::proved::{row_place, Bin, State, ROWS};

/// A small generator of random numbers (splitmix64), so that a run can be repeated.
pub struct Random(pub u64);

impl Random {
    pub fn next(&mut self) -> u64 {
        self.0 = self.0.wrapping_add(0x9e37_79b9_7f4a_7c15);
        let mut x = self.0;
        x = (x ^ (x >> 30)).wrapping_mul(0xbf58_476d_1ce4_e5b9);
        x = (x ^ (x >> 27)).wrapping_mul(0x94d0_49bb_1331_11eb);
        x ^ (x >> 31)
    }

    pub fn below(&mut self, bound: usize) -> usize {
        (self.next() % bound as u64) as usize
    }

    pub fn chance(&mut self, one_in: usize) -> bool {
        self.below(one_in) == 0
    }

    /// Numbers beside these: what comes of these does not depend on how many of those are taken.
    pub fn beside(&self) -> Random {
        Random(!self.0)
    }
}

#[derive(Clone, Copy, PartialEq, Eq, Debug)]
pub enum Family {
    /// One table in four pairs, each row a few values.
    Sparse,
    /// Each option determines the next.
    Chain,
    /// Each pair of neighbours goes together one to one, and so do some others.
    Bijective,
    /// Every pair has a table, half of whose bits are set.
    Dense,
    /// Every pair has a table, which allows everything.
    Full,
    /// Pairs without a table, and tables of every kind above.
    Mixed,
}

pub const FAMILIES: [Family; 6] = [
    Family::Sparse,
    Family::Chain,
    Family::Bijective,
    Family::Dense,
    Family::Full,
    Family::Mixed,
];

/// A sheet, and a build that all its tables allow.
pub struct Sheet {
    pub bytes: Vec<u8>,
    pub build: Vec<u8>,
}

#[derive(Clone, Copy)]
enum Kind {
    Nothing,
    Few,
    Function,
    Permutation,
    Half,
    Everything,
}

fn kind(family: Family, a: usize, b: usize, random: &mut Random) -> Kind {
    let next = b == a + 1;
    match family {
        Family::Sparse if random.chance(4) => Kind::Few,
        Family::Sparse => Kind::Nothing,
        Family::Chain if next => Kind::Function,
        Family::Chain => Kind::Nothing,
        Family::Bijective if next || random.chance(8) => Kind::Permutation,
        Family::Bijective => Kind::Nothing,
        Family::Dense => Kind::Half,
        Family::Full => Kind::Everything,
        Family::Mixed => match random.below(12) {
            0 | 1 => Kind::Few,
            2 | 3 => Kind::Function,
            4 => Kind::Permutation,
            5 => Kind::Half,
            6 => Kind::Everything,
            _ => Kind::Nothing,
        },
    }
}

/// Rows of a table of `from` values against `to`; value `a` is to go with value `b`.
fn rows(kind: Kind, from: usize, to: usize, a: usize, b: usize, random: &mut Random) -> Vec<u32> {
    let all = ((1u64 << to) - 1) as u32;
    let shift = random.below(to);
    let mut rows: Vec<u32> = (0..from)
        .map(|v| match kind {
            Kind::Nothing => 0,
            Kind::Few => random.next() as u32 & random.next() as u32 & all,
            Kind::Function => 1 << random.below(to),
            Kind::Permutation if v < to => 1 << ((v + shift) % to),
            Kind::Permutation => 0,
            Kind::Half => random.next() as u32 & all,
            Kind::Everything => all,
        })
        .collect();
    match kind {
        Kind::Function => rows[a] = 1 << b,
        Kind::Permutation => {
            if let Some(other) = rows.iter().position(|&row| row == 1 << b) {
                rows.swap(other, a);
            }
        }
        _ => rows[a] |= 1 << b,
    }
    rows
}

/// A sheet of a family over options of the given sizes, in version 1 where they allow it.
pub fn sheet(family: Family, sizes: &[u8], random: &mut Random) -> Sheet {
    let version = if sizes.iter().all(|&size| size <= 16) { 1 } else { 2 };
    sheet_in(version, family, sizes, random)
}

/// A sheet in a version. In version 3 a row of zeros has one value in its place.
pub fn sheet_in(version: u8, family: Family, sizes: &[u8], random: &mut Random) -> Sheet {
    let n = sizes.len();
    let build: Vec<u8> = sizes.iter().map(|&size| random.below(size as usize) as u8).collect();
    let mut tables = Vec::new();
    let mut count = 0;
    for a in 0..n {
        for b in a + 1..n {
            let kind = kind(family, a, b, random);
            if let Kind::Nothing = kind {
                continue;
            }
            count += 1;
            tables.extend([a as u8 + 1, b as u8 + 1]);
            for row in rows(
                kind,
                sizes[a] as usize,
                sizes[b] as usize,
                build[a] as usize,
                build[b] as usize,
                random,
            ) {
                let row = if version == 3 && row == 0 { 1 } else { row };
                tables.extend(&row.to_be_bytes()[if version == 1 { 2 } else { 0 }..]);
            }
        }
    }
    Sheet {
        bytes: bytes_of(version, sizes, count, &tables),
        build,
    }
}

fn bytes_of(version: u8, sizes: &[u8], count: u8, tables: &[u8]) -> Vec<u8> {
    let mut bytes = vec![version, 0, 0, sizes.len() as u8];
    bytes.extend(sizes);
    bytes.push(count);
    bytes.extend(tables);
    mend(&mut bytes);
    bytes
}

/// Sheets without a build that keep a search long: the table of the last two options is empty, and
#[derive(Clone, Copy, PartialEq, Eq, Debug)]
pub enum Hard {
    /// any other two differ.
    Differ,
    /// each option leaves the next most of its values.
    Chain,
    /// each value of an option takes one value of the last, another where it has enough.
    Last,
    /// every other table has most of its bits set.
    Most,
    /// every other table has half of its bits set.
    Half,
}

/// Sizes whose product is near 1,000,000, and not above it.
pub const NEAR_MILLION: [&[u8]; 6] = [
    &[31; 4],
    &[15; 5],
    &[10; 6],
    &[4; 9],
    &[3; 12],
    &[2, 2, 2, 2, 2, 2, 2, 2, 2, 2, 2, 2, 2, 2, 2, 30],
];

pub const HARD: [Hard; 5] = [Hard::Differ, Hard::Chain, Hard::Last, Hard::Most, Hard::Half];

/// The row of value `v` of option `a` against option `b`; none where they have no table.
fn hard_row(hard: Hard, a: usize, b: usize, v: usize, sizes: &[u8], random: &mut Random) -> Option<u32> {
    let (last, size) = (sizes.len() - 1, sizes[b] as usize);
    let all = ((1u64 << size) - 1) as u32;
    let without = |value: usize| all & !(1 << value % size);
    match hard {
        _ if a + 1 == last && b == last => Some(0),
        Hard::Chain if b != a + 1 => None,
        Hard::Last if b != last => None,
        Hard::Differ | Hard::Chain => Some(without(v)),
        Hard::Last => Some(without(v + a * sizes[a] as usize)),
        Hard::Most => Some(without(random.below(size))),
        Hard::Half => Some(random.next() as u32 & all),
    }
}

/// The bytes of such a sheet, in version 2.
pub fn hard_sheet(hard: Hard, sizes: &[u8], random: &mut Random) -> Vec<u8> {
    let last = sizes.len() - 1;
    let (mut tables, mut count) = (Vec::new(), 0);
    for a in 0..last {
        for b in a + 1..=last {
            let rows: Option<Vec<u32>> = (0..sizes[a] as usize)
                .map(|v| hard_row(hard, a, b, v, sizes, random))
                .collect();
            let Some(rows) = rows else { continue };
            count += 1;
            tables.extend([a as u8 + 1, b as u8 + 1]);
            tables.extend(rows.iter().flat_map(|row| row.to_be_bytes()));
        }
    }
    bytes_of(2, sizes, count, &tables)
}

/// Without a build, and long for a search although 11 of its options have one value: each of the first four options bars a value of its own of the last,
/// whatever value it has, and the table of options 14 and 15 is empty. 960,000 choices, in version 2.
pub fn barred_sheet() -> Vec<u8> {
    let mut sizes = [1; 16];
    sizes[..4].fill(20);
    sizes[15] = 6;
    let mut tables = Vec::new();
    for option in 1..=4 {
        let row = 63u32 & !(1 << option);
        tables.extend([option, 16]);
        tables.extend([row; 20].iter().flat_map(|row| row.to_be_bytes()));
    }
    tables.extend([14, 15, 0, 0, 0, 0]);
    bytes_of(2, &sizes, 5, &tables)
}

/// Sizes that keep a survey long where every pair has a table that allows everything; their product is at most 1,000,000.
pub const LONG_SURVEYS: [&[u8]; 8] = [
    &[2, 2, 2, 2, 2, 2, 2, 2, 2, 2, 2, 2, 2, 3, 5, 8],
    &[8, 5, 3, 2, 2, 2, 2, 2, 2, 2, 2, 2, 2, 2, 2, 2],
    &[32, 32, 32, 30],
    &[31, 31, 32, 32, 1, 1, 1, 1, 1, 1, 1, 1, 1, 1, 1, 1],
    &[27, 27, 27, 25, 1, 1, 1, 1, 1, 1, 1, 1, 1, 1, 1, 2],
    &[1, 1, 1, 1, 1, 1, 1, 1, 1, 1, 1, 1, 31, 31, 32, 32],
    &[30, 2, 2, 2, 2, 2, 2, 2, 2, 2, 2, 2, 2, 2, 2, 2],
    &[3, 3, 3, 3, 3, 3, 2, 2, 2, 2, 2, 2, 2, 2, 2, 2],
];

/// A form of sheets to survey: sizes, and how far their tables are from allowing everything.
#[derive(Clone)]
pub struct Shape {
    pub sizes: Vec<u8>,
    /// One pair in so many has no table, and one row in so many lacks a value; 0 for none.
    pub apart: usize,
    pub lacking: usize,
    /// What the tables are drawn by.
    pub seed: u64,
}

/// The most that the sizes of a shape have as their product.
const SHAPE_LIMIT: usize = 1_000_000;

impl Shape {
    /// Every pair has a table, which allows everything.
    pub fn full(sizes: &[u8]) -> Shape {
        Shape {
            sizes: sizes.to_vec(),
            apart: 0,
            lacking: 0,
            seed: 0,
        }
    }

    /// Any sizes near the limit.
    pub fn any(random: &mut Random) -> Shape {
        let (n, most) = (2 + random.below(15), [2, 4, 8, 32][random.below(4)]);
        let (mut sizes, mut room) = (Vec::new(), SHAPE_LIMIT);
        for left in (0..n).rev() {
            let size = if left == 0 { 32 } else { 1 + random.below(most) };
            let size = size.min(room);
            room /= size;
            sizes.insert(random.below(sizes.len() + 1), size as u8);
        }
        Shape {
            sizes,
            apart: [0, 0, 8][random.below(3)],
            lacking: [0, 4, 16][random.below(3)],
            seed: random.next(),
        }
    }

    /// Changed a little, still within the limit.
    pub fn near(&self, random: &mut Random) -> Shape {
        let mut shape = self.clone();
        let n = shape.sizes.len();
        let (i, j) = (random.below(n), random.below(n));
        match random.below(6) {
            0 => shape.sizes.swap(i, j),
            1 => shape.sizes[i] = 1 + random.below(32) as u8,
            2 => shape.sizes[i] = 1 + random.below(4) as u8,
            3 if n < 16 => shape.sizes.insert(i, 2),
            4 => shape.apart = [0, 0, 8, 32][random.below(4)],
            _ => (shape.lacking, shape.seed) = ([0, 4, 16, 64][random.below(4)], random.next()),
        }
        while shape.choices() > SHAPE_LIMIT {
            let at = random.below(shape.sizes.len());
            shape.sizes[at] = (shape.sizes[at] - 1).max(1);
        }
        shape
    }

    pub fn choices(&self) -> usize {
        let sizes = self.sizes.iter();
        sizes.fold(1, |product, &size| product.saturating_mul(size as usize))
    }

    /// A sheet of this form, in version 2.
    pub fn sheet(&self) -> Vec<u8> {
        let mut random = Random(self.seed);
        let mut in_so_many = |one_in: usize| one_in > 0 && random.chance(one_in);
        let mut places = Random(!self.seed);
        let (mut tables, mut count) = (Vec::new(), 0);
        for a in 0..self.sizes.len() {
            for b in a + 1..self.sizes.len() {
                if in_so_many(self.apart) {
                    continue;
                }
                count += 1;
                tables.extend([a as u8 + 1, b as u8 + 1]);
                for _ in 0..self.sizes[a] {
                    let all = ((1u64 << self.sizes[b]) - 1) as u32;
                    let lacks = (in_so_many(self.lacking) as u32) << places.below(self.sizes[b] as usize);
                    tables.extend((all & !lacks).to_be_bytes());
                }
            }
        }
        bytes_of(2, &self.sizes, count, &tables)
    }
}

/// Sizes for some options, each from 1 to 32.
pub fn any_sizes(random: &mut Random) -> Vec<u8> {
    let most = [3, 5, 16, 32][random.below(4)];
    let longest = [4, 8, 16][random.below(3)];
    let n = 1 + random.below(longest);
    (0..n).map(|_| 1 + random.below(most) as u8).collect()
}

/// Sets the count of the bytes that follow it, as far as it can.
pub fn mend(bytes: &mut [u8]) {
    if bytes.len() >= 3 {
        let count = (bytes.len() - 3) as u16;
        bytes[1..3].copy_from_slice(&count.to_be_bytes());
    }
}

/// Bytes of any kind; half of them with a right version and count.
pub fn random_bytes(random: &mut Random) -> Vec<u8> {
    let longest = [8, 40, 600, 4200, 15700][random.below(5)];
    let length = random.below(longest);
    let small = random.chance(2);
    let mut bytes: Vec<u8> = (0..length)
        .map(|_| if small { random.below(18) as u8 } else { random.next() as u8 })
        .collect();
    if random.chance(2) && length >= 3 {
        bytes[0] = 1 + random.below(3) as u8;
        mend(&mut bytes);
    }
    bytes
}

/// The sheet with one field or its length changed: `what` counts the kinds of change.
pub fn damaged_sheet(bytes: &[u8], at: usize, what: usize, random: &mut Random) -> Vec<u8> {
    let mut changed = bytes.to_vec();
    match what {
        0 => changed[at] = random.next() as u8,
        1 => changed[at] = [0, 1, 2, 3, 15, 16, 17, 32, 33, 128, 255][random.below(11)],
        2 => changed[at] = changed[at].wrapping_add(1),
        3 => changed[at] = changed[at].wrapping_sub(1),
        4 => changed[at] ^= 1 << random.below(8),
        // cut off here, with and without a right count
        5 => changed.truncate(at),
        6 => {
            changed.truncate(at);
            mend(&mut changed);
        }
        // one byte too many or too few within
        7 => {
            changed.insert(at, random.below(17) as u8);
            mend(&mut changed);
        }
        8 => {
            changed.remove(at);
            mend(&mut changed);
        }
        // bytes left over
        _ => {
            changed.extend((0..1 + random.below(5)).map(|_| 0));
            mend(&mut changed);
        }
    }
    changed
}

pub const DAMAGES: usize = 10;

/// A state with random contents throughout.
pub fn random_state(random: &mut Random) -> State {
    let mut state = State::ZERO;
    state.n = if random.chance(2) {
        random.below(18)
    } else {
        random.next() as usize
    };
    for i in 0..16 {
        state.sizes[i] = random.below(18) as u8;
        state.lists[i] = random.next() as u32;
        state.leaders[i] = random.below(18) as u8;
        state.stated[i] = random.next() as u32;
    }
    for at in 0..ROWS {
        state.rows[at] = random.next() as u32;
    }
    state
}

/// The place of a row of two different options, in either order.
fn row_of(i: usize, j: usize, a: usize) -> usize {
    row_place(i.min(j), i.max(j), a)
}

/// Changes one or two entries of a state; many of the results are still sound.
pub fn damage_state(state: &mut State, random: &mut Random) {
    let n = state.n.clamp(1, 16);
    for _ in 0..1 + random.below(2) {
        // any bit of a word
        let (i, j, a) = (random.below(16), random.below(16), random.below(32));
        let near = random.below(n);
        let other = random.below(n);
        let size = state.sizes[near].clamp(1, 32) as usize;
        match random.below(13) {
            0 => state.n = [0, n - 1, n + 1, 16, 17, usize::MAX][random.below(6)],
            1 => state.sizes[i] = [0, 1, 16, 17, 32, 33, 255, state.sizes[i].wrapping_add(1)][random.below(8)],
            2 => state.lists[i] ^= 1 << a,
            3 => state.lists[near] &= random.next() as u32,
            4 => state.leaders[i] = random.below(18) as u8,
            5 => state.leaders[near] = 1 + random.below(n) as u8,
            6 => state.stated[i] ^= 1 << a,
            7 => {
                // a pair stated or unstated from both sides
                state.stated[near] ^= 1 << other;
                state.stated[other] ^= 1 << near;
            }
            8 if i != j => state.rows[row_of(i, j, a)] ^= 1 << random.below(32),
            9 if near != other => state.rows[row_of(near, other, a)] ^= 1 << random.below(16),
            10 if near != other => state.rows[row_of(near, other, random.below(size))] ^= 1 << random.below(size),
            11 => state.lists[near] ^= 1 << random.below(size),
            _ => state.lists[near] = 0,
        }
    }
}

/// A buffer of `length` bytes that starts like a build.
pub fn buffer(build: &[u8], length: usize, random: &mut Random) -> Vec<u8> {
    let wild = random.chance(3);
    (0..length)
        .map(|i| match build.get(i) {
            Some(&value) if !random.chance(8) => value,
            _ if wild => random.next() as u8,
            _ => random.below(34) as u8,
        })
        .collect()
}

/// A table to add to a state: two option numbers, and rows.
pub struct Table {
    pub first: usize,
    pub second: usize,
    pub rows: Vec<u32>,
}

/// An order of n options, counted from 1: mostly each once, some with a number that is wrong or twice, some of another length.
pub fn any_order(n: usize, random: &mut Random) -> Vec<u8> {
    let mut order: Vec<u8> = (1..=n as u8).collect();
    for place in (1..n).rev() {
        order.swap(place, random.below(place + 1));
    }
    match random.below(8) {
        0 if n > 0 => order[random.below(n)] = [0, n as u8 + 1, 1 + random.below(n) as u8, random.next() as u8][random.below(4)],
        1 => order.truncate(random.below(n + 1)),
        2 => order.extend((0..1 + random.below(4)).map(|_| random.below(n + 2) as u8)),
        _ => {}
    }
    order
}

/// A count of a bin, or an amount: mostly small, some near 2^32.
fn any_count(random: &mut Random) -> u32 {
    match random.below(8) {
        0 => 0,
        1 => u32::MAX - random.below(4) as u32,
        2 => random.next() as u32,
        _ => random.below(40) as u32,
    }
}

/// The bins of a state; some with a record that is wrong, missing, out of order or too many.
pub fn any_bins(state: &State, random: &mut Random) -> Vec<Bin> {
    let mut bins = Vec::new();
    for i in 0..state.n.min(16) {
        for value in 0..state.sizes[i] {
            let (option, count) = (i as u8 + 1, any_count(random));
            bins.push(Bin { option, value, count });
        }
    }
    let last = bins.len().max(1) - 1;
    let (at, other) = (random.below(last + 1), random.below(last + 1));
    match random.below(32) {
        _ if bins.is_empty() => {}
        0 => bins.swap(at, other),
        1 => bins.truncate(at),
        2 => drop(bins.remove(at)),
        3 => bins.insert(at, bins[other]),
        4 => bins.push(bins[other]),
        5 => bins[at].option = [0, bins[at].option.wrapping_add(1), random.next() as u8][random.below(3)],
        6 => bins[at].value = [0, bins[at].value.wrapping_add(1), random.next() as u8][random.below(3)],
        _ => {}
    }
    bins
}

/// An entry of a year's list.
pub enum Entry {
    Delivery { option: usize, value: usize, amount: u32 },
    CallOff { build: Vec<u8>, amount: u32 },
}

/// An entry for a state: most deliveries name a value of it, and half of the builds are the one given.
pub fn any_entry(state: &State, build: &[u8], random: &mut Random) -> Entry {
    let n = state.n.clamp(1, 16);
    let amount = if random.chance(2) {
        random.below(4) as u32
    } else {
        any_count(random)
    };
    if random.chance(2) {
        let build = match random.below(4) {
            0 => buffer(build, random.below(21), random),
            1 => buffer(build, n, random),
            _ => build.to_vec(),
        };
        return Entry::CallOff { build, amount };
    }
    let option = match random.below(12) {
        0 => random.next() as usize,
        1 => [0, n + 1, 17, 257][random.below(4)],
        _ => 1 + random.below(n),
    };
    let size = state.sizes[option.clamp(1, 16) - 1].max(1) as usize;
    let value = match random.below(12) {
        0 => random.next() as usize,
        1 => [size, 32, 256, 257][random.below(4)],
        _ => random.below(size),
    };
    Entry::Delivery { option, value, amount }
}

/// A table for two options of these sizes; value `a` is to go with value `b`.
pub fn half_table(first: usize, second: usize, sizes: &[u8], a: usize, b: usize, random: &mut Random) -> Table {
    let (from, to) = (sizes[first - 1] as usize, sizes[second - 1] as usize);
    Table {
        first,
        second,
        rows: rows(Kind::Half, from, to, a, b, random),
    }
}

/// A table of any kind for any two options of a state; most states take most of them.
pub fn any_table(state: &State, random: &mut Random) -> Table {
    let n = state.n.clamp(1, 16);
    let number = |random: &mut Random| match random.below(20) {
        0 => random.next() as usize,
        1 => random.below(n + 2),
        _ => 1 + random.below(n),
    };
    let (first, second) = (number(random), number(random));
    let size = |option: usize| match option {
        1..=16 => state.sizes[option - 1].clamp(1, 32) as usize,
        _ => 4,
    };
    let (from, to) = (size(first), size(second));
    let kinds = [Kind::Few, Kind::Function, Kind::Permutation, Kind::Half, Kind::Everything];
    let mut rows = rows(kinds[random.below(5)], from, to, random.below(from), random.below(to), random);
    match random.below(16) {
        // a row too few or too many, and a bit that may be too high
        0 => rows.truncate(random.below(from)),
        1 => rows.extend((0..1 + random.below(33)).map(|_| 0)),
        2 => rows[random.below(from)] |= 1 << random.below(32),
        _ => {}
    }
    Table { first, second, rows }
}
