//! Documents 01 and 02 in plain Rust, written for speed: bit-parallel, in place, early ways out, no copy of a state.
use crate::proved::raw::{Stepped, Survey, Tested, TestedOrder, Value, Verdict, Written, BUILT, NONE, NO_VERDICT, OPEN};
use crate::proved::{Bin, State, PAIR_ROWS, ROWS};

const LARGEST: usize = 15621;

/// What a version fixes: the bytes of a row and the largest size; none where there is no such version. In version 3 no row is zero.
fn layout(version: usize) -> Option<(usize, u8)> {
    match version {
        1 => Some((2, 16)),
        2 | 3 => Some((4, 32)),
        _ => None,
    }
}

/// The rows of a pair, from its lower option.
type Pair = [u32; PAIR_ROWS];

/// All values below `size`.
#[inline(always)]
fn full(size: usize) -> u32 {
    ((1u64 << size) - 1) as u32
}

/// Where the rows of `i` and the higher `j` begin.
#[inline(always)]
fn place(i: usize, j: usize) -> usize {
    (j * (j - 1) / 2 + i) * PAIR_ROWS
}

#[inline(always)]
fn pair(s: &State, i: usize, j: usize) -> &Pair {
    let at = place(i, j);
    s.rows[at..at + PAIR_ROWS].try_into().unwrap()
}

#[inline(always)]
fn pair_mut(s: &mut State, i: usize, j: usize) -> &mut Pair {
    let at = place(i, j);
    (&mut s.rows[at..at + PAIR_ROWS]).try_into().unwrap()
}

/// The values whose row has a member of `set`.
#[inline(always)]
fn hits(rows: &Pair, set: u32) -> u32 {
    let mut members = 0;
    for (a, row) in rows.iter().enumerate() {
        members |= ((row & set != 0) as u32) << a;
    }
    members
}

/// What the rows of the values in `set` have together.
#[inline(always)]
fn union(rows: &Pair, set: u32) -> u32 {
    members(set).fold(0, |all, a| all | rows[a])
}

/// The values of `j` that go with value `a` of `i`, whichever is lower.
#[inline(always)]
fn row(s: &State, i: usize, j: usize, a: usize) -> u32 {
    if i < j {
        pair(s, i, j)[a & 31]
    } else {
        hits(pair(s, j, i), 1 << (a & 31))
    }
}

/// The values of `j` that go with some value in `set` of `i`, whichever is lower.
#[inline(always)]
fn partners(s: &State, i: usize, j: usize, set: u32) -> u32 {
    if i < j {
        union(pair(s, i, j), set)
    } else {
        hits(pair(s, j, i), set)
    }
}

/// The members of a word, lowest first.
#[inline(always)]
fn members(mut x: u32) -> impl Iterator<Item = usize> {
    std::iter::from_fn(move || {
        if x == 0 {
            return None;
        }
        let lowest = x.trailing_zeros() as usize;
        x &= x - 1;
        Some(lowest & 31)
    })
}

/// Reads the fields of a sheet into a zero state; number and place of a refusal. Where rows must be FILLED none is zero.
#[inline(always)]
fn fields<const K: usize, const FILLED: bool>(bytes: &[u8], most: u8, state: &mut State) -> Result<(), (u8, usize)> {
    let end = bytes.len();
    let byte = |at: usize| bytes.get(at).copied().ok_or((6, at));
    let n = byte(3)? as usize;
    if n == 0 || n > 16 {
        return Err((3, 3));
    }
    state.n = n;
    for i in 0..n {
        let size = byte(4 + i)?;
        if size == 0 || size > most {
            return Err((4, 4 + i));
        }
        state.sizes[i] = size;
        state.lists[i] = full(size as usize);
    }
    let tables = byte(4 + n)? as usize;
    if tables > n * (n - 1) / 2 {
        return Err((5, 4 + n));
    }
    let mut at = 5 + n;
    let mut previous = 0;
    for _ in 0..tables {
        if at + 2 > end {
            return Err((6, at));
        }
        let (a, b) = (bytes[at] as usize, bytes[at + 1] as usize);
        if a == 0 || b == 0 || a > n || b > n {
            return Err((7, at));
        }
        if a >= b {
            return Err((19, at));
        }
        if a * 256 + b <= previous {
            return Err((20, at));
        }
        previous = a * 256 + b;
        at = table::<K, FILLED>(bytes, at + 2, a - 1, b - 1, state)?;
    }
    if at < end {
        return Err((6, at));
    }
    Ok(())
}

/// The number in K bytes.
#[inline(always)]
fn number<const K: usize>(bytes: &[u8]) -> u32 {
    match K {
        2 => u16::from_be_bytes(*bytes.first_chunk().unwrap()) as u32,
        _ => u32::from_be_bytes(*bytes.first_chunk().unwrap()),
    }
}

/// The rows of one table; the place after them.
#[inline(always)]
fn table<const K: usize, const FILLED: bool>(
    bytes: &[u8],
    at: usize,
    i: usize,
    j: usize,
    state: &mut State,
) -> Result<usize, (u8, usize)> {
    let (i, j) = (i & 15, j & 15);
    let outside = !full(state.sizes[j] as usize & 63);
    let next = at + K * state.sizes[i] as usize;
    let Some(text) = bytes.get(at..next) else {
        return Err(first_fault::<K, FILLED>(&bytes[at..], at, outside));
    };
    let (mut all, mut blank) = (0, false);
    for (row, few) in pair_mut(state, i, j).iter_mut().zip(text.chunks_exact(K)) {
        *row = number::<K>(few);
        all |= *row;
        blank |= FILLED && *row == 0;
    }
    if all & outside != 0 || blank {
        return Err(first_fault::<K, FILLED>(text, at, outside));
    }
    state.stated[i] |= 1 << j;
    state.stated[j] |= 1 << i;
    Ok(next)
}

/// The first row that is out of range or banned, or else where the rows are cut off.
#[cold]
fn first_fault<const K: usize, const FILLED: bool>(text: &[u8], at: usize, outside: u32) -> (u8, usize) {
    let mut place = at;
    for few in text.chunks_exact(K) {
        let row = number::<K>(few);
        if row & outside != 0 {
            return (8, place);
        }
        if FILLED && row == 0 {
            return (26, place);
        }
        place += K;
    }
    (6, place)
}

/// Reads a sheet into a zero state, which a refusal leaves as it comes; number and place of a refusal.
#[inline(always)]
fn read_into_zero(bytes: &[u8], state: &mut State) -> Result<(), (u8, usize)> {
    if bytes.len() < 3 || bytes.len() > LARGEST || bytes.len() != 3 + (bytes[1] as usize * 256 + bytes[2] as usize) {
        return Err((1, 0));
    }
    match bytes[0] {
        1 => fields::<2, false>(bytes, 16, state),
        2 => fields::<4, false>(bytes, 32, state),
        3 => fields::<4, true>(bytes, 32, state),
        _ => Err((2, 0)),
    }
}

/// Reads a sheet into `state`; number and place of a refusal, which leaves the zero state.
pub fn read(bytes: &[u8], state: &mut State) -> (u8, usize) {
    *state = State::ZERO;
    match read_into_zero(bytes, state) {
        Ok(()) => (0, 0),
        Err(fault) => {
            *state = State::ZERO;
            fault
        }
    }
}

/// The place of the first table that is not functional both ways, of a sheet just read, whose rows have so many bytes: some row has two values, or a value
/// that a row before it has.
fn unpaired_place(s: &State, row_bytes: usize) -> Option<usize> {
    let mut at = 5 + s.n;
    for i in 0..s.n.min(16) {
        for j in members(s.stated[i] & !full(i + 1)) {
            let size = s.sizes[i] as usize;
            let mut seen = 0;
            for &row in &pair(s, i, j & 15)[..size.min(PAIR_ROWS)] {
                if row & row.wrapping_sub(1) | row & seen != 0 {
                    return Some(at);
                }
                seen |= row;
            }
            at += 2 + row_bytes * size;
        }
    }
    None
}

/// Reads a sheet of the paired profile into `state`; number and place of a refusal, which leaves the zero state.
pub fn read_paired(bytes: &[u8], state: &mut State) -> (u8, usize) {
    let answer = read(bytes, state);
    if answer.0 != 0 {
        return answer;
    }
    match unpaired_place(state, if bytes[0] == 1 { 2 } else { 4 }) {
        None => answer,
        Some(place) => {
            *state = State::ZERO;
            (31, place)
        }
    }
}

/// Sizes, lists, leaders and stated pairs, as far as each can be judged by itself.
fn small_arrays_sound(s: &State) -> bool {
    for i in 0..16 {
        let size = s.sizes[i];
        if i < s.n {
            if size == 0 || size > 32 || s.lists[i] & !full(size as usize) != 0 {
                return false;
            }
        } else if size != 0 || s.lists[i] != 0 || s.leaders[i] != 0 {
            return false;
        }
    }
    let below = full(s.n);
    let mut stray = 0;
    for i in 0..16 {
        let mut others = 0;
        for j in 0..16 {
            others |= (s.stated[j] >> i & 1) << j;
        }
        stray |= s.stated[i] & (!below | 1 << i) | s.stated[i] ^ others;
    }
    stray == 0
}

/// What these rows have together.
#[inline(always)]
fn together(rows: &[u32]) -> u32 {
    rows.iter().fold(0, |all, row| all | row)
}

/// Unstated pairs allow nothing, and stated ones nothing outside their sizes.
fn rows_within(s: &State) -> bool {
    if together(&s.rows[s.n * (s.n - 1) / 2 * PAIR_ROWS..ROWS]) != 0 {
        return false;
    }
    for j in 1..s.n {
        let outside = !full(s.sizes[j] as usize);
        for i in 0..j {
            let rows = pair(s, i, j);
            if s.stated[j] >> i & 1 == 0 {
                if together(rows) != 0 {
                    return false;
                }
            } else {
                let (inside, past) = rows.split_at((s.sizes[i] as usize).min(PAIR_ROWS));
                if together(inside) & outside | together(past) != 0 {
                    return false;
                }
            }
        }
    }
    true
}

/// Each follower is stated with a live leader alone, each value in the leader's list has exactly one partner, and the follower's list holds no other
/// value.
fn followers_sound(s: &State) -> bool {
    for i in 0..s.n {
        let leader = s.leaders[i] as usize;
        if leader == 0 {
            continue;
        }
        let l = leader - 1;
        if l >= s.n || s.leaders[l] != 0 || s.stated[i] != 1 << l {
            return false;
        }
        let mut reached = 0;
        for a in members(s.lists[l]) {
            let partners = row(s, l, i, a) & s.lists[i];
            if partners == 0 || partners & (partners - 1) != 0 {
                return false;
            }
            reached |= partners;
        }
        if reached != s.lists[i] {
            return false;
        }
    }
    true
}

pub fn is_sound(s: &State) -> bool {
    s.n >= 1 && s.n <= 16 && small_arrays_sound(s) && rows_within(s) && followers_sound(s)
}

/// No value in the list of `i` has more than one partner in the list of `j`.
#[inline(always)]
fn functional(s: &State, i: usize, j: usize) -> bool {
    for a in members(s.lists[i]) {
        let partners = row(s, i, j, a) & s.lists[j];
        if partners & partners.wrapping_sub(1) != 0 {
            return false;
        }
    }
    true
}

/// The number that refuses a step on a sound state, options counted from 1.
fn refusal(s: &State, leader: usize, follower: usize) -> u8 {
    if leader == 0 || leader > s.n || follower == 0 || follower > s.n {
        return 10;
    }
    let (i, j) = ((leader - 1) & 15, (follower - 1) & 15);
    if i == j || s.leaders[i] != 0 || s.leaders[j] != 0 {
        return 11;
    }
    if s.stated[i] >> j & 1 == 0 {
        return 12;
    }
    if !functional(s, i, j) {
        return 13;
    }
    0
}

/// Stores what value `a` of `i` goes with in `j`, whichever is lower.
#[inline(always)]
fn put(s: &mut State, i: usize, j: usize, a: usize, set: u32) {
    if i < j {
        pair_mut(s, i, j)[a & 31] = set;
    } else {
        for (b, row) in pair_mut(s, j, i).iter_mut().enumerate() {
            *row = *row & !(1 << a) | (set >> b & 1) << a;
        }
    }
}

/// The list of each follower of `p` keeps the partners of the values in the list of `p` alone.
#[inline(always)]
fn trim_followers(s: &mut State, p: usize) {
    for x in members(s.stated[p]) {
        let x = x & 15;
        if s.leaders[x] as usize == p + 1 {
            s.lists[x] &= partners(s, p, x, s.lists[p]);
        }
    }
}

/// A legal step: the composed pair is made value by value of the third option, lowest first; then followers are trimmed.
fn step(s: &mut State, i: usize, j: usize) {
    let (i, j) = (i & 15, j & 15);
    s.lists[i] &= partners(s, j, i, s.lists[j]);
    for k in members(s.stated[j] & !(1 << i)) {
        let k = k & 15;
        let was = s.stated[i] >> k & 1 == 1;
        for c in 0..PAIR_ROWS {
            let mut made = 0;
            if s.lists[k] >> c & 1 == 1 {
                made = s.lists[i] & partners(s, j, i, s.lists[j] & row(s, k, j, c));
                if was {
                    made &= row(s, k, i, c);
                }
            }
            put(s, k, i, c, made);
        }
        *pair_mut(s, j.min(k), j.max(k)) = [0; PAIR_ROWS];
        s.stated[k] = (s.stated[k] | 1 << i) & !(1 << j);
        s.stated[i] |= 1 << k;
    }
    s.stated[j] = 1 << i;
    for leader in &mut s.leaders {
        if *leader as usize == j + 1 {
            *leader = i as u8 + 1;
        }
    }
    s.leaders[j] = i as u8 + 1;
    trim_followers(s, i);
}

/// One follow step in place, options counted from 1.
pub fn eliminate(s: &mut State, leader: usize, follower: usize) -> Stepped {
    if !is_sound(s) {
        return Stepped { number: 9, steps: 0 };
    }
    let number = refusal(s, leader, follower);
    if number == 0 {
        step(s, leader - 1, follower - 1);
    }
    Stepped {
        number,
        steps: (number == 0) as usize,
    }
}

/// The lowest live option that has a legal follower, with the lowest such follower.
fn next_step(s: &State, live: u32) -> Option<(usize, usize)> {
    for i in members(live) {
        for j in members(s.stated[i] & live) {
            if functional(s, i, j) {
                return Some((i, j));
            }
        }
    }
    None
}

fn live(s: &State) -> u32 {
    let mut live = 0;
    for i in 0..s.n {
        live |= ((s.leaders[i] == 0) as u32) << i;
    }
    live
}

/// Steps of a sound state until none is legal; their count.
#[inline]
fn reduce_sound(s: &mut State) -> usize {
    let mut live = live(s);
    let mut steps = 0;
    while let Some((i, j)) = next_step(s, live) {
        step(s, i, j);
        live &= !(1 << j);
        steps += 1;
    }
    steps
}

/// The full reduction in place.
pub fn reduce(s: &mut State) -> Stepped {
    if !is_sound(s) {
        return Stepped { number: 9, steps: 0 };
    }
    Stepped {
        number: 0,
        steps: reduce_sound(s),
    }
}

/// Live lists trimmed against each other, and the lists of followers with those of their leaders: a list that became shorter is one that its neighbours are
/// held against once more. Whether a list changed.
fn trim_live(s: &mut State) -> bool {
    let live = live(s);
    let (mut left, mut shorter) = (live, 0);
    while left != 0 {
        let j = left.trailing_zeros() as usize & 15;
        left &= left - 1;
        for i in members(s.stated[j] & live) {
            let i = i & 15;
            let list = s.lists[i] & partners(s, j, i, s.lists[j]);
            if list != s.lists[i] {
                s.lists[i] = list;
                left |= 1 << i;
                shorter |= 1 << i;
            }
        }
    }
    for i in members(shorter) {
        trim_followers(s, i & 15);
    }
    shorter != 0
}

/// Live lists trimmed, then the full reduction, and so on until neither changes anything, in place.
pub fn trim(s: &mut State) -> Stepped {
    if !is_sound(s) {
        return Stepped { number: 9, steps: 0 };
    }
    trim_live(s);
    let mut steps = 0;
    loop {
        let more = reduce_sound(s);
        steps += more;
        if more == 0 || !trim_live(s) {
            return Stepped { number: 0, steps };
        }
    }
}

/// The run of steps that one option leads, counted from 1, in place: of those that can follow it the lowest, and again.
pub fn lead(s: &mut State, leader: usize) -> Stepped {
    let refused = |number| Stepped { number, steps: 0 };
    if !is_sound(s) {
        return refused(9);
    }
    if leader == 0 || leader > s.n {
        return refused(10);
    }
    let l = (leader - 1) & 15;
    if s.leaders[l] != 0 {
        return refused(11);
    }
    let mut live = live(s);
    let mut steps = 0;
    while let Some(j) = members(s.stated[l] & live).find(|&j| functional(s, l, j & 15)) {
        step(s, l, j);
        live &= !(1 << j);
        steps += 1;
    }
    Stepped { number: 0, steps }
}

/// The number that refuses a table on a sound state, options counted from 1.
fn table_refusal(s: &State, first: usize, second: usize, table: &[u32]) -> u8 {
    if first == 0 || first > s.n || second == 0 || second > s.n {
        return 10;
    }
    if first == second {
        return 21;
    }
    let outside = !full(s.sizes[(second - 1) & 15] as usize & 63);
    if table.len() != s.sizes[(first - 1) & 15] as usize || together(table) & outside != 0 {
        return 22;
    }
    0
}

/// The live leader of an option, itself where it is live.
#[inline(always)]
fn traced(s: &State, x: usize) -> usize {
    match s.leaders[x & 15] as usize {
        0 => x & 15,
        leader => (leader - 1) & 15,
    }
}

/// For each value of `x` the values in the list of its leader `p` that it is the partner of.
#[inline(always)]
fn groups(s: &State, p: usize, x: usize) -> Pair {
    let mut groups = [0; PAIR_ROWS];
    if p == x {
        for a in members(s.lists[p]) {
            groups[a] = 1 << a;
        }
    } else if p < x {
        let rows = pair(s, p, x);
        for a in members(s.lists[p]) {
            groups[(rows[a] & s.lists[x]).trailing_zeros() as usize & 31] |= 1 << a;
        }
    } else {
        let rows = pair(s, x, p);
        for c in members(s.lists[x]) {
            groups[c] = rows[c] & s.lists[p];
        }
    }
    groups
}

/// The rows of a table for `x` and `y`, each with the values in the list of the leader `q` instead of their partners in `y`.
#[inline(always)]
fn told(s: &State, table: &Pair, q: usize, y: usize) -> Pair {
    if q == y {
        return table.map(|row| row & s.lists[q]);
    }
    let groups = groups(s, q, y);
    table.map(|row| union(&groups, row & s.lists[y]))
}

/// The table from its other side: blocks of 16, 8, 4, 2 and 1 change places.
#[inline(always)]
fn turned(table: &Pair) -> Pair {
    let mut rows = *table;
    let (mut width, mut mask) = (16, 0xffffu32);
    while width != 0 {
        for k in 0..16 {
            let a = (k & !(width - 1)) << 1 | k & (width - 1);
            let moved = (rows[a] >> width ^ rows[a + width]) & mask;
            rows[a + width] ^= moved;
            rows[a] ^= moved << width;
        }
        width >>= 1;
        mask ^= mask << width;
    }
    rows
}

/// Cuts the pair of the leaders `p` of `x` and `q` of `y`, where `p` is the lower.
#[inline(always)]
fn cut_pair(s: &mut State, p: usize, x: usize, q: usize, y: usize, table: &Pair) {
    let rows = told(s, table, q, y);
    let mut made = [0; PAIR_ROWS];
    if p == x {
        for a in members(s.lists[p]) {
            made[a] = rows[a];
        }
    } else {
        for (group, row) in groups(s, p, x).into_iter().zip(rows) {
            for a in members(group) {
                made[a] = row;
            }
        }
    }
    let before = if s.stated[p] >> q & 1 == 1 { 0 } else { u32::MAX };
    for (row, made) in pair_mut(s, p, q).iter_mut().zip(made) {
        *row = (*row | before) & made;
    }
    s.stated[p] |= 1 << q;
    s.stated[q] |= 1 << p;
}

/// The partner in `x` of each value in the list of its leader `p`.
#[inline(always)]
fn partners_in(s: &State, p: usize, x: usize) -> [u8; PAIR_ROWS] {
    let mut partners = [0; PAIR_ROWS];
    if p == x {
        return std::array::from_fn(|a| a as u8);
    }
    if p < x {
        let rows = pair(s, p, x);
        for a in members(s.lists[p]) {
            partners[a] = (rows[a] & s.lists[x]).trailing_zeros() as u8 & 31;
        }
    } else {
        let rows = pair(s, x, p);
        for c in members(s.lists[x]) {
            for a in members(rows[c] & s.lists[p]) {
                partners[a] = c as u8;
            }
        }
    }
    partners
}

/// The values in the list of the one leader `p` of `x` and `y` that the table leaves.
#[inline(always)]
fn kept(s: &State, p: usize, x: usize, y: usize, table: &Pair) -> u32 {
    let (first, second) = (partners_in(s, p, x), partners_in(s, p, y));
    members(s.lists[p]).fold(0, |kept, a| {
        kept | (table[first[a] as usize & 31] >> (second[a] & 31) & 1) << a
    })
}

/// Adds a table in place, options counted from 1.
pub fn add_table(s: &mut State, first: usize, second: usize, table: &[u32]) -> Stepped {
    if !is_sound(s) {
        return Stepped { number: 9, steps: 0 };
    }
    let number = table_refusal(s, first, second, table);
    if number == 0 {
        let (x, y) = ((first - 1) & 15, (second - 1) & 15);
        let (p, q) = (traced(s, x), traced(s, y));
        let mut whole = [0; PAIR_ROWS];
        whole[..table.len()].copy_from_slice(table);
        if p == q {
            s.lists[p] = kept(s, p, x, y, &whole);
            trim_followers(s, p);
        } else if p < q {
            cut_pair(s, p, x, q, y, &whole);
        } else {
            cut_pair(s, q, y, p, x, &turned(&whole));
        }
    }
    Stepped { number, steps: 0 }
}

/// The followers' values from those of the live options.
#[inline(always)]
fn follow(s: &State, build: &mut [u8]) {
    for i in 0..s.n {
        let leader = s.leaders[i] as usize;
        if leader != 0 {
            let row = row(s, (leader - 1) & 15, i & 15, build[leader - 1] as usize);
            build[i] = (row & s.lists[i]).trailing_zeros() as u8;
        }
    }
}

/// The kind of a sound state's verdict, and the build shown.
#[inline]
fn verdict_sound(s: &State) -> (u8, [u8; 16]) {
    let mut build = [0; 16];
    let live = live(s);
    if members(live).any(|i| s.lists[i] == 0) {
        return (NONE, build);
    }
    if members(live).any(|i| s.stated[i] & live != 0) {
        return (OPEN, build);
    }
    for i in members(live) {
        build[i] = s.lists[i].trailing_zeros() as u8;
    }
    follow(s, &mut build);
    (BUILT, build)
}

pub fn verdict(s: &State) -> Verdict {
    if !is_sound(s) {
        return Verdict {
            number: 9,
            kind: NO_VERDICT,
            build: [0; 16],
        };
    }
    let (kind, build) = verdict_sound(s);
    Verdict { number: 0, kind, build }
}

/// The most choices that are searched.
const MOST_CHOICES: usize = 1_000_000;

/// Chooses values of the options in `left`, lowest option and lowest value first, from the lists as the options before have narrowed
/// them. Where a value narrows no list and the rest can not be chosen, no other value is tried.
fn choose(s: &State, lists: &[u32; 16], left: u32, build: &mut [u8; 16]) -> bool {
    if left == 0 {
        return true;
    }
    let k = left.trailing_zeros() as usize & 15;
    let left = left & (left - 1);
    for v in members(lists[k]) {
        let mut later = *lists;
        let mut narrowed = false;
        for j in members(s.stated[k] & left) {
            let j = j & 15;
            let list = later[j] & s.rows[place(k, j) + v];
            narrowed |= list != later[j];
            later[j] = list;
        }
        if choose(s, &later, left, build) {
            build[k] = v as u8;
            return true;
        }
        if !narrowed {
            return false;
        }
    }
    false
}

/// The search: the first build, or that there is none.
pub fn search(s: &State) -> Verdict {
    let answer = |number, kind, build| Verdict { number, kind, build };
    if !is_sound(s) {
        return answer(9, NO_VERDICT, [0; 16]);
    }
    let live = live(s);
    // capped at each factor, so that a 0 counts
    let choices = members(live).fold(1, |product, i| {
        (product * s.lists[i].count_ones() as usize).min(MOST_CHOICES + 1)
    });
    if choices > MOST_CHOICES {
        return answer(23, NO_VERDICT, [0; 16]);
    }
    let mut build = [0; 16];
    if choices == 0 || !choose(s, &s.lists, live, &mut build) {
        return answer(0, NONE, [0; 16]);
    }
    follow(s, &mut build);
    answer(0, BUILT, build)
}

/// The options of `live` that are stated with another one of them.
#[inline(always)]
fn tied_among(s: &State, live: u32) -> u32 {
    members(live).fold(0, |tied, i| tied | ((s.stated[i & 15] & live != 0) as u32) << i)
}

/// How many choices there are of the options in `left`, from the lists as the options before have narrowed them; their values are marked in `used`.
fn tally(s: &State, lists: &[u32; 16], left: u32, used: &mut [u32; 16]) -> u64 {
    if left == 0 {
        return 1;
    }
    let k = left.trailing_zeros() as usize & 15;
    let left = left & (left - 1);
    if left == 0 {
        used[k] |= lists[k];
        return lists[k].count_ones() as u64;
    }
    let mut count = 0;
    for v in members(lists[k]) {
        let mut later = *lists;
        for j in members(s.stated[k] & left) {
            let j = j & 15;
            later[j] &= s.rows[place(k, j) + v];
        }
        let here = tally(s, &later, left, used);
        used[k] |= ((here != 0) as u32) << v;
        count += here;
    }
    count
}

/// How many builds a sound state has, and the values that they have. Tied options with one value in their lists narrow all others first, on either side, and
/// are tied no more; one search of those that are tied still gives both answers, and every other live option multiplies the choices.
fn survey_sound(s: &State, live: u32, tied: u32) -> (u128, [u32; 16]) {
    let (mut lists, mut words) = (s.lists, [0; 16]);
    let singles = members(tied).fold(0, |singles, i| singles | ((s.lists[i & 15].count_ones() == 1) as u32) << i);
    for i in members(singles) {
        let v = s.lists[i & 15].trailing_zeros() as usize;
        for j in members(s.stated[i & 15] & live) {
            lists[j & 15] &= row(s, i & 15, j & 15, v);
        }
    }
    let left = tied_among(s, live & !singles);
    let mut count = tally(s, &lists, left, &mut words) as u128;
    for i in members(live & !left) {
        count *= lists[i & 15].count_ones() as u128;
        words[i & 15] = lists[i & 15];
    }
    if count == 0 {
        return (0, [0; 16]);
    }
    for i in 0..s.n.min(16) {
        if s.leaders[i] != 0 {
            let leader = (s.leaders[i] as usize - 1) & 15;
            words[i] = s.lists[i] & partners(s, leader, i, words[leader]);
        }
    }
    (count, words)
}

/// The survey: how many builds there are, and which values they have.
pub fn survey(s: &State) -> Survey {
    let answer = |number, count: u128, words| Survey {
        number,
        more: count > u64::MAX as u128,
        words,
        count: count.min(u64::MAX as u128) as u64,
    };
    if !is_sound(s) {
        return answer(9, 0, [0; 16]);
    }
    let live = live(s);
    let tied = tied_among(s, live);
    // capped at each factor, so that a 0 counts; an option that nothing ties down counts as one value
    let choices = members(live).fold(1, |product, i| {
        let values = s.lists[i & 15].count_ones() as usize;
        let searched = if tied >> i & 1 == 1 { values } else { values.min(1) };
        (product * searched).min(MOST_CHOICES + 1)
    });
    if choices > MOST_CHOICES {
        return answer(23, 0, [0; 16]);
    }
    if choices == 0 {
        return answer(0, 0, [0; 16]);
    }
    let (count, words) = survey_sound(s, live, tied);
    answer(0, count, words)
}

/// Bit `j` of word `i`: the two are stated, and their table is functional from `i` to `j`. Both ways in one pass over the rows of a pair.
fn edges(s: &State) -> [u32; 16] {
    let mut edges = [0; 16];
    for j in 1..s.n.min(16) {
        for i in members(s.stated[j] & full(j)) {
            let i = i & 15;
            let rows = pair(s, i, j);
            let (mut crowded, mut seen, mut again) = (0, 0, 0);
            for a in members(s.lists[i]) {
                let row = rows[a] & s.lists[j];
                crowded |= row & row.wrapping_sub(1);
                again |= seen & row;
                seen |= row;
                if crowded != 0 && again != 0 {
                    break;
                }
            }
            edges[i] |= ((crowded == 0) as u32) << j;
            edges[j] |= ((again == 0) as u32) << i;
        }
    }
    edges
}

/// Bit `j` of word `i`: there is a path of edges from `j` to `i`, and none back.
fn governors(s: &State) -> [u32; 16] {
    let mut paths = edges(s);
    for m in 0..16 {
        let through = paths[m];
        for row in &mut paths {
            *row |= through & 0u32.wrapping_sub(*row >> m & 1);
        }
    }
    let mut back = [0; 16];
    for (j, row) in paths.iter().enumerate() {
        for i in members(*row) {
            back[i & 15] |= 1 << j;
        }
    }
    std::array::from_fn(|i| back[i] & !paths[i])
}

/// Whether an order is good: at each place no option that is left governs the one that stands there.
pub fn test_order(s: &State, order: &[u8]) -> TestedOrder {
    let answer = |number, is_good| TestedOrder { number, is_good };
    if !is_sound(s) {
        return answer(9, false);
    }
    let named = order.iter().fold(0u64, |named, &x| named | (x < 32) as u64 * (1 << (x & 31)));
    if order.len() != s.n || named != 2 * full(s.n) as u64 {
        return answer(30, false);
    }
    let over = governors(s);
    let mut left = full(s.n);
    for &x in order {
        let i = (x as usize - 1) & 15;
        if over[i] & left != 0 {
            return answer(0, false);
        }
        left &= !(1 << i);
    }
    answer(0, true)
}

/// The first good order.
pub fn find_order(s: &State, order: &mut [u8]) -> u8 {
    if !is_sound(s) {
        return 9;
    }
    if order.len() != s.n {
        return 14;
    }
    let over = governors(s);
    let mut left = full(s.n);
    for place in order {
        let next = members(left).find(|&i| over[i & 15] & left == 0).unwrap_or(0);
        *place = next as u8 + 1;
        left &= !(1 << next);
    }
    0
}

/// Each stated pair of two options of `among` allows its two values, which are below 32.
#[inline(always)]
fn pairs_allow(s: &State, among: u32, build: &[u8]) -> bool {
    for i in members(among) {
        for j in members(s.stated[i] & among & !full(i + 1)) {
            if pair(s, i, j)[build[i] as usize & 31] >> (build[j] & 31) & 1 == 0 {
                return false;
            }
        }
    }
    true
}

pub fn test(s: &State, build: &[u8]) -> Tested {
    let answer = |number, is_build| Tested { number, is_build };
    if !is_sound(s) {
        return answer(9, false);
    }
    if build.len() != s.n {
        return answer(14, false);
    }
    if build.iter().zip(&s.sizes).any(|(value, size)| value >= size) {
        return answer(15, false);
    }
    let inside = build.iter().zip(&s.lists).all(|(value, list)| list >> value & 1 == 1);
    answer(0, inside && pairs_allow(s, full(s.n), build))
}

/// Where the bins of each option begin; none unless the records are exactly the values of each option, in order.
#[inline(always)]
fn shelves(s: &State, bins: &[Bin]) -> Option<[usize; 16]> {
    let (mut starts, mut at) = ([0; 16], 0);
    for i in 0..s.n {
        let shelf = bins.get(at..at + s.sizes[i] as usize)?;
        let in_place = |(value, bin): (usize, &Bin)| bin.option as usize == i + 1 && bin.value as usize == value;
        if !shelf.iter().enumerate().all(in_place) {
            return None;
        }
        starts[i] = at;
        at += shelf.len();
    }
    (at == bins.len()).then_some(starts)
}

pub fn deliver(s: &State, bins: &mut [Bin], option: usize, value: usize, amount: u32) -> u8 {
    if !is_sound(s) {
        return 9;
    }
    let Some(starts) = shelves(s, bins) else { return 27 };
    if option == 0 || option > s.n || value >= s.sizes[option - 1] as usize {
        return 28;
    }
    let bin = &mut bins[starts[option - 1] + value];
    match bin.count.checked_add(amount) {
        Some(count) => {
            bin.count = count;
            0
        }
        None => 28,
    }
}

pub fn call_off(s: &State, bins: &mut [Bin], build: &[u8], amount: u32) -> u8 {
    let tested = test(s, build);
    if tested.number == 9 {
        return 9;
    }
    let Some(starts) = shelves(s, bins) else { return 27 };
    if !tested.is_build {
        return 28;
    }
    let place = |i: usize| starts[i] + build[i] as usize;
    if (0..s.n).any(|i| bins[place(i)].count < amount) {
        return 29;
    }
    for i in 0..s.n {
        bins[place(i)].count -= amount;
    }
    0
}

/// Writes the followers' values; the number that refuses.
pub fn complete(s: &State, build: &mut [u8]) -> u8 {
    if !is_sound(s) {
        return 9;
    }
    if build.len() != s.n {
        return 14;
    }
    let live = live(s);
    if members(live).any(|i| build[i] > 31 || s.lists[i] >> build[i] & 1 == 0) {
        return 15;
    }
    if !pairs_allow(s, live, build) {
        return 16;
    }
    follow(s, build);
    0
}

/// The only value of the option, counted from 1, that its leader's value goes with.
pub fn follower_value(s: &State, option: usize, value: usize) -> Value {
    let refused = |number| Value { number, value: 0 };
    if !is_sound(s) {
        return refused(9);
    }
    if option == 0 || option > s.n {
        return refused(10);
    }
    let i = option - 1;
    if s.leaders[i] == 0 {
        return refused(11);
    }
    let leader = s.leaders[i] as usize - 1;
    if value > 31 || s.lists[leader] >> value & 1 == 0 {
        return refused(15);
    }
    Value {
        number: 0,
        value: (row(s, leader & 15, i & 15, value) & s.lists[i]).trailing_zeros() as u8,
    }
}

/// The tables, each by its pair and its rows, from byte `at` on.
#[inline(always)]
fn write_tables<const K: usize>(s: &State, buffer: &mut [u8], mut at: usize) {
    for i in 0..s.n {
        let length = 2 + K * s.sizes[i] as usize;
        for j in members(s.stated[i] & !full(i + 1)) {
            let text = &mut buffer[at..at + length];
            text[0] = i as u8 + 1;
            text[1] = j as u8 + 1;
            for (few, row) in text[2..].chunks_exact_mut(K).zip(pair(s, i, j)) {
                few.copy_from_slice(&row.to_be_bytes()[4 - K..]);
            }
            at += length;
        }
    }
}

/// Whether a stated pair has a zero row for a value of its lower option.
fn has_blank_row(s: &State) -> bool {
    (0..s.n).any(|i| members(s.stated[i] & !full(i + 1)).any(|j| pair(s, i, j)[..s.sizes[i] as usize].contains(&0)))
}

/// Writes the sheet of a state as just read, in a version.
pub fn write(s: &State, version: usize, buffer: &mut [u8]) -> Written {
    let refused = |number| Written { number, length: 0 };
    if !is_sound(s) {
        return refused(9);
    }
    let n = s.n;
    if (0..n).any(|i| s.leaders[i] != 0 || s.lists[i] != full(s.sizes[i] as usize)) {
        return refused(18);
    }
    let Some((row, most)) = layout(version) else {
        return refused(24);
    };
    if s.sizes[..n].iter().any(|&size| size > most) {
        return refused(24);
    }
    if version == 3 && has_blank_row(s) {
        return refused(26);
    }
    let (mut length, mut tables) = (5 + n, 0);
    for i in 0..n {
        let later = (s.stated[i] & !full(i + 1)).count_ones() as usize;
        tables += later;
        length += later * (2 + row * s.sizes[i] as usize);
    }
    let Some(buffer) = buffer.get_mut(..length) else {
        return refused(17);
    };
    buffer[0] = version as u8;
    buffer[1..3].copy_from_slice(&((length - 3) as u16).to_be_bytes());
    buffer[3] = n as u8;
    buffer[4..4 + n].copy_from_slice(&s.sizes[..n]);
    buffer[4 + n] = tables as u8;
    if row == 2 {
        write_tables::<2>(s, buffer, 5 + n);
    } else {
        write_tables::<4>(s, buffer, 5 + n);
    }
    Written { number: 0, length }
}

/// What `cut` finds beside the state.
pub struct Found {
    pub number: u8,
    pub place: usize,
    pub steps: usize,
    pub kind: u8,
    pub build: [u8; 16],
}

/// Reads a sheet into `state`, reduces it and gives the verdict. A state just read is sound, and so it stays.
pub fn cut(bytes: &[u8], state: &mut State) -> Found {
    let (number, place) = read(bytes, state);
    let mut found = Found {
        number,
        place,
        steps: 0,
        kind: NO_VERDICT,
        build: [0; 16],
    };
    if number == 0 {
        found.steps = reduce_sound(state);
        (found.kind, found.build) = verdict_sound(state);
    }
    found
}

/// A text that grows in a zero buffer; none has more than 352 bytes.
struct Line<'a> {
    bytes: &'a mut [u8; 512],
    at: usize,
}

impl Line<'_> {
    #[inline(always)]
    fn word<const N: usize>(&mut self, word: &[u8; N]) {
        self.bytes[self.at..self.at + N].copy_from_slice(word);
        self.at += N;
    }

    /// A number below 100 in decimal.
    #[inline(always)]
    fn small(&mut self, number: usize) {
        let digits = [b'0' + (number / 10) as u8, b'0' + (number % 10) as u8];
        if number < 10 {
            self.word(&[digits[1]]);
        } else {
            self.word(&digits);
        }
    }

    /// A number below 100000 in decimal.
    #[inline(always)]
    fn place(&mut self, number: usize) {
        if number >= 10000 {
            self.word(&[b'0' + (number / 10000) as u8]);
            self.word(&[b'0' + (number / 1000 % 10) as u8, b'0' + (number / 100 % 10) as u8]);
            self.word(&[b'0' + (number / 10 % 10) as u8, b'0' + (number % 10) as u8]);
        } else if number >= 100 {
            self.small(number / 100);
            self.word(&[b'0' + (number / 10 % 10) as u8, b'0' + (number % 10) as u8]);
        } else {
            self.small(number);
        }
    }

    /// Eight upper-case hexadecimal digits.
    #[inline(always)]
    fn list(&mut self, list: u32) {
        let digits: [u8; 8] = std::array::from_fn(|k| b"0123456789ABCDEF"[(list >> (28 - 4 * k) & 15) as usize]);
        self.word(&digits);
    }
}

/// The lines of the options.
#[inline(always)]
fn options_text(s: &State, line: &mut Line) {
    for i in 0..s.n.min(16) {
        let leader = s.leaders[i] as usize;
        if leader == 0 {
            line.word(b"LIVE ");
            line.small(i + 1);
            line.word(b" LIST ");
            line.list(s.lists[i]);
        } else {
            line.word(b"FOLLOWS ");
            line.small(i + 1);
            line.word(b" OF ");
            line.small(leader);
        }
        line.word(b"\n");
    }
}

/// The line of the verdict, and the build where there is one.
#[inline(always)]
fn verdict_text(s: &State, line: &mut Line) {
    match verdict_sound(s) {
        (BUILT, build) => {
            line.word(b"VERDICT BUILT\nBUILD");
            for &value in &build[..s.n.min(16)] {
                line.word(b" ");
                line.small(value as usize);
            }
            line.word(b"\n");
        }
        (NONE, _) => line.word(b"VERDICT NONE\n"),
        _ => line.word(b"VERDICT OPEN\n"),
    }
}

/// The text of sheetcut, with zeros past it; its length.
pub fn text(bytes: &[u8], text: &mut [u8; 512]) -> usize {
    *text = [0; 512];
    let mut line = Line { bytes: text, at: 0 };
    let mut state = State::ZERO;
    match read_into_zero(bytes, &mut state) {
        Ok(()) => {
            let steps = reduce_sound(&mut state);
            line.word(b"OPTIONS ");
            line.small(state.n);
            line.word(b"\n");
            options_text(&state, &mut line);
            line.word(b"STEPS ");
            line.small(steps);
            line.word(b"\n");
            verdict_text(&state, &mut line);
        }
        Err((number, place)) => {
            line.word(b"REFUSED ");
            line.small(number as usize);
            line.word(b" AT ");
            line.place(place);
            line.word(b"\n");
        }
    }
    line.at
}
