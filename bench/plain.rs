//! The kernels of `crates/paris_plane`, `crates/paris_field` and `crates/paris_alu`, and of the crates for what is between processors, in
//! plain Rust, measured: the same algorithms on the same planes, as loops over words, which the compiler vectorizes. Here a plane has its
//! words also where it has one bit throughout.
//!
//! Compiled by `rustc -O`. It prints a line for each thing that is measured: its name, the width in bits, the count of
//! processors, picoseconds a call (the least of several rounds), and a checksum of what the last call left.

use std::hint::black_box;
use std::time::Instant;

/// A bit for each processor, 64 in a word.
type Plane = Vec<u64>;

const WIDTHS: [usize; 3] = [8, 32, 64];
const COUNTS: [usize; 2] = [1024, 65536];
const ROUNDS: usize = 5;

/// How many words of planes a round works on, about.
const KERNEL_WORDS: usize = 16_000_000;
const NEW_WORDS: usize = 4_000_000;
const NUMBERS_WORDS: usize = 1_000_000;
const BETWEEN_WORDS: usize = 500_000;

/// How many planes of narrow numbers differ.
const DIFFERING: usize = 10;

/// The number that all processors have beside a field.
const NUMBER: u64 = 201;

const FACTOR: u64 = 6_364_136_223_846_793_005;
const STEP: u64 = 1_442_695_040_888_963_407;

struct Generator {
    state: u64,
}

impl Generator {
    fn next(&mut self) -> u64 {
        self.state = self.state.wrapping_mul(FACTOR).wrapping_add(STEP);
        self.state ^ (self.state >> 29)
    }
}

fn random_planes(seed: u64, width: usize, vps: usize) -> Vec<Plane> {
    let mut generator = Generator { state: seed };
    (0..width).map(|_| (0..vps / 64).map(|_| generator.next()).collect()).collect()
}

/// Random planes below, and zeros above.
fn narrow_planes(seed: u64, width: usize, vps: usize) -> Vec<Plane> {
    let mut planes = random_planes(seed, width.min(DIFFERING), vps);
    planes.resize(width, vec![0; vps / 64]);
    planes
}

/// The planes of one number that all processors have.
fn constant_planes(width: usize, vps: usize) -> Vec<Plane> {
    (0..width).map(|k| vec![(NUMBER >> k & 1).wrapping_neg(); vps / 64]).collect()
}

/// For each number below two to the `width` another one.
fn scattered(number: usize, width: usize) -> u64 {
    let last = (1 << width) - 1;
    let spread = (number as u64).wrapping_mul(FACTOR) & last;
    (spread ^ (spread >> (width / 2))).wrapping_mul(FACTOR) & last
}

/// An address of each processor, no two of them the same, where there are two to the `width` processors.
fn scattered_planes(width: usize, vps: usize) -> Vec<Plane> {
    let mut planes = zero_planes(width, vps / 64);
    for v in 0..vps {
        let address = scattered(v, width);
        for (k, plane) in planes.iter_mut().enumerate() {
            plane[v / 64] |= (address >> k & 1) << (v % 64);
        }
    }
    planes
}

fn checksum_of(before: u64, words: &[u64]) -> u64 {
    words.iter().fold(before, |sum, word| sum.wrapping_mul(FACTOR).wrapping_add(*word))
}

fn checksum(planes: &[Plane]) -> u64 {
    planes.iter().fold(0, |sum, plane| checksum_of(sum, plane))
}

// ---- kernels, in place ----

fn less_step(x: &[u64], y: &[u64], less: &mut [u64]) {
    let len = x.len();
    let (y, less) = (&y[..len], &mut less[..len]);
    for i in 0..len {
        less[i] ^= (less[i] ^ y[i]) & (x[i] ^ y[i]);
    }
}

fn xor_step(x: &mut [u64], y: &[u64]) {
    for (x, y) in x.iter_mut().zip(y) {
        *x ^= y;
    }
}

fn select_step(x: &mut [u64], y: &[u64], mask: &[u64]) {
    let len = x.len();
    let (y, mask) = (&y[..len], &mask[..len]);
    for i in 0..len {
        x[i] ^= (x[i] ^ y[i]) & mask[i];
    }
}

fn accumulate_planes(x: &[Plane], carry: &mut Plane, sum: &mut [Plane]) {
    for k in 0..x.len() {
        accumulate_step(&x[k], &mut sum[k], carry);
    }
}

/// Of unsigned numbers.
fn below_planes(x: &[Plane], y: &[Plane], less: &mut Plane) {
    less.fill(0);
    for k in 0..x.len() {
        less_step(&x[k], &y[k], less);
    }
}

/// Of signed numbers: the one that has the top bit is the lesser.
fn less_planes(x: &[Plane], y: &[Plane], less: &mut Plane) {
    let top = x.len() - 1;
    below_planes(&x[..top], &y[..top], less);
    less_step(&y[top], &x[top], less);
}

fn xor_planes(x: &mut [Plane], y: &[Plane]) {
    for k in 0..x.len() {
        xor_step(&mut x[k], &y[k]);
    }
}

fn merge_planes(x: &mut [Plane], mask: &Plane, y: &[Plane]) {
    for k in 0..x.len() {
        select_step(&mut x[k], &y[k], mask);
    }
}

fn maximum_planes(x: &[Plane], y: &[Plane], less: &mut Plane, greatest: &mut [Plane]) {
    below_planes(x, y, less);
    merge_planes(greatest, less, y);
}

#[derive(Clone, Copy)]
enum Operator {
    Add,
    Subtract,
    Less,
    Xor,
    Maximum,
}

const OPERATORS: [(Operator, &str); 5] = [
    (Operator::Add, "add"),
    (Operator::Subtract, "subtract"),
    (Operator::Less, "less"),
    (Operator::Xor, "xor"),
    (Operator::Maximum, "maximum"),
];

#[inline(never)]
fn work(operator: Operator, x: &[Plane], y: &[Plane], bits: &mut Plane, out: &mut [Plane]) {
    match operator {
        Operator::Add => accumulate_planes(y, bits, out),
        Operator::Subtract => (),
        Operator::Less => less_planes(x, y, bits),
        Operator::Xor => xor_planes(out, y),
        Operator::Maximum => maximum_planes(x, y, bits, out),
    }
}

// ---- results in new planes ----

fn zero_planes(width: usize, words: usize) -> Vec<Plane> {
    (0..width).map(|_| vec![0; words]).collect()
}

fn summed(x: &[u64], y: &[u64], carry: &mut [u64]) -> Plane {
    let sum = |((x, y), carry): ((&u64, &u64), &mut u64)| {
        let unlike = x ^ y;
        let carried = *carry;
        *carry = (x & y) | (unlike & carried);
        unlike ^ carried
    };
    x.iter().zip(y).zip(carry).map(sum).collect()
}

fn differing(x: &[u64], y: &[u64], borrow: &mut [u64]) -> Plane {
    let difference = |((x, y), borrow): ((&u64, &u64), &mut u64)| {
        let unlike = x ^ y;
        let borrowed = *borrow;
        *borrow = borrowed ^ ((borrowed ^ y) & unlike);
        unlike ^ borrowed
    };
    x.iter().zip(y).zip(borrow).map(difference).collect()
}

/// The sums, with where they carry and where they overflow.
fn add(x: &[Plane], y: &[Plane]) -> Vec<Plane> {
    let mut carry = vec![0; x[0].len()];
    let mut sum: Vec<Plane> = x.iter().zip(y).map(|(x, y)| summed(x, y, &mut carry)).collect();
    sum.push(carry.clone());
    sum.push(carry);
    sum
}

/// The differences, with where they borrow and where they overflow.
fn subtract(x: &[Plane], y: &[Plane]) -> Vec<Plane> {
    let mut borrow = vec![0; x[0].len()];
    let mut difference: Vec<Plane> = x.iter().zip(y).map(|(x, y)| differing(x, y, &mut borrow)).collect();
    difference.push(borrow.clone());
    difference.push(borrow);
    difference
}

fn less(x: &[Plane], y: &[Plane]) -> Vec<Plane> {
    let mut less = vec![0; x[0].len()];
    less_planes(x, y, &mut less);
    vec![less]
}

fn xor(x: &[Plane], y: &[Plane]) -> Vec<Plane> {
    let unlike = |(x, y): (&Plane, &Plane)| x.iter().zip(y).map(|(x, y)| x ^ y).collect();
    x.iter().zip(y).map(unlike).collect()
}

fn maximum(x: &[Plane], y: &[Plane]) -> Vec<Plane> {
    let mut less = vec![0; x[0].len()];
    below_planes(x, y, &mut less);
    let chosen = |(x, y): (&Plane, &Plane)| x.iter().zip(y).zip(&less).map(|((x, y), mask)| x ^ ((x ^ y) & mask)).collect();
    x.iter().zip(y).map(chosen).collect()
}

#[inline(never)]
fn made(operator: Operator, x: &[Plane], y: &[Plane]) -> Vec<Plane> {
    match operator {
        Operator::Add => add(x, y),
        Operator::Subtract => subtract(x, y),
        Operator::Less => less(x, y),
        Operator::Xor => xor(x, y),
        Operator::Maximum => maximum(x, y),
    }
}

// ---- numbers ----

fn exchange_digits(rows: &mut [u64; 64], shift: usize, mask: u64) {
    for j in (0..64).filter(|j| j / shift % 2 == 0) {
        let moved = ((rows[j] >> shift) ^ rows[j + shift]) & mask;
        rows[j] ^= moved << shift;
        rows[j + shift] ^= moved;
    }
}

fn transpose64(rows: &mut [u64; 64]) {
    exchange_digits(rows, 32, 0x0000_0000_FFFF_FFFF);
    exchange_digits(rows, 16, 0x0000_FFFF_0000_FFFF);
    exchange_digits(rows, 8, 0x00FF_00FF_00FF_00FF);
    exchange_digits(rows, 4, 0x0F0F_0F0F_0F0F_0F0F);
    exchange_digits(rows, 2, 0x3333_3333_3333_3333);
    exchange_digits(rows, 1, 0x5555_5555_5555_5555);
}

/// The numbers of a block of 64 processors, up to 64 bits of each.
fn words_of(planes: &[Plane], block: usize) -> [u64; 64] {
    let mut rows = [0; 64];
    if planes.is_empty() {
        return rows;
    }
    for (row, plane) in rows.iter_mut().zip(planes) {
        *row = plane[block];
    }
    transpose64(&mut rows);
    rows
}

fn push_block(list: &mut Vec<u128>, planes: &[Plane], block: usize) {
    let low = words_of(planes, block);
    let high = words_of(&planes[planes.len().min(64)..], block);
    list.extend(low.iter().zip(&high).map(|(low, high)| u128::from(*high) << 64 | u128::from(*low)));
}

#[inline(never)]
fn numbers(planes: &[Plane], vps: usize) -> Vec<u128> {
    let mut list = Vec::with_capacity(vps);
    for block in 0..vps / 64 {
        push_block(&mut list, planes, block);
    }
    list
}

fn put_words(planes: &mut [Plane], numbers: &[u128], block: usize, from: usize) {
    let mut rows = [0; 64];
    for (row, number) in rows.iter_mut().zip(numbers) {
        *row = (number >> from) as u64;
    }
    transpose64(&mut rows);
    for (plane, row) in planes.iter_mut().skip(from).zip(rows) {
        plane[block] = row;
    }
}

fn put_block(planes: &mut [Plane], numbers: &[u128], block: usize) {
    put_words(planes, numbers, block, 0);
    if planes.len() > 64 {
        put_words(planes, numbers, block, 64);
    }
}

#[inline(never)]
fn from_numbers(width: usize, numbers: &[u128]) -> Vec<Plane> {
    let mut planes = zero_planes(width, numbers.len() / 64);
    for (block, numbers) in numbers.chunks_exact(64).enumerate() {
        put_block(&mut planes, numbers, block);
    }
    planes
}

// ---- between processors ----

fn and_step(x: &mut [u64], y: &[u64]) {
    for (x, y) in x.iter_mut().zip(y) {
        *x &= y;
    }
}

fn or_step(x: &mut [u64], y: &[u64]) {
    for (x, y) in x.iter_mut().zip(y) {
        *x |= y;
    }
}

fn cut_step(x: &mut [u64], begun: &[u64]) {
    for (x, begun) in x.iter_mut().zip(begun) {
        *x &= !begun;
    }
}

fn accumulate_step(x: &[u64], sum: &mut [u64], carry: &mut [u64]) {
    let len = x.len();
    let (sum, carry) = (&mut sum[..len], &mut carry[..len]);
    for i in 0..len {
        let unlike = x[i] ^ sum[i];
        let carried = carry[i];
        carry[i] = (x[i] & sum[i]) | (unlike & carried);
        sum[i] = unlike ^ carried;
    }
}

/// Each word of two neighbours: the low bits of the upper one above the high bits of the lower one.
fn join_words(by: usize, words: &[u64], out: &mut [u64]) {
    for (out, pair) in out.iter_mut().zip(words.windows(2)) {
        *out = (pair[1] << by) | (pair[0] >> (64 - by));
    }
}

/// The bits moved up by so many places, fewer than there are bits.
fn raise(by: usize, x: &[u64], out: &mut [u64]) {
    let (words, rest) = (by / 64, by % 64);
    let kept = x.len() - words;
    out[..words].fill(0);
    if rest == 0 {
        out[words..].copy_from_slice(&x[..kept]);
    } else {
        out[words] = x[0] << rest;
        join_words(rest, &x[..kept], &mut out[words + 1..]);
    }
}

/// The bit of each processor's upward neighbour.
fn shift_plane(x: &[u64], out: &mut [u64]) {
    let last = x.len() - 1;
    join_words(63, x, out);
    out[last] = (x[last] >> 1) | (x[0] << 63);
}

/// The bit of the processor whose number differs in one digit, at `distance`.
fn exchange(distance: usize, x: &[u64], out: &mut [u64]) {
    const MASKS: [u64; 6] = [
        0x5555_5555_5555_5555,
        0x3333_3333_3333_3333,
        0x0F0F_0F0F_0F0F_0F0F,
        0x00FF_00FF_00FF_00FF,
        0x0000_FFFF_0000_FFFF,
        0x0000_0000_FFFF_FFFF,
    ];
    if distance < 64 {
        let mask = MASKS[distance.trailing_zeros() as usize];
        for (out, x) in out.iter_mut().zip(x) {
            *out = ((x >> distance) & mask) | ((x & mask) << distance);
        }
    } else {
        let words = distance / 64;
        for (out, x) in out.chunks_exact_mut(2 * words).zip(x.chunks_exact(2 * words)) {
            out[..words].copy_from_slice(&x[words..]);
            out[words..].copy_from_slice(&x[..words]);
        }
    }
}

/// Sums in planes, with where the exact sum needs more, and the planes that turns work in.
struct Sums {
    planes: Vec<Plane>,
    overflow: Plane,
    carry: Plane,
    moved: Plane,
}

impl Sums {
    /// The numbers of the selected processors.
    fn new(x: &[Plane], selected: &Plane) -> Sums {
        let words = selected.len();
        let mut planes = x.to_vec();
        for plane in &mut planes {
            and_step(plane, selected);
        }
        Sums { planes, overflow: vec![0; words], carry: vec![0; words], moved: vec![0; words] }
    }

    /// Adds the sums that a move brings.
    fn turn(&mut self, bring: impl Fn(&[u64], &mut [u64])) {
        self.carry.fill(0);
        for plane in &mut self.planes {
            bring(plane, &mut self.moved);
            accumulate_step(&self.moved, plane, &mut self.carry);
        }
        bring(&self.overflow, &mut self.moved);
        or_step(&mut self.overflow, &self.moved);
        or_step(&mut self.overflow, &self.carry);
    }

    fn finish(mut self) -> Vec<Plane> {
        self.planes.push(self.overflow);
        self.planes
    }
}

fn distances(vps: usize) -> impl Iterator<Item = usize> {
    (0..vps.trailing_zeros()).map(|digit| 1 << digit)
}

/// The inclusive sums up to each processor from where its segment begins, with where they overflow.
#[inline(never)]
fn scan(x: &[Plane], selected: &Plane, segments: &Plane) -> Vec<Plane> {
    let mut sums = Sums::new(x, selected);
    let mut begun = segments.clone();
    begun[0] |= 1;
    for distance in distances(64 * begun.len()) {
        sums.turn(|plane, moved| {
            raise(distance, plane, moved);
            cut_step(moved, &begun);
        });
        raise(distance, &begun, &mut sums.moved);
        or_step(&mut begun, &sums.moved);
    }
    sums.finish()
}

/// The sum of all, in each processor, with where it overflows.
#[inline(never)]
fn spread(x: &[Plane], selected: &Plane) -> Vec<Plane> {
    let mut sums = Sums::new(x, selected);
    for distance in distances(64 * selected.len()) {
        sums.turn(|plane, moved| exchange(distance, plane, moved));
    }
    sums.finish()
}

/// The number of each processor's upward neighbour.
#[inline(never)]
fn shift(x: &[Plane]) -> Vec<Plane> {
    let mut out = zero_planes(x.len(), x[0].len());
    for (out, x) in out.iter_mut().zip(x) {
        shift_plane(x, out);
    }
    out
}

/// The numbers of planes, of up to 64 bits.
fn short_numbers(planes: &[Plane]) -> Vec<u64> {
    (0..planes[0].len()).flat_map(|block| words_of(planes, block)).collect()
}

fn put_rows(planes: &mut [Plane], block: usize, mut rows: [u64; 64]) {
    transpose64(&mut rows);
    for (plane, row) in planes.iter_mut().zip(rows) {
        plane[block] = row;
    }
}

/// The planes of numbers of up to 64 bits.
fn from_short_numbers(width: usize, numbers: &[u64]) -> Vec<Plane> {
    let mut planes = zero_planes(width, numbers.len() / 64);
    for (block, numbers) in numbers.chunks_exact(64).enumerate() {
        let mut rows = [0; 64];
        rows.copy_from_slice(numbers);
        put_rows(&mut planes, block, rows);
    }
    planes
}

fn is_one(plane: &Plane, v: usize) -> bool {
    plane[v / 64] >> (v % 64) & 1 == 1
}

/// Whether a selected processor holds an address outside the set.
fn has_bad_address(addresses: &[u64], selected: &Plane) -> bool {
    (0..addresses.len()).any(|v| is_one(selected, v) && addresses[v] >= addresses.len() as u64)
}

/// The number at the address of each selected processor, or nothing where an address is outside the set.
#[inline(never)]
fn get(addresses: &[Plane], x: &[Plane], selected: &Plane) -> Option<Vec<Plane>> {
    let addresses = short_numbers(addresses);
    let numbers = short_numbers(x);
    if has_bad_address(&addresses, selected) {
        return None;
    }
    let mut got = vec![0; numbers.len()];
    for v in 0..got.len() {
        if is_one(selected, v) {
            got[v] = numbers[addresses[v] as usize];
        }
    }
    Some(from_short_numbers(x.len(), &got))
}

/// The number that arrives in each processor, with where one does, or nothing where an address is outside the set or two numbers meet.
#[inline(never)]
fn send(addresses: &[Plane], x: &[Plane], selected: &Plane) -> Option<Vec<Plane>> {
    let addresses = short_numbers(addresses);
    let numbers = short_numbers(x);
    if has_bad_address(&addresses, selected) {
        return None;
    }
    let mut got = vec![0; numbers.len()];
    let mut receivers = vec![0; selected.len()];
    let mut meet = false;
    for v in (0..got.len()).filter(|v| is_one(selected, *v)) {
        let receiver = addresses[v] as usize;
        meet |= is_one(&receivers, receiver);
        got[receiver] = numbers[v];
        receivers[receiver / 64] |= 1 << (receiver % 64);
    }
    let mut planes = from_short_numbers(x.len(), &got);
    planes.push(receivers);
    (!meet).then_some(planes)
}

/// What an operator makes of numbers, and where it overflows, by blocks of 64 processors.
fn by_blocks(x: &[Plane], y: &[Plane], operator: impl Fn(u64, u64) -> (u64, bool)) -> Vec<Plane> {
    let mut out = zero_planes(x.len() + 1, x[0].len());
    let width = x.len();
    for block in 0..x[0].len() {
        let mut rows = words_of(x, block);
        let mut overflow = 0;
        for (i, (row, y)) in rows.iter_mut().zip(words_of(y, block)).enumerate() {
            let (number, overflows) = operator(*row, y);
            *row = number;
            overflow |= u64::from(overflows) << i;
        }
        put_rows(&mut out[..width], block, rows);
        out[width][block] = overflow;
    }
    out
}

/// The low bits of the products, with where they overflow.
#[inline(never)]
fn multiply(x: &[Plane], y: &[Plane]) -> Vec<Plane> {
    let width = x.len();
    by_blocks(x, y, |x, y| {
        let product = u128::from(x) * u128::from(y);
        (product as u64, product >> width != 0)
    })
}

/// The quotients, with where the divisor is 0.
#[inline(never)]
fn truncate(x: &[Plane], y: &[Plane]) -> Vec<Plane> {
    by_blocks(x, y, |x, y| (x.checked_div(y).unwrap_or(0), y == 0))
}

// ---- measuring ----

struct Size {
    width: usize,
    vps: usize,
}

impl Size {
    fn calls(&self, words: usize) -> usize {
        words / (self.width * (self.vps / 64))
    }
}

/// Nanoseconds that so many calls take.
fn round(calls: usize, work: &mut impl FnMut()) -> u128 {
    let start = Instant::now();
    for _ in 0..calls {
        work();
    }
    start.elapsed().as_nanos()
}

/// Picoseconds a call, the least of several rounds.
fn least(calls: usize, mut work: impl FnMut()) -> u128 {
    let nanoseconds = (0..ROUNDS).map(|_| round(calls, &mut work)).min().unwrap_or(0);
    nanoseconds * 1000 / calls as u128
}

fn print(name: &str, size: &Size, picoseconds: u128, checksum: u64) {
    println!("{name} {} {} {picoseconds} {checksum}", size.width, size.vps);
}

fn measure_kernel(operator: Operator, name: &str, size: &Size) {
    let x = random_planes(1, size.width, size.vps);
    let y = random_planes(2, size.width, size.vps);
    let mut out = x.clone();
    let mut bits = vec![0; size.vps / 64];
    let time = least(size.calls(KERNEL_WORDS), || {
        work(operator, black_box(&x), black_box(&y), &mut bits, &mut out);
    });
    out.push(bits);
    print(&format!("kernel-{name}"), size, time, checksum(&out));
}

fn measure_new(operator: Operator, name: &str, size: &Size, x: &[Plane], y: &[Plane]) {
    let mut last = Vec::new();
    let time = least(size.calls(NEW_WORDS), || {
        last = made(operator, black_box(x), black_box(y));
    });
    print(name, size, time, checksum(&last));
}

/// An operator on random numbers, on narrow ones, and beside a constant.
fn measure_results(operator: Operator, name: &str, size: &Size) {
    let Size { width, vps } = *size;
    let (x, y) = (random_planes(1, width, vps), random_planes(2, width, vps));
    measure_new(operator, &format!("new-{name}"), size, &x, &y);
    let constant = constant_planes(width, vps);
    measure_new(operator, &format!("constant-{name}"), size, &x, &constant);
    let (x, y) = (narrow_planes(1, width, vps), narrow_planes(2, width, vps));
    measure_new(operator, &format!("narrow-{name}"), size, &x, &y);
}

fn checksum_of_numbers(list: &[u128]) -> u64 {
    list.iter().fold(0, |sum, number| checksum_of(sum, &[*number as u64, (*number >> 64) as u64]))
}

fn measure_numbers(size: &Size) {
    let planes = random_planes(1, size.width, size.vps);
    let calls = size.calls(NUMBERS_WORDS);
    let mut list = Vec::new();
    let time = least(calls, || list = numbers(black_box(&planes), size.vps));
    print("numbers", size, time, checksum_of_numbers(&list));
    let mut last = Vec::new();
    let time = least(calls, || last = from_numbers(size.width, black_box(&list)));
    print("from-numbers", size, time, checksum(&last));
}

/// Measures what makes planes. Where it makes none, which none of them does here, the checksum is 1.
fn measure_made(name: &str, size: &Size, mut make: impl FnMut() -> Option<Vec<Plane>>) {
    let mut last = None;
    let time = least(size.calls(BETWEEN_WORDS), || last = make());
    print(name, size, time, last.map_or(1, |planes| checksum(&planes)));
}

fn measure_lines(size: &Size) {
    let x = random_planes(1, size.width, size.vps);
    let selected = random_planes(3, 1, size.vps).remove(0);
    let segments = vec![0; size.vps / 64];
    measure_made("scan", size, || Some(scan(black_box(&x), &selected, &segments)));
    measure_made("spread", size, || Some(spread(black_box(&x), &selected)));
    measure_made("shift", size, || Some(shift(black_box(&x))));
    measure_made("copy", size, || Some(black_box(&x).clone()));
}

fn measure_mail(size: &Size) {
    let digits = size.vps.trailing_zeros() as usize;
    let x = random_planes(1, size.width, size.vps);
    let selected = random_planes(3, 1, size.vps).remove(0);
    let random = random_planes(4, digits, size.vps);
    let scattered = scattered_planes(digits, size.vps);
    measure_made("get", size, || get(black_box(&random), black_box(&x), &selected));
    measure_made("send", size, || send(black_box(&scattered), black_box(&x), &selected));
}

fn measure_products(size: &Size) {
    let x = random_planes(1, size.width, size.vps);
    let y = random_planes(2, size.width, size.vps);
    measure_made("multiply", size, || Some(multiply(black_box(&x), black_box(&y))));
    measure_made("truncate", size, || Some(truncate(black_box(&x), black_box(&y))));
}

fn measure_all(size: &Size) {
    for (operator, name) in OPERATORS {
        if !matches!(operator, Operator::Subtract) {
            measure_kernel(operator, name, size);
        }
        measure_results(operator, name, size);
    }
    measure_numbers(size);
    measure_lines(size);
    measure_mail(size);
    measure_products(size);
}

fn main() {
    for vps in COUNTS {
        for width in WIDTHS {
            measure_all(&Size { width, vps });
        }
    }
}
