//! The loops of the crate `bench` in plain Rust, over columns of the same structure, for comparison: rustc --edition
//! 2021 -O baseline.rs && ./baseline
#[path = "../lanes.rs"]
mod lanes;

use lanes::{Lane, Narrow, Nothing, Wide8, Wide16, Wide32, Wide64};
use std::cmp::Ordering;
use std::hint::black_box;
use std::rc::Rc;
use std::time::Instant;

const COUNT: usize = 1_048_576;
const MEMOS: usize = 131_072;
const EDITS: usize = 1_000;

#[derive(Clone, Copy, PartialEq, Eq, PartialOrd, Ord)]
enum Width {
    W0,
    W1,
    W2,
    W4,
    W8,
    W16,
    W32,
    W64,
}

const WIDTHS: [Width; 8] =
    [Width::W0, Width::W1, Width::W2, Width::W4, Width::W8, Width::W16, Width::W32, Width::W64];

macro_rules! at_width {
    ($width:expr, $function:ident($($argument:expr),*)) => {
        match $width {
            Width::W0 => $function::<Nothing>($($argument),*),
            Width::W1 => $function::<Narrow<1>>($($argument),*),
            Width::W2 => $function::<Narrow<2>>($($argument),*),
            Width::W4 => $function::<Narrow<4>>($($argument),*),
            Width::W8 => $function::<Wide8>($($argument),*),
            Width::W16 => $function::<Wide16>($($argument),*),
            Width::W32 => $function::<Wide32>($($argument),*),
            Width::W64 => $function::<Wide64>($($argument),*),
        }
    };
}

impl Width {
    fn bits(self) -> usize {
        if self == Width::W0 { 0 } else { 1 << (self as usize - 1) }
    }
    fn bytes_of(self, count: usize) -> usize {
        (count * self.bits()).div_ceil(8)
    }
    fn holds(self, value: i64) -> bool {
        match self {
            Width::W0 => value == 0,
            Width::W1 | Width::W2 | Width::W4 => value >> self.bits() == 0,
            Width::W64 => true,
            _ => {
                let half = 1i64 << (self.bits() - 1);
                -half <= value && value < half
            }
        }
    }
    fn narrower(self) -> Option<Width> {
        (self as usize).checked_sub(1).map(|below| WIDTHS[below])
    }
    fn of(values: &[i64]) -> Width {
        let (low, high) = values.iter().fold((0, 0), |(low, high), v| (low.min(*v), high.max(*v)));
        *WIDTHS.iter().find(|width| width.holds(low) && width.holds(high)).unwrap()
    }
}

fn read_one<L: Lane>(bytes: &[u8], at: usize) -> i64 {
    L::read(bytes, at)
}

fn write_one<L: Lane>(bytes: &mut [u8], at: usize, value: i64) {
    L::write(bytes, at, value)
}

fn read_run<L: Lane>(bytes: &[u8], from: usize, into: &mut [i64]) {
    for (i, value) in into.iter_mut().enumerate() {
        *value = L::read(bytes, from + i);
    }
}

fn write_run<L: Lane>(values: &[i64], into: &mut [u8]) {
    for (at, value) in values.iter().enumerate() {
        L::write(into, at, *value);
    }
}

/// What a spine lists.
trait Run: Clone {
    const MOST: usize;
    fn len(&self) -> usize;
}

#[derive(Clone)]
struct Segment {
    count: usize,
    width: Width,
    bytes: Vec<u8>,
}

impl Run for Segment {
    const MOST: usize = 2048;
    fn len(&self) -> usize {
        self.count
    }
}

impl Segment {
    fn of(values: &[i64]) -> Segment {
        let width = Width::of(values);
        let mut bytes = vec![0; width.bytes_of(values.len())];
        at_width!(width, write_run(values, &mut bytes));
        Segment { count: values.len(), width, bytes }
    }
    fn get(&self, at: usize) -> i64 {
        assert!(at < self.count);
        at_width!(self.width, read_one(&self.bytes, at))
    }
    fn copy_to(&self, from: usize, into: &mut [i64]) {
        at_width!(self.width, read_run(&self.bytes, from, into))
    }
    fn keeps_width(&self, at: usize, value: i64) -> bool {
        if !self.width.holds(value) {
            return false;
        }
        let Some(narrower) = self.width.narrower() else { return true };
        !narrower.holds(value)
            || narrower.holds(self.get(at))
            || (0..self.count).any(|k| k != at && !narrower.holds(self.get(k)))
    }
    fn set(&mut self, at: usize, value: i64) {
        if self.keeps_width(at, value) {
            return at_width!(self.width, write_one(&mut self.bytes, at, value));
        }
        let mut values = vec![0; self.count];
        self.copy_to(0, &mut values);
        values[at] = value;
        *self = Segment::of(&values);
    }
    fn push(&mut self, value: i64) {
        self.bytes.resize(self.width.bytes_of(self.count + 1), 0);
        at_width!(self.width, write_one(&mut self.bytes, self.count, value));
        self.count += 1;
    }
}

#[derive(Clone)]
struct Spine<R> {
    runs: Vec<Rc<R>>,
    ends: Vec<usize>,
}

/// The runs that an edit replaces, and the places that they hold.
struct Touched {
    first: usize,
    after: usize,
    start: usize,
    stop: usize,
}

impl<R: Run> Spine<R> {
    fn new() -> Spine<R> {
        Spine { runs: Vec::new(), ends: Vec::new() }
    }
    fn start(&self, k: usize) -> usize {
        if k == 0 { 0 } else { self.ends[k - 1] }
    }
    fn len(&self) -> usize {
        self.start(self.runs.len())
    }
    fn find(&self, at: usize) -> (usize, usize) {
        let guess = at / R::MOST;
        let k = if at < self.ends[guess] {
            guess
        } else {
            guess + 1 + self.ends[guess + 1..].partition_point(|end| *end <= at)
        };
        (k, at - self.start(k))
    }
    fn touched(&self, at: usize, end: usize, count: usize) -> Touched {
        let first = if at == self.len() { self.runs.len() } else { self.find(at).0 };
        let after = if end == self.start(first) { first } else { self.find(end - 1).0 + 1 };
        let mut touched = Touched { first, after, start: self.start(first), stop: self.start(after) };
        let size = at - touched.start + count + (touched.stop - end);
        if first > 0 && touched.start - self.start(first - 1) + size <= R::MOST {
            touched.first -= 1;
            touched.start = self.start(first - 1);
        }
        let size = at - touched.start + count + (touched.stop - end);
        let last = size % R::MOST;
        if after < self.runs.len()
            && (size == 0 || last != 0 && last + self.start(after + 1) - touched.stop <= R::MOST)
        {
            touched.after += 1;
            touched.stop = self.start(after + 1);
        }
        touched
    }
    fn put(&mut self, touched: &Touched, fresh: Vec<Rc<R>>) {
        let mut ends = self.ends[..touched.first].to_vec();
        let mut end = touched.start;
        for run in &fresh {
            end += run.len();
            ends.push(end);
        }
        for old in &self.ends[touched.after..] {
            ends.push(old - touched.stop + end);
        }
        self.runs.splice(touched.first..touched.after, fresh);
        self.ends = ends;
    }
}

impl Spine<Segment> {
    fn copy_to(&self, from: usize, into: &mut [i64]) {
        let mut done = 0;
        while done < into.len() {
            let (k, offset) = self.find(from + done);
            let count = (self.runs[k].count - offset).min(into.len() - done);
            self.runs[k].copy_to(offset, &mut into[done..done + count]);
            done += count;
        }
    }
    fn replace(&mut self, at: usize, end: usize, value: i64, count: usize) {
        let touched = self.touched(at, end, count);
        let before = at - touched.start;
        let mut values = vec![value; before + count + (touched.stop - end)];
        self.copy_to(touched.start, &mut values[..before]);
        self.copy_to(end, &mut values[before + count..]);
        let fresh = values.chunks(Segment::MOST).map(|part| Rc::new(Segment::of(part))).collect();
        self.put(&touched, fresh);
    }
}

#[derive(Clone)]
struct IntCol {
    spine: Rc<Spine<Segment>>,
    home: Option<(u64, u64)>,
}

impl IntCol {
    fn new() -> IntCol {
        IntCol { spine: Rc::new(Spine::new()), home: None }
    }
    fn len(&self) -> usize {
        self.spine.len()
    }
    fn get(&self, at: usize) -> i64 {
        let (k, offset) = self.spine.find(at);
        self.spine.runs[k].get(offset)
    }
    fn set(&mut self, at: usize, value: i64) {
        let spine = Rc::make_mut(&mut self.spine);
        let (k, offset) = spine.find(at);
        Rc::make_mut(&mut spine.runs[k]).set(offset, value);
        self.home = None;
    }
    fn insert(&mut self, at: usize, value: i64, count: usize) {
        if count == 0 {
            return;
        }
        let spine = Rc::make_mut(&mut self.spine);
        let takes = |last: &Rc<Segment>| last.count < Segment::MOST && last.width.holds(value);
        if count == 1 && at == spine.len() && spine.runs.last().is_some_and(takes) {
            Rc::make_mut(spine.runs.last_mut().unwrap()).push(value);
            *spine.ends.last_mut().unwrap() += 1;
        } else {
            spine.replace(at, at, value, count);
        }
        self.home = None;
    }
    fn remove(&mut self, at: usize, count: usize) {
        if count == 0 {
            return;
        }
        Rc::make_mut(&mut self.spine).replace(at, at + count, 0, 0);
        self.home = None;
    }
}

const SHORT_MOST: usize = 512;
const LOOSE_MOST: usize = 4096;

#[derive(Clone)]
enum Cell {
    Short { start: usize, len: usize },
    Memo(Rc<Vec<u8>>),
}

#[derive(Clone)]
struct Chunk {
    cells: Vec<Cell>,
    bytes: Vec<u8>,
    short: usize,
}

impl Run for Chunk {
    const MOST: usize = 512;
    fn len(&self) -> usize {
        self.cells.len()
    }
}

fn short_size(value: &[u8]) -> usize {
    if value.len() <= SHORT_MOST { value.len() } else { 0 }
}

impl Chunk {
    fn new() -> Chunk {
        Chunk { cells: Vec::new(), bytes: Vec::new(), short: 0 }
    }
    fn value(&self, at: usize) -> &[u8] {
        match &self.cells[at] {
            Cell::Short { start, len } => &self.bytes[*start..*start + *len],
            Cell::Memo(memo) => memo,
        }
    }
    fn stage(&mut self, value: &[u8]) -> Cell {
        if value.len() > SHORT_MOST {
            return Cell::Memo(Rc::new(value.to_vec()));
        }
        let start = self.bytes.len();
        self.bytes.extend_from_slice(value);
        Cell::Short { start, len: value.len() }
    }
    fn push(&mut self, value: &[u8]) {
        let cell = self.stage(value);
        self.cells.push(cell);
        self.short += short_size(value);
    }
    fn add(&mut self, other: &Chunk, at: usize) {
        let cell = match &other.cells[at] {
            Cell::Short { start, len } => self.stage(&other.bytes[*start..*start + *len]),
            Cell::Memo(memo) => Cell::Memo(memo.clone()),
        };
        self.cells.push(cell);
        self.short += short_size(other.value(at));
    }
    fn reserve(&mut self, other: &Chunk, count: usize) {
        self.cells.reserve(count);
        self.bytes.reserve(other.short.checked_div(other.cells.len()).unwrap_or(0) * count);
    }
    /// Writes a value over one as long, if that is in memory of its own.
    fn overwrite(&mut self, at: usize, value: &[u8]) -> bool {
        match &mut self.cells[at] {
            Cell::Short { start, len } if *len == value.len() => {
                self.bytes[*start..*start + *len].copy_from_slice(value);
                true
            }
            Cell::Short { .. } => false,
            Cell::Memo(memo) => match Rc::get_mut(memo) {
                Some(own) if own.len() == value.len() => {
                    own.copy_from_slice(value);
                    true
                }
                _ => false,
            },
        }
    }
    fn put(&mut self, at: usize, value: &[u8]) {
        if self.bytes.len() / 2 > self.short + LOOSE_MOST {
            let mut packed = Chunk::new();
            packed.reserve(self, self.cells.len());
            (0..self.cells.len()).for_each(|at| packed.add(self, at));
            *self = packed;
        }
        let short = self.short - short_size(self.value(at)) + short_size(value);
        let cell = self.stage(value);
        self.cells[at] = cell;
        self.short = short;
    }
}

/// Chunks under construction.
struct Parts {
    done: Vec<Rc<Chunk>>,
    last: Chunk,
}

impl Parts {
    fn add(&mut self, chunk: &Chunk, at: usize) {
        if self.last.cells.len() == Chunk::MOST {
            self.done.push(Rc::new(std::mem::replace(&mut self.last, Chunk::new())));
        }
        self.last.add(chunk, at);
    }
    fn finish(mut self) -> Vec<Rc<Chunk>> {
        if !self.last.cells.is_empty() {
            self.done.push(Rc::new(self.last));
        }
        self.done
    }
}

impl Spine<Chunk> {
    fn add_to(&self, parts: &mut Parts, from: usize, to: usize) {
        let mut at = from;
        while at < to {
            let (k, offset) = self.find(at);
            let count = (self.runs[k].cells.len() - offset).min(to - at);
            (offset..offset + count).for_each(|place| parts.add(&self.runs[k], place));
            at += count;
        }
    }
    fn replace(&mut self, at: usize, end: usize, value: &[u8], count: usize) {
        let touched = self.touched(at, end, count);
        let mut one = Chunk::new();
        one.push(value);
        let mut parts = Parts { done: Vec::new(), last: Chunk::new() };
        if touched.first > 0 && at == self.len() {
            parts.last.reserve(&self.runs[touched.first - 1], Chunk::MOST);
        }
        self.add_to(&mut parts, touched.start, at);
        (0..count).for_each(|_| parts.add(&one, 0));
        self.add_to(&mut parts, end, touched.stop);
        self.put(&touched, parts.finish());
    }
}

#[derive(Clone)]
struct BytesHome {
    _sizes: (u64, u64),
    _short: (u64, u64),
    _memos: Vec<(u64, u64)>,
}

#[derive(Clone)]
struct BytesCol {
    spine: Rc<Spine<Chunk>>,
    sizes: IntCol,
    home: Option<BytesHome>,
}

impl BytesCol {
    fn new() -> BytesCol {
        BytesCol { spine: Rc::new(Spine::new()), sizes: IntCol::new(), home: None }
    }
    fn len(&self) -> usize {
        self.spine.len()
    }
    fn value(&self, at: usize) -> &[u8] {
        let (k, offset) = self.spine.find(at);
        self.spine.runs[k].value(offset)
    }
    fn set(&mut self, at: usize, value: &[u8]) {
        let spine = Rc::make_mut(&mut self.spine);
        let (k, offset) = spine.find(at);
        let chunk = Rc::make_mut(&mut spine.runs[k]);
        if !chunk.overwrite(offset, value) {
            chunk.put(offset, value);
            self.sizes.set(at, value.len() as i64);
        }
        self.home = None;
    }
    fn insert(&mut self, at: usize, value: &[u8], count: usize) {
        let spine = Rc::make_mut(&mut self.spine);
        let takes = |last: &Rc<Chunk>| last.cells.len() < Chunk::MOST;
        if count == 1 && at == spine.len() && spine.runs.last().is_some_and(takes) {
            Rc::make_mut(spine.runs.last_mut().unwrap()).push(value);
            *spine.ends.last_mut().unwrap() += 1;
        } else {
            spine.replace(at, at, value, count);
        }
        self.sizes.insert(at, value.len() as i64, count);
        self.home = None;
    }
    fn remove(&mut self, at: usize, count: usize) {
        Rc::make_mut(&mut self.spine).replace(at, at + count, &[], 0);
        self.sizes.remove(at, count);
        self.home = None;
    }
}

struct Random(u64);

impl Random {
    fn next(&mut self) -> u64 {
        self.0 = self.0.wrapping_mul(6_364_136_223_846_793_005).wrapping_add(1_442_695_040_888_963_407);
        self.0
    }
    fn place(&mut self, len: usize) -> usize {
        (self.next() >> 32) as usize % len
    }
}

fn sample(width: Width, number: u64) -> i64 {
    match width {
        Width::W0 => 0,
        Width::W1 | Width::W2 | Width::W4 => (number >> (64 - width.bits())) as i64,
        _ => number as i64 >> (64 - width.bits()),
    }
}

/// What a call of so many takes, in nanoseconds.
fn timed(count: usize, mut call: impl FnMut()) -> f64 {
    let start = Instant::now();
    (0..count).for_each(|_| call());
    start.elapsed().as_secs_f64() * 1e9 / count as f64
}

fn time_integers(width: Width) {
    let mut random = Random(1);
    let values: Vec<i64> = (0..COUNT).map(|_| sample(width, random.next())).collect();
    let mut column = IntCol::new();
    let mut value = values.iter();
    let append = timed(COUNT, || column.insert(column.len(), *value.next().unwrap(), 1));
    let mut sum = 0i64;
    let mut places = 0..COUNT;
    let order = timed(COUNT, || sum = sum.wrapping_add(column.get(places.next().unwrap())));
    let mut random = Random(1);
    let at_random = timed(COUNT, || sum = sum.wrapping_add(column.get(random.place(column.len()))));
    let mut value = values.iter();
    let mut places = 0..COUNT;
    let set = timed(COUNT, || column.set(places.next().unwrap(), *value.next().unwrap()));
    let (mut random, mut value) = (Random(1), values.iter());
    let set_at_random = timed(COUNT, || column.set(random.place(column.len()), *value.next().unwrap()));
    let mut value = values.iter();
    let insert = timed(EDITS, || column.insert(column.len() / 2, *value.next().unwrap(), 1));
    let remove = timed(EDITS, || column.remove(column.len() / 2, 1));
    let (mut random, mut value) = (Random(1), values.iter());
    let shared = timed(EDITS, || {
        let copy = column.clone();
        column.set(random.place(column.len()), *value.next().unwrap());
        black_box(&copy);
    });
    for at in 0..column.len() {
        sum = sum.wrapping_add(column.get(at));
    }
    println!(
        "{} bits: append {append:.1} order {order:.1} random {at_random:.1} set {set:.1} set_random {set_at_random:.1} insert {insert:.0} remove {remove:.0} shared {shared:.0} ({sum})",
        width.bits()
    );
}

fn last_byte(text: &[u8]) -> u64 {
    text.last().map_or(0, |byte| u64::from(*byte))
}

fn time_texts(text: &[u8], count: usize) {
    let text = black_box(text);
    let mut column = BytesCol::new();
    let append = timed(count, || column.insert(column.len(), text, 1));
    let mut sum = 0u64;
    let mut places = 0..count;
    let order = timed(count, || sum += last_byte(&black_box(column.value(places.next().unwrap()).to_vec())));
    let mut random = Random(1);
    let at_random = timed(count, || sum += last_byte(&black_box(column.value(random.place(column.len())).to_vec())));
    let mut random = Random(1);
    let compare = timed(count, || sum += u64::from(column.value(random.place(column.len())).cmp(text) == Ordering::Equal));
    let mut places = 0..count;
    let set = timed(count, || column.set(places.next().unwrap(), text));
    let mut random = Random(1);
    let set_at_random = timed(count, || column.set(random.place(column.len()), text));
    let longer = [text, b"x"].concat();
    let mut places = 0..count;
    let set_longer = timed(count, || column.set(places.next().unwrap(), &longer));
    let insert = timed(EDITS, || column.insert(column.len() / 2, text, 1));
    let remove = timed(EDITS, || column.remove(column.len() / 2, 1));
    let mut random = Random(1);
    let shared = timed(EDITS, || {
        let copy = column.clone();
        column.set(random.place(column.len()), text);
        black_box(&copy);
    });
    println!(
        "{} bytes: append {append:.1} order {order:.1} random {at_random:.1} compare {compare:.1} set {set:.1} set_random {set_at_random:.1} set_longer {set_longer:.1} insert {insert:.0} remove {remove:.0} shared {shared:.0} ({sum})",
        text.len()
    );
}

/// What copies of a text take with no column around them: each behind an `Rc`, and then written over in order.
fn time_copies(text: &[u8], count: usize) {
    let text = black_box(text);
    let mut copies = Vec::with_capacity(count);
    let alone = timed(count, || copies.push(Rc::new(text.to_vec())));
    let mut kept = copies.iter_mut();
    let over = timed(count, || Rc::get_mut(kept.next().unwrap()).unwrap().copy_from_slice(text));
    println!("{} copies: alone {alone:.1} over {over:.1} ({})", text.len(), copies.len());
}

fn main() {
    WIDTHS[1..].iter().for_each(|width| time_integers(*width));
    time_texts(&[b'x'; 5], COUNT);
    time_texts(&[b'x'; 100], COUNT);
    time_texts(&[b'x'; 600], MEMOS);
    time_copies(&[b'x'; 5], COUNT);
    time_copies(&[b'x'; 100], COUNT);
    time_copies(&[b'x'; 600], MEMOS);
}
