//! Compares the calls for byte planes with a model of request (f) of document 02: the conversions, the trims in planes, their answers and
//! counts, and that nothing else is written.
//!
//! The model knows nothing of the library. It takes planes apart and puts them together byte by byte, for any number of bytes, and trims
//! what they hold by the model of the trims. The request's promise is asked of the library alone too: trimming in planes gives the planes
//! of the trimmed array, with the same answer and counts. Nothing says in what blocks a library works, so the lengths stand on both sides
//! of any usual block's end. Every run makes the same comparisons. Then it turns one rule of the model, or one claim, at a time: each
//! such wrong model must differ from the library, in each width, and by each call and method named beside the rule. With --self-test it
//! does that alone.
mod draw;
mod model;
mod nat;
use draw::{Draw, SEED};
use model::{ends, left, tens, Form, Kinds, Own, Slip};
use std::cmp::Ordering;
use std::collections::{BTreeMap, BTreeSet};
use std::fmt::UpperHex;
use std::process::exit;

extern "C" {
    fn megharutti_planes_of_singles(readings: *const u32, n: usize, planes: *mut u8, n_planes: usize) -> u32;
    fn megharutti_singles_of_planes(planes: *const u8, n_planes: usize, readings: *mut u32, n: usize) -> u32;
    fn megharutti_trim_planes_singles(
        planes: *mut u8, n_planes: usize, n: usize, method: u32, setting: i32, mark: u32, counts: *mut u64,
    ) -> u32;
    fn megharutti_planes_of_doubles(readings: *const u64, n: usize, planes: *mut u8, n_planes: usize) -> u32;
    fn megharutti_doubles_of_planes(planes: *const u8, n_planes: usize, readings: *mut u64, n: usize) -> u32;
    fn megharutti_trim_planes_doubles(
        planes: *mut u8, n_planes: usize, n: usize, method: u32, setting: i32, mark: u64, counts: *mut u64,
    ) -> u32;
    fn megharutti_trim_singles(readings: *mut u32, n: usize, method: u32, setting: i32, mark: u32, counts: *mut u64) -> u32;
    fn megharutti_trim_doubles(readings: *mut u64, n: usize, method: u32, setting: i32, mark: u64, counts: *mut u64) -> u32;
    fn mmap(at: *mut u8, bytes: usize, may: i32, how: i32, file: i32, from: i64) -> *mut u8;
    fn mprotect(at: *mut u8, bytes: usize, may: i32) -> i32;
    fn munmap(at: *mut u8, bytes: usize) -> i32;
}
/// What an array may be made of.
trait Cell: Copy + PartialEq + UpperHex { fn of(x: u64) -> Self; }
impl Cell for u8 { fn of(x: u64) -> u8 { x as u8 } }
impl Cell for u32 { fn of(x: u64) -> u32 { x as u32 } }
impl Cell for u64 { fn of(x: u64) -> u64 { x } }
/// The patterns of a width, and the calls on them.
trait Pattern: Cell + Into<u64> {
    const BYTES: usize;
    const TO: unsafe extern "C" fn(*const Self, usize, *mut u8, usize) -> u32;
    const FROM: unsafe extern "C" fn(*const u8, usize, *mut Self, usize) -> u32;
    const TRIM_PLANES: unsafe extern "C" fn(*mut u8, usize, usize, u32, i32, Self, *mut u64) -> u32;
    const TRIM: unsafe extern "C" fn(*mut Self, usize, u32, i32, Self, *mut u64) -> u32;
}
impl Pattern for u32 {
    const BYTES: usize = 4;
    const TO: unsafe extern "C" fn(*const u32, usize, *mut u8, usize) -> u32 = megharutti_planes_of_singles;
    const FROM: unsafe extern "C" fn(*const u8, usize, *mut u32, usize) -> u32 = megharutti_singles_of_planes;
    const TRIM_PLANES: unsafe extern "C" fn(*mut u8, usize, usize, u32, i32, u32, *mut u64) -> u32 = megharutti_trim_planes_singles;
    const TRIM: unsafe extern "C" fn(*mut u32, usize, u32, i32, u32, *mut u64) -> u32 = megharutti_trim_singles;
}
impl Pattern for u64 {
    const BYTES: usize = 8;
    const TO: unsafe extern "C" fn(*const u64, usize, *mut u8, usize) -> u32 = megharutti_planes_of_doubles;
    const FROM: unsafe extern "C" fn(*const u8, usize, *mut u64, usize) -> u32 = megharutti_doubles_of_planes;
    const TRIM_PLANES: unsafe extern "C" fn(*mut u8, usize, usize, u32, i32, u64, *mut u64) -> u32 = megharutti_trim_planes_doubles;
    const TRIM: unsafe extern "C" fn(*mut u64, usize, u32, i32, u64, *mut u64) -> u32 = megharutti_trim_doubles;
}

/// A rule of the model, or a claim, that can be turned. Those with a number have it for a block's length, a plane or a count.
#[derive(Clone, Copy, PartialEq)]
enum Rule {
    HighestFirst, PairsSwapped, HalvesSwapped, HalfWidth, AsTheyStand, Backwards, BlockPlanes(usize),
    PlaneForgotten(usize), PlaneKept(usize), LastOfBlock(usize), RestForgotten(usize), BlockOnly(usize), FirstForgotten, LastForgotten,
    Quieted, ZeroSignLost, Trim(Slip),
    ByPlace, SetFirst, Anew(usize), CarriedOn, MissingTurns, InfinityTurns, NanTurns, ZeroIdle, SparedIdle,
    MarkReversed, MarkFirstHalf, MarkLastHalf, MarkLowest, ZerosAlike, NotSpared,
    LastCounts(usize), FirstCounts(usize), CountMore(usize), CountKept(usize), CountedBytes, ChangedBytes, Exchanged, Added,
    TwoFirst, ThirteenSecond, ThirteenFirst, ByFive, Longer, Shorter, Wraps, Wraps32, AnyMultiple, PartLeft, PartLacks, OtherBytes,
    EmptyUnasked, BufferUnasked, NothingRefused, EmptyMethod, EmptySetting, Range(i32, i32), OtherRange, Method8, Setting16,
    RefusedCleared, RefusedFirst, RefusedCounts, RefusedCount(usize),
    BackSwapped, PromiseHalves, PromiseLast, PromiseSetting, PromiseMark, PromiseTwice, PromiseAnew,
}
use Rule::*;

/// What is compared: a conversion to planes or from them, a trim in planes by any method or one (7 stands for every unknown one), the way
/// there and back, and the promise.
#[derive(Clone, Copy, PartialEq, PartialOrd, Eq, Ord, Debug)]
enum Call { To, From, Trimming(Option<u32>), Back, Promise }
use Call::*;
const EACH: [Call; 7] =
    [Trimming(Some(0)), Trimming(Some(1)), Trimming(Some(2)), Trimming(Some(3)), Trimming(Some(4)), Trimming(Some(5)), Trimming(Some(6))];
const UNKNOWN: Call = Trimming(Some(7));
const CONVERSIONS: &[Call] = &[To, From];
const EVERY: &[Call] = &[To, From, Trimming(None)];
const TRIMS: &[Call] = &[Trimming(None)];
const GROOM: &[Call] = &[EACH[2]];
/// Blocks in which a library may work.
const BLOCKS: [usize; 15] = [8, 16, 32, 64, 128, 256, 512, 1024, 2048, 4096, 8192, 16_384, 32_768, 65_536, 131_072];

/// Each rule, and the calls that can show it.
fn turned(bytes: usize) -> Vec<(Rule, String, Vec<Call>)> {
    let rules: [(Rule, &str, &[Call]); 59] = [
        (HighestFirst, "the highest byte comes first", EVERY),
        (PairsSwapped, "planes are swapped in pairs", EVERY),
        (HalvesSwapped, "the higher half of the planes comes first", EVERY),
        (HalfWidth, "readings are taken for twice as many of half the bytes", EVERY),
        (AsTheyStand, "bytes stand as in the array", EVERY),
        (Backwards, "readings stand backwards in a plane", EVERY),
        (FirstForgotten, "the first reading is forgotten", EVERY),
        (LastForgotten, "the last reading is forgotten", EVERY),
        (Quieted, "a signalling NaN is quieted", EVERY),
        (ZeroSignLost, "-0 becomes +0", EVERY),
        (Trim(Slip::TieUp), "a tie goes up", &EACH[4..6]),
        (Trim(Slip::Overflow), "round passes the largest finite pattern", &EACH[4..5]),
        (Trim(Slip::ClipToTop), "a clipped reading becomes the largest finite pattern", &EACH[4..6]),
        (Trim(Slip::ZeroTail), "set and halfshave give a zero a tail", &EACH[1..4]),
        (Trim(Slip::ZeroSign), "absolute takes the sign from a zero result", &EACH[5..6]),
        (Trim(Slip::DecadeBelow), "a decade begins after its least whole size", &EACH[6..]),
        (Trim(Slip::TwoSpacingsStay), "digits leaves a reading where q is two spacings", &EACH[6..]),
        (Trim(Slip::NanTail), "the tail of a NaN is trimmed", &EACH[..4]),
        (Trim(Slip::Flush), "subnormal readings become zero", &EACH),
        (ByPlace, "groom goes by place", GROOM),
        (SetFirst, "groom sets at the first turn", GROOM),
        (CarriedOn, "the turns go on from call to call", GROOM),
        (MissingTurns, "a missing reading takes a turn", GROOM),
        (InfinityTurns, "an infinity takes a turn", GROOM),
        (NanTurns, "a NaN takes a turn", GROOM),
        (ZeroIdle, "a zero takes no turn", GROOM),
        (SparedIdle, "a spared reading takes no turn", GROOM),
        (MarkReversed, "the mark is taken highest byte first", &EACH),
        (MarkFirstHalf, "only the mark's first half is compared", &EACH),
        (MarkLastHalf, "only the mark's last half is compared", &EACH),
        (MarkLowest, "only the mark's lowest byte is compared", &EACH),
        (ZerosAlike, "the mark is compared by value among zeros", &EACH),
        (NotSpared, "nothing is spared", &EACH),
        (CountedBytes, "places are counted once in each plane", &EACH),
        (ChangedBytes, "changed counts bytes", &EACH),
        (Exchanged, "rises and falls are exchanged", &EACH),
        (Added, "counts are added to what stood there", &EACH),
        (TwoFirst, "2 is asked before 1", &[UNKNOWN]),
        (ThirteenSecond, "13 is asked before 2", &EACH),
        (ThirteenFirst, "13 is asked before 1", &[UNKNOWN]),
        (ByFive, "a wrong length is refused by 5", EVERY),
        (Longer, "a longer buffer is accepted", EVERY),
        (Shorter, "a shorter buffer is accepted", EVERY),
        (Wraps, "the product is taken modulo 2^64", &EACH), // no array that a conversion gets is so long
        (Wraps32, "the product is taken modulo 2^32", EVERY),
        (AnyMultiple, "any whole number of readings is accepted", EVERY),
        (PartLeft, "a part of a reading may be left over", EVERY),
        (PartLacks, "a part of a reading may lack", EVERY),
        (OtherBytes, "the length is the other width's", EVERY),
        (EmptyUnasked, "13 isn't asked where there are no readings", EVERY),
        (BufferUnasked, "13 isn't asked where the buffer is empty", EVERY),
        (NothingRefused, "nothing at all is refused", EVERY),
        (EmptyMethod, "1 isn't asked where there are no readings", &[UNKNOWN]),
        (EmptySetting, "2 isn't asked where there are no readings", &EACH),
        (OtherRange, "the setting has the other width's range", &EACH),
        (Method8, "the method is asked in 8 bits", &[UNKNOWN]),
        (Setting16, "the setting is asked in 16 bits", &EACH),
        (RefusedCleared, "a refused call clears what it would write", EVERY),
        (RefusedFirst, "a refused call writes its first cell", EVERY),
    ];
    let mut out: Vec<(Rule, String, Vec<Call>)> = rules.into_iter().map(|x| (x.0, x.1.to_string(), x.2.to_vec())).collect();
    let mut add = |rule: Rule, name: String, calls: &[Call]| out.push((rule, name, calls.to_vec()));
    for (least, most, name) in [(1, 0, "the least setting is refused"), (-1, 0, "one less than the least setting is accepted"),
        (0, -1, "the largest setting is refused"), (0, 1, "one more than the largest setting is accepted")] {
        add(Range(least, most), name.to_string(), &EACH);
    }
    for b in BLOCKS {
        add(BlockPlanes(b), format!("each block of {b} has planes of its own"), EVERY);
        add(LastOfBlock(b), format!("the last reading of each block of {b} is forgotten"), EVERY);
        add(RestForgotten(b), format!("what follows the last whole block of {b} is forgotten"), EVERY);
        add(BlockOnly(b), format!("only the first block of {b} is taken"), EVERY);
        add(Anew(b), format!("the turns begin anew after {b} places"), GROOM);
        add(LastCounts(b), format!("only the last block of {b} is counted"), TRIMS);
        add(FirstCounts(b), format!("only the first block of {b} is counted"), TRIMS);
    }
    for b in 0..bytes {
        add(PlaneForgotten(b), format!("plane {b} is forgotten"), CONVERSIONS);
        // The first bits are an exponent's, which only roundings change.
        add(PlaneKept(b), format!("plane {b} stays as before the trim"), if b + 1 < bytes { &EACH } else { &EACH[4..6] });
    }
    for k in 0..6 {
        add(CountMore(k), format!("one more is counted under count {k}"), &EACH);
        add(CountKept(k), format!("count {k} isn't written"), &EACH);
        add(RefusedCount(k), format!("a refused call writes count {k}"), &[EACH[2], UNKNOWN]);
    }
    add(RefusedCounts, "a refused call clears the counts".to_string(), &[&EACH[..], &[UNKNOWN]].concat());
    add(BackSwapped, "claim: the way back may exchange two planes".to_string(), &[Back]);
    add(PromiseHalves, "claim: the array's halves may be trimmed apart".to_string(), &[Promise]);
    add(PromiseLast, "claim: the array's last reading may stay".to_string(), &[Promise]);
    add(PromiseSetting, "claim: the array's setting may be the next".to_string(), &[Promise]);
    add(PromiseMark, "claim: the array's mark may differ in its first bit".to_string(), &[Promise]);
    add(PromiseTwice, "claim: the array's counts may be those of a second trim".to_string(), &[Promise]);
    add(PromiseAnew, "claim: the array's later trims may begin with the readings as they were".to_string(), &[Promise]);
    out
}

struct Tally {
    seed: u64, calls: u64, compared: u64, lines: u32,
    turn: u64, // the turn after the last groom, for a wrong model that goes on from it
    only: Option<Call>, // for a wrong model, the call that is to show it
    first: (u64, String), // the first difference, and after how many comparisons
    met: BTreeMap<String, u64>,
    lengths: BTreeSet<(Call, usize)>, settings: BTreeSet<(u32, i32)>, // those of accepted calls
}
impl Draw for Tally { fn seed(&mut self) -> &mut u64 { &mut self.seed } }
impl Tally {
    fn new(only: Option<Call>) -> Tally {
        let (met, lengths, settings) = (BTreeMap::new(), BTreeSet::new(), BTreeSet::new());
        Tally { seed: SEED, calls: 0, compared: 0, lines: 0, turn: 0, only, first: (0, String::new()), met, lengths, settings }
    }
    fn differs(&mut self, line: impl FnOnce() -> String) {
        self.lines += 1;
        if self.lines > 1 && self.only.is_some() { return; }
        let line = line();
        if self.only.is_none() { println!("{line}"); }
        if self.lines == 1 { self.first = (self.compared, line); }
        if self.lines == 10 { println!("planes: DIFFERENCES, of which these are the first 10"); exit(1); }
    }
    fn same(&mut self, got: u64, want: u64, told: impl FnOnce() -> String) {
        self.compared += 1;
        if got != want { self.differs(|| format!("{} got {got:X} expected {want:X}", told())); }
    }
    /// Compares all cells, and tells the first that differs.
    fn all<T: Cell>(&mut self, got: &[T], want: &[T], told: impl FnOnce(usize) -> String) {
        self.compared += want.len().max(1) as u64;
        if got == want { return; }
        let at = (0..got.len().min(want.len())).find(|&i| got[i] != want[i]).unwrap_or(got.len().min(want.len()));
        let shown = |from: &[T]| from.get(at).map_or("none".to_string(), |x| format!("{x:X}"));
        self.differs(|| format!("{}, at {at} got {} expected {}", told(at), shown(got), shown(want)));
    }
    /// Whether a wrong model has been seen.
    fn over(&self) -> bool { self.only.is_some() && self.lines > 0 }
    fn skips(&self, call: Call) -> bool {
        let trims = matches!((self.only, call), (Some(Trimming(None)), Trimming(_)));
        self.over() || self.only.is_some_and(|only| only != call && !trims)
    }
    fn meet(&mut self, what: &str, times: u64) {
        if self.only.is_some() || times == 0 { return; }
        if let Some(x) = self.met.get_mut(what) { *x += times; } else { self.met.insert(what.to_string(), times); }
    }
}

/// An array as it is lent: at any address that its cells can have, between others that no call may write.
struct Lent<T> { all: Vec<T>, front: usize, n: usize, salt: u64 }
impl<T: Cell> Lent<T> {
    const BEHIND: usize = 40;
    fn guard(salt: u64, i: usize) -> T { T::of(salt.wrapping_mul(2 * i as u64 + 1) >> 5) }
    fn new(t: &mut Tally, content: &[T]) -> Lent<T> {
        let (front, salt, n) = (16 + t.below(16) as usize, t.random(), content.len());
        let mut all: Vec<T> = Vec::with_capacity(front + n + Self::BEHIND);
        all.extend((0..front).map(|i| Self::guard(salt, i)));
        all.extend(content);
        all.extend((front..front + Self::BEHIND).map(|i| Self::guard(salt, i)));
        Lent { all, front, n, salt }
    }
    fn at(&mut self) -> *mut T { unsafe { self.all.as_mut_ptr().add(self.front) } }
    fn content(&self) -> &[T] { &self.all[self.front..self.front + self.n] }
    /// Compares the content with what it should be, and what stands around it with what it was.
    fn check(&self, t: &mut Tally, want: &[T], what: &str, told: &dyn Fn() -> String) {
        t.all(self.content(), want, |_| format!("{what}: {}", told()));
        let around = |from: usize, cells: &[T]| (0..cells.len()).all(|i| cells[i] == Self::guard(self.salt, from + i));
        t.compared += (self.front + Self::BEHIND) as u64;
        let (before, behind) = (&self.all[..self.front], &self.all[self.front + self.n..]);
        if !around(0, before) { t.differs(|| format!("written before {what}: {}", told())); }
        if !around(self.front, behind) { t.differs(|| format!("written behind {what}: {}", told())); }
    }
}

#[derive(Clone, Copy)]
struct Job { method: u32, setting: i32, mark: u64 }
impl Job {
    fn call(&self) -> Call { Trimming(Some(self.method.min(7))) }
    fn told(&self) -> String { format!("method {} setting {} mark {:X}", self.method, self.setting, self.mark) }
}

/// The planes of readings of so many bytes: byte b of every reading, in order, for b from the lowest on.
fn planes_of(readings: &[u64], bytes: usize) -> Vec<u8> {
    let byte = |x: u64, b: usize| (x >> (8 * b)) as u8;
    (0..bytes).flat_map(|b| readings.iter().map(move |&x| byte(x, b))).collect()
}
/// The readings whose planes these are.
fn readings_of(planes: &[u8], bytes: usize) -> Vec<u64> {
    let n = planes.len() / bytes;
    assert!(planes.len() == n * bytes, "the model was given a part of a reading");
    let mut out = vec![0; n];
    for b in 0..bytes { for i in 0..n { out[i] += (planes[b * n + i] as u64) << (8 * b); } }
    out
}

fn bytes_of(f: u32) -> usize { if f == 23 { 4 } else { 8 } }
/// Request (f), with no rule or one rule turned.
struct Model { form: Form, bytes: usize, tens: Vec<u64>, turned: Option<Rule> }
impl Model {
    fn new(f: u32, turned: Option<Rule>) -> Model {
        let mut form = if f == 23 { Form::new(23, 8) } else { Form::new(52, 11) };
        if let Some(Trim(slip)) = turned { form.slip = Some(slip); }
        Model { bytes: bytes_of(f), tens: tens(&form), form, turned }
    }
    fn is(&self, rule: Rule) -> bool { self.turned == Some(rule) }
    /// The least length at which a turned rule can show: that of its block.
    fn shows_from(&self) -> usize {
        match self.turned {
            Some(BlockPlanes(b) | LastOfBlock(b) | RestForgotten(b) | BlockOnly(b) | Anew(b) | LastCounts(b) | FirstCounts(b)) => b,
            _ => 0,
        }
    }
    /// Where byte b of reading i stands.
    fn place(&self, n: usize, i: usize, b: usize) -> usize {
        let half = self.bytes / 2;
        match self.turned {
            Some(HighestFirst) => (self.bytes - 1 - b) * n + i,
            Some(PairsSwapped) => (b ^ 1) * n + i,
            Some(HalvesSwapped) => (b + half) % self.bytes * n + i,
            Some(HalfWidth) => b % half * 2 * n + 2 * i + b / half,
            Some(AsTheyStand) => i * self.bytes + b,
            Some(Backwards) => b * n + n - 1 - i,
            Some(BlockPlanes(block)) => {
                let start = i / block * block;
                start * self.bytes + b * block.min(n - start) + i - start
            }
            _ => b * n + i,
        }
    }
    fn moves_bytes(&self) -> bool {
        matches!(self.turned, Some(HighestFirst | PairsSwapped | HalvesSwapped | HalfWidth | AsTheyStand | Backwards | BlockPlanes(_)))
    }
    fn planes(&self, readings: &[u64]) -> Vec<u8> {
        let (right, n) = (planes_of(readings, self.bytes), readings.len());
        if !self.moves_bytes() { return right; }
        let mut out = vec![0; right.len()];
        for b in 0..self.bytes { for i in 0..n { out[self.place(n, i, b)] = right[b * n + i]; } }
        out
    }
    fn readings(&self, planes: &[u8]) -> Vec<u64> {
        let n = planes.len() / self.bytes;
        if !self.moves_bytes() { return readings_of(planes, self.bytes); }
        let mut right = vec![0; planes.len()];
        for b in 0..self.bytes { for i in 0..n { right[b * n + i] = planes[self.place(n, i, b)]; } }
        readings_of(&right, self.bytes)
    }
    /// Whether a reading is taken at all.
    fn takes(&self, n: usize, i: usize) -> bool {
        match self.turned {
            Some(LastOfBlock(block)) => (i + 1) % block != 0,
            Some(RestForgotten(block)) => n < block || i < n / block * block,
            Some(BlockOnly(block)) => i < block,
            Some(FirstForgotten) => i > 0,
            Some(LastForgotten) => i + 1 < n,
            _ => true,
        }
    }
    /// What a conversion makes of a pattern: itself.
    fn carried(&self, x: u64) -> u64 {
        let m = x % self.form.sign;
        match self.turned {
            Some(Quieted) if m > self.form.infinity => x | 1 << (self.form.f - 1),
            Some(ZeroSignLost) if m == 0 => 0,
            _ => x,
        }
    }
    /// What a conversion leaves of readings, where each place held another one before. Both ways it is told by readings.
    fn converted(&self, readings: &[u64], held: &[u64]) -> Vec<u64> {
        let n = readings.len();
        let kept = if let Some(PlaneForgotten(b)) = self.turned { 0xFF << (8 * b) } else { 0 };
        let each = |i: usize| if self.takes(n, i) { self.carried(readings[i]) & !kept | held[i] & kept } else { held[i] };
        (0..n).map(each).collect()
    }
    fn fits(&self, n: usize, n_planes: usize) -> bool {
        let whole = n as u128 * self.bytes as u128;
        let (has, is) = (n_planes as u128, n_planes as u128 == whole);
        match self.turned {
            Some(Longer) => has >= whole,
            Some(Shorter) => has <= whole,
            Some(Wraps) => has == whole % (1 << 64),
            Some(Wraps32) => has == whole % (1 << 32),
            Some(AnyMultiple) => n_planes % self.bytes == 0,
            Some(PartLeft) => n_planes / self.bytes == n,
            Some(PartLacks) => n_planes.div_ceil(self.bytes) == n,
            Some(OtherBytes) => has == n as u128 * (12 - self.bytes as u128),
            Some(EmptyUnasked) => is || n == 0,
            Some(BufferUnasked) => is || n_planes == 0,
            Some(NothingRefused) => is && n > 0,
            _ => is,
        }
    }
    fn by_length(&self) -> u32 { if self.is(ByFive) { 5 } else { 13 } }
    /// A conversion's answer.
    fn answer(&self, n: usize, n_planes: usize) -> u32 { if self.fits(n, n_planes) { 0 } else { self.by_length() } }
    /// A trim's answer, by the questions in their order.
    fn refusal(&self, job: Job, n: usize, n_planes: usize) -> u32 {
        let method = if self.is(Method8) { job.method as u8 as u32 } else { job.method };
        let setting = if self.is(Setting16) { job.setting as i16 as i32 } else { job.setting };
        // Of an unknown method a setting is out of range where it is so for each known one.
        let asks = if method > 6 { 5 } else { method };
        let (mut least, mut most) = match (self.is(OtherRange), asks, self.form.f) {
            (false, ..) => self.form.range(asks),
            (_, 5, f) => if f == 23 { (-1074, 1023) } else { (-149, 127) },
            (_, 6, f) => (1, if f == 23 { 15 } else { 7 }),
            (.., f) => (0, 75 - f as i32),
        };
        if let Some(Range(by, to)) = self.turned { (least, most) = (least + by, most + to); }
        let mut asked = [
            (1, method > 6 && !(self.is(EmptyMethod) && n == 0)),
            (2, !(least..=most).contains(&setting) && !(self.is(EmptySetting) && n == 0)),
            (self.by_length(), !self.fits(n, n_planes)),
        ];
        match self.turned {
            Some(TwoFirst) => asked.swap(0, 1),
            Some(ThirteenSecond) => asked.swap(1, 2),
            Some(ThirteenFirst) => asked.rotate_right(1),
            _ => (),
        }
        asked.into_iter().find(|x| x.1).map_or(0, |x| x.0)
    }
    fn alike(&self, x: u64, mark: u64) -> bool {
        let half = 4 * self.bytes;
        match self.turned {
            Some(MarkReversed) => x == mark.swap_bytes() >> (64 - 8 * self.bytes),
            Some(MarkFirstHalf) => x >> half == mark >> half,
            Some(MarkLastHalf) => x << (64 - half) == mark << (64 - half),
            Some(MarkLowest) => x as u8 == mark as u8,
            Some(ZerosAlike) if mark % self.form.sign == 0 => x % self.form.sign == 0,
            _ => x == mark,
        }
    }
    /// What a place holds after an accepted trim, by the method's own result there, and what it counts as.
    fn left(&self, old: u64, own: Own, mark: u64) -> (u64, Kinds) {
        let other = (0..3).find(|&x| x != old && x != own.0).unwrap();
        match self.turned {
            None => left(old, own, mark),
            Some(Quieted | ZeroSignLost) if old != mark => (self.carried(left(old, own, mark).0), left(old, own, mark).1),
            Some(NotSpared) if old != mark => left(old, own, other),
            _ if self.alike(old, mark) => left(old, own, old),
            _ if self.alike(own.0, mark) && own.0 != old => left(old, own, own.0),
            _ if old == mark || own.0 == mark => left(old, own, other),
            _ => left(old, own, mark),
        }
    }
    fn takes_turn(&self, old: u64, mark: u64, kinds: Kinds) -> bool {
        let m = old % self.form.sign;
        match self.turned {
            Some(MissingTurns) if old == mark => true,
            Some(InfinityTurns) if m == self.form.infinity && old != mark => true,
            Some(NanTurns) if m > self.form.infinity && old != mark => true,
            Some(ZeroIdle) if m == 0 => false,
            Some(SparedIdle) if kinds[1] => false,
            _ => self.form.takes_turn(old, mark),
        }
    }
    /// What an accepted trim leaves of readings, its counts, and the turn that follows `turn`.
    fn trimmed(&self, job: Job, before: &[u64], mut turn: u64, own: &dyn Fn(usize, u64, bool) -> Own) -> (Vec<u64>, [u64; 6], u64) {
        let (mut after, mut counts, n) = (before.to_vec(), [0; 6], before.len());
        for (i, &old) in before.iter().enumerate() {
            match self.turned {
                Some(Anew(block)) if i % block == 0 => turn = 0,
                Some(LastCounts(block)) if i % block == 0 => counts = [0; 6],
                _ => (),
            }
            let at = if self.is(ByPlace) { i as u64 } else { turn + self.is(SetFirst) as u64 };
            let (new, kinds) = self.left(old, own(i, old, at % 2 == 1), job.mark);
            let counted = !matches!(self.turned, Some(FirstCounts(block)) if i >= block);
            if self.takes(n, i) {
                after[i] = new;
                if counted { for k in 0..6 { counts[k] += kinds[k] as u64; } }
            }
            turn += self.takes_turn(old, job.mark, kinds) as u64;
        }
        let bytes = |x: u64| x.to_le_bytes().iter().filter(|b| **b != 0).count() as u64;
        match self.turned {
            Some(CountMore(k)) => counts[k] += 1,
            Some(CountedBytes) => counts.iter_mut().for_each(|x| *x *= self.bytes as u64),
            Some(ChangedBytes) => counts[0] = (0..n).map(|i| bytes(before[i] ^ after[i])).sum(),
            Some(Exchanged) => counts.swap(4, 5),
            Some(Added) => counts.iter_mut().for_each(|x| *x = x.wrapping_add(UNTOLD)),
            Some(CountKept(k)) => counts[k] = UNTOLD,
            _ => (),
        }
        (after, counts, turn)
    }
    /// What an array holds after a refused call.
    fn refused<T: Cell>(&self, held: &[T]) -> Vec<T> {
        let mut out = held.to_vec();
        if self.is(RefusedCleared) { out.fill(T::of(0)); }
        if self.is(RefusedFirst) && !out.is_empty() { out[0] = T::of(0x5A); }
        out
    }
}

const UNTOLD: u64 = 0x5A5A_1234_5A5A_4321; // what stands in the counts and beside them before a call

fn cells<T: Cell>(patterns: &[u64]) -> Vec<T> { patterns.iter().map(|&x| T::of(x)).collect() }
fn patterns<T: Pattern>(cells: &[T]) -> Vec<u64> { cells.iter().map(|&x| x.into()).collect() }
fn random_bytes(t: &mut Tally, n: usize) -> Vec<u8> { (0..n.div_ceil(8)).flat_map(|_| t.random().to_le_bytes()).take(n).collect() }

/// One conversion to planes, into a buffer that held something, against the model.
fn to_planes<T: Pattern>(t: &mut Tally, model: &Model, readings: &[u64], held: &[u8]) {
    if t.skips(To) { return; }
    let own: Vec<T> = cells(readings);
    let (mut from, mut into, n) = (Lent::new(t, &own), Lent::new(t, held), readings.len());
    let answer = unsafe { T::TO(from.at(), n, into.at(), held.len()) };
    let refusal = model.answer(n, held.len());
    let told = || format!("to planes, {n} readings, {} bytes", held.len());
    note(t, To, n, answer, refusal, into.at() as usize, &told);
    if answer != refusal { return; }
    let want = if refusal != 0 { model.refused(held) } else { model.planes(&model.converted(readings, &model.readings(held))) };
    into.check(t, &want, "the planes", &told);
    from.check(t, &own, "the readings, only read", &told);
}
/// One conversion from planes, into an array that held something, against the model.
fn from_planes<T: Pattern>(t: &mut Tally, model: &Model, planes: &[u8], held: &[u64]) {
    if t.skips(From) { return; }
    let own: Vec<T> = cells(held);
    let (mut from, mut into, n) = (Lent::new(t, planes), Lent::new(t, &own), held.len());
    let answer = unsafe { T::FROM(from.at(), planes.len(), into.at(), n) };
    let refusal = model.answer(n, planes.len());
    let told = || format!("from planes, {n} readings, {} bytes", planes.len());
    note(t, From, n, answer, refusal, from.at() as usize, &told);
    if answer != refusal { return; }
    let want = if refusal != 0 { model.refused(&own) } else { cells(&model.converted(&model.readings(planes), held)) };
    into.check(t, &want, "the readings", &told);
    from.check(t, planes, "the planes, only read", &told);
}
/// Compares a call's answer, and notes what it shows.
fn note(t: &mut Tally, call: Call, n: usize, answer: u32, refusal: u32, at: usize, told: &dyn Fn() -> String) {
    t.calls += 1;
    t.same(answer as u64, refusal as u64, || format!("answer: {}", told()));
    if t.only.is_some() { return; }
    if refusal == 0 { t.lengths.insert((call, n)); }
    let name = match call { To => "conversions to planes", From => "conversions from planes", _ => "trims in planes" };
    t.meet(&format!("{name}, answer {refusal}"), 1);
    t.meet(&format!("{name} at an odd address"), at as u64 % 2);
}
/// One trim in planes, told a number of readings, against the model. `own` gives the method's own results, by place, reading and turn.
fn trim_told<T: Pattern>(t: &mut Tally, model: &Model, job: Job, planes: &[u8], n: usize, own: &dyn Fn(usize, u64, bool) -> Own) {
    if t.skips(job.call()) { return; }
    let (mut lent, mut counts) = (Lent::new(t, planes), [UNTOLD; 9]);
    let told = || format!("{}, told {n} readings, {} bytes", job.told(), planes.len());
    let answer = unsafe {
        T::TRIM_PLANES(lent.at(), planes.len(), n, job.method, job.setting, T::of(job.mark), counts.as_mut_ptr().add(1))
    };
    let refusal = model.refusal(job, n, planes.len());
    note(t, job.call(), n, answer, refusal, lent.at() as usize, &told);
    if answer != refusal { return; }
    let mut want = [UNTOLD; 9];
    let left = if refusal == 0 {
        let before = model.readings(planes);
        let turn = if model.is(CarriedOn) { t.turn } else { 0 };
        let (after, told, turn) = model.trimmed(job, &before, turn, own);
        want[1..7].copy_from_slice(&told);
        t.turn = turn;
        if t.only.is_none() { meet(t, model, job, &before, &after, told); }
        let mut left = model.planes(&after);
        if let Some(PlaneKept(b)) = model.turned { left[b * n..(b + 1) * n].copy_from_slice(&planes[b * n..(b + 1) * n]); }
        left
    } else {
        if model.is(RefusedCounts) { want[1..7].fill(0); }
        if let Some(RefusedCount(k)) = model.turned { want[k + 1] = 0; }
        if t.only.is_none() { meet_refusal(t, model, job, n, planes.len()); }
        model.refused(planes)
    };
    lent.check(t, &left, "the planes", &told);
    t.all(&counts, &want, |at| format!("counts 1 to 6, 0, 7 and 8 outside, {at}: {}", told()));
}
/// Notes what an accepted trim shows.
fn meet(t: &mut Tally, model: &Model, job: Job, before: &[u64], after: &[u64], counts: [u64; 6]) {
    let (form, n, method) = (&model.form, before.len(), job.method);
    t.settings.insert((method, job.setting));
    let is = |of: &dyn Fn(u64) -> bool| before.iter().filter(|&&x| x != job.mark && of(x % form.sign)).count() as u64;
    let of = match job.mark % form.sign {
        0 => if job.mark == 0 { "+0" } else { "-0" },
        m => if m > form.infinity { "a NaN" } else if m == form.infinity { "an infinity" } else { "an ordinary reading" },
    };
    t.meet(&format!("trims with missing readings, mark: {of}"), (counts[3] > 0) as u64);
    t.meet("readings trimmed", n as u64);
    t.meet("present zeros", is(&|m| m == 0));
    t.meet("present subnormals", is(&|m| m > 0 && m < 1 << form.f));
    t.meet("present infinities", is(&|m| m == form.infinity));
    t.meet("present NaNs", is(&|m| m > form.infinity));
    for (k, name) in ["changed", "spared", "clipped", "missing", "risen", "fallen"].into_iter().enumerate() {
        t.meet(&format!("{name}, method {method}"), counts[k]);
    }
    let moved = (0..n).fold(0, |all, i| all | (before[i] ^ after[i]));
    for b in 0..model.bytes { t.meet(&format!("trims that change plane {b}"), (moved >> (8 * b) & 0xFF != 0) as u64); }
    if method != 2 { return; }
    let (mut turn, mut apart) = (0, 0);
    for (i, &x) in before.iter().enumerate() {
        if BLOCKS.contains(&i) && turn % 2 == 1 { t.meet(&format!("grooms with an odd turn after {i} places"), 1); }
        let takes = form.takes_turn(x, job.mark);
        apart += (takes && turn % 2 != i as u64 % 2) as u64;
        turn += takes as u64;
    }
    t.meet("groomed readings at a turn that isn't even or odd as the place is", apart);
}
fn meet_refusal(t: &mut Tally, model: &Model, job: Job, n: usize, n_planes: usize) {
    let (least, most) = model.form.range(if job.method > 6 { 5 } else { job.method });
    let broken = [(1, job.method > 6), (2, !(least..=most).contains(&job.setting)), (13, !model.fits(n, n_planes))];
    let names: Vec<String> = broken.iter().filter(|x| x.1).map(|x| x.0.to_string()).collect();
    t.meet(&format!("trims that break {}", names.join(" and ")), 1);
    let wraps = !model.fits(n, n_planes) && n.wrapping_mul(model.bytes) == n_planes;
    t.meet("told numbers whose product wraps around to the buffer's length", wraps as u64);
}

/// A job, some readings for it, and the model's own results of them, at a turn that shaves and at one that sets.
struct Pool { job: Job, readings: Vec<u64>, own: Vec<[Own; 2]> }
impl Pool {
    fn new(model: &Model, job: Job, readings: Vec<u64>) -> Pool {
        let refused = model.form.refusal(job.method, job.setting) != 0;
        let trim = |x: u64, sets| if refused { (x, false, Ordering::Equal) } else { model.form.own(job.method, job.setting, x, sets) };
        let both = |&x: &u64| { let first = trim(x, false); [first, if job.method == 2 { trim(x, true) } else { first }] };
        Pool { job, own: readings.iter().map(both).collect(), readings }
    }
    /// Trims an array of the pool's readings, given by their numbers.
    fn trim<T: Pattern>(&self, t: &mut Tally, model: &Model, numbers: &[usize]) {
        if t.skips(self.job.call()) { return; }
        let before: Vec<u64> = numbers.iter().map(|&i| self.readings[i]).collect();
        let own = |i: usize, old: u64, sets: bool| match numbers[i] {
            number if self.readings[number] == old => self.own[number][sets as usize],
            _ => model.form.own(self.job.method, self.job.setting, old, sets), // a wrong model finds other readings in the planes
        };
        trim_told::<T>(t, model, self.job, &planes_of(&before, model.bytes), before.len(), &own);
    }
    fn any(&self, t: &mut Tally, n: usize) -> Vec<usize> { (0..n).map(|_| t.below(self.readings.len() as u64) as usize).collect() }
}

/// A setting that the method takes; an end of its range now and then.
fn setting(t: &mut Tally, form: &Form, method: u32) -> i32 {
    let (least, most) = form.range(method);
    let any = t.from(least as i64, most as i64) as i32;
    t.pick(&[any, any, any, any, any, least, most])
}
/// A pattern with a fraction whose last bits lie at, or next to, what decides a trim.
fn edge(t: &mut Tally, form: &Form, method: u32, setting: i32) -> u64 {
    let top = (1u64 << form.e) - 2;
    let (any, unit) = (t.below(top + 1), setting as i64 + form.deep as i64);
    let near = (unit + 1 - t.below(form.f as u64 + 4) as i64).clamp(0, top as i64) as u64;
    let e = if method == 5 { t.pick(&[near, near, near, any]) } else { t.pick(&[any, any, any, 0, 1, top]) };
    let at = match method {
        0..=4 => form.f as i64 - setting as i64,
        5 => unit - e.max(1) as i64 + 1,
        _ => t.below(form.f as u64) as i64,
    };
    let (unit, random) = (1u64 << at.clamp(0, form.f as i64), t.random());
    let fraction = t.pick(&[random, random, 0, u64::MAX]) / unit * unit;
    let tail = t.pick(&[0, 1, unit / 2 + unit - 1, unit / 2, unit / 2, unit / 2 + 1, unit - 1, random]) % unit;
    (e << form.f) + (fraction + tail) % (1 << form.f) + form.sign * t.below(2)
}
/// Patterns that show a byte out of its place: with all bytes distinct, with one byte alone, and on both sides of a carry into the highest.
fn telling(t: &mut Tally, form: &Form, bytes: usize) -> Vec<u64> {
    let mut out = vec![0x0807060504030201, 0x0102030405060708, 0x3FE2D3C4B5A69788, 0xC0191A2B3C4D5E6F];
    for b in 0..bytes { out.extend([1u64, 0x80, 0xFF, 1 + t.below(255)].map(|x| x << (8 * b))); }
    for _ in 0..8 { let carry = (1 + t.below(255)) << (8 * (bytes - 1)); out.extend([carry - 1, carry, carry + 1]); }
    let wide = 64 - 8 * bytes;
    out[..4].iter_mut().for_each(|x| *x >>= wide);
    out.into_iter().map(|x| x & form.all).collect()
}
/// Patterns next to the mark: by a bit of each byte, by the sign, one more and one less, and with its bytes the other way round.
fn beside(form: &Form, bytes: usize, mark: u64) -> Vec<u64> {
    let mut out = vec![mark, mark, mark ^ form.sign, mark.wrapping_add(1) & form.all, mark.wrapping_sub(1) & form.all];
    out.push(mark.swap_bytes() >> (64 - 8 * bytes));
    out.extend((0..bytes).flat_map(|b| [mark ^ 1 << (8 * b), mark ^ 0x80 << (8 * b)]));
    out
}
/// A mark of some kind: NaNs, infinities, zeros, ends, an ordinary reading; or one of the patterns that the trims make, so that it spares.
fn mark(t: &mut Tally, form: &Form, kind: usize, made: &[u64]) -> u64 {
    let (top, half) = (form.infinity, 1u64 << (form.f - 1));
    let ordinary = (if form.f == 23 { 0x7CF00000 } else { 0x479E000000000000 }) + t.below(2);
    let all = [top + half, 0, ordinary, form.sign, top, top + 1, form.sign + top, form.all, 1, top - 1];
    if kind % 2 == 1 && !made.is_empty() { t.pick(made) } else { all[kind / 2 % all.len()] }
}
/// A pool for one job: readings where its results change, those of every awkward kind, the mark and its neighbours, and any patterns.
fn pool(t: &mut Tally, model: &Model, method: u32, setting: i32, kind: usize, many: usize) -> Pool {
    let (form, bytes) = (&model.form, model.bytes);
    let mut readings: Vec<u64> = (0..many).map(|_| edge(t, form, method, setting)).collect();
    readings.extend((0..many / if method == 6 { 1 } else { 8 }).map(|_| t.pick(&model.tens)));
    let pattern = |x: f64| if form.f == 23 { (x as f32).to_bits() as u64 } else { x.to_bits() };
    if method == 6 { readings.extend([1.0, 10.0, 100.0, 1000.0].map(pattern)); }
    readings.extend((0..many / 4).map(|_| t.random() & form.all));
    readings.extend(telling(t, form, bytes));
    readings.extend(ends(form));
    let made: Vec<u64> = readings[..16].iter().map(|&x| form.trim(method, setting, x, t.below(2) == 1).0).collect();
    let changed: Vec<u64> = made.iter().zip(&readings).filter(|x| x.0 != x.1).map(|x| *x.0).collect();
    let mark = mark(t, form, kind, &changed); // what it spares stands among the first
    readings.extend(beside(form, bytes, mark));
    Pool::new(model, Job { method, setting, mark }, readings)
}

/// An array of readings from a pool in which few are finite and present, so that turns part from places.
fn sparse(t: &mut Tally, model: &Model, pool: &Pool, n: usize, one_in: u64) -> Vec<usize> {
    let takes = |&i: &usize| model.form.takes_turn(pool.readings[i], pool.job.mark);
    let (usual, idle): (Vec<usize>, Vec<usize>) = (0..pool.readings.len()).partition(takes);
    (0..n).map(|_| if t.below(one_in) == 0 { t.pick(&usual) } else { t.pick(&idle) }).collect()
}
/// One in which all are, but for some places.
fn present_but(t: &mut Tally, model: &Model, pool: &Pool, n: usize, places: &[usize]) -> Vec<usize> {
    let takes = |&i: &usize| model.form.takes_turn(pool.readings[i], pool.job.mark);
    let (usual, idle): (Vec<usize>, Vec<usize>) = (0..pool.readings.len()).partition(takes);
    let mut out: Vec<usize> = (0..n).map(|_| t.pick(&usual)).collect();
    for &at in places.iter().filter(|at| **at < n) { out[at] = t.pick(&idle); }
    out
}
/// Grooms of a length: few readings present; one missing early, so that the first block, of any size, has an odd number of turns; one
/// missing next to a block's end; and every second one missing.
fn grooms<T: Pattern>(t: &mut Tally, model: &Model, n: usize) {
    if t.skips(EACH[2]) { return; }
    let (early, block) = (t.below(8) as usize, t.pick(&BLOCKS));
    let seconds: Vec<usize> = (0..n).filter(|i| i % 2 == early % 2).collect();
    for shape in 0..6 {
        let (setting, kind) = (setting(t, &model.form, 2), t.below(20) as usize);
        let pool = pool(t, model, 2, setting, kind, 60);
        let numbers = match shape {
            0 => sparse(t, model, &pool, n, 3),
            1 => sparse(t, model, &pool, n, 40),
            2 => present_but(t, model, &pool, n, &[early]),
            3 => present_but(t, model, &pool, n, &[block - 1]),
            4 => present_but(t, model, &pool, n, &[0, block, block + 1]),
            _ => present_but(t, model, &pool, n, &seconds),
        };
        pool.trim::<T>(t, model, &numbers);
    }
}

/// Both conversions of a length: any patterns, awkward ones, and any bytes.
fn conversions<T: Pattern>(t: &mut Tally, model: &Model, n: usize) {
    let (form, size) = (&model.form, n * model.bytes);
    let awkward = [ends(form), telling(t, form, model.bytes)].concat();
    for shape in 0..3 {
        if t.skips(To) && t.skips(From) { return; }
        let held = random_bytes(t, size);
        let readings: Vec<u64> = match shape {
            0 => (0..n).map(|_| t.random() & form.all).collect(),
            1 => (0..n).map(|_| t.pick(&awkward)).collect(),
            _ => (0..n).map(|i| (i as u64).wrapping_mul(0x9E37_79B9_0001) & form.all).collect(), // no two alike
        };
        to_planes::<T>(t, model, &readings, &held);
        from_planes::<T>(t, model, &planes_of(&readings, model.bytes), &readings_of(&held, model.bytes));
        from_planes::<T>(t, model, &held, &readings);
    }
}
/// There and back by the library alone, both ways, for any bytes.
fn there_and_back<T: Pattern>(t: &mut Tally, model: &Model, n: usize) {
    if t.skips(Back) { return; }
    let size = n * T::BYTES;
    let bytes = random_bytes(t, size);
    let mut readings: Vec<T> = vec![T::of(t.random()); n];
    let mut back = random_bytes(t, size);
    let first = unsafe { T::FROM(bytes.as_ptr(), size, readings.as_mut_ptr(), n) };
    let second = unsafe { T::TO(readings.as_ptr(), n, back.as_mut_ptr(), size) };
    t.same((first | second) as u64, 0, || format!("answers of both conversions, {n} readings"));
    if model.is(BackSwapped) { for i in 0..n { back.swap(i, n + i); } }
    t.all(&back, &bytes, |_| format!("planes, to {n} readings and back"));
    let readings: Vec<T> = (0..n).map(|_| T::of(t.random())).collect();
    let (mut planes, mut again) = (random_bytes(t, size), vec![T::of(t.random()); n]);
    unsafe { T::TO(readings.as_ptr(), n, planes.as_mut_ptr(), size) };
    if model.is(BackSwapped) { for i in 0..n { planes.swap(i, n + i); } }
    unsafe { T::FROM(planes.as_ptr(), size, again.as_mut_ptr(), n) };
    t.all(&again, &readings, |_| format!("{n} readings, to planes and back"));
    t.meet("ways there and back", 2);
}
/// The promise by the library alone, for a list of one to three trims in turn with one mark: after each, the planes are those of the
/// array after as many, with the same answer and the same counts. Refused trims stand among them.
fn promise<T: Pattern>(t: &mut Tally, model: &Model, n: usize, method: u32) {
    if t.skips(Promise) { return; }
    let form = &model.form;
    let kind = 2 * t.below(10) as usize;
    let awkward = [ends(form), telling(t, form, model.bytes)].concat();
    let mark = mark(t, form, kind, &[]);
    let draw = |_| match t.below(8) { 0 => mark, 1 | 2 => t.pick(&awkward), _ => t.random() & form.all };
    let readings: Vec<u64> = (0..n).map(draw).collect();
    let (mut array, mut planes): (Vec<T>, Vec<u8>) = (cells(&readings), vec![0; n * T::BYTES]);
    unsafe { T::TO(array.as_ptr(), n, planes.as_mut_ptr(), planes.len()) };
    let trims = 1 + t.below(3);
    for k in 0..trims {
        let method = if k == 0 { method } else { t.below(8) as u32 };
        let known = method.min(6);
        let setting = if t.below(12) == 0 { form.range(known).1 + 1 } else { setting(t, form, known) };
        if k > 0 && model.is(PromiseAnew) { array = cells(&readings); }
        let kept = promised(t, model, &mut array, &mut planes, Job { method, setting, mark });
        t.meet("promises", 1);
        t.meet("promises of refused trims", !kept as u64);
        t.meet("promises of a later trim in a list", (k > 0) as u64);
    }
}
/// One trim of an array and of its planes. Answers whether it was accepted.
fn promised<T: Pattern>(t: &mut Tally, model: &Model, array: &mut [T], planes: &mut [u8], job: Job) -> bool {
    let (form, n) = (&model.form, array.len());
    let Job { method, setting, mark } = job;
    let (mut told, mut counts) = ([UNTOLD; 6], [UNTOLD; 6]);
    let answer = unsafe { T::TRIM_PLANES(planes.as_mut_ptr(), planes.len(), n, method, setting, T::of(mark), told.as_mut_ptr()) };
    let array_setting = setting + (model.is(PromiseSetting) && setting < form.range(method.min(6)).1) as i32;
    let array_mark = T::of(if model.is(PromiseMark) { mark ^ form.sign } else { mark });
    let mut by_array = |part: &mut [T]| unsafe {
        T::TRIM(part.as_mut_ptr(), part.len(), method, array_setting, array_mark, counts.as_mut_ptr())
    };
    let last = array.last().copied();
    let other = if model.is(PromiseHalves) && n > 1 {
        let (first, second) = array.split_at_mut(n / 2);
        by_array(first);
        by_array(second)
    } else { by_array(array) };
    if model.is(PromiseTwice) { by_array(array); }
    if model.is(PromiseLast) && n > 0 { array[n - 1] = last.unwrap(); }
    if model.is(PromiseHalves) { counts = told; }
    let mut wanted = vec![0; planes.len()];
    unsafe { T::TO(array.as_ptr(), n, wanted.as_mut_ptr(), wanted.len()) };
    t.same(answer as u64, other as u64, || format!("promise, answers: {}, {n} readings", job.told()));
    t.all(planes, &wanted, |_| format!("promise, planes of the trimmed array: {}, {n} readings", job.told()));
    t.all(&told, &counts, |_| format!("promise, counts: {}, {n} readings", job.told()));
    answer == 0
}

/// Lengths about each end of a usual block, and of several blocks with a rest.
fn lengths() -> Vec<usize> {
    let mut out = vec![0, 1, 2, 3, 4, 5, 6, 7, 8, 9, 11, 13, 24, 40, 100, 1000, 5000, 20_000, 40_001];
    out.extend([16, 32, 64, 128, 256, 512, 1024, 2048, 4096, 8192, 16_384, 32_768, 65_536].iter().flat_map(|at| [at - 1, *at, at + 1]));
    out.extend([70_000, 131_072, 131_073, 200_003]);
    out.sort();
    out
}
/// All that is compared at a length.
fn length<T: Pattern>(t: &mut Tally, model: &Model, n: usize, round: usize) {
    if t.over() { return; }
    conversions::<T>(t, model, n);
    there_and_back::<T>(t, model, n);
    for method in 0..7 {
        promise::<T>(t, model, n, method);
        for again in 0..if n < 300 { 4 } else { 2 } {
            if t.skips(Trimming(Some(method))) { continue; }
            let setting = setting(t, &model.form, method);
            let many = (n * 2).clamp(24, 250);
            let pool = pool(t, model, method, setting, round + n + method as usize + again, many);
            let numbers = pool.any(t, n);
            pool.trim::<T>(t, model, &numbers);
        }
    }
    promise::<T>(t, model, n, 7);
    grooms::<T>(t, model, n);
    near::<T>(t, model, n);
}
/// Buffers that nearly fit a length, and told numbers that nearly fit a buffer.
fn near<T: Pattern>(t: &mut Tally, model: &Model, n: usize) {
    let whole = n * model.bytes;
    let readings: Vec<u64> = (0..n).map(|_| t.random() & model.form.all).collect();
    for size in [whole + 1, whole.wrapping_sub(1), whole + model.bytes, whole.wrapping_sub(model.bytes)] {
        if size > 2 * whole + 8 || t.over() { continue; }
        let bytes = random_bytes(t, size);
        to_planes::<T>(t, model, &readings, &bytes);
        from_planes::<T>(t, model, &bytes, &readings);
        let method = t.below(7) as u32;
        let job = Job { method, setting: setting(t, &model.form, method), mark: 0 };
        trim_told::<T>(t, model, job, &bytes, n, &|_, x, _| (x, false, Ordering::Equal));
    }
}

/// Each small length with every setting of every method.
fn each_setting<T: Pattern>(t: &mut Tally, model: &Model) {
    for method in 0..7 {
        let (least, most) = model.form.range(method);
        for setting in least..=most {
            if t.skips(Trimming(Some(method))) { break; }
            let pool = pool(t, model, method, setting, (setting - least) as usize, 24);
            let some = t.below(40) as usize;
            for n in [some, pool.readings.len()] {
                let mut numbers: Vec<usize> = pool.any(t, n);
                if n == pool.readings.len() { numbers = (0..n).collect(); }
                pool.trim::<T>(t, model, &numbers);
            }
        }
    }
}

/// Calls that are refused, by each question and by several, and those next to them that are not.
fn refusals<T: Pattern>(t: &mut Tally, model: &Model) {
    let (b, form) = (model.bytes, &model.form);
    if t.only.is_none() { println!("{b} bytes: wrong lengths; a call that accepts one may end this program by reading on"); }
    for n in [0usize, 1, 2, 3, 5, 8, 17, 64, 257] {
        let whole = n * b;
        let mut sizes = vec![whole, whole + 1, whole + 2, whole + b, whole + b - 1, whole + b / 2, whole + 256, 2 * whole];
        sizes.extend([0, n, 2 * n, 4 * n, 8 * n, 12 * n].into_iter().chain((n == 3).then_some(whole + 65_536)));
        sizes.extend([1, 2, b / 2, b - 1, b].iter().filter_map(|by| whole.checked_sub(*by)));
        for &size in &sizes {
            if t.over() { return; }
            let bytes = random_bytes(t, size);
            let readings: Vec<u64> = (0..n).map(|_| t.random() & form.all).collect();
            to_planes::<T>(t, model, &readings, &bytes);
            from_planes::<T>(t, model, &bytes, &readings);
            for method in [0, 1, 2, 3, 4, 5, 6, 7, 8, 255, 256, 258, 65_536 + 2, 1 << 31, u32::MAX] {
                if t.skips(Trimming(Some(method.min(7)))) { continue; }
                settings::<T>(t, model, method, &bytes, n);
            }
        }
        // A buffer that fits n, told a number whose product wraps around to its length, or comes near.
        let fits = random_bytes(t, whole);
        let around = (usize::MAX / b).wrapping_add(1); // so many readings have 2^64 bytes
        let mut told: Vec<usize> = (1..b).map(|j| n.wrapping_add(around * j)).collect();
        told.extend([n + (1 << 32), n + (1 << 32) / b, n + (1 << 33) / b, n + around - 1, usize::MAX, usize::MAX / b, 1 << 63]);
        told.extend([n + 1, n + 2, n + 256, n + 65_536, (n + 1) * b, 2 * n + 1].into_iter().chain(n.checked_sub(1)));
        for told in told.into_iter().filter(|&x| x != n) {
            for method in 0..8 {
                if t.skips(Trimming(Some(method))) { continue; }
                settings::<T>(t, model, method, &fits, told);
            }
        }
    }
}
/// One method with settings in and out of its range, on any bytes.
fn settings<T: Pattern>(t: &mut Tally, model: &Model, method: u32, bytes: &[u8], n: usize) {
    let form = &model.form;
    let (least, most) = form.range(if method > 6 { 5 } else { method });
    let any = setting(t, form, method.min(6));
    let many = [least, most, least - 1, most + 1, i32::MIN, i32::MAX, any, any + 65_536, any - 65_536, 5000, -5000];
    let few = [any, most + 1];
    let fits = bytes.len() as u128 == n as u128 * model.bytes as u128;
    for &setting in if fits || method > 6 { &many[..] } else { &few[..] } {
        let kind = t.below(20) as usize;
        let job = Job { method, setting, mark: mark(t, form, kind, &[]) };
        trim_told::<T>(t, model, job, bytes, n, &|_, x, sets| form.own(method, setting, x, sets));
    }
}
/// Readings so many that their bytes pass 2^32, with a buffer of the rest. They are never read, and never stand in memory.
fn far<T: Pattern>(t: &mut Tally, model: &Model) {
    if t.skips(To) && t.skips(From) { return; }
    for rest in [0, 3, 8] {
        let n = (1usize << 32) / model.bytes + rest;
        // To read; private, of no file, with nothing reserved.
        let at = unsafe { mmap(std::ptr::null_mut(), n * model.bytes, 1, 0x4022, -1, 0) } as *mut T;
        assert!(at as isize != -1, "no addresses for a long array");
        let held = random_bytes(t, rest * model.bytes);
        for (call, name) in [(To, "to planes"), (From, "from planes")] {
            if t.skips(call) { continue; }
            let mut lent = Lent::new(t, &held);
            let answer = unsafe { if call == To { T::TO(at, n, lent.at(), held.len()) } else { T::FROM(lent.at(), held.len(), at, n) } };
            let told = || format!("{name}, {n} readings, {} bytes", held.len());
            t.same(answer as u64, model.answer(n, held.len()) as u64, || format!("answer: {}", told()));
            lent.check(t, &held, "the planes", &told);
            t.meet("conversions of arrays whose bytes pass 2^32", 1);
        }
        unsafe { munmap(at as *mut u8, n * model.bytes) };
    }
}

/// Memory between pages that can't be read or written: a call that passes an end of it ends this program.
struct Walled { at: *mut u8 }
impl Walled {
    const PAGE: usize = 65_536; // a multiple of any page's size
    fn new() -> Walled {
        let at = unsafe { mmap(std::ptr::null_mut(), 3 * Walled::PAGE, 0, 0x22, -1, 0) };
        assert!(at as isize != -1 && unsafe { mprotect(at.add(Walled::PAGE), Walled::PAGE, 3) } == 0, "no memory between pages");
        Walled { at }
    }
    /// The content, at the memory's start or its end.
    fn put<T: Cell>(&self, content: &[T], end: bool) -> *mut T {
        let room = Walled::PAGE - std::mem::size_of_val(content);
        let to = unsafe { self.at.add(Walled::PAGE + if end { room } else { 0 }) } as *mut T;
        unsafe { std::ptr::copy_nonoverlapping(content.as_ptr(), to, content.len()) };
        to
    }
}
impl Drop for Walled { fn drop(&mut self) { unsafe { munmap(self.at, 3 * Walled::PAGE) }; } }
/// Nothing outside a lent array is even read.
fn walled<T: Pattern>(t: &mut Tally, model: &Model) {
    println!("{} bytes: arrays between pages that can't be read; a call that reads on ends this program", model.bytes);
    let (one, two) = (Walled::new(), Walled::new());
    let get = |at: *mut u8, n: usize| unsafe { std::slice::from_raw_parts(at, n) }.to_vec();
    for n in (0..70).chain([127, 128, 129, 255, 256, 257, 1000, 4096]) {
        for end in [false, true] {
            let size = n * model.bytes;
            let (readings, bytes) = ((0..n).map(|_| t.random() & model.form.all).collect::<Vec<u64>>(), random_bytes(t, size));
            let (planes, array) = (one.put(&bytes, end), two.put::<T>(&cells(&readings), end));
            let mut answer = unsafe { T::TO(array, n, planes, size) };
            let to = get(planes, size);
            one.put(&bytes, end);
            answer += unsafe { T::FROM(planes, size, array, n) };
            let from: Vec<u64> = patterns(unsafe { std::slice::from_raw_parts(array, n) });
            let mut counts = [UNTOLD; 6];
            answer += unsafe { T::TRIM_PLANES(planes, size, n, 2, 9, T::of(0), counts.as_mut_ptr()) };
            let job = Job { method: 2, setting: 9, mark: 0 };
            let (after, ..) = model.trimmed(job, &from, 0, &|_, x, sets| model.form.own(2, 9, x, sets));
            t.same(answer as u64, 0, || format!("answers between pages, {n} readings"));
            t.all(&to, &planes_of(&readings, model.bytes), |_| format!("to planes between pages, {n} readings"));
            t.all(&from, &readings_of(&bytes, model.bytes), |_| format!("from planes between pages, {n} readings"));
            t.all(&get(planes, size), &planes_of(&after, model.bytes), |_| format!("groomed planes between pages, {n} readings"));
            t.meet("calls between pages that can't be read", 3);
        }
    }
}

/// The model by itself: printed planes, and any numbers of any bytes by the machine's own order of bytes.
fn model_alone(t: &mut Tally) {
    let cases: [(usize, &[u64], &[u8]); 8] = [
        (1, &[0x12, 0x34, 0xFF], &[0x12, 0x34, 0xFF]),
        (2, &[0x1234, 0xABCD, 0x00FF], &[0x34, 0xCD, 0xFF, 0x12, 0xAB, 0x00]),
        (3, &[0x010203, 0xA0B0C0], &[0x03, 0xC0, 0x02, 0xB0, 0x01, 0xA0]),
        (4, &[0x40490FDB, 0x3FC00000, 0x7CF00001], &[0xDB, 0, 1, 0x0F, 0, 0, 0x49, 0xC0, 0xF0, 0x40, 0x3F, 0x7C]),
        (5, &[0x0102030405, 0xF1F2F3F4F5], &[5, 0xF5, 4, 0xF4, 3, 0xF3, 2, 0xF2, 1, 0xF1]),
        (8, &[0x400921FB54442D18], &[0x18, 0x2D, 0x44, 0x54, 0xFB, 0x21, 0x09, 0x40]),
        (8, &[1, 1 << 63], &[1, 0, 0, 0, 0, 0, 0, 0, 0, 0, 0, 0, 0, 0, 0, 0x80]),
        (4, &[], &[]),
    ];
    for (bytes, readings, planes) in cases {
        t.all(&planes_of(readings, bytes), planes, |_| format!("model, planes of {bytes} bytes"));
        t.all(&readings_of(planes, bytes), readings, |_| format!("model, readings of {bytes} bytes"));
    }
    for (bytes, n) in (1..9).flat_map(|bytes| [0, 1, 2, 3, 7, 64, 65, 300].map(|n| (bytes, n))) {
        let readings: Vec<u64> = (0..n).map(|_| t.random() >> (64 - 8 * bytes)).collect();
        let planes = planes_of(&readings, bytes);
        for (i, x) in readings.iter().enumerate() {
            let stands: Vec<u8> = planes.iter().skip(i).step_by(n).copied().collect();
            t.all(&stands, &x.to_le_bytes()[..bytes], |_| format!("model, reading {i} of {n} in planes of {bytes} bytes"));
        }
        t.all(&readings_of(&planes, bytes), &readings, |_| format!("model, {n} readings of {bytes} bytes there and back"));
        let any = random_bytes(t, n * bytes);
        t.all(&planes_of(&readings_of(&any, bytes), bytes), &any, |_| format!("model, any planes of {n} readings of {bytes} bytes"));
    }
}
/// The documents' own cases on singles, with planes written out: method, setting, mark, planes before and after, counts.
fn printed_cases(t: &mut Tally, model: &Model) {
    let gone = 0x7CF00000;
    let cases: [(Job, &[u8], &[u8], [u64; 6]); 5] = [
        // P1 of pi, twice with a missing reading between.
        (Job { method: 0, setting: 7, mark: gone }, &[0xDB, 0, 0xDB, 0x0F, 0, 0x0F, 0x49, 0xF0, 0x49, 0x40, 0x7C, 0x40],
            &[0, 0, 0, 0, 0, 0, 0x49, 0xF0, 0x49, 0x40, 0x7C, 0x40], [2, 0, 0, 1, 0, 2]),
        // P1 and P2, by turns among the present.
        (Job { method: 2, setting: 7, mark: gone }, &[0xDB, 0, 0xDB, 0x0F, 0, 0x0F, 0x49, 0xF0, 0x49, 0x40, 0x7C, 0x40],
            &[0, 0, 0xFF, 0, 0, 0xFF, 0x49, 0xF0, 0x49, 0x40, 0x7C, 0x40], [2, 0, 0, 1, 1, 1]),
        // P5 and P6: the highest byte changes by a carry, and a reading is clipped.
        (Job { method: 4, setting: 0, mark: gone }, &[0, 0, 0, 0, 0xC0, 0x40, 0x3F, 0x40],
            &[0, 0, 0, 0, 0, 0, 0x40, 0x40], [2, 0, 0, 0, 1, 1]),
        (Job { method: 4, setting: 7, mark: gone }, &[0xFF, 0xFF, 0x7F, 0x7F], &[0, 0, 0x7F, 0x7F], [1, 0, 1, 0, 0, 1]),
        // The program's first series: a reading and one beside the mark, which is spared.
        (Job { method: 4, setting: 7, mark: gone }, &[0xDB, 1, 0x0F, 0, 0x49, 0xF0, 0x40, 0x7C],
            &[0, 1, 0, 0, 0x49, 0xF0, 0x40, 0x7C], [1, 1, 0, 0, 0, 1]),
    ];
    for (job, before, after, want) in cases {
        if t.only.is_some() { return; }
        let (mut planes, mut counts, n) = (before.to_vec(), [UNTOLD; 6], before.len() / 4);
        let own = |_, x, sets| model.form.own(job.method, job.setting, x, sets);
        let (left, told, _) = model.trimmed(job, &readings_of(before, 4), 0, &own);
        let mark = job.mark as u32;
        let answer = unsafe {
            megharutti_trim_planes_singles(planes.as_mut_ptr(), 4 * n, n, job.method, job.setting, mark, counts.as_mut_ptr())
        };
        t.same(answer as u64, 0, || format!("answer, printed case: {}", job.told()));
        t.all(&planes, after, |_| format!("printed case: {}", job.told()));
        t.all(&counts, &want, |_| format!("counts, printed case: {}", job.told()));
        t.all(&planes_of(&left, 4), after, |_| format!("model, printed case: {}", job.told()));
        t.all(&told, &want, |_| format!("model's counts, printed case: {}", job.told()));
    }
}

/// Everything of a width, in rounds; the longest lengths in one.
fn run<T: Pattern>(f: u32, turned: Option<Rule>, only: Option<Call>) -> Tally {
    let (mut tally, model) = (Tally::new(only), &Model::new(f, turned));
    let t = &mut tally;
    if only.is_none() {
        model_alone(t);
        if f == 23 { printed_cases(t, model); }
    }
    let lengths: Vec<usize> = lengths().into_iter().filter(|n| *n >= model.shows_from()).collect();
    for &n in lengths.iter().filter(|n| **n < 70) { length::<T>(t, model, n, 0); }
    if model.shows_from() == 0 {
        refusals::<T>(t, model);
        far::<T>(t, model);
    }
    for &n in lengths.iter().filter(|n| **n >= 70) { length::<T>(t, model, n, 0); }
    each_setting::<T>(t, model);
    for round in 1..3 { for &n in lengths.iter().filter(|n| **n < 10_000) { length::<T>(t, model, n, round); } }
    if only.is_none() { walled::<T>(t, model); }
    tally
}
fn width(f: u32, turned: Option<Rule>, only: Option<Call>) -> Tally {
    if f == 23 { run::<u32>(f, turned, only) } else { run::<u64>(f, turned, only) }
}
const WIDTHS: [(u32, &str); 2] = [(23, "singles"), (52, "doubles")];

/// Turns each rule and claim, for each call that can show it. Answers how many were not seen.
fn self_test() -> u32 {
    let (mut models, mut unseen) = (0, 0);
    for (f, of) in WIDTHS {
        for (rule, name, calls) in turned(bytes_of(f)) {
            let seen: Vec<(Call, (u64, String))> = calls.into_iter().map(|call| (call, width(f, Some(rule), Some(call)).first)).collect();
            models += seen.len() as u32;
            for (call, _) in seen.iter().filter(|x| x.1.0 == 0) {
                unseen += 1;
                println!("turned, {name}, {of}, {call:?}: NOT SEEN");
            }
            // The one that was seen last stands for all.
            let Some((call, (after, told))) = seen.iter().filter(|x| x.1.0 > 0).max_by_key(|x| x.1.0) else { continue };
            println!("turned, {name}, {of}, {} kinds of calls: seen at the latest after {after} comparisons, {call:?}: {told}", seen.len());
        }
    }
    println!("self-test: {models} wrong models or claims, {unseen} not seen");
    unseen
}

/// What must have been met in a width, and how often at least.
fn wanted(bytes: usize) -> Vec<(String, u64)> {
    let mut out: Vec<(String, u64)> = vec![];
    let mut add = |what: &str, least: u64| out.push((what.to_string(), least));
    for name in ["conversions to planes", "conversions from planes", "trims in planes"] {
        for answer in [0, 13] { add(&format!("{name}, answer {answer}"), 300); }
        add(&format!("{name} at an odd address"), 300);
    }
    for what in ["1", "2", "13", "1 and 2", "1 and 13", "2 and 13", "1 and 2 and 13"] { add(&format!("trims that break {what}"), 100); }
    add("told numbers whose product wraps around to the buffer's length", 100);
    add("conversions of arrays whose bytes pass 2^32", 6);
    for mark in ["+0", "-0", "a NaN", "an infinity", "an ordinary reading"] {
        add(&format!("trims with missing readings, mark: {mark}"), 100);
    }
    for what in ["present zeros", "present subnormals", "present infinities", "present NaNs"] { add(what, 10_000); }
    for (k, what) in ["changed", "spared", "clipped", "missing", "risen", "fallen"].into_iter().enumerate() {
        for method in 0..7 { if k != 2 || method == 4 || method == 5 { add(&format!("{what}, method {method}"), 100); } }
    }
    for b in 0..bytes { add(&format!("trims that change plane {b}"), 100); }
    for block in BLOCKS { add(&format!("grooms with an odd turn after {block} places"), 2); }
    add("groomed readings at a turn that isn't even or odd as the place is", 100_000);
    for what in ["ways there and back", "promises", "calls between pages that can't be read"] { add(what, 100); }
    add("promises of refused trims", 20);
    add("promises of a later trim in a list", 100);
    add("readings trimmed", 1_000_000);
    out
}
/// Prints what was compared and met. Answers whether something was met too seldom.
fn report(tallies: &[Tally; 2]) -> bool {
    let mut few = false;
    let mut row = |what: &str, counts: [u64; 2], least: [u64; 2]| {
        let short = (0..2).any(|k| counts[k] < least[k]);
        few |= short;
        println!("{:<74} {:>10} {:>10}", format!("{what}{}", if short { ": TOO FEW" } else { "" }), counts[0], counts[1]);
    };
    println!("\n{:<74} {:>10} {:>10}", "", "singles", "doubles");
    row("calls compared with the model", [0, 1].map(|k| tallies[k].calls), [1; 2]);
    row("comparisons", [0, 1].map(|k| tallies[k].compared), [1; 2]);
    let lists = [wanted(4), wanted(8)];
    for (what, least) in &lists[1] {
        let asked = lists[0].contains(&(what.clone(), *least)); // singles have no plane 4
        let counts = [0, 1].map(|k| tallies[k].met.get(what).copied().unwrap_or(0));
        row(what, counts, [if asked { *least } else { 0 }, *least]);
    }
    for call in [To, From].into_iter().chain(EACH) {
        let of = |t: &Tally| lengths().into_iter().filter(|&n| t.lengths.contains(&(call, n))).count() as u64;
        row(&format!("lengths with {call:?}, of {}", lengths().len()), [0, 1].map(|k| of(&tallies[k])), [lengths().len() as u64; 2]);
    }
    for method in 0..7 {
        let all = WIDTHS.map(|x| { let (least, most) = Model::new(x.0, None).form.range(method); (most - least + 1) as u64 });
        let of = |t: &Tally| t.settings.iter().filter(|x| x.0 == method).count() as u64;
        row(&format!("settings of method {method}, all"), [0, 1].map(|k| of(&tallies[k])), all);
    }
    few
}

fn main() {
    let alone = std::env::args().any(|x| x == "--self-test");
    if alone { exit((self_test() > 0) as i32); }
    let tallies = WIDTHS.map(|x| width(x.0, None, None));
    let few = report(&tallies);
    let (compared, lines) = tallies.iter().fold((0, 0), |sum, t| (sum.0 + t.compared, sum.1 + t.lines));
    // With a library that differs, a wrong model may go unseen, which would say nothing.
    let unseen = if lines == 0 { self_test() } else { 0 };
    let found = [(lines > 0, "DIFFERENCES"), (few, "a class with TOO FEW"), (unseen > 0, "a wrong model NOT SEEN")];
    let fault = found.into_iter().find(|x| x.0).map(|x| x.1);
    println!("planes: {compared} comparisons, {}", fault.unwrap_or("no difference"));
    if fault.is_some() { exit(1); }
}
