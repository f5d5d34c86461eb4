//! Compares the calls for the first reading beyond a limit with a model of request (c) of document 02 in exact whole numbers: the answer,
//! the place, the number read, and that nothing else is written.
//!
//! The model knows nothing of the library. It judges every place, and then takes the first. The machine's own floats judge each pair of
//! finite readings too, so that a slip in the model doesn't pass for a slip in the library. Every run makes the same comparisons. It first
//! turns one rule of the model, or one claim, at a time: each such wrong model must differ from the library, in each width that the rule
//! concerns. With --self-test it ends there.
mod draw;
mod model;
mod nat;
use draw::{Draw, SEED};
use model::Form;
use nat::{apart, Nat};
use std::ops::Range;
use std::process::exit;
use std::ptr::NonNull;

extern "C" {
    fn megharutti_first_beyond_singles(
        raw: *const u32, n_raw: usize, trimmed: *const u32, n_trimmed: usize, mark: u32, p: i32, found: *mut u64,
    ) -> u32;
    fn megharutti_first_beyond_doubles(
        raw: *const u64, n_raw: usize, trimmed: *const u64, n_trimmed: usize, mark: u64, p: i32, found: *mut u64,
    ) -> u32;
    fn megharutti_trim_singles(readings: *mut u32, n: usize, method: u32, setting: i32, mark: u32, counts: *mut u64) -> u32;
    fn megharutti_trim_doubles(readings: *mut u64, n: usize, method: u32, setting: i32, mark: u64, counts: *mut u64) -> u32;
    fn mmap(at: *mut u8, bytes: usize, may: i32, how: i32, file: i32, from: i64) -> *mut u8;
    fn mprotect(at: *mut u8, bytes: usize, may: i32) -> i32;
    fn munmap(at: *mut u8, bytes: usize) -> i32;
}
/// The patterns of a width, and the calls on them.
trait Pattern: Copy + PartialEq + Into<u64> {
    const BEYOND: unsafe extern "C" fn(*const Self, usize, *const Self, usize, Self, i32, *mut u64) -> u32;
    const TRIM: unsafe extern "C" fn(*mut Self, usize, u32, i32, Self, *mut u64) -> u32;
    fn of(pattern: u64) -> Self;
}
impl Pattern for u32 {
    const BEYOND: unsafe extern "C" fn(*const u32, usize, *const u32, usize, u32, i32, *mut u64) -> u32 = megharutti_first_beyond_singles;
    const TRIM: unsafe extern "C" fn(*mut u32, usize, u32, i32, u32, *mut u64) -> u32 = megharutti_trim_singles;
    fn of(pattern: u64) -> u32 { pattern.try_into().expect("a single's pattern") }
}
impl Pattern for u64 {
    const BEYOND: unsafe extern "C" fn(*const u64, usize, *const u64, usize, u64, i32, *mut u64) -> u32 = megharutti_first_beyond_doubles;
    const TRIM: unsafe extern "C" fn(*mut u64, usize, u32, i32, u64, *mut u64) -> u32 = megharutti_trim_doubles;
    fn of(pattern: u64) -> u64 { pattern }
}

/// A rule of the model, or a claim, that can be turned.
#[derive(Clone, Copy, PartialEq)]
enum Rule {
    AtLeast, LimitTwice, LimitHalf, ByExponent, FloatDifference, Widened, First64, First128, SignsIgnored, SizesAdded, RawLarger,
    TrimmedLarger, ByPatterns, HiddenLost, SubnormalTwice, OperandsLost, ResultsLost, OverflowWithin, ZerosApart,
    RawUnasked, TrimmedUnasked, MissingBoth, ZerosAlike, MarkUnsigned, MarkFirstHalf, MarkLastHalf,
    InfinitySized, NanSized, InfinityBeyond, NanBeyond, OppositeInfinities,
    LastPlace, PlaceFrom1, PlaceOfPresent, ZeroLost, ReadBefore, ReadAll, ReadPresent, ReadFinite, ReadEights, ReadMore, NoneRead0,
    NonePlaceN, NoneUnwritten, MissingStops, NotFiniteStops, TailLost, FirstSkipped, BlockOnly,
    TwoFirst, ByFive, ShorterCounts, LongerTrimmed, LongerRaw, Lengths8, LeastRefused, LeastLess, MostRefused, MostMore, OtherRange,
    P16, P8, EmptyUnasked, RefusedWrites, HalfStep,
}
use Rule::*;
const TURNED: [(Rule, &str); 65] = [
    (AtLeast, "2^p itself is beyond"),
    (LimitTwice, "the limit is 2^(p + 1)"),
    (LimitHalf, "the limit is 2^(p - 1)"),
    (ByExponent, "beyond begins at 2^(p + 1), by the difference's exponent"),
    (FloatDifference, "the difference is rounded to the width's floats"),
    (Widened, "the difference of singles is rounded to a double"),
    (First64, "only the difference's first 64 bits count"),
    (First128, "only the difference's first 128 bits count"),
    (SignsIgnored, "signs are ignored"),
    (SizesAdded, "sizes are added whatever the signs"),
    (RawLarger, "only where raw is the larger"),
    (TrimmedLarger, "only where trimmed is the larger"),
    (ByPatterns, "magnitudes are subtracted as patterns"),
    (HiddenLost, "normal readings lose their first bit"),
    (SubnormalTwice, "subnormal readings have twice their size"),
    (OperandsLost, "subnormal readings are taken for zero"),
    (ResultsLost, "a subnormal difference is taken for zero"),
    (OverflowWithin, "a difference beyond the largest finite value is within"),
    (ZerosApart, "-0 lies a least spacing below +0"),
    (RawUnasked, "raw isn't asked for the mark"),
    (TrimmedUnasked, "trimmed isn't asked for the mark"),
    (MissingBoth, "a place is missing only where both sides are"),
    (ZerosAlike, "the mark is compared by value"),
    (MarkUnsigned, "the mark is compared without its sign"),
    (MarkFirstHalf, "only the mark's first half is compared"),
    (MarkLastHalf, "only the mark's last half is compared"),
    (InfinitySized, "an infinity has a size, as its pattern"),
    (NanSized, "a NaN has a size, as its pattern"),
    (InfinityBeyond, "an infinity beside a finite reading is beyond"),
    (NanBeyond, "a NaN beside a finite reading is beyond"),
    (OppositeInfinities, "opposite infinities are beyond"),
    (LastPlace, "the last place is answered"),
    (PlaceFrom1, "places count from 1"),
    (PlaceOfPresent, "places with a missing reading don't count in the place"),
    (ZeroLost, "place 0 is taken for none"),
    (ReadBefore, "the number read leaves out the place found"),
    (ReadAll, "the number read is always the full length"),
    (ReadPresent, "places with a missing reading aren't counted as read"),
    (ReadFinite, "places with an infinity or a NaN aren't counted as read"),
    (ReadEights, "reading ends after a whole eight"),
    (ReadMore, "where there is none one more is counted as read"),
    (NoneRead0, "where there is none nothing is counted as read"),
    (NonePlaceN, "where there is none the place is the full length"),
    (NoneUnwritten, "where there is none the place isn't written"),
    (MissingStops, "a place with a missing reading ends the reading"),
    (NotFiniteStops, "a place with an infinity or a NaN ends the reading"),
    (TailLost, "only whole eights are compared"),
    (FirstSkipped, "place 0 isn't compared"),
    (BlockOnly, "only the first 65,536 places are compared"),
    (TwoFirst, "2 is asked before 10"),
    (ByFive, "unequal lengths are refused by 5"),
    (ShorterCounts, "of unequal lengths the shorter one counts"),
    (LongerTrimmed, "only a longer trimmed array is refused by 10"),
    (LongerRaw, "only a longer raw array is refused by 10"),
    (Lengths8, "lengths are compared in 8 bits"),
    (LeastRefused, "the least p is refused"),
    (LeastLess, "one less than the least p is accepted"),
    (MostRefused, "the largest p is refused"),
    (MostMore, "one more than the largest p is accepted"),
    (OtherRange, "p has the other width's range"),
    (P16, "p is asked in 16 bits"),
    (P8, "p is asked in 8 bits"),
    (EmptyUnasked, "2 isn't asked where there are no readings"),
    (RefusedWrites, "a refused call writes that there is none"),
    (HalfStep, "claim: absolute steps of at most 2^p leave nothing beyond 2^(p - 1)"),
];

/// What a run must have met, in each width, and how often at least. For some, each p has to show it.
#[derive(Clone, Copy)]
enum Met {
    Exact, More, Less, EachExact, EachMore, EachLess, Hidden, Tied, Rounded, Widely, Opposite, Overflow, Subnormal, Across, Zeros, Machine,
    RawGone, TrimmedGone, BothGone, NoNumber, FirstFound, LastFound, AfterIdle, Several, NoneFound, Nothing, Ten, Two, TenAndTwo,
    Trimmed, Moved, Unread,
}
use Met::*;
const MET: [(Met, &str, [u64; 2]); 32] = [
    (Exact, "pairs exactly 2^p apart", [5000; 2]),
    (More, "pairs one least spacing further apart", [2000; 2]),
    (Less, "pairs one least spacing less far apart", [2000; 2]),
    (EachExact, "values of p with pairs exactly 2^p apart, in both orders", [277, 2098]),
    (EachMore, "values of p with pairs beyond, by a spacing next to 2^p at most", [277, 2098]),
    (EachLess, "values of p with pairs within, by a spacing next to 2^p at most", [277, 2098]),
    (Hidden, "pairs beyond with a difference that the width's floats round to 2^p", [5000; 2]),
    (Tied, ".. and that is half-way", [500; 2]),
    (Rounded, "pairs less than 2^p apart with a difference that rounds to 2^p", [5000; 2]),
    (Widely, "pairs beyond with a difference that doubles round to 2^p", [1000; 2]),
    (Opposite, "pairs beyond, neither alone as large as 2^p", [2000; 2]),
    (Overflow, "pairs with a difference beyond the largest finite value", [200; 2]),
    (Subnormal, "pairs of subnormal readings beyond", [1000; 2]),
    (Across, "pairs beyond with a subnormal difference", [500; 2]),
    (Zeros, "pairs of opposite zeros", [100; 2]),
    (Machine, "pairs that the machine's floats judged too", [200_000; 2]),
    (RawGone, "places missing in raw alone, beyond without the mark", [1000; 2]),
    (TrimmedGone, "places missing in trimmed alone, beyond without the mark", [1000; 2]),
    (BothGone, "places missing in both", [1000; 2]),
    (NoNumber, "present places with an infinity or a NaN", [1000; 2]),
    (FirstFound, "arrays found at their first place", [1000; 2]),
    (LastFound, "arrays found at their last place, of several", [1000; 2]),
    (AfterIdle, "arrays found after a missing reading, an infinity or a NaN", [1000; 2]),
    (Several, "arrays with several places beyond", [1000; 2]),
    (NoneFound, "arrays with none", [1000; 2]),
    (Nothing, "arrays of no readings", [10; 2]),
    (Ten, "refusals by 10", [500; 2]),
    (Two, "refusals by 2", [500; 2]),
    (TenAndTwo, "refusals by 10 with p out of range", [200; 2]),
    (Trimmed, "arrays trimmed by absolute steps, with none beyond", [500; 2]),
    (Moved, "places that the trims moved", [5000; 2]),
    (Unread, "calls with memory that can't be read behind the place found", [1000; 2]),
];

struct Tally {
    seed: u64, turned: bool, calls: u64, compared: u64, lines: u32,
    first: (u64, String), // the first difference, and after how many comparisons
    met: [u64; MET.len()],
}
impl Draw for Tally { fn seed(&mut self) -> &mut u64 { &mut self.seed } }
impl Tally {
    fn new(turned: bool) -> Tally {
        Tally { seed: SEED, turned, calls: 0, compared: 0, lines: 0, first: (0, String::new()), met: [0; MET.len()] }
    }
    fn same(&mut self, got: u64, want: u64, told: impl FnOnce() -> String) {
        self.compared += 1;
        if got == want { return; }
        self.lines += 1;
        if self.lines > 1 && self.turned { return; }
        let line = format!("{} got {got:X} expected {want:X}", told());
        if !self.turned { println!("{line}"); }
        if self.lines == 1 { self.first = (self.compared, line); }
        if self.lines == 10 { exit(1); }
    }
    /// Whether a wrong model has been seen.
    fn over(&self) -> bool { self.turned && self.lines > 0 }
    fn meet(&mut self, what: Met, is: bool) { self.met[what as usize] += is as u64; }
    fn sign(&mut self, form: &Form, m: u64) -> u64 { m ^ (self.below(2) * form.sign) }
}

#[derive(Clone, Copy)]
struct Job { mark: u64, p: i32 }

/// What a place shows: whether a reading is missing there, whether one isn't finite, and whether the two lie beyond the limit.
#[derive(Clone, Copy, PartialEq)]
struct Seen { missing: bool, not_finite: bool, beyond: bool }
/// What the two arrays hold at a place.
#[derive(Clone, Copy)]
struct Pair { raw: u64, trimmed: u64, seen: Seen }

/// Request (c), with no rule or one rule turned.
struct Model { form: Form, turned: Option<Rule>, largest: Nat }
impl Model {
    fn new(form: Form, turned: Option<Rule>) -> Model { Model { largest: form.size(form.infinity - 1), form, turned } }
    fn is(&self, rule: Rule) -> bool { self.turned == Some(rule) }
    fn finite(&self, x: u64) -> bool { x % self.form.sign < self.form.infinity }
    fn nan(&self, x: u64) -> bool { x % self.form.sign > self.form.infinity }
    /// The exponent of 2^p, counted from the least spacing.
    fn unit(&self, p: i32) -> u32 { (p + self.form.deep) as u32 }
    /// The answer's number, by the lengths and p alone.
    fn refusal(&self, n_raw: usize, n_trimmed: usize, p: i32) -> u32 {
        let (mut least, mut most) = self.form.range(5);
        if self.is(OtherRange) { (least, most) = if self.form.f == 23 { (-1074, 1023) } else { (-149, 127) }; }
        least += self.is(LeastRefused) as i32 - self.is(LeastLess) as i32;
        most += self.is(MostMore) as i32 - self.is(MostRefused) as i32;
        let unequal = match self.turned {
            Some(ShorterCounts) => false,
            Some(LongerTrimmed) => n_trimmed > n_raw,
            Some(LongerRaw) => n_raw > n_trimmed,
            Some(Lengths8) => n_raw as u8 != n_trimmed as u8,
            _ => n_raw != n_trimmed,
        };
        let p = if self.is(P16) { p as i16 as i32 } else if self.is(P8) { p as i8 as i32 } else { p };
        let out = (p < least || p > most) && !(self.is(EmptyUnasked) && n_raw == 0);
        if out && (!unequal || self.is(TwoFirst)) { 2 } else if !unequal { 0 } else if self.is(ByFive) { 5 } else { 10 }
    }
    fn missing(&self, x: u64, mark: u64) -> bool {
        let half = (self.form.f + self.form.e + 1) / 2;
        match self.turned {
            Some(ZerosAlike) if mark % self.form.sign == 0 => x % self.form.sign == 0,
            Some(MarkUnsigned) => x % self.form.sign == mark % self.form.sign,
            Some(MarkFirstHalf) => x >> half == mark >> half,
            Some(MarkLastHalf) => x << (64 - half) == mark << (64 - half),
            _ => x == mark,
        }
    }
    /// The exact size in least spacings.
    fn size(&self, x: u64) -> Nat {
        let m = x % self.form.sign;
        match self.turned {
            Some(ByPatterns) => Nat::of(m),
            Some(HiddenLost) => Nat::of(m % (1 << self.form.f)).shl(self.form.spacing(m)),
            Some(SubnormalTwice) if m < 1 << self.form.f => Nat::of(2 * m),
            Some(OperandsLost) if m < 1 << self.form.f => Nat::of(0),
            _ => self.form.size(m),
        }
    }
    /// The distance between exact signed sizes.
    fn distance(&self, a: u64, b: u64) -> Nat {
        let (x, y, opposite) = (self.size(a), self.size(b), (a ^ b) >= self.form.sign);
        let distance = if self.is(SizesAdded) || opposite && !self.is(SignsIgnored) { x.add(&y) } else { apart(&x, &y) };
        let first = |bits: u32| { let cut = distance.bits().saturating_sub(bits); distance.shr(cut).shl(cut) };
        match self.turned {
            Some(First64) => first(64),
            Some(First128) => first(128),
            Some(ResultsLost) if distance.bits() <= self.form.f => Nat::of(0),
            Some(OverflowWithin) if distance.cmp(&self.largest).is_gt() => Nat::of(0),
            Some(ZerosApart) if opposite => distance.add(&Nat::of(1)),
            _ => distance,
        }
    }
    /// Whether finite readings so far apart lie beyond 2^p. Both sides are taken twice, so that half a least spacing is whole.
    fn beyond(&self, distance: &Nat, p: i32) -> bool {
        let (least, most) = self.form.range(5);
        let by = self.is(LimitTwice) as i32 - self.is(LimitHalf) as i32;
        let unit = p.clamp(least - 1, most + 1) + self.form.deep + by; // a wrong range takes one more on each side
        let (twice, limit) = (distance.times(2), Nat::of(1).shl((unit + 1) as u32));
        match self.turned {
            Some(AtLeast) => twice.cmp(&limit).is_ge(),
            Some(ByExponent) => twice.bits() > limit.bits(),
            _ => twice.cmp(&limit).is_gt(),
        }
    }
    /// What a place shows, and the distance where both sides are present and finite.
    fn seen(&self, raw: u64, trimmed: u64, Job { mark, p }: Job) -> (Seen, Option<Nat>) {
        let gone = [self.missing(raw, mark), self.missing(trimmed, mark)];
        let missing = match self.turned {
            Some(RawUnasked) => gone[1],
            Some(TrimmedUnasked) => gone[0],
            Some(MissingBoth) => gone[0] && gone[1],
            _ => gone[0] || gone[1],
        };
        let not_finite = [raw, trimmed].map(|x| !self.finite(x) && !self.is(if self.nan(x) { NanSized } else { InfinitySized }));
        if missing || not_finite[0] || not_finite[1] {
            let lone = if not_finite[0] { raw } else { trimmed };
            let beside = not_finite[0] != not_finite[1] && self.is(if self.nan(lone) { NanBeyond } else { InfinityBeyond });
            let opposite = self.is(OppositeInfinities) && (raw ^ trimmed) == self.form.sign && !self.nan(raw);
            return (Seen { missing, not_finite: not_finite[0] || not_finite[1], beyond: !missing && (beside || opposite) }, None);
        }
        let (distance, single) = (self.distance(raw, trimmed), |x: u64| f32::from_bits(x as u32));
        let beyond = match self.turned {
            Some(RawLarger) if self.form.moved(trimmed, raw).is_lt() => false,
            Some(TrimmedLarger) if self.form.moved(trimmed, raw).is_gt() => false,
            Some(FloatDifference) if self.form.f == 23 => (single(raw) - single(trimmed)).abs() as f64 > power(p),
            Some(FloatDifference) => (f64::from_bits(raw) - f64::from_bits(trimmed)).abs() > power(p),
            Some(Widened) => (single(raw) as f64 - single(trimmed) as f64).abs() > power(p),
            _ => self.beyond(&distance, p),
        };
        (Seen { missing, not_finite: false, beyond }, Some(distance))
    }
    /// What an accepted call writes.
    fn found(&self, pairs: &[Pair]) -> [u64; 3] {
        let n = pairs.len();
        let first = |is: fn(&Seen) -> bool| pairs.iter().position(|x| is(&x.seen)).unwrap_or(n);
        let end = match self.turned {
            Some(TailLost) => n / 8 * 8,
            Some(BlockOnly) => n.min(65_536),
            Some(MissingStops) => first(|x| x.missing),
            Some(NotFiniteStops) => first(|x| x.not_finite && !x.missing),
            _ => n,
        };
        let mut places = (self.is(FirstSkipped) as usize..end).filter(|&i| pairs[i].seen.beyond);
        let place = if self.is(LastPlace) { places.last() } else { places.next() };
        let Some(place) = place.filter(|&i| i > 0 || !self.is(ZeroLost)) else {
            let at = if self.is(NonePlaceN) { n as u64 } else if self.is(NoneUnwritten) { UNTOLD } else { 0 };
            return [0, at, if self.is(NoneRead0) { 0 } else { self.read(pairs, n) + self.is(ReadMore) as u64 }];
        };
        let idle = if self.is(PlaceOfPresent) { pairs[..place].iter().filter(|x| x.seen.missing).count() } else { 0 };
        [1, (place - idle + self.is(PlaceFrom1) as usize) as u64, self.read(pairs, place + 1)]
    }
    /// The number read, where reading ends before a place.
    fn read(&self, pairs: &[Pair], end: usize) -> u64 {
        let without = |is: fn(&Seen) -> bool| end - pairs[..end].iter().filter(|x| is(&x.seen)).count();
        (match self.turned {
            Some(ReadBefore) if pairs[..end].last().is_some_and(|x| x.seen.beyond) => end - 1,
            Some(ReadAll) => pairs.len(),
            Some(ReadPresent) => without(|x| x.missing),
            Some(ReadFinite) => without(|x| x.not_finite && !x.missing),
            Some(ReadEights) => end.next_multiple_of(8).min(pairs.len()),
            _ => end,
        }) as u64
    }
}

/// 2^p as a double.
fn power(p: i32) -> f64 { f64::from_bits(if p < -1022 { 1 << (p + 1074) } else { ((p + 1023) as u64) << 52 }) }
/// What the machine's floats say of finite readings: of the difference as a double, and of what it lost where it is 2^p itself.
fn machine(form: &Form, raw: u64, trimmed: u64, p: i32) -> bool {
    let value = |x: u64| if form.f == 23 { f32::from_bits(x as u32) as f64 } else { f64::from_bits(x) };
    let (x, y) = (value(raw), value(trimmed));
    let difference = x - y;
    if difference.abs() != power(p) { return difference.abs() > power(p); }
    let back = difference - x;
    let lost = (x - (difference - back)) + (-y - back);
    lost * difference.signum() > 0.0
}

/// A place of the arrays, by the model. Where no rule is turned, by the machine's floats too.
fn judge(t: &mut Tally, model: &Model, job: Job, raw: u64, trimmed: u64) -> Pair {
    let (seen, distance) = model.seen(raw, trimmed, job);
    if t.turned { return Pair { raw, trimmed, seen }; }
    let told = || format!("model, expected by the machine's floats: p {} readings {raw:X} {trimmed:X}", job.p);
    if let Some(distance) = distance {
        t.same(seen.beyond as u64, machine(&model.form, raw, trimmed, job.p) as u64, told);
        meet(t, model, job.p, [raw, trimmed], &distance);
    } else {
        let (gone, far) = ([raw, trimmed].map(|x| x == job.mark), model.finite(raw) && model.finite(trimmed));
        let far = far && model.beyond(&model.distance(raw, trimmed), job.p);
        t.meet(RawGone, gone == [true, false] && far);
        t.meet(TrimmedGone, gone == [false, true] && far);
        t.meet(BothGone, gone == [true, true]);
        t.meet(NoNumber, gone == [false, false]);
    }
    Pair { raw, trimmed, seen }
}
/// Notes what a pair of present finite readings shows.
fn meet(t: &mut Tally, model: &Model, p: i32, pair: [u64; 2], distance: &Nat) {
    let (form, unit) = (&model.form, model.unit(p));
    let (limit, one) = (Nat::of(1).shl(unit), Nat::of(1));
    let (to_limit, off) = (distance.cmp(&limit), apart(distance, &limit));
    // What rounds to 2^p lies less than half a spacing above, or a quarter below, where the next binade is finer; or exactly there.
    let rounds = |f: u32| unit > f && to_limit.is_gt() && off.cmp(&one.shl(unit - f - 1)).is_le();
    let rounds_up = unit > form.f + 1 && to_limit.is_lt() && off.cmp(&one.shl(unit - form.f - 2)).is_le();
    let sizes = pair.map(|x| x % form.sign);
    t.meet(Exact, to_limit.is_eq());
    t.meet(More, to_limit.is_gt() && off == one);
    t.meet(Less, to_limit.is_lt() && off == one);
    t.meet(Hidden, rounds(form.f));
    t.meet(Tied, rounds(form.f) && off == one.shl(unit - form.f - 1));
    t.meet(Rounded, rounds_up);
    t.meet(Widely, rounds(52));
    t.meet(Opposite, to_limit.is_gt() && sizes.iter().all(|&m| form.size(m).cmp(&limit).is_lt()));
    t.meet(Overflow, distance.cmp(&model.largest).is_gt());
    t.meet(Subnormal, to_limit.is_gt() && sizes.iter().all(|&m| m < 1 << form.f));
    t.meet(Across, to_limit.is_gt() && distance.bits() <= form.f);
    t.meet(Zeros, pair[0] ^ pair[1] == form.sign && sizes[0] == 0);
    t.meet(Machine, true);
}

const UNTOLD: u64 = 0x5A5A_1234_5A5A_4321; // what stands in `found` and beside it before a call

/// One call against the model: its answer, the three numbers, and what stands before and behind them.
fn call<T: Pattern>(t: &mut Tally, model: &Model, job: Job, raw: (*const T, usize), trimmed: (*const T, usize), pairs: &[Pair]) {
    let mut found = [UNTOLD; 5];
    let at = unsafe { found.as_mut_ptr().add(1) };
    let answer = unsafe { T::BEYOND(raw.0, raw.1, trimmed.0, trimmed.1, T::of(job.mark), job.p, at) };
    t.calls += 1;
    let refusal = model.refusal(raw.1, trimmed.1, job.p);
    let [is, place, read] = if refusal == 0 { model.found(pairs) } else if model.is(RefusedWrites) { [0; 3] } else { [UNTOLD; 3] };
    let told = |what: &str| {
        let shown = |i: u64| pairs.get(i as usize).map_or(String::new(), |x| format!(" at {i} {:X} {:X};", x.raw, x.trimmed));
        let other = if found[2] == place { String::new() } else { shown(found[2]) };
        format!("{what}: p {} mark {:X}, {} and {} readings;{}{other}", job.p, job.mark, raw.1, trimmed.1, shown(place))
    };
    t.same(answer as u64, refusal as u64, || told("answer"));
    let names = ["before found", "found", "place", "read", "behind found"];
    for (i, want) in [UNTOLD, is, place, read, UNTOLD].into_iter().enumerate() { t.same(found[i], want, || told(names[i])); }
    if t.turned { return; }
    t.meet(Ten, refusal == 10);
    t.meet(Two, refusal == 2);
    t.meet(TenAndTwo, refusal == 10 && model.refusal(0, 0, job.p) == 2);
    if refusal != 0 { return; }
    let (n, place) = (pairs.len() as u64, place as usize);
    t.meet(Nothing, n == 0);
    t.meet(NoneFound, is == 0 && n > 0);
    if is == 0 { return; }
    t.meet(FirstFound, place == 0);
    t.meet(LastFound, place > 0 && read == n);
    t.meet(AfterIdle, pairs[..place].iter().any(|x| x.seen.missing || x.seen.not_finite));
    t.meet(Several, pairs[place + 1..].iter().any(|x| x.seen.beyond));
}

/// Two arrays as they are lent. About them stand readings that lie beyond every limit.
struct Lent<T> { cells: [Vec<T>; 2], fronts: [usize; 2], pairs: Vec<Pair> }
impl<T: Pattern> Lent<T> {
    fn new(t: &mut Tally, form: &Form, pairs: &[Pair]) -> Lent<T> {
        let fronts = [1 + t.below(8) as usize, 1 + t.below(8) as usize]; // any alignment
        let mut lent = Lent { cells: [vec![], vec![]], fronts, pairs: pairs.to_vec() };
        lent.cells = [0, 1].map(|k| lent.sound(form, k));
        lent
    }
    /// What an array and its surroundings have to hold.
    fn sound(&self, form: &Form, k: usize) -> Vec<T> {
        let guard = T::of(form.infinity - 1 + k as u64 * form.sign);
        let own = self.pairs.iter().map(|x| T::of([x.raw, x.trimmed][k]));
        vec![guard; self.fronts[k]].into_iter().chain(own).chain([guard; 9]).collect()
    }
    fn put(&mut self, at: usize, pair: Pair) -> Pair {
        for (k, x) in [pair.raw, pair.trimmed].into_iter().enumerate() { self.cells[k][self.fronts[k] + at] = T::of(x); }
        std::mem::replace(&mut self.pairs[at], pair)
    }
    /// A call on a part of the arrays. Where it is empty it is a place between others, or one with no memory at all.
    fn ask(&self, t: &mut Tally, model: &Model, job: Job, part: Range<usize>) {
        let [raw, trimmed] = [0, 1].map(|k| {
            let (at, none) = (self.fronts[k] + part.start, part.is_empty() && self.fronts[k] % 2 == 0);
            (if none { NonNull::dangling().as_ptr() as *const T } else { self.cells[k][at..].as_ptr() }, part.len())
        });
        call(t, model, job, raw, trimmed, &self.pairs[part]);
    }
    fn ask_all(&self, t: &mut Tally, model: &Model, job: Job) { self.ask(t, model, job, 0..self.pairs.len()); }
    /// That no call wrote to the arrays or beside them.
    fn check(&self, t: &mut Tally, form: &Form) {
        for (k, cells) in self.cells.iter().enumerate() {
            for (i, (&got, want)) in cells.iter().zip(self.sound(form, k)).enumerate() {
                t.same(got.into(), want.into(), || format!("array {k} from {}, after the calls: at {i}", self.fronts[k]));
            }
        }
    }
}

/// Calls on each pair alone, and on the array from each place after one that is beyond; then on those that are within, with some that are
/// beyond at any place among them, one at a time.
fn every_pair<T: Pattern>(t: &mut Tally, model: &Model, job: Job, pairs: &[Pair]) {
    let all: Lent<T> = Lent::new(t, &model.form, pairs);
    let mut from = 0;
    for (i, pair) in pairs.iter().enumerate() {
        if t.over() { return; }
        all.ask(t, model, job, i..i + 1);
        if !pair.seen.beyond && i + 1 < pairs.len() { continue; }
        all.ask(t, model, job, from..pairs.len());
        from = i + 1;
    }
    all.check(t, &model.form);
    let (beyond, within): (Vec<Pair>, Vec<Pair>) = pairs.iter().partition(|x| x.seen.beyond);
    let mut lent: Lent<T> = Lent::new(t, &model.form, &within);
    lent.ask_all(t, model, job);
    for pair in beyond.iter().copied().step_by(1 + beyond.len() / 80) {
        if t.over() || within.is_empty() { break; }
        let at = t.below(within.len() as u64) as usize;
        let old = lent.put(at, pair);
        lent.ask_all(t, model, job);
        lent.put(at, old);
    }
    lent.check(t, &model.form);
}

/// The largest magnitude that isn't above a size.
fn floor(form: &Form, size: &Nat) -> u64 {
    let e = size.bits().saturating_sub(form.f);
    let m = ((e as u64) << form.f) + size.shr(e.max(1) - 1).low() % (1 << form.f);
    m.min(form.infinity - 1)
}
/// Readings in their order: a whole number for each, and one for both zeros.
fn order(form: &Form, x: u64) -> i64 { if x < form.sign { x as i64 } else { -((x - form.sign) as i64) } }
fn at_order(t: &mut Tally, form: &Form, order: i64) -> u64 {
    let m = order.unsigned_abs().min(form.infinity - 1);
    if m == 0 { t.sign(form, 0) } else { m + form.sign * (order < 0) as u64 }
}
/// Where the reading 2^unit above or below lies in the order; where there is none, the next on the side of zero.
fn off(form: &Form, x: u64, unit: u32, up: bool) -> i64 {
    let (size, step) = (form.size(x % form.sign), Nat::of(1).shl(unit));
    let away = (x < form.sign) == up;
    let crosses = !away && size.cmp(&step).is_lt();
    let m = floor(form, &if away { size.add(&step) } else { apart(&size, &step) }) as i64;
    if (x >= form.sign) != crosses { -m } else { m }
}
/// Magnitudes from which 2^p is taken off or added: powers of two and their neighbours where a difference's last bits fall out of a float,
/// the ends, and some of any exponent about 2^p, or below it.
fn starts(t: &mut Tally, form: &Form, unit: u32) -> Vec<u64> {
    let (f, u, top) = (form.f as i64, unit as i64, form.infinity - 1);
    let mut out = vec![0, 1, top, top - 1];
    for v in [u - 2 * f - 2, u - f - 2, u - f - 1, u - f, u - 2, u - 1, u, u + 1, u + f - 1, u + f, u + f + 1] {
        let m = if v < 0 { 0 } else { floor(form, &Nat::of(1).shl(v as u32)) };
        out.extend([m.saturating_sub(1), m, (m + 1).min(top)]);
    }
    for i in 0..14 {
        let least = if i < 10 { -f - 3 } else { -u };
        let e = (u - f + 1 + t.from(least, f + 3)).clamp(0, (1 << form.e) - 2) as u64;
        out.push((e << form.f) + t.below(1 << form.f));
    }
    out
}
/// Pairs about 2^p apart: exactly, and by the smallest steps more and less.
fn at_limit(t: &mut Tally, form: &Form, unit: u32) -> Vec<[u64; 2]> {
    let mut out = vec![];
    for m in starts(t, form, unit) {
        let x = t.sign(form, m);
        for up in [false, true] {
            let by = off(form, x, unit, up);
            for step in -2..=2 { out.push([x, at_order(t, form, by + step)]); }
        }
    }
    out
}
/// A finite reading: of an exponent about 2^p, or any, or at an end.
fn reading(t: &mut Tally, form: &Form, unit: u32) -> u64 {
    let (one, f, few) = (1u64 << form.f, form.f as i64, t.below(4));
    let near = |wide: i64, t: &mut Tally| (unit as i64 - f + 1 + t.from(-wide, wide)).clamp(0, (1 << form.e) - 2) as u64;
    let any = t.below(one);
    let m = match t.below(12) {
        0 => t.below(form.infinity),
        1 => few,
        2 => one - 1 - few,
        3 => one + few,
        4 => form.infinity - 1 - few,
        5 => t.below(one),
        6 | 7 => (near(f + 3, t) << form.f) + t.pick(&[any, any, 0, one - 1]),
        8 => (near(80, t) << form.f) + any,
        _ => (near(2, t) << form.f) + t.pick(&[any, any, 0, 1, one - 1]),
    };
    t.sign(form, m)
}
/// Any pairs: of unlike exponents, neighbours, equal and opposite ones.
fn awkward(t: &mut Tally, form: &Form, unit: u32) -> [u64; 2] {
    let x = reading(t, form, unit);
    let by = t.from(-3, 3);
    let y = match t.below(8) {
        0 => x,
        1 => x ^ form.sign,
        2 => at_order(t, form, order(form, x) + by),
        3 => { let to = off(form, x, unit, by > 0); at_order(t, form, to + by) }
        _ => reading(t, form, unit),
    };
    [x, y]
}
/// A mark that no such pair is likely to hold.
fn other_mark(t: &mut Tally, form: &Form) -> u64 {
    let (nan, any) = (form.infinity + (1 << (form.f - 1)), t.random() & form.all);
    t.pick(&[nan, nan, form.all, form.infinity, any])
}
/// Each p: pairs about 2^p apart and any others, in both orders.
fn each_p<T: Pattern>(t: &mut Tally, model: &Model, p: i32) {
    let (form, job) = (&model.form, Job { mark: other_mark(t, &model.form), p });
    let unit = model.unit(p);
    let mut pairs = at_limit(t, form, unit);
    for _ in 0..80 { pairs.push(awkward(t, form, unit)); }
    let mut each = [true; 3];
    for order in [0, 1] {
        let before = t.met;
        let judged: Vec<Pair> = pairs.iter().map(|x| judge(t, model, job, x[order], x[1 - order])).collect();
        each[0] &= t.met[Exact as usize] > before[Exact as usize];
        every_pair::<T>(t, model, job, &judged);
    }
    // From zero the next readings beyond and within are those beside 2^p.
    let beside = |by: i64| pairs.iter().any(|x| order(form, x[0]) == 0 && order(form, x[1]) == off(form, 0, unit, true) + by);
    (each[1], each[2]) = (beside(1), beside(-1));
    for (what, is) in [EachExact, EachMore, EachLess].into_iter().zip(each) { t.meet(what, is && !t.turned); }
}

/// Patterns of each kind.
fn kinds(t: &mut Tally, form: &Form, unit: u32) -> Vec<u64> {
    let (one, top, sign) = (1u64 << form.f, form.infinity, form.sign);
    let (x, payload) = (reading(t, form, unit), 1 + t.below(one / 2 - 1));
    let numbers = [0, sign, 1, sign + 1, one - 1, one, x, x ^ sign, top - 1, sign + top - 1];
    let others = [top, sign + top, top + one / 2, form.all, top + 1, sign + top + payload, top + one / 2 + payload, sign + top + one / 2 - 1];
    numbers.into_iter().chain(others).collect()
}
/// Missing readings, infinities and NaNs, on either side or both, by a mark of each kind, and patterns that differ from it by a bit.
fn every_kind<T: Pattern>(t: &mut Tally, model: &Model, p: i32) {
    let (form, unit) = (&model.form, model.unit(p));
    let mut marks = kinds(t, form, unit);
    marks.push(reading(t, form, unit));
    for mark in marks {
        if t.over() { return; }
        let mut all = kinds(t, form, unit);
        all.extend([mark, mark, mark ^ 1, mark ^ form.sign, mark ^ 1 << (form.f / 2), mark ^ 1 << (form.f - 1), mark ^ 1 << form.f]);
        let mut pairs = vec![];
        for &x in &all { for &y in &all { pairs.push(judge(t, model, Job { mark, p }, x, y)); } }
        every_pair::<T>(t, model, Job { mark, p }, &pairs);
    }
}

/// Pairs for arrays, by what they show.
struct Pool { job: Job, within: Vec<Pair>, idle: Vec<Pair>, beyond: Vec<Pair> }
fn pool(t: &mut Tally, model: &Model) -> Pool {
    let (form, (least, most)) = (&model.form, model.form.range(5));
    let p = [t.from(least as i64, most as i64) as i32, t.from(-20, 20) as i32, least, most];
    let p = t.pick(&p);
    let some = kinds(t, form, model.unit(p));
    let job = Job { mark: t.pick(&some), p };
    let unit = model.unit(p);
    let mut pairs = at_limit(t, form, unit);
    for _ in 0..60 {
        let (x, mark) = (reading(t, form, unit), job.mark);
        let (y, z) = (t.pick(&some), reading(t, form, unit));
        pairs.extend([[x, x], [x, z], [x, mark], [mark, x], [mark, mark], [x, y], [y, x]]);
    }
    let judged: Vec<Pair> = pairs.iter().map(|x| judge(t, model, job, x[0], x[1])).collect();
    let those = |is: fn(&Seen) -> bool| -> Vec<Pair> { judged.iter().copied().filter(|x| is(&x.seen)).collect() };
    let mut within = those(|x| !x.beyond && !x.missing && !x.not_finite);
    if within.is_empty() { within = those(|_| true); } // as a wrong model may have it
    Pool { job, within, idle: those(|x| (x.missing || x.not_finite) && !x.beyond), beyond: those(|x| x.beyond) }
}
/// So many places that are within, and in so many one that is idle; none in 0.
fn strewn(t: &mut Tally, pool: &Pool, n: usize, one_in: u64) -> Vec<Pair> {
    let idle = |t: &mut Tally| one_in > 0 && !pool.idle.is_empty() && t.below(one_in) == 0;
    (0..n).map(|_| if idle(t) { t.pick(&pool.idle) } else { t.pick(&pool.within) }).collect()
}
/// An array of one length: with none beyond, with one at each place or at the ends of blocks, and with several.
fn length<T: Pattern>(t: &mut Tally, model: &Model, n: usize) {
    if t.over() { return; }
    let pool = pool(t, model);
    let one_in = t.pick(&[0, 30, 5, 2, 1]);
    let pairs = strewn(t, &pool, n, one_in);
    let mut lent: Lent<T> = Lent::new(t, &model.form, &pairs);
    lent.ask_all(t, model, pool.job);
    let ends = [8, 16, 32, 64, 128, 256, 512, 1024, 2048, 4096, 65_536, n, n / 8 * 8, n / 64 * 64, n / 1024 * 1024];
    let near = ends.iter().flat_map(|x| x.saturating_sub(2)..x + 2).chain([0, n / 2]);
    let places: Vec<usize> = if n < 71 { (0..n).collect() } else { near.collect() };
    for at in places.into_iter().filter(|&at| at < n && !pool.beyond.is_empty()) {
        if t.over() { return; }
        let old = lent.put(at, t.pick(&pool.beyond));
        lent.ask_all(t, model, pool.job);
        // One more at a later place, which must not count.
        let later = at + t.below((n - at) as u64) as usize;
        let other = lent.put(later, t.pick(&pool.beyond));
        lent.ask_all(t, model, pool.job);
        lent.put(later, other);
        lent.put(at, old);
    }
    for at in 0..n { if t.below(9) == 0 && !pool.beyond.is_empty() { lent.put(at, t.pick(&pool.beyond)); } }
    lent.ask_all(t, model, pool.job);
    lent.check(t, &model.form);
}
/// Lengths about those of blocks.
fn lengths<T: Pattern>(t: &mut Tally, model: &Model) {
    let blocks = [96, 128, 192, 256, 384, 512, 1024, 2048, 4096];
    for n in (0..71).chain(blocks.iter().flat_map(|n| n - 1..n + 2)).chain([1000, 3000, 5000]) { length::<T>(t, model, n); }
    let any = t.below(6000) as usize;
    length::<T>(t, model, any);
}
/// One array given twice, arrays of nothing but missing readings, and of one pair throughout.
fn alike<T: Pattern>(t: &mut Tally, model: &Model) {
    let form = &model.form;
    for n in [0, 1, 2, 3, 7, 8, 9, 31, 64, 65, 257, 1000] {
        if t.over() { return; }
        let pool = pool(t, model);
        let (job, unit) = (pool.job, model.unit(pool.job.p));
        let some = kinds(t, form, unit);
        let any = |t: &mut Tally| { let x = [t.pick(&some), reading(t, form, unit), job.mark]; t.pick(&x) };
        let mut pairs = vec![];
        for _ in 0..n { let x = any(t); pairs.push(judge(t, model, job, x, x)); }
        let lent: Lent<T> = Lent::new(t, form, &pairs);
        let once = (lent.cells[0][lent.fronts[0]..].as_ptr(), n);
        call(t, model, job, once, once, &pairs);
        lent.ask_all(t, model, job);
        lent.check(t, form);
        for x in some.into_iter().chain([job.mark]) {
            let pair = judge(t, model, job, x, x);
            let lent: Lent<T> = Lent::new(t, form, &vec![pair; n]);
            lent.ask_all(t, model, job);
            lent.check(t, form);
        }
    }
}

/// Lengths that differ, and p just inside and outside of the range; both at once.
fn refusals<T: Pattern>(t: &mut Tally, model: &Model) {
    let (form, (least, most)) = (&model.form, model.form.range(5));
    let far = [0, form.sign + form.infinity - 1];
    let inside = [least, least + 1, -1, 0, 1, most - 1, most];
    let outside = [least - 1, most + 1, i32::MIN, i32::MAX, least - 2, most + 2, i32::MIN + 1, i32::MAX - 1, 65_536, -65_536, 1 << 24, 2304];
    let small = (0..10).flat_map(|a| (0..10).map(move |b| (a, b)));
    let alike_in_8_bits = [(0, 256), (256, 0), (1, 257), (257, 1), (300, 44), (16, 17), (64, 63), (0, 65_536), (65_537, 1), (3, 65_539)];
    for (n_raw, n_trimmed) in small.chain(alike_in_8_bits) {
        let some = if n_raw.max(n_trimmed) > 999 { [least + 1, most + 1].to_vec() } else { inside.into_iter().chain(outside).collect() };
        for p in some {
            if t.over() { return; }
            let job = Job { mark: other_mark(t, form), p };
            let pair = judge(t, model, Job { p: p.clamp(least, most), ..job }, far[0], far[1]);
            let lent: Lent<T> = Lent::new(t, form, &vec![pair; n_raw.max(n_trimmed)]);
            let [raw, trimmed] = [0, 1].map(|k| lent.cells[k][lent.fronts[k]..].as_ptr());
            call(t, model, job, (raw, n_raw), (trimmed, n_trimmed), &lent.pairs[..n_raw.min(n_trimmed)]);
            lent.check(t, form);
        }
    }
    for p in -1400..1400 {
        if t.over() { return; }
        let job = Job { mark: form.all, p };
        let pair = judge(t, model, Job { p: p.clamp(least, most), ..job }, far[0], far[1]);
        let lent: Lent<T> = Lent::new(t, form, &[pair; 3]);
        for n in [0, 1, 3] { lent.ask(t, model, job, 0..n); }
    }
}

/// What raw data is compared for before it is wiped: absolute roundings with steps of at most 2^p leave nothing beyond 2^p. Other trims are
/// compared with the model, at a p about their unit.
fn trimmed<T: Pattern>(t: &mut Tally, model: &Model) {
    let (form, (least, most)) = (&model.form, model.form.range(5));
    let p = [t.from(least as i64, most as i64) as i32, t.from(-20, 20) as i32, t.from(most as i64 - 3, most as i64) as i32, least + 1];
    let p = t.pick(&p);
    let unit = model.unit(p);
    let some = kinds(t, form, unit);
    let (multiple, any) = (floor(form, &Nat::of(1 + t.below(9)).shl(unit)), t.pick(&some));
    let mark = t.pick(&[any, multiple, multiple + form.sign, 0, form.sign]);
    let n = t.pick(&[1, 3, 16, 60, 200]);
    let mut began = vec![];
    for _ in 0..n {
        let at = [reading(t, form, unit), reading(t, form, unit), reading(t, form, unit), t.pick(&some), mark];
        began.push(t.pick(&at));
    }
    let (absolute, mut counts) = (t.below(4) > 0, [0; 6]);
    let mut left: Vec<T> = began.iter().map(|&x| T::of(x)).collect();
    let mut trim = |t: &mut Tally, method: u32, setting: i32| {
        let answer = unsafe { T::TRIM(left.as_mut_ptr(), n, method, setting, T::of(mark), counts.as_mut_ptr()) };
        t.same(answer as u64, 0, || format!("trim: method {method} setting {setting}"));
    };
    if absolute {
        for finer in [t.below(3) as i32, 1, 0] { if finer == 0 || t.below(2) == 0 { trim(t, 5, (p - finer).max(least)); } }
    } else {
        let (method, k) = (t.below(5) as u32, t.below(form.f as u64 + 1) as i32);
        trim(t, method, k);
    }
    let job = Job { mark, p };
    let mut pairs = vec![];
    for (&x, &y) in began.iter().zip(&left) { pairs.push(judge(t, model, job, x, y.into())); }
    t.met[Moved as usize] += pairs.iter().filter(|x| x.raw != x.trimmed).count() as u64;
    let lent: Lent<T> = Lent::new(t, form, &pairs);
    lent.ask_all(t, model, job);
    lent.check(t, form);
    if !absolute { return; }
    // The claim leans on no judgement of the model's.
    let p = if model.is(HalfStep) { (p - 1).max(least) } else { p };
    let mut found = [UNTOLD; 3];
    let raw = lent.cells[0][lent.fronts[0]..].as_ptr();
    let answer = unsafe { T::BEYOND(raw, n, left.as_ptr(), n, T::of(mark), p, found.as_mut_ptr()) };
    let told = |what: &str| format!("after absolute steps, {what}: p {p} mark {mark:X} place {} of {n};", found[1]);
    t.same(answer as u64, 0, || told("answer"));
    for (i, want) in [0, 0, n as u64].into_iter().enumerate() { t.same(found[i], want, || told(["found", "place", "read"][i])); }
    t.meet(Trimmed, true);
}

/// A page with a page behind it that can't be read: a call that reads on ends this program.
struct Edge { at: *mut u8 }
impl Edge {
    const PAGE: usize = 65_536; // a multiple of any page's size
    fn new() -> Edge {
        let at = unsafe { mmap(std::ptr::null_mut(), 2 * Edge::PAGE, 3, 0x22, -1, 0) }; // to read and write; private, of no file
        assert!(at as isize != -1 && unsafe { mprotect(at.add(Edge::PAGE), Edge::PAGE, 0) } == 0, "no memory for a page that can't be read");
        Edge { at }
    }
    /// The readings, as the last ones that can be read.
    fn put<T: Pattern>(&self, readings: &[T]) -> *const T {
        let to = unsafe { self.at.add(Edge::PAGE - std::mem::size_of_val(readings)) } as *mut T;
        unsafe { std::ptr::copy_nonoverlapping(readings.as_ptr(), to, readings.len()) };
        to
    }
}
impl Drop for Edge { fn drop(&mut self) { unsafe { munmap(self.at, 2 * Edge::PAGE) }; } }
/// "though reading stops early": nothing behind the place found is read, in either array. Not with a wrong model, by which a place may be no end.
fn unread<T: Pattern>(t: &mut Tally, model: &Model) {
    if t.turned { return; }
    let (edges, pool) = ([Edge::new(), Edge::new()], pool(t, model));
    for place in (0..80).chain([127, 128, 511, 512, 1023, 4095]) {
        if pool.beyond.is_empty() { return; }
        let mut pairs = strewn(t, &pool, place, 9);
        pairs.push(t.pick(&pool.beyond));
        let own = [0, 1].map(|k| edges[k].put(&pairs.iter().map(|x| T::of([x.raw, x.trimmed][k])).collect::<Vec<T>>()));
        for n in [place + 2, place + 100, 1 << 40] {
            let mut found = [UNTOLD; 3];
            let answer = unsafe { T::BEYOND(own[0], n, own[1], n, T::of(pool.job.mark), pool.job.p, found.as_mut_ptr()) };
            t.same(answer as u64, 0, || format!("answer: place {place} of {n}, of which no more can be read"));
            for (i, want) in model.found(&pairs).into_iter().enumerate() { t.same(found[i], want, || format!("number {i}: place {place} of {n}, of which no more can be read")); }
            t.meet(Unread, true);
        }
    }
}

type Case = (&'static str, u64, i32, &'static [[u64; 2]], [u64; 3]);
const GONE: u64 = 0x7CF00000;
/// By the words of the request: what is shown, the mark, p, the pairs, and what is found.
const SINGLES: [Case; 24] = [
    ("exactly 2^p apart", GONE, 0, &[[0x3F800000, 0x40000000]], [0, 0, 1]),
    ("a spacing more", GONE, 0, &[[0x3F800000, 0x40000001]], [1, 0, 1]),
    ("a spacing less", GONE, 0, &[[0x3F800000, 0x3FFFFFFF]], [0, 0, 1]),
    ("2^p and the least reading below zero", GONE, 0, &[[0x3F800000, 0x80000001]], [1, 0, 1]),
    ("2^p and the least reading above zero", GONE, 0, &[[0x3F800000, 0x00000001]], [0, 0, 1]),
    ("exactly 2^p apart, with opposite signs", GONE, 0, &[[0x3F000000, 0xBF000000]], [0, 0, 1]),
    ("half a spacing more, with opposite signs", GONE, 0, &[[0x3F000000, 0xBF000001]], [1, 0, 1]),
    ("the largest and its opposite", GONE, 127, &[[0x7F7FFFFF, 0xFF7FFFFF]], [1, 0, 1]),
    ("the largest and zero", GONE, 127, &[[0x7F7FFFFF, 0x80000000]], [1, 0, 1]),
    ("2^127 and zero", GONE, 127, &[[0x7F000000, 0x00000000]], [0, 0, 1]),
    ("neighbours", GONE, -149, &[[0x00000001, 0x00000002]], [0, 0, 1]),
    ("neighbours of zero", GONE, -149, &[[0x00000001, 0x80000001]], [1, 0, 1]),
    ("two zeros", GONE, -149, &[[0x80000000, 0x00000000]], [0, 0, 1]),
    ("neighbours in the second binade of normal readings", GONE, -149, &[[0x01000000, 0x01000001]], [1, 0, 1]),
    ("neighbours across the end of the subnormal readings", GONE, -149, &[[0x007FFFFF, 0x00800000]], [0, 0, 1]),
    ("no readings", GONE, 0, &[], [0, 0, 0]),
    ("infinities and NaNs", GONE, -149, &[[0x7F800000, 0xFF800000], [0x7F800000, 0], [0x40490FDB, 0x7FC00000], [0xFF800001, 0]], [0, 0, 4]),
    ("missing on either side", GONE, -149, &[[GONE, 0], [0x3F800000, GONE], [GONE, GONE], [0, 0x3F800000]], [1, 3, 4]),
    ("the mark by its bits", GONE, 0, &[[0x7CF00001, 0], [0, 0x40490FDB]], [1, 0, 1]),
    ("-0 beside a mark +0", 0, -1, &[[0, 0x3F800000], [0x80000000, 0x3F800000]], [1, 1, 2]),
    ("+0 beside a mark -0", 0x80000000, -1, &[[0x3F800000, 0x80000000], [0x3F800000, 0]], [1, 1, 2]),
    ("the first counts", GONE, 0, &[[0, 0x3F800000], [0, 0x40800000], [0, 0x41000000]], [1, 1, 2]),
    ("the last is read too", GONE, 0, &[[0, 0], [GONE, 0x40800000], [0x7F800000, 0]], [0, 0, 3]),
    ("trimmed by more than a quarter", GONE, -2, &[[0x40490FDB, 0x40490000], [0x40490FDB, 0x40400000], [0x40490FDB, 0x40600000]], [1, 2, 3]),
];
const WIDE_GONE: u64 = 0x479E000000000000;
const DOUBLES: [Case; 12] = [
    ("exactly 2^p apart", WIDE_GONE, 0, &[[0x3FF0000000000000, 0x4000000000000000]], [0, 0, 1]),
    ("a spacing more", WIDE_GONE, 0, &[[0x3FF0000000000000, 0x4000000000000001]], [1, 0, 1]),
    ("a spacing less", WIDE_GONE, 0, &[[0x3FF0000000000000, 0x3FFFFFFFFFFFFFFF]], [0, 0, 1]),
    ("2^p and the least reading below zero", WIDE_GONE, 0, &[[0x3FF0000000000000, 0x8000000000000001]], [1, 0, 1]),
    ("half a spacing more, with opposite signs", WIDE_GONE, 0, &[[0x3FE0000000000000, 0xBFE0000000000001]], [1, 0, 1]),
    ("the largest and its opposite", WIDE_GONE, 1023, &[[0x7FEFFFFFFFFFFFFF, 0xFFEFFFFFFFFFFFFF]], [1, 0, 1]),
    ("2^1023 and the least reading below zero", WIDE_GONE, 1023, &[[0x7FE0000000000000, 0], [0x7FE0000000000000, 1 << 63 | 1]], [1, 1, 2]),
    ("neighbours of zero", WIDE_GONE, -1074, &[[0x0000000000000001, 0], [0x0000000000000001, 0x8000000000000001]], [1, 1, 2]),
    ("no readings", WIDE_GONE, -1074, &[], [0, 0, 0]),
    ("what is missing or no number", WIDE_GONE, -1074, &[[0x7FF << 52, 0], [0, 0xFFF << 52 | 1], [WIDE_GONE, 0], [0, WIDE_GONE]], [0, 0, 4]),
    ("-0 beside a mark +0", 0, -1, &[[0, 0x3FF0000000000000], [1 << 63, 0x3FF0000000000000]], [1, 1, 2]),
    ("the mark by all its bits", 0x4009200000000000, 1, &[[0x4009200000000000, 0], [0x4009200000000001, 0]], [1, 1, 2]),
];
fn cases<T: Pattern>(t: &mut Tally, model: &Model) {
    for &(name, mark, p, patterns, found) in if model.form.f == 23 { &SINGLES[..] } else { &DOUBLES[..] } {
        let job = Job { mark, p };
        for order in [0, 1] {
            let pairs: Vec<Pair> = patterns.iter().map(|x| judge(t, model, job, x[order], x[1 - order])).collect();
            let lent: Lent<T> = Lent::new(t, &model.form, &pairs);
            lent.ask_all(t, model, job);
            let own = model.found(&pairs);
            if !t.turned { (0..3).for_each(|i| t.same(own[i], found[i], || format!("model, {name}: number {i}"))); }
        }
    }
}

const ROUNDS: i32 = 16;
/// Everything, in rounds with some values of p each, so that a wrong model is seen soon.
fn run<T: Pattern>(form: Form, turned: Option<Rule>) -> Tally {
    let (mut tally, model) = (Tally::new(turned.is_some()), &Model::new(form, turned));
    let (t, (least, most)) = (&mut tally, model.form.range(5));
    cases::<T>(t, model);
    refusals::<T>(t, model);
    for round in 0..ROUNDS {
        if t.over() { break; }
        lengths::<T>(t, model);
        alike::<T>(t, model);
        unread::<T>(t, model);
        for _ in 0..200 { if !t.over() { trimmed::<T>(t, model); } }
        let any = t.from(least as i64, most as i64) as i32;
        for p in [any, t.pick(&[least, most, 0])] { every_kind::<T>(t, model, p); }
        if round == 0 { for n in [65_535, 65_536, 65_537, 131_073] { length::<T>(t, model, n); } }
        for p in (least..=most).filter(|p| (p - least) % ROUNDS == round) { if !t.over() { each_p::<T>(t, model, p); } }
    }
    tally
}
fn width(f: u32, turned: Option<Rule>) -> Tally {
    if f == 23 { run::<u32>(Form::new(23, 8), turned) } else { run::<u64>(Form::new(52, 11), turned) }
}
const WIDTHS: [(u32, &str); 2] = [(23, "singles"), (52, "doubles")];

/// Turns each rule and the claim. Answers how many were not seen.
fn self_test() -> u32 {
    let (mut models, mut unseen) = (0, 0);
    for (rule, name) in TURNED {
        for (f, of) in WIDTHS.into_iter().filter(|x| x.0 == 23 || rule != Widened) {
            let (after, told) = width(f, Some(rule)).first;
            models += 1;
            unseen += (after == 0) as u32;
            let seen = if after == 0 { "NOT SEEN".to_string() } else { format!("seen after {after} comparisons: {told}") };
            println!("turned, {name}, {of}: {seen}");
        }
    }
    println!("self-test: {models} wrong models or claims, {unseen} not seen");
    unseen
}
/// Prints what was compared and met. Answers whether something was met too seldom.
fn report(tallies: &[Tally]) -> bool {
    let row = |what: &str, counts: &[u64]| println!("{what:<74} {:>10} {:>10}", counts[0], counts[1]);
    let all = |of: fn(&Tally) -> u64| tallies.iter().map(of).collect::<Vec<u64>>();
    println!("\n{:<74} {:>10} {:>10}", "", "singles", "doubles");
    row("calls", &all(|t| t.calls));
    row("comparisons", &all(|t| t.compared));
    let mut few = false;
    for (what, name, least) in MET {
        let counts: Vec<u64> = tallies.iter().map(|t| t.met[what as usize]).collect();
        let short = (0..2).any(|k| counts[k] < least[k]);
        few |= short;
        row(&format!("{name}{}", if short { ": TOO FEW" } else { "" }), &counts);
    }
    few
}

fn main() {
    let unseen = self_test();
    if std::env::args().any(|x| x == "--self-test") { exit((unseen > 0) as i32); }
    let tallies = WIDTHS.map(|x| width(x.0, None));
    let few = report(&tallies);
    let (compared, lines) = tallies.iter().fold((0, 0), |sum, t| (sum.0 + t.compared, sum.1 + t.lines));
    let found = [(lines > 0, "DIFFERENCES"), (few, "a class with TOO FEW"), (unseen > 0, "a wrong model NOT SEEN")];
    let fault = found.into_iter().find(|x| x.0).map(|x| x.1);
    println!("beyond: {compared} comparisons, {}", fault.unwrap_or("no difference"));
    if fault.is_some() { exit(1); }
}
