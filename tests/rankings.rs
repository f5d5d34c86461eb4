//! Checks request (h) of document 02 on what lists of trims really left: two present finite readings that stood in an order by exact
//! value at the start never stand in the opposite order after any call of a list of roundings (round and absolute). Equal ones stay
//! equal, and none is lost. Two promises go further and are checked in the same way: lists that mix roundings with shaves, sets and
//! halfshaves; and the codes of one layer, where singles are packed after a list of roundings.
//!
//! Readings that nothing touched would keep every order. So each call is compared with a trimmer that stands here too, written from
//! documents 01 and 02 alone, and each packing with such a packer. Every run makes the same comparisons. It first turns one rule of the
//! trimmer or the packer at a time, for one method: each such wrong model must be seen to break an order or to lose a reading. Claims
//! that go too far must be seen to fail by what the library itself leaves.
mod draw;
mod nat;
use draw::{Draw, SEED};
use nat::Nat;
use std::cmp::Ordering::{self, Equal, Greater, Less};
use std::collections::{BTreeMap, BTreeSet};
use std::process::exit;

extern "C" {
    fn megharutti_trim_singles(readings: *mut u32, n: usize, method: u32, setting: i32, mark: u32, counts: *mut u64) -> u32;
    fn megharutti_trim_doubles(readings: *mut u64, n: usize, method: u32, setting: i32, mark: u64, counts: *mut u64) -> u32;
    fn megharutti_pack(
        readings: *const u32, n: usize, length: usize, mark: u32, widths: *const u32, n_widths: usize,
        codes: *mut u16, n_codes: usize, references: *mut f32, n_references: usize, exponents: *mut i32, n_exponents: usize,
    ) -> u32;
}

type Call = (u32, i32); // the method and its setting
const SHAVE: u32 = 0;
const SET: u32 = 1;
const GROOM: u32 = 2;
const HALFSHAVE: u32 = 3;
const ROUND: u32 = 4;
const ABSOLUTE: u32 = 5;
const DIGITS: u32 = 6;
const NAMES: [&str; 7] = ["shave", "set", "groom", "halfshave", "round", "absolute", "digits"];
const ROUNDINGS: [u32; 2] = [ROUND, ABSOLUTE];
const MIXTURE: [u32; 5] = [SHAVE, SET, HALFSHAVE, ROUND, ABSOLUTE];

/// Singles or doubles: f fraction bits and e exponent bits; the least spacing is 2^-deep.
struct Form { name: &'static str, f: u32, e: u32, deep: i32, sign: u64, infinity: u64, tens: Vec<Nat> }
const LOW: i32 = -330; // below the decade of the least double
impl Form {
    fn new(name: &'static str, f: u32, e: u32) -> Form {
        let deep = (1 << (e - 1)) - 2 + f as i32;
        // The least size, in least spacings, that isn't below 10^x, from x = LOW on.
        let mut tens = vec![Nat::of(1).shl(deep as u32)];
        for _ in LOW..0 { tens.push(tens[tens.len() - 1].over(10)); }
        tens.reverse();
        for _ in 0..310 { tens.push(tens[tens.len() - 1].times(10)); }
        Form { name, f, e, deep, sign: 1 << (f + e), infinity: ((1 << e) - 1) << f, tens }
    }
    fn finite(&self, x: u64) -> bool { x % self.sign < self.infinity }
    fn nan(&self) -> u64 { self.infinity + (1 << (self.f - 1)) + 0x5A5A }
    /// A number that stands for a finite pattern in the order of exact values: sizes rise with magnitudes, and the two zeros are one value.
    fn rank(&self, x: u64) -> i64 { let m = (x % self.sign) as i64; if x < self.sign { m } else { -m } }
    fn pattern(&self, rank: i64) -> u64 { rank.unsigned_abs() + if rank < 0 { self.sign } else { 0 } }
    fn range(&self, method: u32) -> (i32, i32) {
        match method {
            ABSOLUTE => (-self.deep, (1 << (self.e - 1)) - 1),
            DIGITS => (1, if self.f == 23 { 7 } else { 15 }),
            _ => (0, self.f as i32),
        }
    }
    fn refusal(&self, (method, setting): Call) -> u32 {
        let (least, most) = self.range(method);
        if method > DIGITS { 1 } else if setting < least || setting > most { 2 } else { 0 }
    }
    /// The whole number and the exponent, counted from the least spacing, whose product is the size.
    fn parts(&self, m: u64) -> (u64, u32) {
        let (e, fraction) = ((m >> self.f) as u32, m % (1 << self.f));
        if e == 0 { (fraction, 0) } else { (fraction + (1 << self.f), e - 1) }
    }
    /// Document 01's exact size, in least spacings.
    fn size(&self, m: u64) -> Nat { let (whole, spacing) = self.parts(m); Nat::of(whole).shl(spacing) }
    /// The magnitude of a size that is a reading's; infinity if it passes the largest finite pattern.
    fn magnitude(&self, whole: u64, spacing: u32) -> u64 {
        if whole == 0 { return 0; }
        let bits = 64 - whole.leading_zeros();
        if bits + spacing <= self.f { return whole << spacing; }
        let (e, full) = ((bits + spacing - self.f) as u64, self.f + 1);
        if e >= (1 << self.e) - 1 { return self.infinity; }
        (e << self.f) + if bits > full { whole >> (bits - full) } else { whole << (full - bits) } - (1 << self.f)
    }
    /// The magnitude of 2^p, or the nearest end of the finite ones.
    fn power(&self, p: i32) -> u64 { if p < -self.deep { 0 } else { self.magnitude(1, (p + self.deep) as u32).min(self.infinity - 1) } }
    /// Where a finite magnitude lies on the grid of a rounding.
    fn cell(&self, (method, setting): Call, m: u64) -> Cell {
        if method == ABSOLUTE { return self.absolute((setting + self.deep) as u32, self.parts(m), m); }
        let unit = 1u64 << (self.f as i32 - setting);
        let below = m / unit * unit;
        Cell { below, above: below + unit, to_middle: (2 * (m - below)).cmp(&unit), odd: below & unit != 0 }
    }
    fn absolute(&self, unit: u32, (whole, spacing): (u64, u32), m: u64) -> Cell {
        // A unit of at most a spacing divides the size.
        if unit <= spacing { return Cell { below: m, above: m + 1, to_middle: Less, odd: false }; }
        let shift = unit - spacing;
        // The whole number is below 2^(f+1): less than half a unit.
        if shift > self.f + 1 { return Cell { below: 0, above: self.magnitude(1, unit), to_middle: Less, odd: false }; }
        let j = whole >> shift;
        let at = |j: u64| self.magnitude(j << shift, spacing);
        Cell { below: at(j), above: at(j + 1), to_middle: (2 * (whole - (j << shift))).cmp(&(1 << shift)), odd: j % 2 == 1 }
    }
    fn digits(&self, n: i32, m: u64) -> u64 {
        if m == 0 { return m; }
        let size = self.size(m);
        let decade = self.tens.partition_point(|ten| ten.cmp(&size).is_le()) as i32 + LOW;
        let x = decade - n;
        let mut ten = Nat::of(1);
        for _ in 0..x.abs() { ten = ten.times(10); }
        // No power of ten below 1 is a power of two.
        let q = if x >= 0 { ten.bits() as i32 - 1 } else { -(ten.bits() as i32) } + self.deep;
        let (whole, spacing) = self.parts(m);
        if q < spacing as i32 + 1 { return m; }
        self.magnitude(2 * (whole >> (q as u32 - spacing)) + 1, q as u32 - 1)
    }
}
/// The neighbours on a grid between which a magnitude lies, or the lower one and its next if it lies on the grid; how it lies to their
/// middle; and whether the lower is odd. An upper one that passes the largest finite pattern is infinity, and the lower is then the largest
/// finite value on the grid.
struct Cell { below: u64, above: u64, to_middle: Ordering, odd: bool }

/// A rule of the trimmer that can be turned.
#[derive(Clone, Copy, PartialEq, Debug)]
enum Rule {
    ClipZero, ClipInfinity, ClipLower, ClipSign, ClipPlace, ClipBinade, ClipNegative,
    SpareNone, SpareZero, SpareSign, SpareFar, SparePlace, SpareShaved, SpareUnclipped, SpareRisen, SpareEven, SpareFirst, SpareBehind,
    SpareStops, TiePlace, UpPlace, UnitPlace, TwicePlace, Idle(usize), RestIdle(usize), BlockIdle(usize), FirstIdle, LastIdle, MissingStops,
    NanBehind,
    CarryLost, TailLeft, SignLost, SignUp, ZeroSignLast, HiddenBit, FarStays, NearZero, Quotient(u32), RefusedWrites,
    ZeroTail, TailFlipped, ShavePlace,
    TieUp, TieDown, TieOdd, TieStays, ClipTop, ClipStays, SpareSize, SpareNearest, SpareNext, SpareBefore, SpareAll, ZeroSign, Flush, Down,
    Up, DownStays, MissingTrimmed, NegativeDown,
}
use Rule::*;
/// Each wrong rule that breaks an order or loses a reading, its name, and the methods with which it is to be seen.
const TURNED: [(Rule, &str, &[u32]); 51] = [
    (ClipZero, "clipped readings become zero", &ROUNDINGS),
    (ClipInfinity, "clipped readings become infinite", &ROUNDINGS),
    (ClipLower, "clipped readings go one grid point too low", &ROUNDINGS),
    (ClipSign, "clipped readings change their sign", &ROUNDINGS),
    (ClipPlace, "clipped readings go to the largest finite pattern at odd places", &ROUNDINGS),
    (ClipBinade, "clipped readings go to the largest power of two", &ROUNDINGS),
    (ClipNegative, "negative readings aren't clipped", &ROUNDINGS),
    (SpareNone, "nothing is spared", &MIXTURE),
    (SpareZero, "spared readings become zero", &MIXTURE),
    (SpareSign, "spared readings become the mark with the other sign", &MIXTURE),
    (SpareFar, "spared readings go two grid points on", &ROUNDINGS),
    (SparePlace, "spared readings go to the next grid point at odd places, to the one before at even places", &ROUNDINGS),
    (SpareShaved, "a reading is spared where the lower grid point is the mark", &ROUNDINGS),
    (SpareUnclipped, "sparing is asked before clipping", &ROUNDINGS),
    (SpareRisen, "only readings whose size would rise are spared", &ROUNDINGS),
    (SpareEven, "readings are spared at even places only", &MIXTURE),
    (SpareFirst, "only the first reading of an array is spared", &MIXTURE),
    (SpareBehind, "the reading behind a spared one stays too", &MIXTURE),
    (SpareStops, "readings behind a spared one all stay", &MIXTURE),
    (TiePlace, "ties go up at odd places and down at even ones", &ROUNDINGS),
    (UpPlace, "readings go up at odd places", &ROUNDINGS),
    (UnitPlace, "the unit is twice as large at odd places", &MIXTURE),
    (TwicePlace, "at odd places the reading is rounded to half the unit before", &ROUNDINGS),
    (Idle(2), "every second place stays", &MIXTURE),
    (Idle(16), "every 16th place stays", &MIXTURE),
    (RestIdle(4), "what follows the last four stays", &MIXTURE),
    (RestIdle(8), "what follows the last eight stays", &MIXTURE),
    (BlockIdle(64), "the second of two blocks of 64 stays", &MIXTURE),
    (BlockIdle(1024), "the second of two blocks of 1024 stays", &MIXTURE),
    (BlockIdle(4096), "the second of two blocks of 4096 stays", &MIXTURE),
    (FirstIdle, "the first place stays", &MIXTURE),
    (LastIdle, "the last place stays", &MIXTURE),
    (MissingStops, "readings behind a missing one stay", &MIXTURE),
    (NanBehind, "the reading behind an infinity or a NaN stays", &MIXTURE),
    (CarryLost, "the carry into the exponent is lost", &ROUNDINGS),
    (TailLeft, "half a unit is added, and the tail left", &[ROUND]),
    (SignLost, "the sign is lost", &MIXTURE),
    (SignUp, "the sign changes where the size rises", &ROUNDINGS),
    (ZeroSignLast, "the sign of a zero result is lost, after sparing", &[SHAVE, ROUND, ABSOLUTE]),
    (HiddenBit, "a subnormal reading is taken for a normal one", &[ABSOLUTE]),
    (FarStays, "a reading that is far below the unit stays", &[ABSOLUTE]),
    (NearZero, "a reading with a spacing of the unit or more becomes zero", &[ABSOLUTE]),
    (Quotient(8), "the multiple of the unit is held in 8 bits", &[ABSOLUTE]),
    (Quotient(16), "the multiple of the unit is held in 16 bits", &[ABSOLUTE]),
    (Quotient(22), "the multiple of the unit is held in 22 bits", &[ABSOLUTE]),
    // These two keep every order but where larger readings clip.
    (TieStays, "ties stay", &ROUNDINGS),
    (DownStays, "readings that would go down stay", &ROUNDINGS),
    (RefusedWrites, "a refused call changes odd places", &[u32::MAX]),
    (ZeroTail, "a zero gets a tail", &[SET, HALFSHAVE]),
    (TailFlipped, "the bits of the tail are turned over and not set", &[SET, HALFSHAVE]),
    (ShavePlace, "odd places are shaved", &[SET, HALFSHAVE]),
];
/// Wrong rules that keep every order and lose nothing, so that only the patterns show them: those that go by a reading's value alone and
/// rise with it, and those that do something else with all readings that share a result. They show that the check of the order finds
/// nothing where nothing is.
const KEPT: [(Rule, &str, &[u32]); 16] = [
    (TieUp, "ties go away from zero", &ROUNDINGS),
    (TieDown, "ties go to zero", &ROUNDINGS),
    (TieOdd, "ties go to the odd one", &ROUNDINGS),
    (ClipTop, "clipped readings go to the largest finite pattern", &ROUNDINGS),
    (ClipStays, "clipped readings stay", &ROUNDINGS),
    (SpareSize, "readings are spared where the result is the mark with the other sign too", &MIXTURE),
    (SpareNearest, "spared readings go to the other neighbour on the grid", &ROUNDINGS),
    (SpareNext, "spared readings go to the next grid point", &ROUNDINGS),
    (SpareBefore, "spared readings go to the grid point before", &ROUNDINGS),
    (SpareAll, "where one reading is spared, all stay", &MIXTURE),
    (ZeroSign, "the sign of a zero result is lost, before sparing", &[SHAVE, ROUND, ABSOLUTE]),
    (Flush, "subnormal readings become zero", &[SHAVE, ROUND, ABSOLUTE]),
    (Down, "readings go down", &ROUNDINGS),
    (Up, "readings go up", &ROUNDINGS),
    (MissingTrimmed, "missing readings are trimmed", &ROUNDINGS),
    (NegativeDown, "negative readings go away from zero", &ROUNDINGS),
];

/// The trimmer, with no rule or one rule turned for one method.
#[derive(Clone, Copy)]
struct Trimmer<'a> { form: &'a Form, turned: Option<(Rule, u32)> }
impl Trimmer<'_> {
    /// The rule that is turned for a method, if any.
    fn rule(&self, method: u32) -> Option<Rule> { self.turned.filter(|x| x.1 == method).map(|x| x.0) }
    /// A call on an array: its answer, and the numbers of places changed, spared, clipped, missing, risen and fallen.
    fn call(&self, now: &mut [u64], call: Call, mark: u64) -> (u32, [u64; 6]) {
        let (form, n, mut counts, mut turn) = (self.form, now.len(), [0; 6], 0);
        let refusal = form.refusal(call);
        if refusal != 0 {
            if self.turned == Some((RefusedWrites, u32::MAX)) { now.iter_mut().skip(1).step_by(2).for_each(|x| *x ^= 1); }
            return (refusal, counts);
        }
        let rule = self.rule(call.0);
        let before = if rule == Some(SpareAll) { now.to_vec() } else { vec![] };
        let (mut stopped, mut behind) = (false, false); // for rules about what stands behind another reading
        for (place, x) in now.iter_mut().enumerate() {
            let old = *x;
            if old == mark {
                counts[3] += 1;
                stopped |= rule == Some(MissingStops);
                if rule == Some(MissingTrimmed) && form.finite(old) { *x = self.own(call, old, place, false).0; }
                continue;
            }
            if !form.finite(old) { behind = rule == Some(NanBehind); continue; }
            let idle = match rule {
                Some(Idle(every)) => place % every == every - 1,
                Some(RestIdle(block)) => place >= n / block * block,
                Some(BlockIdle(block)) => place / block % 2 == 1,
                Some(FirstIdle) => place == 0,
                Some(LastIdle) => place == n - 1,
                _ => false,
            };
            let (new, clipped) = self.own(call, old, place, turn % 2 == 1);
            turn += 1;
            if idle || stopped || behind { behind = false; continue; }
            let (left, spared) = self.spare(call, old, new, clipped, mark, place, counts[1]);
            if spared {
                counts[1] += 1;
                stopped |= rule == Some(SpareStops);
                behind = rule == Some(SpareBehind);
            }
            *x = left;
            counts[2] += (clipped && !spared) as u64;
            counts[0] += (left != old) as u64;
            counts[4] += (form.rank(left) > form.rank(old)) as u64;
            counts[5] += (form.rank(left) < form.rank(old)) as u64;
        }
        if rule == Some(SpareAll) && counts[1] > 0 { now.copy_from_slice(&before); }
        (0, counts)
    }
    /// What is left of a reading, by the method's own result; and whether it was spared. So many were spared before.
    fn spare(&self, call: Call, old: u64, new: u64, clipped: bool, mark: u64, place: usize, before: u64) -> (u64, bool) {
        let (form, m, is_mark) = (self.form, old % self.form.sign, new == mark);
        let sign = old - m;
        let next = |x: u64| if x < form.infinity { form.cell(call, x).above } else { x };
        let last = |x: u64| if x > 0 { form.cell(call, x - 1).below } else { form.infinity };
        let or_stays = |x: u64| (if x < form.infinity { sign + x } else { old }, true);
        match self.rule(call.0) {
            Some(SpareNone) => return (new, false),
            Some(SpareShaved) => { let spared = sign + form.cell(call, m).below == mark; return (if spared { old } else { new }, spared); }
            Some(SpareUnclipped) if clipped => return (new, false),
            Some(SpareRisen) if is_mark && new % form.sign < m => return (new, false),
            Some(SpareEven) if place % 2 == 1 => return (new, false),
            Some(SpareFirst) if before > 0 => return (new, false),
            Some(SpareZero) if is_mark => return (sign, true),
            Some(SpareSign) if is_mark => return (mark ^ form.sign, true),
            Some(SpareFar) if is_mark => return or_stays(next(next(new % form.sign))),
            Some(SpareNext) if is_mark => return or_stays(next(new % form.sign)),
            Some(SpareBefore) if is_mark => return or_stays(last(new % form.sign)),
            Some(SparePlace) if is_mark => return or_stays(if place % 2 == 1 { next(new % form.sign) } else { last(new % form.sign) }),
            Some(SpareNearest) if is_mark => {
                let cell = form.cell(call, m);
                return or_stays(if new % form.sign > m { cell.below } else { cell.above });
            }
            Some(SpareSize) if new == mark ^ form.sign => return (old, true),
            Some(ZeroSignLast) if new == form.sign && !is_mark => return (0, false),
            _ => (),
        }
        if is_mark { (old, true) } else { (new, false) }
    }
    /// The method's own result at a finite reading, and whether it was clipped. Grooming asks whether the turn is odd.
    fn own(&self, call: Call, x: u64, place: usize, odd: bool) -> (u64, bool) {
        let (form, m, rule) = (self.form, x % self.form.sign, self.rule(call.0));
        let sign = x - m;
        let (new, clipped) = match call.0 {
            ROUND | ABSOLUTE => self.rounded(call, m, sign > 0, place),
            DIGITS => (form.digits(call.1, m), false),
            GROOM => (self.kept((if odd { SET } else { SHAVE }, call.1), m, place), false),
            _ => (self.kept(call, m, place), false),
        };
        let sign = match rule {
            Some(SignLost) => 0,
            Some(SignUp) if new > m => form.sign - sign,
            Some(ClipSign) if clipped => form.sign - sign,
            Some(ZeroSign) if new == 0 => 0,
            _ => sign,
        };
        (sign + if rule == Some(Flush) && m < 1 << form.f { 0 } else { new }, clipped)
    }
    fn kept(&self, (method, k): Call, m: u64, place: usize) -> u64 {
        let (rule, mut t, odd) = (self.rule(method), self.form.f as i32 - k, place % 2 == 1);
        if rule == Some(UnitPlace) && odd && k > 0 { t += 1; }
        let (ones, half) = ((1u64 << t) - 1, (1u64 << t) / 2);
        let s = m - (m & ones);
        match method {
            SHAVE => s,
            _ if m == 0 && rule != Some(ZeroTail) => m,
            _ if rule == Some(ShavePlace) && odd => s,
            SET if rule == Some(TailFlipped) => m ^ ones,
            HALFSHAVE if rule == Some(TailFlipped) => m ^ half,
            SET => s + ones,
            _ => if t == 0 { m } else { s + half },
        }
    }
    fn rounded(&self, (method, setting): Call, mut m: u64, negative: bool, place: usize) -> (u64, bool) {
        let (form, rule, odd) = (self.form, self.rule(method), place % 2 == 1);
        let (coarser, finer) = if method == ROUND { (setting - 1, setting + 1) } else { (setting + 1, setting - 1) };
        let takes = |setting: i32| form.refusal((method, setting)) == 0;
        let setting = if rule == Some(UnitPlace) && odd && takes(coarser) { coarser } else { setting };
        if rule == Some(TwicePlace) && odd && takes(finer) {
            let cell = form.cell((method, finer), m);
            let up = cell.to_middle == Greater || cell.to_middle == Equal && cell.odd;
            m = if up && cell.above < form.infinity { cell.above } else { cell.below };
        }
        let (whole, spacing) = form.parts(m);
        let (unit, tiny) = ((setting + form.deep) as u32, m < 1 << form.f);
        let cell = match rule {
            Some(HiddenBit) if tiny && m > 0 => form.absolute(unit, (whole + (1 << form.f), 0), m),
            Some(FarStays) if unit > spacing + form.f + 1 => return (m, false),
            Some(NearZero) if unit <= spacing => return (0, false),
            _ => form.cell((method, setting), m),
        };
        let tie = |up: bool| cell.to_middle == Greater || cell.to_middle == Equal && up;
        let between = m != cell.below;
        let up = match rule {
            Some(TiePlace) => tie(odd),
            Some(UpPlace) => between && (odd || tie(cell.odd)),
            Some(TieUp) => tie(true),
            Some(TieDown) => tie(false),
            Some(TieOdd) => tie(!cell.odd),
            Some(TieStays) if cell.to_middle == Equal => return (m, false),
            Some(Down) => false,
            Some(Up) => between,
            Some(NegativeDown) if negative => between,
            Some(DownStays) if !tie(cell.odd) => return (m, false),
            _ => tie(cell.odd),
        };
        if up && cell.above >= form.infinity {
            return (match rule {
                Some(ClipZero) => 0,
                Some(ClipInfinity) => form.infinity,
                Some(ClipNegative) if negative => form.infinity,
                Some(ClipLower) if cell.below > 0 => form.cell((method, setting), cell.below - 1).below,
                Some(ClipPlace) if odd => form.infinity - 1,
                Some(ClipTop) => form.infinity - 1,
                Some(ClipBinade) => form.infinity - (1 << form.f),
                Some(ClipStays) => m,
                _ => cell.below,
            }, true);
        }
        let new = if up { cell.above } else { cell.below };
        let fraction = (1 << form.f) - 1;
        (match rule {
            Some(CarryLost) if up => cell.below - (cell.below & fraction) + (new & fraction),
            Some(TailLeft) if up => m + (1 << (form.f as i32 - setting)) / 2,
            Some(Quotient(bits)) if unit > spacing && unit - spacing <= form.f + 1 => {
                let j = (whole >> (unit - spacing)) + up as u64;
                form.magnitude(j % (1 << bits) << (unit - spacing), spacing)
            }
            _ => new,
        }, false)
    }
}

/// What the library leaves of an array, its answer and its counts.
fn library(form: &Form, now: &mut [u64], (method, setting): Call, mark: u64) -> (u32, [u64; 6]) {
    let (mut counts, n) = ([0; 6], now.len());
    let answer = if form.f == 52 {
        // SAFETY: the pointers are those of an array of so many readings, and of six counts.
        unsafe { megharutti_trim_doubles(now.as_mut_ptr(), n, method, setting, mark, counts.as_mut_ptr()) }
    } else {
        let mut singles: Vec<u32> = now.iter().map(|&x| x as u32).collect();
        // SAFETY: as above.
        let answer = unsafe { megharutti_trim_singles(singles.as_mut_ptr(), n, method, setting, mark as u32, counts.as_mut_ptr()) };
        now.iter_mut().zip(singles).for_each(|(x, single)| *x = single as u64);
        answer
    };
    (answer, counts)
}

/// A list of calls on one array with one mark.
struct List { before: Vec<u64>, mark: u64, calls: Vec<Call> }
impl List {
    fn told(&self, form: &Form) -> String { format!("{}, calls (method, setting) {:?}, mark {:08X}", form.name, self.calls, self.mark) }
    /// The array at the start, for a line about a difference.
    fn readings(&self) -> String {
        let n = self.before.len();
        format!("{n} readings{} {:08X?}", if n > 300 { ", the first" } else { "" }, &self.before[..n.min(300)])
    }
}
/// The places of the readings that are present and finite, from the smallest value to the largest.
fn ranked(form: &Form, readings: &[u64], mark: u64) -> Vec<usize> {
    let mut places: Vec<usize> = (0..readings.len()).filter(|&i| readings[i] != mark && form.finite(readings[i])).collect();
    places.sort_by_key(|&i| form.rank(readings[i]));
    places
}
/// Two places at which a ranking failed, and how. A lost reading is named twice.
type Fault = (usize, usize, &'static str);
/// The first fault among all pairs of the places, which stand in their order at the start: each pair is in order if neighbours are, and
/// readings that were equal are equal if neighbours are.
fn fault(form: &Form, order: &[usize], before: &[u64], after: &[u64], mark: u64) -> Option<Fault> {
    if let Some(&i) = order.iter().find(|&&i| after[i] == mark || !form.finite(after[i])) { return Some((i, i, "lost")); }
    for pair in order.windows(2) {
        let (a, b) = (pair[0], pair[1]);
        match form.rank(after[a]).cmp(&form.rank(after[b])) {
            Greater => return Some((a, b, "in the opposite order")),
            Less if form.rank(before[a]) == form.rank(before[b]) => return Some((b, a, "in the opposite order")),
            _ => (),
        }
    }
    None
}
/// The same, pair by pair.
fn fault_of_pairs(form: &Form, before: &[u64], after: &[u64], mark: u64) -> bool {
    let ranks = |x: u64| x != mark && form.finite(x);
    (0..before.len()).filter(|&i| ranks(before[i])).any(|i| !ranks(after[i]) || (0..before.len()).filter(|&j| ranks(before[j])).any(|j| {
        form.rank(before[i]) <= form.rank(before[j]) && (!ranks(after[j]) || form.rank(after[i]) > form.rank(after[j]))
    }))
}

/// What was compared, met and seen.
struct Tally {
    compared: u64, lines: u32, lists: u64,
    met: BTreeMap<(&'static str, &'static str), u64>, // by form and what was met
    settings: BTreeSet<(&'static str, Call)>, // the roundings that were accepted, by form
    claims: BTreeMap<(&'static str, &'static str), String>, // the claims that failed, by form
}
impl Tally {
    fn meet(&mut self, form: &Form, what: &'static str, times: u64) { *self.met.entry((form.name, what)).or_default() += times; }
    fn differs(&mut self, told: String) {
        println!("{told}");
        self.lines += 1;
        if self.lines == 10 { finish(self, "DIFFERENCES"); }
    }
    /// A claim that goes too far was seen to fail.
    fn broke(&mut self, form: &Form, claim: &'static str, told: impl FnOnce() -> String) {
        self.claims.entry((form.name, claim)).or_insert_with(told);
    }
    fn unbroken(&self, form: &Form, claim: &'static str) -> bool { !self.claims.contains_key(&(form.name, claim)) }
}
fn finish(t: &Tally, end: &str) -> ! {
    println!("rankings: {} comparisons, {end}", t.compared);
    exit((end != "no difference") as i32)
}
fn told_pair(list: &List, form: &Form, (a, b, how): Fault, after: &[u64]) -> String {
    let of = |readings: &[u64]| format!("{:08X} and {:08X}", readings[a], readings[b]);
    format!("{}: places {a} and {b}, before {}, after {}: {how}", list.told(form), of(&list.before), of(after))
}

/// What is promised of a list.
#[derive(Clone, Copy, PartialEq)]
enum Promise { Roundings, Mixture, Nothing }
use Promise::*;
const STRICT: &str = "readings that aren't equal don't become equal";
const BY_SIZE: &str = "the order by size, leaving the signs aside, is kept";
const MISSING: &str = "missing readings keep their order with the present ones";
const TWO_MARKS: &str = "the order is kept in lists with two marks";
const GROOMS: &str = "grooms keep the order";
const DIGITS_KEEP: &str = "digits keep the order";
const LAYERS: &str = "codes of different layers keep the order";
const STRICT_CODES: &str = "codes of readings that are left unequal aren't equal";
const MISSING_CODES: &str = "codes of missing readings keep the order";
const GROOMED_CODES: &str = "codes of groomed readings keep the order";
const CLAIMS: [&str; 6] = [STRICT, BY_SIZE, MISSING, TWO_MARKS, GROOMS, DIGITS_KEEP];
const CODE_CLAIMS: [&str; 4] = [LAYERS, STRICT_CODES, MISSING_CODES, GROOMED_CODES];

/// Runs a list through the library, call by call, and compares. Answers what is left.
fn run(t: &mut Tally, form: &Form, list: &List, promise: Promise) -> Vec<u64> {
    let (right, order, mark) = (Trimmer { form, turned: None }, ranked(form, &list.before, list.mark), list.mark);
    let (mut now, mut want) = (list.before.clone(), list.before.clone());
    let (mut accepted, mut refused) = ([0; 7], 0);
    t.lists += 1;
    for (c, &call) in list.calls.iter().enumerate() {
        let (answer, counts) = library(form, &mut now, call, mark);
        let expected = right.call(&mut want, call, mark);
        t.compared += now.len() as u64 + 7;
        if promise != Nothing {
            t.compared += 2 * order.len() as u64;
            let found = fault(form, &order, &list.before, &now, mark);
            if let Some(pair) = found { t.differs(format!("after call {c}: {}; {}", told_pair(list, form, pair, &now), list.readings())); }
            let pairs = now.len() < 40 && t.lists % 4 == 0 && fault_of_pairs(form, &list.before, &now, mark);
            if pairs && found.is_none() { t.differs(format!("after call {c}, pair by pair: {}; {}", list.told(form), list.readings())); }
        }
        if (answer, counts) != expected {
            let got = format!("answer {answer}, counts {counts:?}");
            t.differs(format!("after call {c}: {}: {got}, expected {expected:?}; {}", list.told(form), list.readings()));
        }
        if let Some(i) = (0..now.len()).find(|&i| now[i] != want[i]) {
            let told = format!("{}: place {i}, before the list {:08X}", list.told(form), list.before[i]);
            t.differs(format!("after call {c}: {told}: left {:08X}, expected {:08X}; {}", now[i], want[i], list.readings()));
        }
        if (answer, counts) != expected || now != want { return now; }
        if promise == Nothing { continue; }
        if answer == 0 { accepted[call.0 as usize] += 1; } else { refused += 1; }
        if answer == 0 && promise == Roundings { t.settings.insert((form.name, call)); }
        t.meet(form, ["accepted calls", "calls refused by 1", "calls refused by 2"][answer as usize], 1);
        let places = ["places changed", "places spared", "places clipped", "places missing"];
        for (what, times) in places.into_iter().zip(counts) { t.meet(form, what, times); }
    }
    if promise != Nothing { meet_list(t, form, list, &order, &now, promise, accepted, refused); }
    now
}
/// Counts what a list met, and looks for claims that it breaks.
fn meet_list(t: &mut Tally, form: &Form, list: &List, order: &[usize], now: &[u64], promise: Promise, accepted: [u64; 7], refused: u64) {
    let (rank, mark) = (|x: u64| form.rank(x), list.mark);
    let equal = |of: &[u64], pair: &[usize]| rank(of[pair[0]]) == rank(of[pair[1]]);
    let [mut were, mut became, mut apart] = [0; 3];
    for pair in order.windows(2) {
        *if equal(&list.before, pair) { &mut were } else if equal(now, pair) { &mut became } else { &mut apart } += 1;
    }
    t.meet(form, "neighbours in the order that were equal", were);
    t.meet(form, "neighbours in the order that became equal", became);
    t.meet(form, "neighbours in the order that stay apart", apart);
    let (all, roundings): (u64, u64) = (accepted.iter().sum(), accepted[4] + accepted[5]);
    t.meet(form, if promise == Mixture { "lists of mixtures" } else { "lists of roundings" }, 1);
    t.meet(form, "lists of more than one accepted call", (all > 1) as u64);
    t.meet(form, "lists of both roundings", (accepted[4] > 0 && accepted[5] > 0) as u64);
    t.meet(form, "lists of shaves, sets or halfshaves beside roundings", (roundings > 0 && all > roundings) as u64);
    t.meet(form, "lists of refused calls beside accepted ones", (refused > 0 && all > 0) as u64);
    t.meet(form, "lists with no accepted call", (all == 0) as u64);
    t.meet(form, "lists with fewer than two ranked readings", (order.len() < 2) as u64);
    if mark == 0 || mark == form.sign { t.meet(form, "lists with a zero as the mark", 1); }
    if promise != Roundings { return; }
    if let Some(x) = order.windows(2).find(|x| t.unbroken(form, STRICT) && !equal(&list.before, x) && equal(now, x)) {
        t.broke(form, STRICT, || told_pair(list, form, (x[0], x[1], "equal"), now));
    }
    if t.unbroken(form, BY_SIZE) {
        let mut by_size = order.to_vec();
        by_size.sort_by_key(|&i| list.before[i] % form.sign);
        let broken = by_size.windows(2).find(|x| now[x[0]] % form.sign > now[x[1]] % form.sign);
        if let Some(x) = broken { t.broke(form, BY_SIZE, || told_pair(list, form, (x[0], x[1], "opposite sizes"), now)); }
    }
    if t.unbroken(form, MISSING) && form.finite(mark) {
        let Some(gone) = list.before.iter().position(|&x| x == mark) else { return };
        let side = |x: u64| rank(x).cmp(&rank(mark));
        let passed = |&&i: &&usize| side(list.before[i]) != Equal && side(now[i]) == side(list.before[i]).reverse();
        let Some(&i) = order.iter().find(passed) else { return };
        t.broke(form, MISSING, || told_pair(list, form, (i, gone, "the second missing"), now));
    }
}

/// Draws lists; any two that begin anew draw the same.
struct Lists { seed: u64, drawn: u64 }
impl Draw for Lists { fn seed(&mut self) -> &mut u64 { &mut self.seed } }
impl Lists {
    fn new() -> Lists { Lists { seed: SEED, drawn: 0 } }
    /// A list of accepted calls by these methods, among them the given one, and of refused ones.
    fn list(&mut self, form: &Form, methods: &[u32], given: Option<Call>, packed: bool) -> List {
        self.drawn += 1;
        let home = self.home(form, given);
        let mut calls: Vec<Call> = (0..=self.pick(&[0, 0, 1, 1, 2, 3, 4])).map(|_| self.accepted(form, methods, home)).collect();
        if let Some(call) = given { let last = calls.len() - 1; calls[self.below(last as u64 + 1) as usize] = call; }
        for _ in 0..self.pick(&[0, 0, 0, 1, 1, 2]) {
            let refused = self.refused(form);
            let at = self.below(calls.len() as u64 + 1) as usize;
            if calls.len() < 5 { calls.insert(at, refused); }
        }
        if self.below(60) == 0 && given.is_none() { calls.retain(|&call| form.refusal(call) != 0); }
        let mut before = self.array(form, &calls, home, packed);
        let mark = self.mark(form, &calls, &before);
        // Missing readings, infinities and NaNs in between.
        let specials = [mark, mark, form.infinity, form.infinity + form.sign, form.nan(), form.sign + (form.sign - 1), form.infinity + 1];
        let one_in = self.pick(&[6, 12, 30, 400]);
        for x in &mut before {
            if self.below(one_in) == 0 { *x = if packed && self.below(600) > 0 { mark } else { self.pick(&specials) }; }
            if packed && *x != mark && !form.finite(*x) && self.below(600) > 0 { *x = mark; }
        }
        List { before, mark, calls }
    }
    /// The exponent field about which the readings lie: one at which the given call changes them.
    fn home(&mut self, form: &Form, given: Option<Call>) -> u64 {
        let most = (1i64 << form.e) - 2;
        let any = [self.from(0, most), self.from(0, most), self.from(0, most), 0, 1, 2, most, most, most - 1, most / 2, most / 2 + 1];
        match given {
            Some((ABSOLUTE, p)) => ((p + form.deep + 1) as i64 - self.from(-1, form.f as i64 + 2)).clamp(0, most) as u64,
            _ => self.pick(&any) as u64,
        }
    }
    fn accepted(&mut self, form: &Form, methods: &[u32], home: u64) -> Call {
        let method = self.pick(methods);
        let (least, most) = form.range(method);
        let any = self.from(least as i64, most as i64) as i32;
        let near = home.max(1) as i32 - 1 - form.deep + self.from(-1, form.f as i64 + 3) as i32;
        (method, if method == ABSOLUTE && self.below(6) > 0 { near.clamp(least, most) } else { any })
    }
    /// Any method and setting, known or not.
    fn refused(&mut self, form: &Form) -> Call {
        let method = self.pick(&[7, 8, 255, 256, 260, 1 << 31, u32::MAX]);
        let known = self.below(7) as u32;
        let (least, most) = form.range(known);
        let outside = self.pick(&[least - 1, most + 1, least - 100, most + 256, i32::MIN, i32::MAX]);
        let inside = self.from(least as i64, most as i64) as i32;
        if self.below(3) == 0 { (method, self.pick(&[0, inside, outside])) } else { (known, outside) }
    }
    /// The least magnitude at or behind the middle of a cell.
    fn middle(form: &Form, call: Call, cell: &Cell) -> u64 {
        let (mut low, mut high) = (cell.below, cell.above.min(form.infinity - 1));
        while low < high {
            let m = low + (high - low) / 2;
            let at = form.cell(call, m);
            if at.below == cell.below && at.to_middle == Less { low = m + 1; } else { high = m; }
        }
        low
    }
    /// Magnitudes at which the calls' results change: grid points and ties with their neighbours, powers of two, and the ends.
    fn pool(&mut self, form: &Form, calls: &[Call], home: u64, narrow: bool) -> Vec<u64> {
        let (top, start) = (form.infinity - 1, home << form.f);
        let in_home = |lists: &mut Lists| start + lists.below(1 << form.f);
        let mut points = vec![start, in_home(self), in_home(self)];
        for &(method, setting) in calls.iter().filter(|&&call| form.refusal(call) == 0 && call.0 < DIGITS) {
            let call = (if method == ABSOLUTE { ABSOLUTE } else { ROUND }, setting);
            for _ in 0..3 {
                let (behind, before) = (start + self.below(9), start.saturating_sub(self.below(9)));
                let bases = [in_home(self), in_home(self), behind, before, top - self.below(4), self.below(4)];
                let cell = form.cell(call, self.pick(&bases[..if narrow { 3 } else { 6 }]));
                points.extend([cell.below, Lists::middle(form, call, &cell), cell.above.min(top)]);
                if cell.above < top { let next = form.cell(call, cell.above); points.push(Lists::middle(form, call, &next)); }
            }
            if method == ABSOLUTE && !narrow {
                for p in [-2, -1, 0, 1, 2, form.f as i32, form.f as i32 + 1] { points.push(form.power(setting.saturating_add(p))); }
            }
            if !narrow && self.below(2) == 0 { points.push(Lists::middle(form, call, &form.cell(call, top))); }
        }
        if !narrow && self.below(2) == 0 {
            let hidden = 1u64 << form.f;
            points.extend([0, 0, 1, 2, hidden / 2, hidden - 1, hidden, hidden + 1, 2 * hidden, top, top - 1, form.infinity - hidden]);
        }
        let mut pool = vec![];
        for point in points {
            let (down, up) = (self.below(5), self.below(5));
            pool.extend(point.saturating_sub(down)..=(point + up).min(top));
        }
        for _ in 0..self.below(20) { pool.push(in_home(self)); }
        pool
    }
    fn array(&mut self, form: &Form, calls: &[Call], home: u64, packed: bool) -> Vec<u64> {
        let narrow = packed && self.below(2) == 0;
        let pool = self.pool(form, calls, home, narrow);
        // Both signs, or one.
        let signs = self.pick(&[(1, 0), (1, 1), (2, 0), (2, 0), (4, 0)]);
        let signed = |lists: &mut Lists, m: u64| m + form.sign * ((lists.below(signs.0) + signs.1) % 2);
        if self.drawn % 100 == 7 { return (0..4097 + self.below(500)).map(|_| { let m = self.pick(&pool); signed(self, m) }).collect(); }
        if self.below(3) == 0 {
            let n = self.pick(&[0, 1, 2, 3, 5, 8, 13, 30, 64, 129]);
            return (0..n).map(|_| { let m = self.pick(&pool); signed(self, m) }).collect();
        }
        let mut out: Vec<u64> = pool.iter().map(|&m| signed(self, m)).collect();
        for _ in 0..self.below(12) { let x = self.pick(&out); out.push(x); }
        for i in (1..out.len()).rev() { out.swap(i, self.below(i as u64 + 1) as usize); }
        out
    }
    /// A mark that no reading meets; or one that calls of the list would make of a reading, its neighbour, or the same with the other
    /// sign; or what a clip makes; a zero; a reading; an infinity.
    fn mark(&mut self, form: &Form, calls: &[Call], before: &[u64]) -> u64 {
        let right = Trimmer { form, turned: None };
        let stage = self.below(calls.len() as u64 + 1) as usize;
        let mut made = if before.is_empty() { form.infinity - 2 } else { self.pick(before) };
        for &call in &calls[..stage] { let mut one = [made]; right.call(&mut one, call, form.nan()); made = one[0]; }
        if calls.is_empty() || stage == 0 && self.below(4) > 0 { made = form.nan(); }
        let mut clip = [form.infinity - 1];
        for &call in calls.iter().filter(|call| ROUNDINGS.contains(&call.0)) { right.call(&mut clip, call, form.nan()); }
        let sign = form.sign * self.below(2);
        match self.below(16) {
            0..=6 => made,
            7 => made + 1,
            8 => made.saturating_sub(1),
            9 => made ^ form.sign,
            10 => sign,
            11 | 12 => clip[0] + sign,
            13 => form.infinity + sign,
            14 => form.nan() + 1,
            _ => if before.is_empty() { 0 } else { self.pick(before) },
        }
    }
}

/// Sizes rise with magnitudes, by document 01's sizes: at each exponent's ends, and at some others. The machine's floats order alike.
fn sizes(t: &mut Tally, form: &Form) {
    let mut lists = Lists::new();
    for e in 0..(1u64 << form.e) - 1 {
        for m in [e << form.f, (e << form.f) + lists.below((1 << form.f) - 1), ((e + 1) << form.f) - 1] {
            t.compared += 1;
            let rises = m + 1 == form.infinity || form.size(m).cmp(&form.size(m + 1)).is_lt();
            if !rises { t.differs(format!("{}: the size doesn't rise behind {m:08X}", form.name)); }
            let (a, b) = (m + form.sign * lists.below(2), lists.below(form.infinity) + form.sign * lists.below(2));
            let value = |x: u64| if form.f == 23 { f32::from_bits(x as u32) as f64 } else { f64::from_bits(x) };
            let alike = value(a).partial_cmp(&value(b)) == Some(form.rank(a).cmp(&form.rank(b)));
            t.compared += 1;
            if !alike { t.differs(format!("{}: {a:08X} and {b:08X} are ranked wrongly", form.name)); }
        }
    }
}

/// Windows of consecutive patterns, each with its spacing: about zero, the least normal reading, 1, a small power of two below zero, the
/// ties of k = 0 and k = 1 behind 1, and the largest finite reading and the tie from which k = 0 clips, these two with both signs.
fn windows(form: &Form, about: i64) -> Vec<(i32, Vec<u64>)> {
    let (hidden, one) = (1i64 << form.f, ((1i64 << (form.e - 1)) - 1) << form.f);
    let run = |least: i64, most: i64| (least..=most).map(|rank| form.pattern(rank)).collect::<Vec<u64>>();
    let top = form.infinity as i64 - 1;
    let zero = [run(-about, about), vec![form.sign]].concat();
    let largest = [run(top - about, top), run(-top, about - top)].concat();
    let near = |m: i64| (form.parts(m.unsigned_abs()).1 as i32, run(m - about, m + about));
    let (half, tie) = (about / 2, top + 1 - hidden / 2);
    let clips = [run(tie - half, tie + half), run(-tie - half, half - tie)].concat();
    let mut out = vec![(0, zero), near(hidden), near(one), near(-5 * hidden), near(one + hidden / 2), near(one + hidden / 4)];
    out.extend([largest, clips].map(|window| (form.parts(top as u64).1 as i32, window)));
    out
}
/// Every k, and the p about a window's spacing, with every mark that a rounding there makes.
fn exhaustive(t: &mut Tally, form: &Form) {
    for (spacing, window) in windows(form, 250) {
        let (least, most) = form.range(ABSOLUTE);
        let near = (-1..=form.f as i32 + 3).map(|d| (ABSOLUTE, spacing - form.deep + d));
        let calls = near.chain([(ABSOLUTE, most), (ABSOLUTE, 0)]).chain((0..=form.f as i32).map(|k| (ROUND, k)));
        for call in calls.filter(|call| call.0 == ROUND || (least..=most).contains(&call.1)) {
            for mark in made(form, &window, &[call], 300) {
                run(t, form, &List { before: window.clone(), mark, calls: vec![call] }, Roundings);
            }
        }
        t.meet(form, "windows of consecutive patterns", 1);
    }
    // Each pair of calls whose grids are seen in a window.
    for (spacing, window) in windows(form, 60) {
        let least = spacing - form.deep;
        let calls = (0..7).flat_map(|t| [(ROUND, form.f as i32 - t), (ABSOLUTE, least + t)]);
        let calls: Vec<Call> = calls.filter(|&call| form.refusal(call) == 0).collect();
        for &first in &calls {
            for &second in &calls {
                let calls = vec![first, second];
                for mark in made(form, &window, &calls, 16) {
                    run(t, form, &List { before: window.clone(), mark, calls: calls.clone() }, Roundings);
                }
            }
        }
    }
}
/// Marks: one that nothing meets, the zeros, and patterns that the calls make of the readings, all or about so many; some of these with the
/// other sign, or their neighbours.
fn made(form: &Form, window: &[u64], calls: &[Call], most: usize) -> Vec<u64> {
    let mut now = window.to_vec();
    let mut all = BTreeSet::new();
    for &call in calls {
        Trimmer { form, turned: None }.call(&mut now, call, form.nan());
        all.extend(now.iter().copied());
    }
    let some: Vec<u64> = all.iter().copied().step_by(all.len() / most + 1).collect();
    let others = some.iter().step_by(some.len() / 3 + 1).flat_map(|&x| [x ^ form.sign, x + 1, x.saturating_sub(1)]);
    let mut out: BTreeSet<u64> = [form.nan(), 0, form.sign].into_iter().collect();
    out.extend(others);
    out.extend(some);
    out.into_iter().collect()
}

/// Every setting of both roundings, each in lists with other calls.
fn every_setting(t: &mut Tally, form: &Form, lists: &mut Lists) {
    for method in MIXTURE {
        let (least, most) = form.range(method);
        for setting in least..=most {
            for i in 0..if method == ABSOLUTE { 4 } else { 40 } {
                let mixed = method < ROUND || i % 4 == 3;
                let list = lists.list(form, if mixed { &MIXTURE } else { &ROUNDINGS }, Some((method, setting)), false);
                run(t, form, &list, if mixed { Mixture } else { Roundings });
            }
        }
    }
}
/// The first two accepted calls of a list, the second with another mark.
fn two_marks(t: &mut Tally, form: &Form, lists: &mut Lists) {
    let mut list = lists.list(form, &ROUNDINGS, None, false);
    list.calls.retain(|&call| form.refusal(call) == 0);
    list.calls.truncate(2);
    if list.calls.len() < 2 || !t.unbroken(form, TWO_MARKS) { return; }
    let mut now = list.before.clone();
    library(form, &mut now, list.calls[0], list.mark);
    let Some(&mark) = now.iter().find(|&&x| form.finite(x) && x != list.mark) else { return };
    library(form, &mut now, list.calls[1], mark);
    let order = ranked(form, &list.before, list.mark);
    // The second mark isn't asked for: what it means is missing by the second call alone.
    let found = fault(form, &order, &list.before, &now, list.mark);
    let Some(pair) = found.filter(|x| x.0 != x.1) else { return };
    t.broke(form, TWO_MARKS, || format!("{}, second mark {mark:08X}", told_pair(&list, form, pair, &now)));
}
/// Lists of grooms, and of digits, which promise no order.
fn unpromised(t: &mut Tally, form: &Form, lists: &mut Lists) {
    for (method, claim) in [(GROOM, GROOMS), (DIGITS, DIGITS_KEEP)] {
        let mut list = lists.list(form, &[method], None, false);
        list.before.truncate(300);
        // Behind a power of ten a digit is worth more.
        if method == DIGITS {
            let ten = |x: i32| if form.f == 23 { 10f32.powi(x).to_bits() as u64 } else { 10f64.powi(x).to_bits() };
            let tens: Vec<u64> = (1..10).map(ten).collect();
            for x in list.before.iter_mut().skip(1).step_by(3) { *x = lists.pick(&tens) + 2 - lists.below(5); }
        }
        let left = run(t, form, &list, Nothing);
        let order = ranked(form, &list.before, list.mark);
        let Some(pair) = fault(form, &order, &list.before, &left, list.mark) else { continue };
        t.broke(form, claim, || told_pair(&list, form, pair, &left));
    }
}

/// A rule of the packer that can be turned.
#[derive(Clone, Copy, PartialEq)]
enum PackRule {
    DownPlace, UpPlaceCode, TiePlaceCode, FirstReference, SizeReference, Wraps, BySize, LateLayer, LastIdleCode, FirstStep, TwoStepsPlace,
    ZeroMissing,
}
use PackRule::*;
const PACKERS: [(PackRule, &str); 12] = [
    (DownPlace, "codes go down at odd places"),
    (UpPlaceCode, "codes go up at odd places"),
    (TiePlaceCode, "ties of codes go up at odd places and down at even ones"),
    (FirstReference, "the reference is the first present reading"),
    (SizeReference, "the reference is the reading of the smallest size"),
    (Wraps, "the step is half as large, and codes wrap"),
    (BySize, "codes are made of sizes without the sign"),
    (LateLayer, "a layer's first reading is packed with the layer before it"),
    (LastIdleCode, "the last place of a layer gets the code 0"),
    (FirstStep, "every layer has the step of the first, and codes wrap"),
    (TwoStepsPlace, "the step is twice as large at odd places"),
    (ZeroMissing, "a zero gets the missing code"),
];
/// What a packing leaves: its answer, codes, references and exponents.
#[derive(PartialEq, Default)]
struct Packed { answer: u32, codes: Vec<u16>, references: Vec<u32>, exponents: Vec<i32> }
/// How singles are packed.
struct Packing { length: usize, widths: Vec<u32> }
/// How far a value stands above another, in least spacings; it isn't below.
fn above(form: &Form, x: u64, other: u64) -> Nat {
    let (a, b) = (form.size(x % form.sign), form.size(other % form.sign));
    match (x >= form.sign, other >= form.sign) { (false, false) => a.minus(&b), (true, true) => b.minus(&a), _ => a.add(&b) }
}
/// The packer, with no rule or one rule turned.
fn pack(form: &Form, readings: &[u64], mark: u64, packing: &Packing, rule: Option<PackRule>) -> Packed {
    let (n, length) = (readings.len(), packing.length);
    let refused = |answer| Packed { answer, ..Packed::default() };
    if length < 1 || length > 65_536 { return refused(3); }
    if n % length != 0 { return refused(4); }
    if packing.widths.len() != n / length { return refused(5); }
    if packing.widths.iter().any(|w| !(2..=16).contains(w)) { return refused(11); }
    if readings.iter().any(|&x| x != mark && !form.finite(x)) { return refused(6); }
    let mut out = Packed::default();
    let mut last = None; // the layer before, for a wrong packer
    for (layer, &width) in readings.chunks(length).zip(&packing.widths) {
        let present = || layer.iter().copied().filter(|&x| x != mark);
        let (smallest, largest) = (present().min_by_key(|&x| form.rank(x)), present().max_by_key(|&x| form.rank(x)));
        let most = (1u64 << width) - 2;
        let mut reference = smallest.map_or(0, |x| if x == form.sign { 0 } else { x });
        let span = if let (Some(least), Some(most)) = (smallest, largest) { above(form, most, least) } else { Nat::of(0) };
        let mut step = span.bits().saturating_sub(width + 1);
        while span.cmp(&Nat::of(most).shl(step)).is_gt() { step += 1; }
        match rule {
            Some(FirstReference) => reference = present().next().unwrap_or(0),
            Some(SizeReference) => reference = present().min_by_key(|&x| x % form.sign).unwrap_or(0),
            Some(Wraps) => step = step.saturating_sub(1),
            Some(FirstStep) => if let Some(&first) = out.exponents.first() { step = (first + 149) as u32; },
            _ => (),
        }
        for (place, &x) in layer.iter().enumerate() {
            let (odd, mut by) = (place % 2 == 1, (reference, step));
            if rule == Some(LateLayer) && place == 0 { by = last.unwrap_or(by); }
            if rule == Some(TwoStepsPlace) && odd { by.1 += 1; }
            let zero = rule == Some(ZeroMissing) && x % form.sign == 0;
            let idle = rule == Some(LastIdleCode) && place == length - 1;
            let value = if rule == Some(BySize) { x % form.sign } else { x };
            out.codes.push(if x == mark || zero { most as u16 + 1 } else if idle { 0 } else {
                let below = form.rank(value) < form.rank(by.0); // by a wrong reference
                let distance = if below { above(form, by.0, value) } else { above(form, value, by.0) };
                let down = distance.shr(by.1);
                let rest = distance.minus(&down.shl(by.1));
                let to_middle = rest.times(2).cmp(&Nat::of(1).shl(by.1));
                let up = match rule {
                    Some(DownPlace) if odd => false,
                    Some(UpPlaceCode) if odd => rest.bits() > 0,
                    Some(TiePlaceCode) => nat::goes_up(to_middle, odd),
                    _ => nat::goes_up(to_middle, down.low() % 2 == 1),
                };
                let code = down.low().wrapping_add(up as u64);
                (if below { code.wrapping_neg() } else { code } % (1 << width)) as u16
            });
        }
        last = Some((reference, step));
        out.references.push(reference as u32);
        out.exponents.push(step as i32 - form.deep);
    }
    out
}
fn library_pack(readings: &[u64], mark: u64, packing: &Packing) -> Packed {
    let singles: Vec<u32> = readings.iter().map(|&x| x as u32).collect();
    let (n, layers) = (singles.len(), packing.widths.len());
    let (mut codes, mut references, mut exponents) = (vec![0u16; n], vec![0f32; layers], vec![0i32; layers]);
    // SAFETY: the pointers are those of arrays of so many elements, none of which overlap.
    let answer = unsafe {
        megharutti_pack(singles.as_ptr(), n, packing.length, mark as u32, packing.widths.as_ptr(), layers, codes.as_mut_ptr(), n,
            references.as_mut_ptr(), layers, exponents.as_mut_ptr(), layers)
    };
    if answer != 0 { return Packed { answer, ..Packed::default() }; }
    Packed { answer, codes, references: references.iter().map(|x| x.to_bits()).collect(), exponents }
}
/// The first two places of one layer whose codes stand in the opposite order to what their readings were at the start.
fn code_fault(form: &Form, list: &List, packed: &Packed, length: usize) -> Option<Fault> {
    for (layer, codes) in packed.codes.chunks(length).enumerate() {
        let before = &list.before[layer * length..][..length];
        for pair in ranked(form, before, list.mark).windows(2) {
            let (a, b) = (pair[0], pair[1]);
            let (at, equal) = (layer * length, form.rank(before[a]) == form.rank(before[b]));
            if codes[a] > codes[b] { return Some((at + a, at + b, "codes in the opposite order")); }
            if equal && codes[a] < codes[b] { return Some((at + b, at + a, "codes in the opposite order")); }
        }
    }
    None
}
/// A list of trims, cut to whole layers, and a packing of them.
fn packing(lists: &mut Lists, form: &Form, methods: &[u32]) -> (List, Packing) {
    let mut list = lists.list(form, methods, None, true);
    list.before.truncate(400);
    let n = list.before.len();
    let lengths = [1, 2, 3, n, n / 2, 1 + lists.below(40) as usize, 1 + lists.below(n as u64 + 1) as usize];
    let length = lists.pick(&lengths).clamp(1, n.max(1));
    list.before.truncate(n / length * length);
    let layers = list.before.len() / length;
    let one = lists.from(2, 16) as u32;
    let mut widths: Vec<u32> = (0..layers).map(|_| if lists.below(3) == 0 { lists.from(2, 16) as u32 } else { one }).collect();
    let mut length = length;
    if lists.below(80) == 0 { length = lists.pick(&[0, length + 1, 65_537]); }
    if layers > 0 && lists.below(80) == 0 { let at = lists.below(layers as u64) as usize; widths[at] = lists.pick(&[0, 1, 17, 258]); }
    (list, Packing { length, widths })
}
fn told_packing(form: &Form, list: &List, packing: &Packing) -> String {
    format!("{}, layers of {}, widths {:?}, {}", list.told(form), packing.length, packing.widths, list.readings())
}
/// Trims, packs and compares.
fn run_packed(t: &mut Tally, form: &Form, list: &List, packing: &Packing, promise: Promise) {
    let left = run(t, form, list, promise);
    let (packed, want) = (library_pack(&left, list.mark, packing), pack(form, &left, list.mark, packing, None));
    t.compared += (want.codes.len() + 2 * want.references.len() + 1) as u64;
    if packed != want {
        let at = (0..want.codes.len()).find(|&i| packed.codes.get(i) != Some(&want.codes[i]));
        let answers = format!("answer {}, expected {}", packed.answer, want.answer);
        t.differs(format!("packing: {answers}, first wrong code at {at:?}: {}", told_packing(form, list, packing)));
    }
    t.meet(form, if packed.answer == 0 { "packings" } else { "packings refused" }, 1);
    if packed.answer != 0 { return; }
    let (found, length) = (code_fault(form, list, &packed, packing.length), packing.length);
    let codes = |x: Fault| format!("codes {} and {}, layers of {length}", packed.codes[x.0], packed.codes[x.1]);
    let told = |x: Fault| format!("{}, {}", told_pair(list, form, x, &left), codes(x));
    if promise == Nothing { if let Some(pair) = found { t.broke(form, GROOMED_CODES, || told(pair)); } return; }
    t.compared += packed.codes.len() as u64;
    if let Some(pair) = found { return t.differs(format!("{}: {}", told(pair), told_packing(form, list, packing))); }
    t.meet(form, "layers packed", packed.exponents.len() as u64);
    t.meet(form, "codes packed", packed.codes.len() as u64);
    for (pair, claim) in code_claims(form, list, &left, &packed, length) { t.broke(form, claim, || told(pair)); }
}
/// Claims about codes that a packing breaks, and where.
fn code_claims(form: &Form, list: &List, left: &[u64], packed: &Packed, length: usize) -> Vec<(Fault, &'static str)> {
    let (order, mut out) = (ranked(form, &list.before, list.mark), vec![]);
    for pair in order.windows(2) {
        let (a, b) = (pair[0], pair[1]);
        let (codes, one_layer) = (packed.codes[a].cmp(&packed.codes[b]), a / length == b / length);
        if codes == Greater && !one_layer { out.push(((a, b, "in different layers"), LAYERS)); }
        if codes == Equal && one_layer && form.rank(left[a]) < form.rank(left[b]) { out.push(((a, b, "equal codes"), STRICT_CODES)); }
    }
    if !form.finite(list.mark) { return out; }
    let Some(gone) = list.before.iter().position(|&x| x == list.mark) else { return out };
    let larger = |i: usize| form.rank(list.before[i]) > form.rank(list.mark) && packed.codes[i] < packed.codes[gone];
    let Some(&i) = order.iter().find(|&&i| i / length == gone / length && larger(i)) else { return out };
    out.push(((gone, i, "the first missing"), MISSING_CODES));
    out
}
/// Two layers of the largest length.
fn longest(t: &mut Tally, form: &Form, lists: &mut Lists) {
    for widths in [vec![16, 2], vec![9, 16]] {
        let pool: Vec<u64> = (0..3000).map(|_| 0x41000000 + lists.below(1 << 25) + form.sign * lists.below(2)).collect();
        let before = (0..2 * 65_536).map(|_| lists.pick(&pool)).collect();
        let list = List { before, mark: 0x42000000, calls: vec![(ROUND, 9), (7, 0), (ABSOLUTE, -6)] };
        run_packed(t, form, &list, &Packing { length: 65_536, widths }, Roundings);
    }
}

/// The first list at which a trimmer with a turned rule breaks an order or loses a reading, and how many lists it took. With a rule that
/// keeps orders: the first at which its patterns differ, if no list breaks an order.
fn seen(form: &Form, turned: (Rule, u32), most: u64, keeps: bool) -> Option<(u64, String)> {
    let (wrong, right) = (Trimmer { form, turned: Some(turned) }, Trimmer { form, turned: None });
    let (mut lists, mut differs) = (Lists::new(), None);
    for i in 1..=most {
        let list = lists.list(form, if turned.1 < ROUND { &MIXTURE } else { &ROUNDINGS }, None, false);
        let order = ranked(form, &list.before, list.mark);
        let (mut now, mut want) = (list.before.clone(), list.before.clone());
        for &call in &list.calls {
            wrong.call(&mut now, call, list.mark);
            if keeps {
                right.call(&mut want, call, list.mark);
                if now != want && differs.is_none() { differs = Some((i, list.told(form))); }
            }
            let Some(pair) = fault(form, &order, &list.before, &now, list.mark) else { continue };
            // What it names must be a fault by itself.
            let two = |readings: &[u64]| [readings[pair.0], readings[pair.1]];
            assert!(fault_of_pairs(form, &two(&list.before), &two(&now), list.mark), "the two places aren't at fault");
            return (!keeps).then(|| (i, told_pair(&list, form, pair, &now)));
        }
    }
    differs
}
/// The same for a packer with a turned rule.
fn seen_packed(form: &Form, rule: PackRule, most: u64) -> Option<(u64, String)> {
    let (mut lists, right) = (Lists::new(), Trimmer { form, turned: None });
    for i in 1..=most {
        let (list, packing) = packing(&mut lists, form, &ROUNDINGS);
        let mut left = list.before.clone();
        for &call in &list.calls { right.call(&mut left, call, list.mark); }
        let packed = pack(form, &left, list.mark, &packing, Some(rule));
        if packed.answer != 0 { continue; }
        if let Some(pair) = code_fault(form, &list, &packed, packing.length) { return Some((i, told_pair(&list, form, pair, &left))); }
    }
    None
}
/// Turns each rule for each method, with singles and with doubles. Answers how many wrong models there were, how many that keep every
/// order, and how many of either were not seen.
fn wrong_models(forms: &[Form; 2]) -> [usize; 3] {
    let [mut models, mut kept, mut unseen] = [0; 3];
    let mut report = |name: String, found: Option<(u64, String)>| {
        unseen += found.is_none() as usize;
        println!("turned, {name}: {}", found.map_or("NOT SEEN".to_string(), |x| format!("seen in list {}: {}", x.0, x.1)));
    };
    for form in forms {
        let method = |method: u32| if method < 7 { NAMES[method as usize] } else { "refused" };
        for (rule, name, methods) in TURNED {
            for &of in methods { report(format!("{}, {}, {name}", form.name, method(of)), seen(form, (rule, of), 20_000, false)); }
            models += methods.len();
        }
        for (rule, name, methods) in KEPT {
            for &of in methods { report(format!("{}, {}, by patterns, {name}", form.name, method(of)), seen(form, (rule, of), 400, true)); }
            kept += methods.len();
        }
    }
    for (rule, name) in PACKERS { report(format!("singles, packed, {name}"), seen_packed(&forms[0], rule, 5000)); }
    [models + PACKERS.len(), kept, unseen]
}

/// What must have been met with singles and with doubles, and how often at least; and what with singles alone.
const WANTED: [(&str, u64); 20] = [
    ("accepted calls", 50_000), ("calls refused by 1", 1000), ("calls refused by 2", 1000), ("places changed", 1_000_000),
    ("places spared", 10_000), ("places clipped", 10_000), ("places missing", 10_000),
    ("neighbours in the order that were equal", 10_000), ("neighbours in the order that became equal", 100_000),
    ("neighbours in the order that stay apart", 100_000), ("lists of roundings", 10_000), ("lists of mixtures", 5000),
    ("lists of more than one accepted call", 10_000), ("lists of both roundings", 5000),
    ("lists of shaves, sets or halfshaves beside roundings", 2000), ("lists of refused calls beside accepted ones", 5000),
    ("lists with no accepted call", 100), ("lists with fewer than two ranked readings", 100), ("lists with a zero as the mark", 500),
    ("windows of consecutive patterns", 8),
];
const WANTED_PACKED: [(&str, u64); 4] =
    [("packings", 2000), ("packings refused", 50), ("layers packed", 10_000), ("codes packed", 200_000)];
/// Prints what was met. Answers whether something was met too seldom.
fn report(t: &Tally, forms: &[Form; 2]) -> bool {
    let mut few = false;
    println!("\n{:<66} {:>10} {:>10}", "met", forms[0].name, forms[1].name);
    for (what, least) in WANTED.into_iter().chain(WANTED_PACKED) {
        let packed = WANTED_PACKED.iter().any(|x| x.0 == what);
        let times = [0, 1].map(|i| t.met.get(&(forms[i].name, what)).copied().unwrap_or(0));
        let short = times[0] < least || times[1] < least && !packed;
        few |= short;
        println!("{what:<66} {:>10} {:>10}{}", times[0], times[1], if short { " TOO FEW" } else { "" });
    }
    let settings = [0, 1].map(|i| t.settings.iter().filter(|x| x.0 == forms[i].name).count());
    let of = |(least, most): (i32, i32)| (most - least + 1) as usize;
    let all = [0, 1].map(|i| of(forms[i].range(ROUND)) + of(forms[i].range(ABSOLUTE)));
    println!("{:<66} {:>10} {:>10}{}", "settings of roundings", settings[0], settings[1], if settings != all { " TOO FEW" } else { "" });
    few || settings != all
}
/// Prints which claims the library's answers broke. Answers how many claims there were, and how many weren't seen to break.
fn report_claims(t: &Tally, forms: &[Form; 2]) -> [u64; 2] {
    let (mut claims, mut unseen) = (0, 0);
    for (i, form) in forms.iter().enumerate() {
        for claim in CLAIMS.iter().chain(CODE_CLAIMS.iter().filter(|_| i == 0)) {
            claims += 1;
            let broken = t.claims.get(&(form.name, *claim));
            unseen += broken.is_none() as u64;
            println!("claim, {}, {claim}: {}", form.name, broken.map_or("NOT SEEN to fail".to_string(), |x| format!("fails: {x}")));
        }
    }
    [claims, unseen]
}

fn main() {
    let forms = [Form::new("singles", 23, 8), Form::new("doubles", 52, 11)];
    let [models, kept, unseen] = wrong_models(&forms);
    let t = &mut Tally { compared: 0, lines: 0, lists: 0, met: BTreeMap::new(), settings: BTreeSet::new(), claims: BTreeMap::new() };
    for form in &forms {
        let lists = &mut Lists::new();
        sizes(t, form);
        for _ in 0..12_000 { let list = lists.list(form, &ROUNDINGS, None, false); run(t, form, &list, Roundings); }
        for _ in 0..8000 { let list = lists.list(form, &MIXTURE, None, false); run(t, form, &list, Mixture); }
        every_setting(t, form, lists);
        exhaustive(t, form);
        for _ in 0..300 { two_marks(t, form, lists); unpromised(t, form, lists); }
    }
    let (singles, lists) = (&forms[0], &mut Lists::new());
    for _ in 0..5000 { let (list, packing) = packing(lists, singles, &ROUNDINGS); run_packed(t, singles, &list, &packing, Roundings); }
    for _ in 0..100 { let (list, packing) = packing(lists, singles, &[GROOM]); run_packed(t, singles, &list, &packing, Nothing); }
    longest(t, singles, lists);
    let few = report(t, &forms);
    let [claims, unbroken] = report_claims(t, &forms);
    println!("\nturned: {models} wrong models, and {kept} that keep every order, seen by their patterns alone; {unseen} not seen");
    println!("claims: {claims} that go too far, {unbroken} not seen to fail");
    let found = [
        (t.lines > 0, "DIFFERENCES"), (few, "something met TOO FEW times"), (unseen > 0, "a wrong model NOT SEEN"),
        (unbroken > 0, "a wrong claim NOT SEEN"),
    ];
    finish(t, found.into_iter().find(|x| x.0).map_or("no difference", |x| x.1))
}
