//! Document 01's trims in exact whole numbers, with document 02's rises and falls and its turns of grooming, and readings at which they
//! change. Each test uses its own part of them.
#![allow(dead_code)]
use crate::nat::{goes_up, Nat};
use std::cmp::Ordering;

/// A rule of the trims that can be turned, for a test that shows that it would notice.
#[derive(Clone, Copy, PartialEq)]
pub enum Slip { TieUp, Overflow, ClipToTop, ZeroTail, ZeroSign, DecadeBelow, TwoSpacingsStay, NanTail, Flush }

/// A float form with f fraction bits and e exponent bits. A size is a Nat that counts least spacings; the least spacing is 2^-deep.
pub struct Form {
    pub f: u32, pub e: u32, pub deep: i32, pub sign: u64, pub infinity: u64,
    pub all: u64, // every bit of a pattern
    tens: Vec<Nat>, // the least size that isn't below 10^x, from x = LOW on; sizes are whole, so the comparison is exact
    lengths: Vec<i32>, // the bit length of 10^0, 10^1 ..
    pub slip: Option<Slip>, // none, but in a test of a test
}
const LOW: i32 = -330; // below the decade of the least double

impl Form {
    pub fn new(f: u32, e: u32) -> Form {
        let deep = (1 << (e - 1)) - 2 + f as i32;
        let mut tens = vec![Nat::of(1).shl(deep as u32)];
        (0..-LOW).for_each(|i| tens.push(tens[i as usize].over(10)));
        tens.reverse();
        (0..310).for_each(|_| tens.push(tens[tens.len() - 1].times(10)));
        let mut ten = Nat::of(1);
        let lengths = (0..360).map(|_| (ten.bits() as i32, ten = ten.times(10)).0).collect();
        Form { f, e, deep, sign: 1 << (f + e), infinity: ((1 << e) - 1) << f, all: u64::MAX >> (63 - f - e), tens, lengths, slip: None }
    }
    fn is(&self, slip: Slip) -> bool { self.slip == Some(slip) }
    /// The settings that the method takes.
    pub fn range(&self, method: u32) -> (i32, i32) {
        let absolute = (-self.deep, (1 << (self.e - 1)) - 1);
        if method < 5 { (0, self.f as i32) } else if method == 5 { absolute } else { (1, if self.f == 23 { 7 } else { 15 }) }
    }
    pub fn refusal(&self, method: u32, setting: i32) -> u32 {
        let (least, most) = self.range(method);
        if method > 6 { 1 } else if setting < least || setting > most { 2 } else { 0 }
    }
    /// The exponent of the spacing, counted from the least spacing.
    pub fn spacing(&self, m: u64) -> u32 { ((m >> self.f) as u32).max(1) - 1 }
    /// The exact size of a magnitude, in least spacings.
    pub fn size(&self, m: u64) -> Nat {
        let fraction = m % (1 << self.f);
        Nat::of(if m >> self.f == 0 { fraction } else { (1 << self.f) + fraction }).shl(self.spacing(m))
    }
    fn magnitude(&self, size: &Nat) -> u64 {
        let e = size.bits().saturating_sub(self.f);
        let m = ((e as u64) << self.f) + size.shr(e.max(1) - 1).low() % (1 << self.f);
        assert!(m < self.infinity && self.size(m) == *size, "the model made a size that isn't a reading's");
        m
    }
    /// Whether a reading takes a turn of grooming: it does where it is present and finite.
    pub fn takes_turn(&self, reading: u64, mark: u64) -> bool { reading != mark && reading % self.sign < self.infinity }
    /// How the exact signed value of one finite pattern stands to another's: Greater where it rises from old to new, Less where it falls.
    /// What stays as it was moves nowhere, a number or not.
    pub fn moved(&self, old: u64, new: u64) -> Ordering {
        if old == new { return Ordering::Equal; }
        // A value is its part above zero less its part below. What is taken off on one side is added on the other: nothing is negative.
        let part = |x: u64, below: bool| if (x >= self.sign) == below { self.size(x % self.sign) } else { Nat::of(0) };
        part(new, false).add(&part(old, true)).cmp(&part(old, false).add(&part(new, true)))
    }
    /// What the machine's floats say of the same, of finite patterns.
    pub fn machine_moved(&self, old: u64, new: u64) -> Option<Ordering> {
        if old % self.sign >= self.infinity || new % self.sign >= self.infinity { return None; }
        let (single, double) = (|x: u64| f32::from_bits(x as u32), f64::from_bits);
        if self.f == 23 { single(new).partial_cmp(&single(old)) } else { double(new).partial_cmp(&double(old)) }
    }
    /// The method's own result at a reading that isn't the mark, and for groom at a turn that is odd or not.
    pub fn own(&self, method: u32, setting: i32, reading: u64, odd: bool) -> Own {
        let (new, clipped) = self.trim(method, setting, reading, odd);
        (new, clipped, self.moved(reading, new))
    }
    /// What the method makes of a reading that isn't the mark, before sparing, and whether it was clipped.
    pub fn trim(&self, method: u32, setting: i32, reading: u64, odd: bool) -> (u64, bool) {
        let m = reading % self.sign;
        let (new, clipped) = match method {
            0..=3 if m > self.infinity && self.is(Slip::NanTail) => self.keep(method, self.f - setting as u32, m, odd),
            _ if m >= self.infinity => (m, false),
            _ if m < 1 << self.f && self.is(Slip::Flush) => (0, false),
            0..=4 => self.keep(method, self.f - setting as u32, m, odd),
            5 => self.absolute((setting + self.deep) as u32, m),
            _ => (self.digits(setting, m), false),
        };
        let sign = if new == 0 && method == 5 && self.is(Slip::ZeroSign) { 0 } else { reading - m };
        (sign + new, clipped)
    }
    /// Whether a reading goes to the upper neighbour on a grid.
    fn up(&self, to_middle: Ordering, below_is_odd: bool) -> bool { goes_up(to_middle, below_is_odd || self.is(Slip::TieUp)) }
    /// Where a clipped reading goes, by the grid's largest finite value.
    fn clip(&self, most: u64) -> u64 { if self.is(Slip::ClipToTop) { self.infinity - 1 } else { most } }
    fn keep(&self, method: u32, t: u32, m: u64, odd: bool) -> (u64, bool) {
        let unit = 1u64 << t;
        let s = m / unit * unit;
        match method {
            0 => (s, false),
            1 => (if m == 0 && !self.is(Slip::ZeroTail) { m } else { s + (unit - 1) }, false),
            2 => self.keep(odd as u32, t, m, odd),
            3 => (if m == 0 && !self.is(Slip::ZeroTail) || t == 0 { m } else { s + unit / 2 }, false),
            _ if !self.up((m - s).cmp(&(s + unit - m)), s & unit != 0) => (s, false),
            _ => if s + unit < self.infinity || self.is(Slip::Overflow) { (s + unit, false) } else { (self.clip(s), true) },
        }
    }
    fn absolute(&self, unit: u32, m: u64) -> (u64, bool) {
        let size = self.size(m);
        let j = size.shr(unit);
        let (below, above) = (j.shl(unit), j.add(&Nat::of(1)).shl(unit));
        let up = self.up(size.times(2).cmp(&below.add(&above)), j.low() % 2 == 1);
        let largest = self.size(self.infinity - 1);
        let clipped = up && above.cmp(&largest).is_gt();
        let new = self.magnitude(&if clipped { largest.shr(unit).shl(unit) } else if up { above } else { below });
        (if clipped { self.clip(new) } else { new }, clipped)
    }
    /// The d with 10^(d-1) <= size < 10^d.
    pub fn decade(&self, m: u64) -> i32 {
        let size = self.size(m);
        let reached = |ten: &Nat| if self.is(Slip::DecadeBelow) { ten.cmp(&size).is_lt() } else { ten.cmp(&size).is_le() };
        self.tens.partition_point(reached) as i32 + LOW
    }
    fn digits(&self, n: i32, m: u64) -> u64 {
        if m == 0 { return m; }
        let x = self.decade(m) - n;
        // Below 10^0 no power of ten is a power of two, so 2^-length is the largest that isn't above 10^x.
        let length = self.lengths[x.unsigned_abs() as usize];
        let q = if x >= 0 { length - 1 } else { -length } + self.deep;
        if q < self.spacing(m) as i32 + 1 + self.is(Slip::TwoSpacingsStay) as i32 { return m; }
        let j = self.size(m).shr(q as u32);
        self.magnitude(&j.times_add(2, &Nat::of(1)).shl(q as u32 - 1))
    }
    /// What the machine's floats say, where nothing but the wanted rounding can round.
    pub fn machine(&self, method: u32, setting: i32, reading: u64) -> Option<u64> {
        let power = |p: i32| f64::from_bits(if p < -1022 { 1 << (p + 1074) } else { ((p + 1023) as u64) << 52 });
        let (double, most) = (f64::from_bits(reading), f32::MAX as f64);
        match (method, self.f) {
            _ if reading % self.sign >= self.infinity => None,
            (5, 23) => {
                let x = (f32::from_bits(reading as u32) as f64 / power(setting)).round_ties_even() * power(setting);
                let largest = (most / power(setting)).floor() * power(setting);
                Some((x.abs().min(largest).copysign(x) as f32).to_bits() as u64)
            }
            (5, _) => {
                let quotient = double / power(setting);
                let x = quotient.round_ties_even() * power(setting);
                (x.is_finite() && (quotient.is_normal() || double == 0.0)).then_some(x.to_bits())
            }
            // A cast to single keeps 23 bits of a double that has a single's exponent, ties to even.
            (4, 52) if setting == 23 && (f32::MIN_POSITIVE as f64..=most).contains(&double.abs()) => Some((double as f32 as f64).to_bits()),
            _ => None,
        }
    }
}

/// A method's own result, before sparing: the pattern, whether it was clipped, and how its exact signed value stands to the reading's.
pub type Own = (u64, bool, Ordering);
/// Whether a move is a rise, and whether it is a fall.
pub fn ways(moved: Ordering) -> [bool; 2] { [moved.is_gt(), moved.is_lt()] }
/// Whether a place counts as changed, spared, clipped, missing, risen and fallen.
pub type Kinds = [bool; 6];

/// What a place of an array holds after an accepted call, by the method's own result there, and what it counts as.
pub fn left(old: u64, (new, clipped, moved): Own, mark: u64) -> (u64, Kinds) {
    let (missing, spared) = (old == mark, old != mark && new == mark);
    if missing || spared { return (old, [false, spared, false, missing, false, false]); }
    let [risen, fallen] = ways(moved);
    (new, [new != old, false, clipped, false, risen, fallen])
}
/// The loader's number for a pattern that is left: it gains 2^33 for a rise and 2^34 for a fall.
pub fn number(new: u64, risen: bool, fallen: bool) -> u64 { new + ((risen as u64) << 33) + ((fallen as u64) << 34) }

/// Ends, subnormals, infinities, NaNs and a few everyday readings, with both signs.
pub fn ends(form: &Form) -> Vec<u64> {
    let (one, top) = (1u64 << form.f, form.infinity);
    let mut out = vec![0, 1, 2, 3, one / 2, one - 2, one - 1, one, one + 1, 2 * one, top - one, top - 2, top - 1];
    out.extend([top, top + 1, top + one / 2, top + one / 2 + 1, top + one - 1, top / 2 - one / 2, top / 2]);
    out.extend(match form.f {
        23 => [0x40490FDB, 0x7CF00000, 0x7CF00001, 0x3FC00000, 0x3DCCCCCD],
        _ => [std::f64::consts::PI, 9969209968386869046778552952102584320.0, 0.1, 1.5, 2.5].map(f64::to_bits),
    });
    out.iter().flat_map(|&m| [m, m + form.sign]).collect()
}
/// The readings nearest to the powers of ten, with their neighbours on both sides.
pub fn tens(form: &Form) -> Vec<u64> {
    let single = |x: i32| format!("1e{x}").parse::<f32>().unwrap().to_bits() as u64;
    let double = |x: i32| format!("1e{x}").parse::<f64>().unwrap().to_bits();
    let near: Vec<u64> = if form.f == 23 { (-45..39).map(single).collect() } else { (-324..309).map(double).collect() };
    near.iter().flat_map(|&m| [m.saturating_sub(1), m, m + 1]).collect()
}
