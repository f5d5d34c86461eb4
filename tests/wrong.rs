//! The trims' model with no rule or one rule turned, and the test of the trims' test: it must see every wrong model.
use crate::met::ten;
use crate::model::{left, number, ways, Form, Kinds, Own, Slip};

pub const CALLS: [&str; 3] = ["trim_singles", "trim_doubles", "trim_single"];
pub const SINGLES: usize = 0;
pub const DOUBLES: usize = 1;
pub const LOADER: usize = 2;
/// A method's number; 7 for every unknown one.
pub fn row(method: u32) -> usize { method.min(7) as usize }
pub fn named(row: usize) -> String { if row == 7 { "unknown".to_string() } else { row.to_string() } }

/// A rule that can be turned.
#[derive(Clone, Copy, PartialEq)]
pub enum Rule {
    Trim(Slip), TenBelow, Quieted, Finite, NotSpared, SparedChanged, SparedClipped, MissingTrimmed, ByValue, ZerosAlike, NansAlike,
    Turn(Who), SetFirst, OnlyFirst, Pairs, Anew(usize), Rest(usize), CarriedOn, Beyond(u32),
    Count(usize), RefusedWrites, RefusedCounts, RefusedCount(usize), RefusalAlone, Order21, Range(i32, i32),
    Exchanged, GainsExchanged, RefusalGains(u32), BySize, SparedRisen, SparedFallen, MissingMoved, ClipTurned, ClipStays, ZeroStays(u64),
    TinyStays,
}
use Rule::*;

/// Readings of which a wrong model turns whether they take a turn of grooming.
#[derive(Clone, Copy, PartialEq)]
pub enum Who {
    Idle, Missing, FiniteMark, OtherMark, Infinity, MinusInfinity, Nan, Quiet, Signalling,
    Zero, PlusZero, MinusZero, OtherZero, Tiny, Largest, Negative, Spared, Same,
}
impl Who {
    /// Whether a reading is one of these, by the mark, the pattern that is left and what it counts as.
    fn is(self, form: &Form, old: u64, mark: u64, new: u64, [_, spared, _, missing, ..]: Kinds) -> bool {
        let (m, negative, top) = (old % form.sign, old >= form.sign, form.infinity);
        let quiet = m >> (form.f - 1) & 1 == 1;
        match self {
            Who::Idle => missing || m >= top,
            Who::Missing => missing,
            Who::FiniteMark => missing && m < top,
            Who::OtherMark => missing && m >= top,
            Who::Infinity => !missing && m == top,
            Who::MinusInfinity => !missing && m == top && negative,
            Who::Nan => !missing && m > top,
            Who::Quiet => !missing && m > top && quiet,
            Who::Signalling => !missing && m > top && !quiet,
            Who::Zero => !missing && m == 0,
            Who::PlusZero => !missing && m == 0 && !negative,
            Who::MinusZero => !missing && m == 0 && negative,
            Who::OtherZero => !missing && m == 0 && mark % form.sign == 0,
            Who::Tiny => !missing && m > 0 && m < 1 << form.f,
            Who::Largest => !missing && m == top - 1,
            Who::Negative => !missing && m < top && negative,
            Who::Spared => spared,
            Who::Same => !missing && m < top && new == old,
        }
    }
}

const ALL: &[usize] = &[0, 1, 2, 3, 4, 5, 6];
const WITH_UNKNOWN: &[usize] = &[0, 1, 2, 3, 4, 5, 6, 7];
const GROOM: &[usize] = &[2];
const TO_ZERO: &[usize] = &[0, 2, 4, 5]; // the others make no zero of what isn't one
/// Each rule, the methods by which an array call can show it, and those by which the loader's call can. The loader's call has no counts and
/// no array. By it a zero or a NaN looks the same whether it is missing or stays, so a zero that passes for the mark shows only where a
/// method makes a zero of something else, and a NaN that does so never. What a reading counts as risen or fallen shows in its number.
/// Grooming's turn is a number for the loader's call, so that who takes a turn shows by an array call alone; there no turn is so far on
/// that its parity could be lost.
const TURNED: [(Rule, &str, &[usize], &[usize]); 95] = [
    (Trim(Slip::TieUp), "a tie goes up", &[4, 5], &[4, 5]),
    (Trim(Slip::Overflow), "round passes the largest finite pattern", &[4], &[4]),
    (Trim(Slip::ClipToTop), "a clipped reading becomes the largest finite pattern", &[4, 5], &[4, 5]),
    (Trim(Slip::ZeroTail), "set and halfshave give a zero a tail", &[1, 2, 3], &[1, 2, 3]),
    (Trim(Slip::ZeroSign), "absolute takes the sign from a zero result", &[5], &[5]),
    (Trim(Slip::DecadeBelow), "a decade begins after its least whole size", &[6], &[6]),
    (Trim(Slip::TwoSpacingsStay), "digits leaves a reading where q is two spacings", &[6], &[6]),
    (Trim(Slip::NanTail), "the tail of a NaN is trimmed", &[0, 1, 2, 3], &[0, 1, 2, 3]),
    (Trim(Slip::Flush), "subnormal readings become zero", ALL, ALL),
    (TenBelow, "a reading that is a power of ten stands in the decade below", &[6], &[6]),
    (Quieted, "a NaN is quieted", ALL, ALL),
    (Finite, "an infinity becomes the largest finite pattern", ALL, ALL),
    (NotSpared, "nothing is spared", ALL, ALL),
    (SparedChanged, "a spared reading counts as changed", ALL, &[]),
    (SparedClipped, "a spared reading counts as clipped too", &[4, 5], &[]),
    (MissingTrimmed, "missing readings are trimmed", ALL, ALL),
    (ByValue, "the mark is compared by value", ALL, TO_ZERO),
    (ZerosAlike, "the mark is compared by value among zeros only", ALL, TO_ZERO),
    (NansAlike, "every NaN is missing where the mark is one", ALL, &[]),
    (Turn(Who::Idle), "groom goes by place, as in document 01", GROOM, &[]),
    (Turn(Who::Missing), "a missing reading takes a turn", GROOM, &[]),
    (Turn(Who::FiniteMark), "a missing reading takes a turn where the mark is finite", GROOM, &[]),
    (Turn(Who::OtherMark), "a missing reading takes a turn where the mark isn't finite", GROOM, &[]),
    (Turn(Who::Infinity), "an infinity takes a turn", GROOM, &[]),
    (Turn(Who::MinusInfinity), "-infinity takes a turn", GROOM, &[]),
    (Turn(Who::Nan), "a NaN takes a turn", GROOM, &[]),
    (Turn(Who::Quiet), "a quiet NaN takes a turn", GROOM, &[]),
    (Turn(Who::Signalling), "a signalling NaN takes a turn", GROOM, &[]),
    (Turn(Who::Zero), "a zero takes no turn", GROOM, &[]),
    (Turn(Who::PlusZero), "+0 takes no turn", GROOM, &[]),
    (Turn(Who::MinusZero), "-0 takes no turn", GROOM, &[]),
    (Turn(Who::OtherZero), "a zero takes no turn where the mark is the other zero", GROOM, &[]),
    (Turn(Who::Tiny), "a subnormal reading takes no turn", GROOM, &[]),
    (Turn(Who::Largest), "the largest finite reading takes no turn", GROOM, &[]),
    (Turn(Who::Negative), "a negative reading takes no turn", GROOM, &[]),
    (Turn(Who::Spared), "a spared reading takes no turn", GROOM, &[]),
    (Turn(Who::Same), "a reading that stays as it was takes no turn", GROOM, &[]),
    (SetFirst, "groom sets at the first turn", GROOM, GROOM),
    (OnlyFirst, "groom sets at every turn but the first", GROOM, GROOM),
    (Pairs, "groom shaves at two turns and then sets at two", GROOM, GROOM),
    (Anew(4), "the turns begin anew after 4 places", GROOM, &[]),
    (Anew(8), "the turns begin anew after 8 places", GROOM, &[]),
    (Anew(16), "the turns begin anew after 16 places", GROOM, &[]),
    (Anew(32), "the turns begin anew after 32 places", GROOM, &[]),
    (Anew(64), "the turns begin anew after 64 places", GROOM, &[]),
    (Anew(128), "the turns begin anew after 128 places", GROOM, &[]),
    (Anew(256), "the turns begin anew after 256 places", GROOM, &[]),
    (Anew(512), "the turns begin anew after 512 places", GROOM, &[]),
    (Anew(1000), "the turns begin anew after 1,000 places", GROOM, &[]),
    (Anew(1024), "the turns begin anew after 1,024 places", GROOM, &[]),
    (Anew(4096), "the turns begin anew after 4,096 places", GROOM, &[]),
    (Anew(16_384), "the turns begin anew after 16,384 places", GROOM, &[]),
    (Anew(65_536), "the turns begin anew after 65,536 places", GROOM, &[]),
    (Rest(4), "the turns go by place after the last whole block of 4", GROOM, &[]),
    (Rest(8), "the turns go by place after the last whole block of 8", GROOM, &[]),
    (Rest(64), "the turns go by place after the last whole block of 64", GROOM, &[]),
    (Rest(65_536), "the turns go by place after the last whole block of 65,536", GROOM, &[]),
    (CarriedOn, "the turns go on from call to call", GROOM, &[]),
    (Beyond(32), "groom shaves at each turn from 2^32 on", &[], GROOM),
    (Beyond(53), "groom shaves at each turn from 2^53 on", &[], GROOM),
    (Beyond(63), "groom shaves at each turn from 2^63 on", &[], GROOM),
    (Count(0), "one more is counted as changed", ALL, &[]),
    (Count(1), "one more is counted as spared", ALL, &[]),
    (Count(2), "one more is counted as clipped", ALL, &[]),
    (Count(3), "one more is counted as missing", ALL, &[]),
    (Count(4), "one more is counted as risen", ALL, &[]),
    (Count(5), "one more is counted as fallen", ALL, &[]),
    (Count(6), "something is written behind the counts", ALL, &[]),
    (Exchanged, "risen and fallen are exchanged", ALL, &[]),
    (GainsExchanged, "2^33 is the gain for a fall, and 2^34 for a rise", &[], ALL),
    (BySize, "a rise is one of the size, without its sign", ALL, ALL),
    (SparedRisen, "a spared reading counts as risen where its result would have", ALL, ALL),
    (SparedFallen, "a spared reading counts as fallen where its result would have", ALL, ALL),
    (MissingMoved, "a missing reading counts as moved where it would have", ALL, ALL),
    (ClipTurned, "a clipped reading counts the other way", &[4, 5], &[4, 5]),
    (ClipStays, "a clipped reading counts as stayed", &[4, 5], &[4, 5]),
    (ZeroStays(0), "a reading that becomes +0 counts as stayed", TO_ZERO, TO_ZERO),
    (ZeroStays(1), "a reading that becomes -0 counts as stayed", TO_ZERO, TO_ZERO),
    (TinyStays, "a subnormal reading counts as stayed where it stays one or becomes zero", ALL, ALL),
    (RefusedWrites, "a refused call changes the array", WITH_UNKNOWN, &[]),
    (RefusedCounts, "a refused call writes the counts", WITH_UNKNOWN, &[]),
    (RefusedCount(0), "a refused call writes the count of changed", WITH_UNKNOWN, &[]),
    (RefusedCount(1), "a refused call writes the count of spared", WITH_UNKNOWN, &[]),
    (RefusedCount(2), "a refused call writes the count of clipped", WITH_UNKNOWN, &[]),
    (RefusedCount(3), "a refused call writes the count of missing", WITH_UNKNOWN, &[]),
    (RefusedCount(4), "a refused call writes the count of risen", WITH_UNKNOWN, &[]),
    (RefusedCount(5), "a refused call writes the count of fallen", WITH_UNKNOWN, &[]),
    (RefusalAlone, "a refusal's number comes without 2^32", &[], WITH_UNKNOWN),
    (RefusalGains(33), "a refusal gains 2^33", &[], WITH_UNKNOWN),
    (RefusalGains(34), "a refusal gains 2^34", &[], WITH_UNKNOWN),
    (Order21, "2 is asked before 1", &[7], &[7]),
    (Range(-1, 0), "the least setting is one too low", ALL, ALL),
    (Range(1, 0), "the least setting is one too high", ALL, ALL),
    (Range(0, -1), "the largest setting is one too low", ALL, ALL),
    (Range(0, 1), "the largest setting is one too high", ALL, ALL),
];

/// Document 01, with no rule or one rule turned.
pub struct Model { pub form: Form, pub turned: Option<Rule> }
impl Model {
    /// The same, with the form's own rules turned too.
    pub fn slipped(mut self) -> Model {
        self.form.slip = if let Some(Trim(slip)) = self.turned { Some(slip) } else { None };
        self
    }
    pub fn is(&self, rule: Rule) -> bool { self.turned == Some(rule) }
    /// The method's own result at a reading that isn't the mark, and for groom at a turn that is odd or not.
    pub fn own(&self, method: u32, setting: i32, reading: u64, odd: bool) -> Own {
        let (form, m) = (&self.form, reading % self.form.sign);
        let made = |new| (new, false, form.moved(reading, new));
        match self.turned {
            // Only the decade less the digits matters.
            Some(TenBelow) if method == 6 && ten(form, m) => form.own(method, setting + 1, reading, odd),
            Some(Quieted) if m > form.infinity => made(reading | 1 << (form.f - 1)),
            Some(Finite) if m == form.infinity => made(reading - 1),
            _ => form.own(method, setting, reading, odd),
        }
    }
    /// Whether the turns are wrong about blocks.
    pub fn has_blocks(&self) -> bool { matches!(self.turned, Some(Anew(_) | Rest(_))) }
    /// The turn at a place of an array of so many readings, by the one that follows from the readings before it.
    pub fn turn(&self, n: usize, place: usize, follows: u64) -> u64 {
        match self.turned {
            Some(Anew(block)) if place % block == 0 => 0,
            Some(Rest(block)) if place == n / block * block => place as u64,
            _ => follows,
        }
    }
    /// Whether groom sets at a turn.
    pub fn sets(&self, turn: u64) -> bool {
        match self.turned {
            Some(SetFirst) => turn % 2 == 0,
            Some(OnlyFirst) => turn > 0,
            Some(Pairs) => turn / 2 % 2 == 1,
            Some(Beyond(bits)) => turn % 2 == 1 && turn < 1 << bits,
            _ => turn % 2 == 1,
        }
    }
    /// Whether a reading takes a turn, by what is left of it and what it counts as.
    pub fn takes_turn(&self, old: u64, mark: u64, new: u64, kinds: Kinds) -> bool {
        let wrongly = if let Some(Turn(who)) = self.turned { who.is(&self.form, old, mark, new, kinds) } else { false };
        self.form.takes_turn(old, mark) != wrongly
    }
    pub fn refusal(&self, method: u32, setting: i32) -> u32 {
        let (least, most) = self.form.range(method);
        let inside = |least, most| (least..=most).contains(&setting);
        match self.turned {
            Some(Range(low, high)) if method < 7 => if inside(least + low, most + high) { 0 } else { 2 },
            // Only absolute takes so many settings; what it doesn't take no method takes.
            Some(Order21) if method > 6 => { let (least, most) = self.form.range(5); if inside(least, most) { 1 } else { 2 } }
            _ => self.form.refusal(method, setting),
        }
    }
    /// Whether a pattern that isn't the mark passes for it.
    fn alike(&self, x: u64, mark: u64) -> bool {
        let (a, b, top) = (x % self.form.sign, mark % self.form.sign, self.form.infinity);
        let (zeros, nans) = (a == 0 && b == 0, a > top && b > top);
        x != mark && (zeros && (self.is(ByValue) || self.is(ZerosAlike)) || nans && self.is(NansAlike))
    }
    /// What a place of an array holds after an accepted call, and what it counts as.
    pub fn left(&self, old: u64, own: Own, mark: u64) -> (u64, Kinds) {
        let (new, kinds) = left(old, own, mark);
        let [changed, spared, clipped, missing, risen, fallen] = kinds;
        let (negative, tiny) = (old >= self.form.sign, |x: u64| x % self.form.sign < 1 << self.form.f);
        let [up, down] = ways(own.2);
        // The same with other moves.
        let moving = |risen, fallen| (new, [changed, spared, clipped, missing, risen, fallen]);
        match self.turned {
            None => (),
            Some(NotSpared) if spared => return (own.0, [true, false, own.1, false, up, down]),
            Some(SparedChanged) if spared => return (new, [true, spared, clipped, missing, risen, fallen]),
            Some(SparedClipped) if spared => return (new, [changed, spared, own.1, missing, risen, fallen]),
            Some(SparedRisen) if spared => return moving(up, fallen),
            Some(SparedFallen) if spared => return moving(risen, down),
            Some(MissingTrimmed) if missing => return (own.0, kinds),
            Some(MissingMoved) if missing => return moving(up, down),
            Some(Exchanged) => return moving(fallen, risen),
            Some(BySize) if negative => return moving(fallen, risen),
            Some(ClipTurned) if clipped => return moving(fallen, risen),
            Some(ClipStays) if clipped => return moving(false, false),
            Some(ZeroStays(sign)) if new == sign * self.form.sign => return moving(false, false),
            Some(TinyStays) if tiny(old) && tiny(new) => return moving(false, false),
            // A NaN isn't equal to itself.
            Some(ByValue) if missing && mark % self.form.sign > self.form.infinity => return (new, [false; 6]),
            _ if self.alike(old, mark) => return left(old, own, old),
            _ if self.alike(own.0, mark) => return left(old, own, own.0),
            _ => (),
        }
        (new, kinds)
    }
    /// What a place holds after a refused call.
    pub fn refused(&self, old: u64) -> (u64, Kinds) { (if self.is(RefusedWrites) { old ^ 1 } else { old }, [false; 6]) }
    /// What the loader's call answers where it accepts, and where it refuses.
    pub fn accepted_alone(&self, new: u64, [.., risen, fallen]: Kinds) -> u64 {
        if self.is(GainsExchanged) { number(new, fallen, risen) } else { number(new, risen, fallen) }
    }
    pub fn refused_alone(&self, refusal: u32) -> u64 {
        let gain = if let Some(RefusalGains(bit)) = self.turned { 1 << bit } else { 0 };
        gain + if self.is(RefusalAlone) { refusal as u64 } else { (1 << 32) + refusal as u64 }
    }
    /// The counts of an accepted call, which stand from 1 to 6, and what stands before and behind them.
    pub fn counted(&self, mut counts: [u64; 9]) -> [u64; 9] {
        if let Some(Count(k)) = self.turned { counts[k + 1] += 1; }
        counts
    }
    /// The same after a refused call, which finds them all alike.
    pub fn uncounted(&self, untold: u64, counts: [u64; 9]) -> [u64; 9] {
        match self.turned {
            Some(RefusedCounts) => counts,
            Some(RefusedCount(k)) => { let mut out = [untold; 9]; out[k + 1] = counts[k + 1]; out }
            _ => [untold; 9],
        }
    }
}

/// Turns each rule for each call and method that can show it. `first` answers after how many comparisons such a wrong model was seen, and
/// where; 0 if it was not. Answers how many were not seen.
pub fn self_test(first: impl Fn(Rule, usize, usize) -> (u64, String)) -> u32 {
    let (mut models, mut unseen) = (0, 0);
    for (rule, name, arrays, loader) in TURNED {
        for (call, of) in CALLS.iter().enumerate() {
            let methods = if call == LOADER { loader } else { arrays };
            let seen: Vec<(u64, String)> = methods.iter().map(|&method| first(rule, call, method)).collect();
            models += methods.len();
            for (method, _) in methods.iter().zip(&seen).filter(|x| x.1.0 == 0) {
                unseen += 1;
                println!("turned, {name}, {of}, method {}: NOT SEEN", named(*method));
            }
            // The one that was seen last stands for all.
            let Some((after, told)) = seen.iter().filter(|x| x.0 > 0).max_by_key(|x| x.0) else { continue };
            let by: Vec<String> = methods.iter().map(|&method| named(method)).collect();
            println!("turned, {name}, {of}, method {}: seen after {after} comparisons: {told}", by.join(" "));
        }
    }
    println!("self-test: {models} wrong models, {unseen} not seen");
    unseen
}
