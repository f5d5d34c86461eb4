//! Compares the call for layer totals with a model of request (g) of document 02: the answer, the number of present codes and their sum,
//! and that nothing else is written or read. Then it asks the request's promise of layers that the library itself packed, and demand 3's
//! distances of the totals of arrays that it trimmed before that, in exact whole numbers.
//!
//! The model knows nothing of the library, and nothing of lanes: it takes the codes in order. Every run makes the same comparisons. Beside
//! the model stand wrong ones, each with one rule or one claim turned. Each must be seen to differ from the library, and at each width
//! at which it can.
mod draw;
use draw::{Draw, SEED};
use std::cmp::Ordering;
use std::collections::{BTreeMap, BTreeSet};
use std::fmt::UpperHex;
use std::ops::RangeInclusive;
use std::process::exit;
use std::ptr::{null_mut, NonNull};

extern "C" {
    fn megharutti_totals(codes: *const u16, n: usize, width: u32, totals: *mut u64) -> u32;
    fn megharutti_pack(
        readings: *const u32, n: usize, length: usize, mark: u32, widths: *const u32, n_widths: usize,
        codes: *mut u16, n_codes: usize, references: *mut f32, n_references: usize, exponents: *mut i32, n_exponents: usize,
    ) -> u32;
    fn megharutti_trim_singles(readings: *mut u32, n: usize, method: u32, setting: i32, mark: u32, counts: *mut u64) -> u32;
    fn mmap(at: *mut u8, bytes: usize, may: i32, how: i32, file: i32, from: i64) -> *mut u8;
    fn mprotect(at: *mut u8, bytes: usize, may: i32) -> i32;
    fn munmap(at: *mut u8, bytes: usize) -> i32;
}

const SIGN: u32 = 1 << 31;
const INFINITY: u32 = 0x7F800000;
const LOW: i32 = -149; // the least step exponent, and the exponent of the least spacing
const HIGH: i32 = 128;
const LONGEST: usize = 65_536;
const WIDTHS: RangeInclusive<u32> = 2..=16;

/// The missing code of a width, 2^w - 1. A width that is refused has one too; from 16 on no code is above it.
fn missing_code(width: u32) -> u64 { (1 << width.min(32)) - 1 }

/// What a call leaves: its answer, and the two totals.
type Left = (u32, [u64; 2]);
/// Which of the questions 3, 11 and 12 are answered "no", each for itself.
fn noes(codes: &[u16], width: u32) -> Vec<u32> {
    let mut out = vec![];
    if codes.is_empty() || codes.len() > LONGEST { out.push(3); }
    if !WIDTHS.contains(&width) { out.push(11); }
    if codes.iter().any(|&code| code as u64 > missing_code(width)) { out.push(12); }
    out
}
/// Request (g): the first question answered "no", with what the totals held; or 0, the number of present codes and their sum in order.
fn model(codes: &[u16], width: u32, held: [u64; 2]) -> Left {
    if codes.is_empty() || codes.len() > LONGEST { return (3, held); }
    if !WIDTHS.contains(&width) { return (11, held); }
    let missing = missing_code(width);
    let (mut count, mut sum) = (0u64, 0u128);
    for &code in codes {
        if code as u64 > missing { return (12, held); }
        if code as u64 == missing { continue; }
        count += 1;
        sum += code as u128;
    }
    (0, [count, sum.try_into().expect("a sum of 64 bits")])
}

/// A rule of the model that can be turned. Those with a number have it for a lane, a length, a block, a number of bits or a question.
#[derive(Clone, Copy, PartialEq, Debug)]
enum Rule {
    LaneLost(usize), LaneUnsummed(usize), LaneUncounted(usize), LaneFor(usize, usize), RestLost(usize), RestUnsummed, RestUncounted,
    RestFirst, RestLast, RestTwice, FirstLost, LastLost, FirstFour, LastFour, ShortLost, BlockOnly(usize), BlockRest(usize),
    BlockLast(usize),
    MissingCounted, MissingSummed, MissingBoth, MissingTaken, Missing65535, Only65535, MissingPower, MissingMost, MissingAbove,
    MissingNarrower, MissingByte, MissingHalf, ZeroMissing, UntilMissing, MissingLane(usize), MissingUnlane(usize), MissingRest,
    SumBits(u32), LaneBits(u32), CountBits(u32), LaneCountBits(u32), SumSigned, CodesSigned, CodeBytes, OfSingle, Exchanged, CountMore,
    CountLess, SumMore, CountsMissing, CountsPlaces, FromOne, Added, CountKept, SumKept, LowHalf(usize), CarriedOn, Mean,
    Before(u32, u32), By(u32, u32), Missing12, Above12, Wider12, Unasked12, Last12, First12, NotLast12, NotFirst12, Lane12(usize),
    NotLane12(usize), NotRest12, Rest12, UntilMissing12, Four12, Block12(usize),
    Unasked3, NoneAccepted, NoneAnyWidth, Length65537, Length65536, OneRefused, ShortRefused, FoursOnly, LengthBits(u32),
    Unasked11, WidthAccepted(u32), WidthRefused(u32), WidthBits(u32), WidthSigned, Width16,
    Cleared, ClearedBy(u32), CountCleared, SumCleared, NumberLeft, PartLeft,
}
use Rule::*;
/// The widths at which a wrong model is to be seen, a bit for each. A width that is refused stands under 0.
fn at(widths: RangeInclusive<u32>) -> u32 { widths.fold(0, |all, width| all | 1 << width) }
fn some_widths(shows: impl Fn(u32) -> bool) -> u32 { WIDTHS.filter(|&width| shows(width)).fold(0, |all, width| all | 1 << width) }
/// A number of a lane's or a layer's codes at its largest passes so many bits.
fn passes(codes: u64, bits: u32) -> u32 { some_widths(|width| codes * (missing_code(width) - 1) >= 1 << bits) }
const BLOCKS: [usize; 12] = [8, 16, 32, 64, 128, 256, 1024, 4096, 8192, 16_384, 32_768, 65_535];

/// Each rule, its name, and where it is to be seen.
fn rules() -> Vec<(Rule, String, u32)> {
    let (all, narrow, refused) = (at(2..=16), at(2..=15), 1);
    let named: [(Rule, &str, u32); 78] = [
        (RestUnsummed, "what follows the last four isn't summed", all),
        (RestUncounted, "what follows the last four isn't counted", all),
        (RestFirst, "of what follows the last four, only the first is taken", all),
        (RestLast, "of what follows the last four, only the last is taken", all),
        (RestTwice, "what follows the last four is taken twice", all),
        (FirstLost, "the first code is forgotten", all),
        (LastLost, "the last code is forgotten", all),
        (FirstFour, "the first four are forgotten", all),
        (LastFour, "the last four are forgotten", all),
        (ShortLost, "fewer than four codes give nothing", all),
        (MissingCounted, "missing codes are counted", all),
        (MissingSummed, "missing codes are summed", all),
        (MissingBoth, "missing codes are counted and summed", all),
        (MissingTaken, "only missing codes are taken", all),
        (Missing65535, "65,535 is the missing code of narrow layers, and refused", narrow),
        (Only65535, "65,535 is the missing code of narrow layers, and 12 goes by it", narrow),
        (MissingPower, "2^w is the missing code", all),
        (MissingMost, "2^w - 2 is the missing code", all),
        (MissingAbove, "every code above the missing one is missing too", narrow),
        (MissingNarrower, "2^(w-1) - 1 is missing too", all),
        (MissingByte, "the missing code is compared by its last byte", at(9..=16)),
        (MissingHalf, "codes from 2^(w-1) on are missing", all),
        (ZeroMissing, "zeros aren't present", all),
        (UntilMissing, "the first missing code ends the layer", all),
        (MissingRest, "what follows the last four is always present", all),
        (SumSigned, "the sum is a signed number of 32 bits", at(16..=16)),
        (CodesSigned, "a code is a signed number of 16 bits", at(16..=16)),
        (CodeBytes, "only the last byte of a code is summed", at(9..=16)),
        (OfSingle, "the sum is rounded to a single", some_widths(|width| width > 8)),
        (Exchanged, "count and sum are exchanged", all),
        (CountMore, "one more is counted", all),
        (CountLess, "one less is counted", all),
        (SumMore, "the sum is one more", all),
        (CountsMissing, "the missing codes are counted instead", all),
        (CountsPlaces, "the count is the last present place plus 1", all),
        (FromOne, "codes are summed from 1 on", all),
        (Added, "totals are added to what stood there", all),
        (CountKept, "the count isn't written", all),
        (SumKept, "the sum isn't written", all),
        (CarriedOn, "totals go on from the last accepted call's", all),
        (Mean, "the sum is divided by the count", all),
        (Before(12, 11), "12 is asked before 11", refused),
        (Before(11, 3), "11 is asked before 3", refused),
        (Before(12, 3), "12 is asked before 3", narrow),
        (By(3, 4), "a wrong length is refused by 4", all),
        (By(3, 5), "a wrong length is refused by 5", all),
        (By(11, 12), "a wrong width is refused by 12", refused),
        (By(12, 11), "a code above the missing one is refused by 11", narrow),
        (Missing12, "the missing code itself is refused", all),
        (Above12, "a code 2^w is accepted", narrow),
        (Wider12, "12 goes by the missing code of the next width", narrow),
        (Unasked12, "12 isn't asked", narrow),
        (First12, "12 is asked of the first code only", narrow),
        (Last12, "12 is asked of the last code only", narrow),
        (NotFirst12, "12 isn't asked of the first code", narrow),
        (NotLast12, "12 isn't asked of the last code", narrow),
        (NotRest12, "12 isn't asked of what follows the last four", narrow),
        (Rest12, "12 is asked of what follows the last four only", narrow),
        (UntilMissing12, "12 isn't asked behind a missing code", narrow),
        (Four12, "12 is asked of the first four only", narrow),
        (Unasked3, "3 isn't asked", all),
        (NoneAccepted, "no codes are accepted, at a width of 2 to 16", all),
        (NoneAnyWidth, "no codes are accepted, at any width", refused),
        (Length65537, "65,537 codes are accepted", all),
        (Length65536, "65,536 codes are refused", all),
        (OneRefused, "one code is refused", all),
        (ShortRefused, "fewer than four codes are refused", all),
        (FoursOnly, "codes that aren't whole fours are refused", all),
        (Unasked11, "11 isn't asked", refused),
        (WidthSigned, "the width is a signed number, and only the largest is asked", refused),
        (Width16, "every layer has width 16", narrow),
        (Cleared, "a refused call clears the totals", all | refused),
        (ClearedBy(3), "a call refused by 3 clears the totals", all),
        (ClearedBy(11), "a call refused by 11 clears the totals", refused),
        (ClearedBy(12), "a call refused by 12 clears the totals", narrow),
        (CountCleared, "a refused call clears the count", all | refused),
        (SumCleared, "a refused call clears the sum", all | refused),
        (NumberLeft, "a refused call leaves its number as the count", all | refused),
    ];
    let mut out: Vec<(Rule, String, u32)> = named.into_iter().map(|x| (x.0, x.1.to_string(), x.2)).collect();
    let mut add = |rule: Rule, name: String, shows: u32| out.push((rule, name, shows));
    add(PartLeft, "a call refused by 12 leaves the totals of the codes before".to_string(), narrow);
    for lane in 0..4 {
        add(LaneLost(lane), format!("lane {lane} is left out"), all);
        add(LaneUnsummed(lane), format!("lane {lane} is left out of the sum"), all);
        add(LaneUncounted(lane), format!("lane {lane} is left out of the count"), all);
        for other in (0..4).filter(|&other| other != lane) { add(LaneFor(lane, other), format!("lane {other} stands for {lane}"), all); }
        add(MissingLane(lane), format!("only lane {lane} knows missing codes"), all);
        add(MissingUnlane(lane), format!("lane {lane} knows no missing codes"), all);
        add(Lane12(lane), format!("12 is asked of lane {lane} only"), narrow);
        add(NotLane12(lane), format!("12 isn't asked of lane {lane}"), narrow);
    }
    for rest in 1..4 { add(RestLost(rest), format!("the last {rest} after the fours are forgotten"), all); }
    for block in BLOCKS {
        add(BlockOnly(block), format!("only the first {block} codes are taken"), all);
        add(BlockRest(block), format!("what follows the last whole block of {block} is forgotten"), all);
        add(BlockLast(block), format!("the last code of each block of {block} is forgotten"), all);
        add(Block12(block), format!("12 is asked of the first {block} codes only"), narrow);
    }
    for bits in [8, 16, 20, 24, 28, 30, 31] { add(SumBits(bits), format!("the sum is taken from {bits} bits"), passes(65_536, bits)); }
    for bits in [8, 16, 20, 24, 28, 29] { add(LaneBits(bits), format!("a lane's sum is taken from {bits} bits"), passes(16_384, bits)); }
    for bits in [8, 15, 16] { add(CountBits(bits), format!("the count is taken from {bits} bits"), all); }
    for bits in [8, 14] { add(LaneCountBits(bits), format!("a lane's count is taken from {bits} bits"), all); }
    for half in 0..2 { add(LowHalf(half), format!("only the low half of {} is written", ["the count", "the sum"][half]), all); }
    for bits in [16, 17, 32] { add(LengthBits(bits), format!("the number of codes is taken from {bits} bits"), all); }
    for width in [0, 1, 17, 18, 32] { add(WidthAccepted(width), format!("a width {width} is accepted"), refused); }
    for width in WIDTHS { add(WidthRefused(width), format!("a width {width} is refused"), 1 << width); }
    for bits in [4, 5, 6, 8, 16, 31] { add(WidthBits(bits), format!("the width is taken from {bits} bits"), refused); }
    out
}

/// What a call leaves by a wrong model; with no rule, by the right one again. `last` are the last accepted call's totals.
fn turned(rule: Option<Rule>, codes: &[u16], width: u32, held: [u64; 2], last: [u64; 2]) -> Left {
    let is = |other: Rule| rule == Some(other);
    let length = if let Some(LengthBits(bits)) = rule { codes.len() % (1 << bits) } else { codes.len() };
    let width = if let Some(WidthBits(bits)) = rule { width % (1 << bits) } else { width };
    let sound = match rule {
        Some(Unasked11) => true,
        Some(WidthAccepted(other)) if width == other => true,
        Some(WidthRefused(other)) if width == other => false,
        Some(WidthSigned) => width as i32 <= 16,
        Some(NoneAnyWidth) if length == 0 => true,
        _ => WIDTHS.contains(&width),
    };
    let long = match rule {
        Some(Unasked3) => true,
        Some(NoneAccepted | NoneAnyWidth) => length <= LONGEST,
        Some(Length65537) => (1..=LONGEST + 1).contains(&length),
        Some(Length65536) => (1..LONGEST).contains(&length),
        Some(OneRefused) => (2..=LONGEST).contains(&length),
        Some(ShortRefused) => (4..=LONGEST).contains(&length),
        Some(FoursOnly) => (1..=LONGEST).contains(&length) && length % 4 == 0,
        _ => (1..=LONGEST).contains(&length),
    };
    let order: [u32; 3] = match rule {
        Some(Before(12, 11)) => [3, 12, 11],
        Some(Before(11, 3)) => [11, 3, 12],
        Some(Before(12, 3)) => [12, 3, 11],
        _ => [3, 11, 12],
    };
    let width = if is(Width16) && sound { 16 } else { width };
    let codes = &codes[..length];
    let (fours, missing) = (length / 4 * 4, missing_code(width));
    let behind = codes.iter().position(|&code| code as u64 == missing).unwrap_or(length);
    let asked = |i: usize| match rule {
        Some(Unasked12 | MissingAbove) => false,
        Some(First12) => i == 0,
        Some(Last12) => i + 1 == length,
        Some(NotFirst12) => i > 0,
        Some(NotLast12) => i + 1 < length,
        Some(Lane12(lane)) => i % 4 == lane,
        Some(NotLane12(lane)) => i % 4 != lane,
        Some(NotRest12) => i < fours,
        Some(Rest12) => i >= fours,
        Some(UntilMissing12) => i < behind,
        Some(Four12) => i < 4,
        Some(Block12(block)) => i < block,
        _ => true,
    };
    let most = match rule {
        Some(Missing12) => missing.saturating_sub(1),
        Some(Above12) => missing + 1,
        Some(Wider12) => 2 * missing + 1,
        Some(Only65535) => 65_535,
        _ => missing,
    };
    let above = || (0..length).find(|&i| codes[i] as u64 > most && asked(i));
    for question in order {
        let yes = match question { 3 => long, 11 => sound, _ => above().is_none() };
        if yes { continue; }
        let left = match rule {
            Some(Cleared) => [0; 2],
            Some(ClearedBy(other)) if other == question => [0; 2],
            Some(CountCleared) => [0, held[1]],
            Some(SumCleared) => [held[0], 0],
            Some(NumberLeft) => [question as u64, held[1]],
            Some(PartLeft) if question == 12 => model(&codes[..above().unwrap().max(1)], width, [0; 2]).1,
            _ => held,
        };
        return (if let Some(By(own, other)) = rule { if own == question { other } else { question } } else { question }, left);
    }
    let totals = turned_totals(rule, codes, missing, behind);
    let [count, sum] = totals;
    let low = |of: u64, was: u64| was >> 32 << 32 | of % (1 << 32);
    let left = match rule {
        Some(Exchanged) => [sum, count],
        Some(CountMore) => [count + 1, sum],
        Some(CountLess) => [count.wrapping_sub(1), sum],
        Some(SumMore) => [count, sum + 1],
        Some(Added) => [held[0].wrapping_add(count), held[1].wrapping_add(sum)],
        Some(CountKept) => [held[0], sum],
        Some(SumKept) => [count, held[1]],
        Some(LowHalf(0)) => [low(count, held[0]), sum],
        Some(LowHalf(_)) => [count, low(sum, held[1])],
        Some(CarriedOn) => [last[0] + count, last[1] + sum],
        Some(Mean) => [count, sum.checked_div(count).unwrap_or(0)],
        _ => totals,
    };
    (0, left)
}
/// The totals of codes that a wrong model accepts.
fn turned_totals(rule: Option<Rule>, codes: &[u16], missing: u64, behind: usize) -> [u64; 2] {
    let (n, fours) = (codes.len(), codes.len() / 4 * 4);
    let taken = |i: usize| match rule {
        Some(LaneLost(lane)) => i % 4 != lane,
        Some(RestLost(rest)) => n % 4 != rest || i < fours,
        Some(RestFirst) => i <= fours,
        Some(RestLast) => i < fours || i + 1 == n,
        Some(FirstLost) => i > 0,
        Some(LastLost) => i + 1 < n,
        Some(FirstFour) => i >= 4,
        Some(LastFour) => i + 4 < n,
        Some(ShortLost) => n >= 4,
        Some(BlockOnly(block)) => i < block,
        Some(BlockRest(block)) => i < n / block * block,
        Some(BlockLast(block)) => i % block != block - 1,
        Some(UntilMissing) => i < behind,
        _ => true,
    };
    let present = |i: usize, code: u64| match rule {
        Some(MissingBoth) => true,
        Some(MissingTaken) => code == missing,
        Some(Missing65535 | Only65535) => code != 65_535,
        Some(MissingPower) => code != missing + 1,
        Some(MissingMost) => code != missing - 1,
        Some(MissingAbove) => code < missing,
        Some(MissingNarrower) => code != missing && code != missing / 2,
        Some(MissingByte) => code % 256 != missing % 256,
        Some(MissingHalf) => code <= missing / 2,
        Some(ZeroMissing) => code != missing && code != 0,
        Some(MissingLane(lane)) => code != missing || i % 4 != lane,
        Some(MissingUnlane(lane)) => code != missing || i % 4 == lane,
        Some(MissingRest) => code != missing || i >= fours,
        _ => code != missing,
    };
    let (mut counts, mut sums, mut places) = ([0u64; 4], [0u64; 4], 0);
    for (i, &code) in codes.iter().enumerate() {
        let (code, lane) = (code as u64, i % 4);
        if !taken(i) { continue; }
        let there = present(i, code);
        let counted = match rule {
            Some(MissingCounted) => true,
            Some(CountsMissing) => !there,
            Some(LaneUncounted(other)) => there && lane != other,
            Some(RestUncounted) => there && i < fours,
            _ => there,
        };
        let summed = match rule {
            Some(MissingSummed) => true,
            Some(LaneUnsummed(other)) => there && lane != other,
            Some(RestUnsummed) => there && i < fours,
            _ => there,
        };
        let number = match rule {
            Some(CodeBytes) => code % 256,
            Some(CodesSigned) => code as i16 as i64 as u64,
            Some(FromOne) => code + 1,
            _ => code,
        };
        let times = 1 + (rule == Some(RestTwice) && i >= fours) as u64;
        if there { places = i as u64 + 1; }
        if counted { counts[lane] += times; }
        if summed { sums[lane] = sums[lane].wrapping_add(number * times); }
    }
    match rule {
        Some(LaneFor(lane, other)) => (counts[lane], sums[lane]) = (counts[other], sums[other]),
        Some(LaneBits(bits)) => sums.iter_mut().for_each(|sum| *sum %= 1 << bits),
        Some(LaneCountBits(bits)) => counts.iter_mut().for_each(|count| *count %= 1 << bits),
        _ => (),
    }
    let (count, sum) = (counts.iter().sum(), sums.iter().fold(0u64, |all, sum| all.wrapping_add(*sum)));
    match rule {
        Some(SumBits(bits)) => [count, sum % (1 << bits)],
        Some(CountBits(bits)) => [count % (1 << bits), sum],
        Some(SumSigned) => [count, sum as i32 as i64 as u64],
        Some(OfSingle) => [count, sum as f32 as u64],
        Some(CountsPlaces) => [places, sum],
        _ => [count, sum],
    }
}

/// A whole number of least spacings, with a sign: six words, least first, in two's complement. Nothing here comes near 2^383.
#[derive(Clone, Copy, PartialEq)]
struct Whole([u64; 6]);
impl Whole {
    const NONE: Whole = Whole([0; 6]);
    fn of(number: i64) -> Whole {
        let mut words = [(number >> 63) as u64; 6];
        words[0] = number as u64;
        Whole(words)
    }
    fn plus(self, other: Whole) -> Whole {
        let mut carry = 0u128;
        Whole(std::array::from_fn(|i| { carry = (carry >> 64) + self.0[i] as u128 + other.0[i] as u128; carry as u64 }))
    }
    fn opposite(self) -> Whole { Whole(self.0.map(|word| !word)).plus(Whole::of(1)) }
    fn minus(self, other: Whole) -> Whole { self.plus(other.opposite()) }
    fn times(self, by: u64) -> Whole {
        let mut carry = 0u128;
        Whole(self.0.map(|word| { carry = (carry >> 64) + word as u128 * by as u128; carry as u64 }))
    }
    /// So many times two, each twice.
    fn doubled(self, times: u32) -> Whole {
        let (whole, part) = (times as usize / 64, times % 64);
        let word = |i: usize| if i < whole { 0 } else { self.0[i - whole] };
        let under = |i: usize| if i <= whole || part == 0 { 0 } else { self.0[i - whole - 1] >> (64 - part) };
        Whole(std::array::from_fn(|i| word(i) << part | under(i)))
    }
    fn negative(self) -> bool { self.0[5] >> 63 == 1 }
    fn size(self) -> Whole { if self.negative() { self.opposite() } else { self } }
    fn cmp(self, other: Whole) -> Ordering {
        let apart = self.minus(other);
        if apart.negative() { Ordering::Less } else if apart == Whole::NONE { Ordering::Equal } else { Ordering::Greater }
    }
    fn told(self) -> String {
        let words: String = self.size().0.iter().rev().map(|word| format!("{word:016X}")).collect();
        format!("{}{}", if self.negative() { "-" } else { "" }, words.trim_start_matches('0'))
    }
}
fn finite(reading: u32) -> bool { reading % SIGN < INFINITY }
/// The exponent of the spacing at a reading, counted from the least spacing.
fn spacing(reading: u32) -> u32 { (reading % SIGN >> 23).max(1) - 1 }
/// The exact signed size of a finite reading, in least spacings.
fn exact(reading: u32) -> Whole {
    let (e, m) = (reading % SIGN >> 23, (reading % (1 << 23)) as i64);
    let size = Whole::of(if e == 0 { m } else { m + (1 << 23) }).doubled(spacing(reading));
    if reading >= SIGN { size.opposite() } else { size }
}
/// 2^E in least spacings.
fn step(exponent: i32) -> Whole { Whole::of(1).doubled((exponent - LOW) as u32) }
/// The whole number that a double is, in least spacings. It is one wherever the double came from sums of singles and steps.
fn of_double(x: f64) -> Whole {
    let (bits, up) = (x.to_bits(), (x.to_bits() >> 52 & 0x7FF) as i32 - 1075 - LOW);
    if x == 0.0 { return Whole::NONE; }
    let m = bits % (1 << 52) + (1 << 52);
    let size = if up >= 0 { Whole::of(m as i64).doubled(up as u32) } else { Whole::of((m >> -up) as i64) };
    if x < 0.0 { size.opposite() } else { size }
}
fn power(p: i32) -> f64 { f64::from_bits(((p + 1023) as u64) << 52) }

/// Wrong models or claims, and those of each width that haven't been seen yet.
struct Wrong<R> { all: Vec<(R, String, u32)>, unseen: Vec<Vec<usize>> }
impl<R: Copy> Wrong<R> {
    fn new(all: Vec<(R, String, u32)>) -> Wrong<R> {
        let unseen = (0..17).map(|width| (0..all.len()).filter(|&i| all[i].2 >> width & 1 == 1).collect()).collect();
        Wrong { all, unseen }
    }
    fn show(&mut self, width: u32, mut differs: impl FnMut(R) -> bool) {
        let class = if WIDTHS.contains(&width) { width } else { 0 };
        let all = &self.all;
        self.unseen[class as usize].retain(|&i| !differs(all[i].0));
    }
    /// Prints what wasn't seen. Answers how many wrong models there are, at how many widths in all, and how many of these weren't seen.
    fn report(&self) -> [usize; 3] {
        for (i, (_, name, _)) in self.all.iter().enumerate() {
            let widths: Vec<usize> = (0..17).filter(|&width| self.unseen[width].contains(&i)).collect();
            if !widths.is_empty() { println!("turned, {name}: NOT SEEN at widths {widths:?} (0: a refused one)"); }
        }
        let asked = self.all.iter().map(|x| x.2.count_ones() as usize).sum();
        [self.all.len(), asked, self.unseen.iter().map(Vec::len).sum()]
    }
}

type Class = (&'static str, u32);
/// Counts what was compared and met, and holds the seed of the random numbers.
struct Tally {
    seed: u64, lines: u32,
    compared: BTreeMap<Class, [u64; 2]>, // by kind and answer: the calls and the comparisons
    met: BTreeMap<String, u64>,
    met_at: BTreeMap<&'static str, [u64; 17]>, // by width
    lengths: BTreeSet<(u32, usize)>, // accepted, by width
    last: [u64; 2], // the last accepted call's totals
    filling: usize,
    rules: Wrong<Rule>, claims: Wrong<Claim>,
}
impl Draw for Tally { fn seed(&mut self) -> &mut u64 { &mut self.seed } }
impl Tally {
    fn new() -> Tally {
        let (compared, met, met_at, lengths) = (BTreeMap::new(), BTreeMap::new(), BTreeMap::new(), BTreeSet::new());
        let (rules, claims) = (Wrong::new(rules()), Wrong::new(claims()));
        Tally { seed: SEED, lines: 0, compared, met, met_at, lengths, last: [0; 2], filling: 0, rules, claims }
    }
    fn differs(&mut self, told: String) {
        self.lines += 1;
        println!("{told}");
        if self.lines == 10 { println!("totals: DIFFERENCES, of which these are the first 10"); exit(1); }
    }
    fn call(&mut self, class: Class) { self.compared.entry(class).or_default()[0] += 1; }
    fn same<T: PartialEq + UpperHex>(&mut self, class: Class, what: &str, got: &[T], want: &[T], told: &dyn Fn() -> String) {
        self.compared.entry(class).or_default()[1] += want.len() as u64;
        if got == want { return; }
        let i = (0..got.len().min(want.len())).find(|&i| got[i] != want[i]).expect("arrays of one length");
        self.differs(format!("{}: {what} {i}: got {:X} expected {:X}; {}", class.0, got[i], want[i], told()));
    }
    fn holds(&mut self, class: Class, what: &str, claim: bool, told: &dyn Fn() -> String) {
        self.compared.entry(class).or_default()[1] += 1;
        if !claim { self.differs(format!("{}: {what} does not hold; {}", class.0, told())); }
    }
    fn meet(&mut self, what: &str, times: u64) {
        if times == 0 { return; }
        if let Some(count) = self.met.get_mut(what) { *count += times } else { self.met.insert(what.to_string(), times); }
    }
    fn meet_at(&mut self, what: &'static str, width: u32, is: bool) {
        if is && WIDTHS.contains(&width) { self.met_at.entry(what).or_insert([0; 17])[width as usize] += 1; }
    }
    fn sign(&mut self, m: u32) -> u32 { m ^ (self.below(2) as u32 * SIGN) }
    fn junk<T>(&mut self, n: usize, of: fn(u64) -> T) -> Vec<T> { (0..n).map(|_| of(self.random())).collect() }
    /// What the totals hold before a call.
    fn held(&mut self) -> [u64; 2] {
        let any = [self.random(), self.random()];
        self.filling += 1;
        [any, [0; 2], [u64::MAX; 2], [1, 2], [1 << 32; 2], [65_536, 4_294_836_224], any][self.filling % 7]
    }
}
fn hex<T: UpperHex>(xs: &[T]) -> String {
    let told: Vec<String> = xs.iter().take(40).map(|x| format!("{x:X}")).collect();
    told.join(" ") + if xs.len() > 40 { " .." } else { "" }
}

/// An array as it is lent to a call: at any address that its elements can have, between guards that must stay.
struct Lent<T> { cells: Vec<T>, front: usize, n: usize, guard: T }
impl<T: Copy + PartialEq + UpperHex> Lent<T> {
    fn new(t: &mut Tally, elements: &[T], guard: T) -> Lent<T> {
        let (n, front) = (elements.len(), 1 + t.below(32) as usize);
        let mut cells = Vec::with_capacity(n + front + 32);
        cells.resize(front, guard);
        cells.extend(elements);
        cells.resize(front + n + 32, guard);
        Lent { cells, front, n, guard }
    }
    /// For an empty array it is a place between guards, or one with no memory at all.
    fn lend(&mut self) -> *mut T {
        if self.n == 0 && self.front % 2 == 0 { NonNull::dangling().as_ptr() } else { self.cells[self.front..].as_mut_ptr() }
    }
    fn left(&self) -> &[T] { &self.cells[self.front..self.front + self.n] }
    fn guarded(&self, t: &mut Tally, class: Class, what: &str, told: &dyn Fn() -> String) {
        let mut around = self.cells[..self.front].iter().chain(&self.cells[self.front + self.n..]);
        t.holds(class, what, around.all(|x| *x == self.guard), told);
    }
    /// Compares the elements with what they should be, and the guards.
    fn check(&self, t: &mut Tally, class: Class, what: &str, want: &[T], told: &dyn Fn() -> String) {
        t.same(class, what, self.left(), want, told);
        self.guarded(t, class, &format!("nothing written around each {what}"), told);
    }
}

/// One call's answer and totals against the model, and against the wrong models.
fn judge(t: &mut Tally, kind: &'static str, codes: &[u16], width: u32, held: [u64; 2], got: Left) -> Class {
    let want = model(codes, width, held);
    let class = (kind, want.0);
    let told = &|| format!("{} codes, width {width}, totals before {}: {}", codes.len(), hex(&held), hex(codes));
    t.call(class);
    t.same(class, "answer", &[got.0], &[want.0], told);
    t.same(class, "total", &got.1, &want.1, told);
    let (last, far) = (t.last, codes.len() > 1 << 20);
    // A wrong model is asked about the longest arrays of all only where it reads little of them.
    t.rules.show(width, |rule| (!far || matches!(rule, LengthBits(_))) && turned(Some(rule), codes, width, held, last) != got);
    if codes.len() < 100 {
        let again = turned(None, codes, width, held, last);
        assert!(again == want, "the model with no rule turned is the model; {}", told());
    }
    if want.0 == 0 {
        t.last = want.1;
        t.lengths.insert((width, codes.len()));
    }
    class
}
/// One call, on codes between guards.
fn ask(t: &mut Tally, codes: &[u16], width: u32) {
    let (held, guard) = (t.held(), t.pick(&[1, 1, 0x5A5B, 65_535]));
    let mut lent = Lent::new(t, codes, guard);
    let mut totals = Lent::new(t, &held, 0x5A5A_1234_5A5A_4321);
    let answer = unsafe { megharutti_totals(lent.lend(), codes.len(), width, totals.lend()) };
    let left = [totals.left()[0], totals.left()[1]];
    let class = judge(t, "totals", codes, width, held, (answer, left));
    let told = &|| format!("{} codes, width {width}: {}", codes.len(), hex(codes));
    lent.check(t, class, "code", codes, told);
    totals.guarded(t, class, "nothing written around the totals", told);
    t.meet("calls at an odd element's place", (lent.lend() as usize / 2 % 2) as u64);
    if codes.len() <= 2 * LONGEST {
        let noes: Vec<String> = noes(codes, width).iter().map(u32::to_string).collect();
        if !noes.is_empty() { t.meet(&format!("calls that break {}", noes.join(" and ")), 1); }
    }
}

const FILLS: u64 = 9;
/// So many codes of a width, none of them above the missing one.
fn codes(t: &mut Tally, fill: u64, n: usize, width: u32) -> Vec<u16> {
    let missing = missing_code(width);
    let some = [missing, missing - 1, missing - 2, missing / 2, missing / 2 + 1, 0, 1];
    let mut code = |_| match fill {
        0 => t.below(missing + 1),
        1 => if t.below(3) == 0 { missing } else { t.below(missing) },
        2 => missing,
        3 => missing - 1,
        4 => 0,
        5 => t.pick(&[0, 0, 0, 1, missing]),
        6 => t.pick(&some),
        // The missing codes of this width and narrower ones.
        7 => missing >> t.below(width as u64),
        _ => 1 + t.below(missing - 1),
    } as u16;
    (0..n).map(|i| code(i)).collect()
}
/// Numbers of codes: short ones, and those about powers of two, up to the most.
fn lengths() -> Vec<usize> {
    let about = (5..=16).flat_map(|p| (0..9).map(move |by| (1 << p) + by - 4));
    let some = [100, 1000, 1001, 1002, 1003, 10_000, 12_345, 50_001, 65_531];
    let all: BTreeSet<usize> = (1..=40).chain(about).chain(some).filter(|&n| n <= LONGEST).collect();
    all.into_iter().collect()
}
const WRONG_LENGTHS: [usize; 14] =
    [0, 65_537, 65_538, 65_539, 65_540, 65_541, 65_544, 65_600, 98_304, 131_071, 131_072, 131_073, 131_076, 196_609];
const BAD_WIDTHS: [u32; 36] = [0, 1, 17, 18, 19, 20, 24, 31, 32, 33, 34, 47, 48, 63, 64, 65, 66, 80, 127, 128, 255, 256, 257, 258, 272, 273,
    65_535, 65_536, 65_538, 65_552, 65_553, 1 << 24, (1 << 31) - 1, 1 << 31, (1 << 31) + 16, u32::MAX];

/// Codes of one kind.
fn fill_of(t: &mut Tally, fill: u64, n: usize, width: u32) {
    let codes = codes(t, fill, n, width);
    ask(t, &codes, width);
    t.meet_at("calls with all codes missing", width, fill == 2);
    t.meet_at("calls with all codes 2^w - 2", width, fill == 3);
    t.meet_at("calls with all codes 2^w - 2, 65,536 of them", width, fill == 3 && n == LONGEST);
    t.meet_at("calls with all codes 0", width, fill == 4);
}
/// Every number of codes at a width, and every kind of codes.
fn accepted(t: &mut Tally, width: u32) {
    for n in lengths() { for fill in 0..FILLS { fill_of(t, fill, n, width); } }
}
/// The places of a layer that matter: the first ones, some of each lane in the middle, and the last ones.
fn places(n: usize) -> Vec<usize> {
    let all: BTreeSet<usize> = (0..9).chain(n / 2..n / 2 + 4).chain(n.saturating_sub(9)..n).filter(|&i| i < n).collect();
    all.into_iter().collect()
}
const ONE_PRESENT: [&str; 4] =
    ["one present, place 0 mod 4", "one present, place 1 mod 4", "one present, place 2 mod 4", "one present, place 3 mod 4"];
const ONE_ABOVE: [&str; 4] =
    ["codes above, place 0 mod 4", "codes above, place 1 mod 4", "codes above, place 2 mod 4", "codes above, place 3 mod 4"];
/// One present code among missing ones, one missing code among present ones, and one code above the missing one.
fn single_places(t: &mut Tally, width: u32) {
    let missing = missing_code(width) as u16;
    for n in (1..=20).chain([31, 64, 65, 257, 1002, 4099, 65_533, 65_536]) {
        for place in places(n) {
            let value = t.below(missing as u64 - 1) as u16 + 1;
            for code in [value, 0, missing - 1] {
                let mut codes = vec![missing; n];
                codes[place] = code;
                ask(t, &codes, width);
            }
            t.meet_at(ONE_PRESENT[place % 4], width, true);
            t.meet_at("one present code at the end", width, place + 1 == n);
            let fill = t.pick(&[3, 4, 8]);
            let mut codes = codes(t, fill, n, width);
            codes[place] = missing;
            ask(t, &codes, width);
            if width < 16 { above(t, n, place, width); }
        }
    }
}
/// One code above the missing one, at a place among others that are sound.
fn above(t: &mut Tally, n: usize, place: usize, width: u32) {
    let missing = missing_code(width) as u16;
    let any = t.from(missing as i64 + 1, 65_535) as u16;
    let values = [missing + 1, 65_535, any, missing + 2, 2 * missing + 1, 1 << 15].map(|code| code.max(missing + 1));
    for &code in &values[..if n < 300 { 6 } else { 2 }] {
        let fill = t.below(FILLS);
        let mut codes = codes(t, fill, n, width);
        codes[place] = code;
        ask(t, &codes, width);
        let by = |x: u16| missing_code(x as u32) as u16 == code;
        t.meet_at("codes one above the missing one", width, code == missing + 1);
        t.meet_at("65,535 in a narrow layer", width, code == 65_535);
        t.meet_at("the missing code of another width, refused", width, (2..17).any(by));
        t.meet_at("codes above, at the first place", width, place == 0);
        t.meet_at("codes above, at the last place", width, place + 1 == n);
        t.meet_at(ONE_ABOVE[place % 4], width, true);
    }
}
/// Several codes above the missing one, and any mixture at all.
fn mixtures(t: &mut Tally, width: u32) {
    for _ in 0..400 {
        let (n, fill, strewn) = (1 + t.below(70) as usize, t.below(FILLS), t.pick(&[2, 5, 30]));
        let mut codes = codes(t, fill, n, width);
        let other = missing_code(t.from(2, 16) as u32) as u16;
        let kind = t.below(4);
        for code in codes.iter_mut() {
            if t.below(strewn) > 0 || kind == 0 { continue; }
            *code = if kind == 1 { other } else if kind == 2 { (missing_code(width) + 1).min(65_535) as u16 } else { t.random() as u16 };
        }
        ask(t, &codes, width);
        let missing = missing_code(width);
        let sound = codes.iter().all(|&code| code as u64 <= missing);
        t.meet_at("the missing code of another width, accepted", width, sound && codes.contains(&other) && other as u64 != missing);
    }
}
/// Wrong lengths, at any width.
fn wrong_lengths(t: &mut Tally, width: u32) {
    for n in WRONG_LENGTHS {
        for fill in 0..FILLS {
            let mut codes = codes(t, fill, n, if WIDTHS.contains(&width) { width } else { 2 + fill as u32 });
            // At a width of 0 or 1 some codes are above 2^w - 1.
            if width < 2 && fill < 5 { codes.iter_mut().for_each(|code| *code = width as u16); }
            ask(t, &codes, width);
            if n == 0 { continue; }
            let most = missing_code(width);
            if most >= 65_535 { continue; }
            let place = t.pick(&[0, 1, 2, 3, n / 2, n - 1, 65_535, 65_536]) % n;
            codes[place] = t.from(most as i64 + 1, 65_535) as u16;
            ask(t, &codes, width);
        }
    }
}
/// Wrong widths, with codes that are sound at a width that may be taken for it, and others.
fn wrong_widths(t: &mut Tally) {
    let all: Vec<u32> = BAD_WIDTHS.into_iter().chain(17..300).chain((5..32).map(|p| (1 << p) + 8)).collect();
    for width in all {
        for n in [1, 2, 3, 4, 5, 8, 9, 63, 1000] {
            let (fill, other) = (t.below(FILLS), t.from(2, 16) as u32);
            let codes = codes(t, fill, n, other);
            ask(t, &codes, width);
            let flat = t.below(2) as u16;
            ask(t, &vec![flat; n], width);
            if width < 2 {
                ask(t, &vec![width as u16; n], width);
                for place in places(n) {
                    let mut codes = vec![missing_code(width) as u16; n];
                    codes[place] = t.from(2, 65_535) as u16;
                    ask(t, &codes, width);
                }
            }
        }
    }
    for width in BAD_WIDTHS {
        wrong_lengths(t, width);
        for n in [LONGEST - 1, LONGEST] {
            let codes = codes(t, 0, n, 16);
            ask(t, &codes, width);
        }
    }
}

/// Memory between pages that can't be read or written: a call that passes an end of it ends this program.
struct Walled { at: *mut u8 }
impl Walled {
    const WALL: usize = 65_536; // a multiple of any page's size
    const ROOM: usize = 196_608;
    fn new() -> Walled {
        let at = unsafe { mmap(null_mut(), Walled::ROOM + 2 * Walled::WALL, 0, 0x22, -1, 0) };
        assert!(at as isize != -1, "no memory between pages");
        Walled { at }
    }
    fn may(&self, what: i32) {
        let answer = unsafe { mprotect(self.at.add(Walled::WALL), Walled::ROOM, what) };
        assert!(answer == 0, "no memory between pages");
    }
    /// The content, at the memory's start or its end. Then it may be written, or only read.
    fn put<T: Copy>(&self, content: &[T], end: bool, write: bool) -> *mut T {
        let room = Walled::ROOM - std::mem::size_of_val(content);
        let to = unsafe { self.at.add(Walled::WALL + if end { room } else { 0 }) } as *mut T;
        self.may(3);
        unsafe { std::ptr::copy_nonoverlapping(content.as_ptr(), to, content.len()) };
        if !write { self.may(1); }
        to
    }
}
impl Drop for Walled { fn drop(&mut self) { unsafe { munmap(self.at, Walled::ROOM + 2 * Walled::WALL) }; } }
/// Nothing outside the codes is even read, and no code is written: they stand right before or behind a page that can't be read.
fn walled(t: &mut Tally) {
    println!("codes between pages that can't be read; a call that reads on, or writes a code, ends this program");
    let (one, two) = (Walled::new(), Walled::new());
    for n in (0..140).chain([255, 256, 257, 1000, 1001, 1002, 1003, 4095, 4096, 4097, 32_769, 65_533, 65_534, 65_535, 65_536, 65_537]) {
        for width in WIDTHS.chain([0, 1, 17, 32, 258]) {
            for end in [false, true] {
                let (fill, held, sound) = (t.below(FILLS), t.held(), WIDTHS.contains(&width));
                let mut codes = codes(t, fill, n, if sound { width } else { 16 });
                if sound && width < 16 && n > 0 && t.below(4) == 0 { *codes.last_mut().unwrap() = missing_code(width) as u16 + 1; }
                let (lent, totals) = (one.put(&codes, end, false), two.put(&held, end, true));
                let answer = unsafe { megharutti_totals(lent, n, width, totals) };
                let left = unsafe { [*totals, *totals.add(1)] };
                judge(t, "totals between pages", &codes, width, held, (answer, left));
                t.meet(if end { "calls with codes right before a page" } else { "calls with codes right behind a page" }, 1);
            }
        }
    }
}
/// Codes so many that their number passes 2^32. They stand in no memory: all of them are one page of zeros.
fn far(t: &mut Tally) {
    for rest in [0, 1, 4, 7, LONGEST] {
        let n = (1usize << 32) + rest;
        // To read; private, of no file, with nothing reserved.
        let at = unsafe { mmap(null_mut(), n * 2, 1, 0x4022, -1, 0) } as *const u16;
        assert!(at as isize != -1, "no addresses for a long array");
        for width in WIDTHS.chain([0, 1, 17, 258]) {
            let mut totals = t.held();
            let held = totals;
            let answer = unsafe { megharutti_totals(at, n, width, totals.as_mut_ptr()) };
            judge(t, "totals, more than 2^32 codes", unsafe { std::slice::from_raw_parts(at, n) }, width, held, (answer, totals));
        }
        unsafe { munmap(at as *mut u8, n * 2) };
    }
}
/// The model by itself, on totals worked out by hand.
fn by_hand(t: &mut Tally) {
    let gone = 65_535;
    let cases: [(&[u16], u32, Left); 16] = [
        (&[0, 8192, gone, 32_768], 16, (0, [3, 40_960])), // P11
        (&[0, 65_534], 16, (0, [2, 65_534])), // P12
        (&[gone], 16, (0, [0, 0])),
        (&[gone], 15, (12, [7, 9])),
        (&[3, 3, 3, 3, 3], 2, (0, [0, 0])),
        (&[0, 1, 2, 3, 2, 1, 0], 2, (0, [6, 6])),
        (&[0, 0, 0], 9, (0, [3, 0])),
        (&[4, 0, 0], 2, (12, [7, 9])),
        (&[0, 0, 4], 2, (12, [7, 9])),
        (&[255, 254, 1], 8, (0, [2, 255])),
        (&[256, 254, 1], 8, (12, [7, 9])),
        (&[255, 254, 1], 9, (0, [3, 510])),
        (&[], 8, (3, [7, 9])),
        (&[], 1, (3, [7, 9])),
        (&[9], 1, (11, [7, 9])),
        (&[0], 17, (11, [7, 9])),
    ];
    for (codes, width, want) in cases {
        assert!(model(codes, width, [7, 9]) == want, "the model of {codes:?} at width {width}");
        ask(t, codes, width);
    }
    let most = vec![65_534; LONGEST];
    assert!(model(&most, 16, [0; 2]) == (0, [65_536, 4_294_836_224]), "the largest sum");
    ask(t, &most, 16);
    assert!(model(&vec![65_534; LONGEST + 1], 1, [7, 9]) == (3, [7, 9]), "one too many");
}
/// The whole numbers by themselves, beside the machine's.
fn wholes(t: &mut Tally) {
    let wide = |x: i128| {
        let [high, middle, low] = [x >> 64, (x as u64 >> 1) as i128, x & 1].map(|part| Whole::of(part as i64));
        high.doubled(64).plus(middle.doubled(1)).plus(low)
    };
    for _ in 0..20_000 {
        let mut any = || t.random() as i64 >> t.below(63);
        let (a, b) = (any(), any());
        let (by, up) = (t.random() >> t.below(63), t.below(63) as u32);
        let (x, y) = (Whole::of(a), Whole::of(b));
        let (p, q) = (a as i128, b as i128);
        assert!(x.plus(y) == wide(p + q) && x.minus(y) == wide(p - q) && x.cmp(y) == a.cmp(&b), "sums of {a} and {b}");
        assert!(x.times(by >> 1) == wide(p * (by >> 1) as i128) && x.doubled(up) == wide(p << up), "{a} times {by}, doubled {up} times");
        assert!(x.size() == wide(p.abs()) && x.opposite() == wide(-p) && x.negative() == (a < 0), "the size of {a}");
        assert!(x.doubled(250).plus(y).minus(x.doubled(200).doubled(50)) == y, "{a} doubled 250 times");
        let (m, n) = (finite_reading(t), finite_reading(t));
        assert!(of_double(f32::from_bits(m) as f64) == exact(m), "a single and its double: {m:08X}");
        let order = f32::from_bits(m).partial_cmp(&f32::from_bits(n));
        assert!(Some(exact(m).cmp(exact(n))) == order, "singles in their order: {m:08X} {n:08X}");
    }
    assert!(exact(1) == Whole::of(1) && exact(0x3F800000) == step(0) && exact(0xFF7FFFFF) == step(104).minus(step(128)), "exact sizes");
}

/// A claim that can be turned.
#[derive(Clone, Copy, PartialEq)]
enum Claim {
    Unturned, Quarter, Once, Nothing, LessOne, NotAbove, NotBelow, NoReference, ReferenceOnce, ReferenceSize, ReferenceFlushed, EveryPlace,
    StepMore, Step16, AllReadings, OfDoubles, DoubleTotal, SingleTotal, CountPlaces, CountFinite, CountByValue, EveryMeaning,
    NoUnits, NoStep, HalfUnits, QuarterUnits, HalfRoundings, QuarterStep, UnitOnce, LeastUnit, FirstUnit, LastUnit, UnitAtReference,
    Distinct, AnyMixture,
}
use Claim::*;
/// Each claim, its name, and where it is to be seen.
fn claims() -> Vec<(Claim, String, u32)> {
    let all = at(2..=16);
    let named: [(Claim, &str, u32); 34] = [
        (Quarter, "within count times a quarter step", all),
        (Once, "within half a step", all),
        (Nothing, "the readings' exact total", all),
        (LessOne, "less than count - 1 half steps off, where 2 or more are present", all),
        (NotAbove, "not above the readings' total", all),
        (NotBelow, "not below the readings' total", all),
        (NoReference, "sum times the step alone", all),
        (ReferenceOnce, "R once, plus sum times the step", all),
        (ReferenceSize, "count times the size of R, without its sign", all),
        (ReferenceFlushed, "a subnormal R taken for zero", all),
        (EveryPlace, "R for missing places too", all),
        (StepMore, "sum times the next larger step", all),
        (Step16, "sum times the step of a layer of 16 bits", at(2..=15)),
        (AllReadings, "of the missing readings too, where the mark is finite", all),
        (OfDoubles, "the unpacked doubles' sum in order", all),
        (DoubleTotal, "worked out in doubles", all),
        (SingleTotal, "worked out in singles", all),
        (CountPlaces, "the count is the number of places", all),
        (CountFinite, "the count is the number of finite readings", all),
        (CountByValue, "the count is the number of readings with another value than the mark", all),
        (EveryMeaning, "the meanings of missing codes too", all),
        (NoUnits, "trimmed: within count times half a step", all),
        (NoStep, "trimmed: less than the units", all),
        (HalfUnits, "trimmed: less than half the units plus the half steps", all),
        (QuarterUnits, "trimmed: less than a quarter of the units plus the half steps", all),
        (HalfRoundings, "trimmed: roundings leave at most half the units, and the half steps", all),
        (QuarterStep, "trimmed: less than the units plus quarter steps", all),
        (UnitOnce, "trimmed: less than the largest unit plus the half steps", all),
        (LeastUnit, "trimmed: the smallest units of the list", all),
        (FirstUnit, "trimmed: the first call's units", all),
        (LastUnit, "trimmed: the last call's units", all),
        (UnitAtReference, "trimmed: the units at the smallest reading", all),
        (Distinct, "trimmed: the units of distinct readings only", all),
        (AnyMixture, "trimmed: less than the units plus the half steps, in lists of both kinds too", all),
    ];
    named.into_iter().map(|x| (x.0, format!("claim: {}", x.1), x.2)).collect()
}

type Trim = (u32, i32); // a method and its setting
#[derive(Clone, Copy, PartialEq)]
enum Kind { Untrimmed, Roundings, Shaves, Both }
use Kind::*;
/// The accepted calls of a list, and where its readings began.
struct List { calls: Vec<Trim>, began: Vec<u32>, mark: u32 }
impl List {
    fn kind(&self) -> Kind {
        let roundings = self.calls.iter().filter(|call| call.0 > 3).count();
        match roundings {
            _ if self.calls.is_empty() => Untrimmed,
            0 => Shaves,
            _ if roundings == self.calls.len() => Roundings,
            _ => Both,
        }
    }
}
/// A call's unit at a reading, as an exponent counted from the least spacing.
fn unit((method, setting): Trim, reading: u32) -> u32 {
    (if method == 5 { setting - LOW } else { 23 - setting + spacing(reading) as i32 }) as u32
}
/// One layer, from where its readings began to its totals.
struct Layer<'a> {
    list: &'a List, began: &'a [u32], left: &'a [u32], width: u32, codes: &'a [u16], reference: u32, exponent: i32, count: u64, sum: u64,
}
impl Layer<'_> {
    fn told(&self) -> String {
        format!("width {} mark {:08X} reference {:08X} exponent {} count {} sum {}, accepted trims {:?}, {} readings began {}, left {}",
            self.width, self.list.mark, self.reference, self.exponent, self.count, self.sum, self.list.calls, self.began.len(),
            hex(self.began), hex(self.left))
    }
    /// The exact total of the present ones of some readings.
    fn of(&self, readings: &[u32]) -> Whole {
        readings.iter().filter(|&&x| x != self.list.mark).fold(Whole::NONE, |sum, &x| sum.plus(exact(x)))
    }
    /// The exact total that the request states: count times R plus sum times 2^E.
    fn total(&self) -> Whole { exact(self.reference).times(self.count).plus(step(self.exponent).times(self.sum)) }
    fn meaning(&self, code: u16) -> Whole { exact(self.reference).plus(step(self.exponent).times(code as u64)) }
    fn missing(&self, code: u16) -> bool { code as u64 == missing_code(self.width) }
    /// The units of the present readings where they began, by the one that is chosen from those of the list's calls.
    fn units(&self, chosen: fn(&mut dyn Iterator<Item = u32>) -> Option<u32>) -> Vec<Whole> {
        let one = |&x: &u32| chosen(&mut self.list.calls.iter().map(|&call| unit(call, x))).expect("an accepted call");
        self.began.iter().filter(|&&x| x != self.list.mark).map(|x| Whole::of(1).doubled(one(x))).collect()
    }
}
fn sum(of: &[Whole]) -> Whole { of.iter().fold(Whole::NONE, |sum, &x| sum.plus(x)) }
/// The exact numbers of a layer.
struct Exact { step: Whole, total: Whole, packed: Whole, began: Whole, units: Vec<Whole> }

/// Whether a wrong claim holds of a layer.
fn claimed(claim: Claim, layer: &Layer, own: &Exact) -> bool {
    let (list, count, one) = (layer.list, layer.count, own.step);
    let kind = list.kind();
    let within = |total: Whole| total.minus(own.packed).size().times(2).cmp(one.times(count)).is_le();
    let off = own.total.minus(own.packed).size();
    let moved = own.total.minus(own.began).size();
    // Both sides are taken four times.
    let near = |units: u64, steps: u64| moved.times(4).cmp(sum(&own.units).times(units).plus(one.times(steps * count))).is_lt();
    let of_units = |units: &[Whole]| moved.times(2).cmp(sum(units).times(2).plus(one.times(count))).is_lt();
    let trimmed = count > 0 && (kind == Roundings || kind == Shaves);
    let (r, e) = (f32::from_bits(layer.reference), layer.exponent);
    let present = || layer.left.iter().filter(|&&x| x != list.mark);
    match claim {
        Unturned => within(own.total) && (!trimmed || near(4, 2) && of_units(&own.units)),
        Quarter => off.times(4).cmp(one.times(count)).is_le(),
        Once => off.times(2).cmp(one).is_le(),
        Nothing => off == Whole::NONE,
        LessOne => count < 2 || off.times(2).cmp(one.times(count - 1)).is_lt(),
        NotAbove => own.total.cmp(own.packed).is_le(),
        NotBelow => own.total.cmp(own.packed).is_ge(),
        NoReference => within(one.times(layer.sum)),
        ReferenceOnce => count == 0 || within(exact(layer.reference).plus(one.times(layer.sum))),
        ReferenceSize => within(exact(layer.reference % SIGN).times(count).plus(one.times(layer.sum))),
        ReferenceFlushed => layer.reference % INFINITY >= 1 << 23 || within(one.times(layer.sum)),
        EveryPlace => within(exact(layer.reference).times(layer.codes.len() as u64).plus(one.times(layer.sum))),
        StepMore => within(own.total.plus(one.times(layer.sum))),
        Step16 => {
            let sixteen = (e - 16 + layer.width as i32).max(LOW);
            within(exact(layer.reference).times(count).plus(step(sixteen).times(layer.sum)))
        }
        AllReadings => !finite(list.mark) || own.total.minus(layer.left.iter().fold(Whole::NONE, |sum, &x| sum.plus(exact(x))))
            .size().times(2).cmp(one.times(count)).is_le(),
        OfDoubles => {
            let double = |code: u16| code as f64 * power(e) + r as f64;
            let all = layer.codes.iter().filter(|&&code| !layer.missing(code)).fold(0.0, |sum, &code| sum + double(code));
            of_double(all) == own.total
        }
        DoubleTotal => of_double(count as f64 * r as f64 + layer.sum as f64 * power(e)) == own.total,
        SingleTotal => {
            let all = count as f32 * r + layer.sum as f32 * power(e) as f32;
            all.is_finite() && within(of_double(all as f64))
        }
        CountPlaces => count == layer.left.len() as u64,
        CountFinite => count == layer.left.iter().filter(|&&x| finite(x)).count() as u64,
        CountByValue => count == layer.left.iter().filter(|&&x| f32::from_bits(x) != f32::from_bits(list.mark)).count() as u64,
        EveryMeaning => own.total == sum(&layer.codes.iter().map(|&code| layer.meaning(code)).collect::<Vec<_>>()),
        NoUnits => !trimmed || near(0, 2),
        NoStep => !trimmed || near(4, 0),
        HalfUnits => !trimmed || near(2, 2),
        QuarterUnits => !trimmed || near(1, 2),
        HalfRoundings => !trimmed || kind != Roundings || near(2, 2),
        QuarterStep => !trimmed || near(4, 1),
        UnitOnce => !trimmed || of_units(&own.units.iter().copied().max_by(|a, b| a.cmp(*b)).into_iter().collect::<Vec<_>>()),
        LeastUnit => !trimmed || of_units(&layer.units(|all| all.min())),
        FirstUnit => !trimmed || of_units(&layer.units(|all| all.next())),
        LastUnit => !trimmed || of_units(&layer.units(|all| all.last())),
        UnitAtReference => !trimmed || {
            let smallest = layer.began.iter().filter(|&&x| x != list.mark).min_by(|a, b| exact(**a).cmp(exact(**b))).expect("a reading");
            let unit = list.calls.iter().map(|&call| unit(call, *smallest)).max().expect("a call");
            of_units(&[Whole::of(1).doubled(unit).times(count)])
        },
        Distinct => !trimmed || {
            let (mut met, mut units) = (BTreeSet::new(), vec![]);
            let began = layer.began.iter().filter(|&&x| x != list.mark);
            for (x, unit) in began.zip(&own.units) { if met.insert(*x) { units.push(*unit); } }
            of_units(&units)
        },
        AnyMixture => kind != Both || present().next().is_none() || of_units(&own.units),
    }
}
/// The promise about one layer that was packed, and demand 3's distances about its total.
fn promise(t: &mut Tally, layer: &Layer) {
    let (class, told, list) = (("promise", 0), &|| layer.told(), layer.list);
    t.call(class);
    let kind = list.kind();
    let units = if kind == Untrimmed { vec![] } else { layer.units(|all| all.max()) };
    let all = Exact { step: step(layer.exponent), total: layer.total(), packed: layer.of(layer.left), began: layer.of(layer.began), units };
    let told = &|| format!("total {} packed {} began {}; {}", all.total.told(), all.packed.told(), all.began.told(), told());
    let present = layer.left.iter().filter(|&&x| x != list.mark).count() as u64;
    t.same(class, "count of present readings", &[layer.count], &[present], told);
    let meanings = layer.codes.iter().filter(|&&code| !layer.missing(code)).fold(Whole::NONE, |sum, &code| sum.plus(layer.meaning(code)));
    t.holds(class, "the total is that of the meanings", all.total == meanings, told);
    let off = all.total.minus(all.packed).size().times(2);
    t.holds(class, "a total within count times half a step of what was packed", off.cmp(all.step.times(layer.count)).is_le(), told);
    t.holds(class, "a total of 0 where nothing is present", present > 0 || all.total == Whole::NONE && all.began == Whole::NONE, told);
    if kind == Roundings || kind == Shaves {
        let class = ("promise, trimmed before", 0);
        t.call(class);
        let began = layer.began.iter().filter(|&&x| x != list.mark).count() as u64;
        t.same(class, "count of readings that began present", &[layer.count], &[began], told);
        let moved = all.total.minus(all.began).size().times(2);
        let most = sum(&all.units).times(2).plus(all.step.times(layer.count));
        let near = present == 0 || moved.cmp(most).is_lt();
        t.holds(class, "a total less than the units plus count half steps from where it began", near, told);
        t.holds(class, "a total that stays 0 where nothing is present", present > 0 || moved == Whole::NONE, told);
        t.meet_at("trimmed layers more than half the bound off", layer.width, present > 0 && moved.times(2).cmp(most).is_gt());
        t.meet_at("trimmed layers with nothing present", layer.width, present == 0);
        t.meet_at("layers of roundings", layer.width, kind == Roundings);
        t.meet_at("layers of shaves, sets, grooms and halfshaves", layer.width, kind == Shaves);
    }
    t.holds(class, "the claim with nothing turned", claimed(Unturned, layer, &all), told);
    t.claims.show(layer.width, |claim| !claimed(claim, layer, &all));
    let mut own = list.mark % SIGN;
    if layer.left.iter().all(|&x| x != list.mark) { own = u32::MAX; }
    let any = |is: &dyn Fn(u32) -> bool| layer.left.iter().any(|&x| x != list.mark && is(x));
    let most = present > 1 && off == all.step.times(present - 1);
    let met = [
        ("layers with nothing present", present == 0),
        ("layers of one reading", layer.left.len() == 1 && present == 1),
        ("layers with one present reading among missing ones", layer.left.len() > 1 && present == 1),
        ("layers with one value throughout", present > 1 && layer.sum == 0 && off == Whole::NONE),
        ("layers with a total below zero", all.total.negative()),
        ("layers with readings of both signs", any(&|x| x > SIGN) && any(&|x| x < SIGN && x > 0)),
        ("layers with a subnormal reference", (1..1 << 23).contains(&(layer.reference % SIGN))),
        ("layers with exponent -149 and a sum", layer.exponent == LOW && layer.sum > 0),
        ("layers with exponent 130 - w, the largest that a layer needs", layer.exponent == 130 - layer.width as i32),
        ("layers exactly count - 1 half steps off, above", most && all.total.cmp(all.packed).is_gt()),
        ("layers exactly count - 1 half steps off, below", most && all.total.cmp(all.packed).is_lt()),
        ("layers with the code 2^w - 2", layer.codes.iter().any(|&code| code as u64 == missing_code(layer.width) - 1)),
        ("layers of 65,536 readings", layer.left.len() == LONGEST),
        ("layers with missing readings, mark: NaN", own > INFINITY && own < SIGN),
        ("layers with missing readings, mark: infinity", own == INFINITY),
        ("layers with missing readings, mark: zero", own == 0),
        ("layers with missing readings, mark: ordinary reading", own > 0 && own < INFINITY),
    ];
    for (what, is) in met { t.meet_at(what, layer.width, is); }
    t.meet("layers of both kinds of trims", (kind == Both) as u64);
}

/// One trim of a list, on the array as the last one left it. Answers what is left, and the counts if it was accepted.
fn trim(t: &mut Tally, now: &[u32], mark: u32, (method, setting): Trim) -> (Vec<u32>, Option<Vec<u64>>) {
    let range = match method { 0..=4 => 0..=23, 5 => LOW..=127, _ => 1..=7 };
    let refusal = if method > 6 { 1 } else if range.contains(&setting) { 0 } else { 2 };
    let class = ("trims of a list", refusal);
    t.call(class);
    let untold = t.junk(6, |x| x);
    let mut lent = Lent::new(t, now, 0x3FAA5A5B);
    let mut counts = Lent::new(t, &untold, 0x5A5A_1234_5A5A_4321);
    let answer = unsafe { megharutti_trim_singles(lent.lend(), now.len(), method, setting, mark, counts.lend()) };
    let told = &|| format!("method {method} setting {setting} mark {mark:08X} readings {}", hex(now));
    t.same(class, "answer", &[answer], &[refusal], told);
    let want = if refusal == 0 { (lent.left().to_vec(), counts.left().to_vec()) } else { (now.to_vec(), untold) };
    lent.check(t, class, "reading", &want.0, told);
    counts.check(t, class, "count", &want.1, told);
    (want.0, (refusal == 0 && answer == 0).then_some(want.1))
}
/// Trims an array by a list of calls, packs it with the same mark, and asks the promise of each layer.
fn run(t: &mut Tally, began: Vec<u32>, length: usize, mark: u32, widths: &[u32], calls: &[Trim]) {
    let (n, layers) = (began.len(), widths.len());
    let (mut left, mut list) = (began.clone(), List { calls: vec![], began, mark });
    for &call in calls {
        let (now, counts) = trim(t, &left, mark, call);
        left = now;
        let Some(counts) = counts else { continue };
        list.calls.push(call);
        for (i, what) in ["places changed by trims", "places spared by trims", "places clipped by trims"].into_iter().enumerate() {
            t.meet(what, counts[i]);
        }
    }
    let kind = list.kind();
    let absolute = list.calls.iter().filter(|call| call.0 == 5).count();
    t.meet("lists with refused calls beside accepted ones", (kind != Untrimmed && list.calls.len() < calls.len()) as u64);
    t.meet("lists with no accepted call", (kind == Untrimmed && !calls.is_empty()) as u64);
    t.meet("lists of more than one accepted call", (list.calls.len() > 1) as u64);
    t.meet("lists of rounds and absolutes", (kind == Roundings && (1..list.calls.len()).contains(&absolute)) as u64);
    let refusal = if left.iter().all(|&x| finite(x) || x == mark) { 0 } else { 6 };
    let class = ("packings", refusal);
    t.call(class);
    let mut codes = Lent::new(t, &vec![0x1234; n], 0x5A5B);
    let mut references = Lent::new(t, &vec![0x7FA5A5A5; layers], 0x7FA5A5A5);
    let mut exponents = Lent::new(t, &vec![999; layers], 0x5A5A1234);
    let answer = unsafe {
        megharutti_pack(left.as_ptr(), n, length, mark, widths.as_ptr(), layers, codes.lend(), n, references.lend().cast(), layers,
            exponents.lend(), layers)
    };
    let told = &|| format!("length {length} mark {mark:08X} widths {} readings {}", hex(widths), hex(&left));
    t.same(class, "answer", &[answer], &[refusal], told);
    if answer != 0 || refusal != 0 { return; }
    let before = codes.left().to_vec();
    for (i, &width) in widths.iter().enumerate() {
        let own = i * length..(i + 1) * length;
        let (reference, exponent) = (references.left()[i], exponents.left()[i]);
        let sound = finite(reference) && (LOW..=HIGH).contains(&exponent);
        t.holds(class, "a finite reference and an exponent of 02's range", sound, told);
        if !sound { continue; }
        // With larger steps than the least ones the promise would say less.
        let mut sizes: Vec<Whole> = left[own.clone()].iter().filter(|&&x| x != mark).map(|&x| exact(x)).collect();
        sizes.sort_by(|a, b| a.cmp(*b));
        let [least, most] = [sizes.first(), sizes.last()].map(|x| x.copied().unwrap_or(Whole::NONE));
        let holds = |e: i32| most.minus(least).cmp(step(e).times(missing_code(width) - 1)).is_le();
        t.holds(class, "a reference that is the smallest present value", exact(reference) == least && reference != SIGN, told);
        t.holds(class, "the least exponent that holds the span", holds(exponent) && (exponent == LOW || !holds(exponent - 1)), told);
        // The layer's codes are lent where packing left them.
        let held = t.held();
        let (mut totals, at) = (held, codes.lend());
        let answer = unsafe { megharutti_totals(at.add(own.start), length, width, totals.as_mut_ptr()) };
        let codes = &codes.left()[own.clone()];
        t.holds(("totals of packed layers", 0), "a packed layer is accepted", answer == 0, told);
        judge(t, "totals of packed layers", codes, width, held, (answer, totals));
        if answer != 0 { continue; }
        let (began, left, [count, sum]) = (&list.began[own.clone()], &left[own], totals);
        promise(t, &Layer { list: &list, began, left, width, codes, reference, exponent, count, sum });
    }
    codes.check(t, ("totals of packed layers", 0), "code", &before, told);
}

fn finite_reading(t: &mut Tally) -> u32 {
    let (any, few) = (t.below(INFINITY as u64) as u32, t.below(3) as u32);
    let m = t.pick(&[any, any, any % (1 << 23), any >> 23 << 23, few, INFINITY - 1 - few, (1 << 23) - 1 + few]);
    t.sign(m)
}
fn mark(t: &mut Tally) -> u32 {
    let nan = INFINITY + 1 + t.below((1 << 23) - 1) as u32;
    let marks = [0x7FC00000, t.sign(nan), u32::MAX, INFINITY, SIGN + INFINITY, 0, SIGN, 0x7CF00000, 0x3F800000, 1, finite_reading(t)];
    t.pick(&marks)
}
/// The single j times 2^u; it must be one.
fn grid(j: i64, u: i32) -> u32 {
    let x = j as f64 * power(u);
    assert!(x as f32 as f64 == x, "the test made a reading that isn't a single");
    (x as f32).to_bits()
}
/// A number of half steps that a span may have, so that its exponent is the least: above 2^w - 2, and up to twice as many. If
/// there is one, with the odd rest that is asked for, modulo 4.
fn span(t: &mut Tally, width: u32, rest: i64) -> i64 {
    let most = missing_code(width) as i64 - 1;
    let any = t.from(most + 1, 2 * most);
    if rest % 2 == 0 { return t.pick(&[any, 2 * most]); }
    let near = any - (any - rest).rem_euclid(4);
    if near > most { near } else if near + 4 <= 2 * most { near + 4 } else { 2 * most }
}
const LAYERS: u64 = 15;
/// A layer of one kind.
fn layer(t: &mut Tally, kind: u64, length: usize, mark: u32, width: u32) -> Vec<u32> {
    let signs = t.below(3) as u32;
    let sign = move |t: &mut Tally, m: u32| if signs == 2 { t.sign(m) } else { m + signs * SIGN };
    let (e, wide, few) = (t.below(255), t.pick(&[1, 2, 4, 20]), t.pick(&[2, 10, 24]));
    let one = finite_reading(t);
    let mut out: Vec<u32> = vec![];
    match kind {
        0 => out.extend((0..length).map(|_| finite_reading(t))),
        // Exponents near each other.
        1 | 2 => for _ in 0..length {
            let m = (((e + t.below(wide)).min(254) << 23) + t.below(1 << 23)) as u32;
            out.push(sign(t, m));
        },
        // Subnormals, the least ones or any.
        3 => for _ in 0..length {
            let m = t.below(1 << (few - 1)) as u32;
            out.push(sign(t, m));
        },
        // The largest.
        4 => for _ in 0..length {
            let m = INFINITY - 1 - t.below(1 << few) as u32;
            out.push(sign(t, m));
        },
        5 => out.extend((0..length).map(|_| t.pick(&[0, SIGN, SIGN, one]))),
        6 => out.resize(length, mark),
        7 => out.resize(length, one),
        // Ties: all of them go down, or all up, or each its way.
        8..=11 => {
            let rest = [1, 3, 2, 3][kind as usize - 8];
            let (u, top) = (t.from(LOW as i64, 99) as i32, span(t, width, rest));
            let far = t.from(-(1 << 23), 1 << 23);
            let r = t.pick(&[far, far, 0, -top, -top / 2, 1, -1]);
            out.extend([grid(r, u), grid(r + top, u)]);
            while out.len() < length {
                let j = if kind == 10 { t.from(0, top) } else { (4 * t.from(0, top / 4) + rest).min(top) };
                out.push(grid(r + j, u));
            }
            out.truncate(length);
        }
        // The weather, in tenths.
        12 => out.extend((0..length).map(|_| ((t.from(-300, 400) as f64 / 10.0) as f32).to_bits())),
        // A reading and its opposite, in turn.
        13 => out.extend((0..length).map(|i| if i % 2 == 0 { one } else { one ^ SIGN })),
        // One that is large, and small ones.
        _ => {
            out.extend((0..length).map(|_| t.below(1 << 28) as u32));
            out[0] = one;
        }
    }
    for i in 0..length.min(2) { out.swap(i, t.below(length as u64) as usize); }
    let strewn = t.pick(&[0, 0, 0, 20, 3, 1]);
    if strewn == 1 {
        let kept = t.below(length as u64) as usize;
        (0..length).filter(|&i| i != kept).for_each(|i| out[i] = mark);
    } else if strewn > 1 {
        out.iter_mut().for_each(|x| if t.below(strewn) == 0 { *x = mark });
    }
    out
}
/// A layer of each width, in any order; and a mark.
fn layers(t: &mut Tally, kind: Option<u64>, length: usize) -> (Vec<u32>, u32, Vec<u32>) {
    let mut widths: Vec<u32> = WIDTHS.collect();
    for i in 0..widths.len() { widths.swap(i, t.below(15) as usize); }
    let mut own = mark(t);
    let mut out = vec![];
    for &width in &widths {
        let kind = kind.unwrap_or(t.below(LAYERS));
        out.extend(layer(t, kind, length, own, width));
    }
    // At times a reading of the array is the mark instead.
    if finite(own) && t.below(4) == 0 { own = t.pick(&out); }
    (out, own, widths)
}
const LENGTHS: [usize; 13] = [1, 2, 3, 4, 5, 6, 7, 8, 9, 17, 60, 257, 1000];
/// Layers packed as they are.
fn packed(t: &mut Tally) {
    for round in 0..6 {
        for (kind, length) in (0..LAYERS).flat_map(|kind| LENGTHS.map(|length| (kind, length))) {
            if length > 100 && round > 1 { continue; }
            let (began, mark, widths) = layers(t, Some(kind), length);
            run(t, began, length, mark, &widths, &[]);
        }
    }
    for _ in 0..2 {
        let (began, mark, widths) = layers(t, None, LONGEST);
        run(t, began, LONGEST, mark, &widths, &[]);
    }
}

fn refused(t: &mut Tally) -> Trim {
    let any = t.random() as i32;
    let bits = (t.below(5) as u32, t.pick(&[-1, 24, i32::MIN, i32::MAX]));
    t.pick(&[(7, 3), (8, any), (u32::MAX, any), (256 + 4, 3), bits, bits, (5, LOW - 1), (5, 128), (5, i32::MIN), (6, 0), (6, 8)])
}
/// A call, by a reading that it may change. An absolute step is about as far as a number of keep bits.
fn call(t: &mut Tally, kind: Kind, near: u32) -> Trim {
    let any = t.below(24) as i32;
    let k = t.pick(&[0, 1, 2, 7, 12, 20, 22, 23, any]);
    let p = (spacing(near) as i32 + LOW + t.from(-2, 26) as i32).clamp(LOW, 127);
    let (rounding, shave) = (t.pick(&[(4, k), (5, p)]), (t.below(4) as u32, k));
    match kind {
        Roundings => rounding,
        Shaves => shave,
        _ => t.pick(&[rounding, shave]),
    }
}
/// Lists of any calls on layers of any kind, then a packing with the same mark.
fn trimmed(t: &mut Tally) {
    for round in 0..1500 {
        let length = if round % 50 == 0 { 1000 } else { t.pick(&LENGTHS[..11]) };
        let one = (t.below(2) == 0).then(|| t.below(LAYERS));
        let (mut began, mut mark, widths) = layers(t, one, length);
        let (near, kind) = (t.pick(&began), t.pick(&[Roundings, Roundings, Roundings, Shaves, Shaves, Shaves, Both]));
        // At times a mark that a call may make of a reading, or a reading that no packing takes.
        let cut = t.below(23);
        if t.below(4) == 0 { mark = near >> cut << cut; }
        let (place, other) = (t.below(began.len() as u64) as usize, t.pick(&[INFINITY, SIGN + INFINITY, 0x7FC00000, u32::MAX]));
        if t.below(12) == 0 { began[place] = other; }
        let calls: Vec<Trim> = (0..1 + t.below(5)).map(|_| if t.below(4) == 0 { refused(t) } else { call(t, kind, near) }).collect();
        run(t, began, length, mark, &widths, &calls);
    }
    for kind in [Roundings, Shaves] {
        let (began, mark, widths) = layers(t, None, LONGEST);
        let near = t.pick(&began);
        let calls: Vec<Trim> = (0..3).map(|_| call(t, kind, near)).collect();
        run(t, began, LONGEST, mark, &widths, &calls);
    }
}
/// A list's calls with refused ones among them.
fn among(t: &mut Tally, calls: &[Trim]) -> Vec<Trim> {
    let mut out = vec![];
    for &call in calls {
        if t.below(4) == 0 { out.push(refused(t)); }
        out.push(call);
    }
    if t.below(4) == 0 { out.push(refused(t)); }
    out
}
/// Shaves or sets that move every reading almost a unit one way, and ties of a packing that all go the same way.
fn one_way(t: &mut Tally, width: u32) {
    let s = t.from(4, 23 - width as i64) as u32; // the step's exponent, counted from the spacing
    let cut = s - 1; // the unit's
    let (e, n, sets, minus) = (t.from(1, 254) as u32, t.pick(&[3, 8, 61, 200]), t.below(2) as u32, t.below(2) as u32);
    let down = sets == minus;
    let rest = if down { 1 } else { 3 };
    let (top, ones) = (span(t, width, rest), (1u32 << cut) - 1);
    let at = |h: i64| (if minus == 1 { top - h } else { h }) as u32 * (1 << cut);
    let began = |h: i64| (e << 23) + at(h) + if sets == 1 { 0 } else { ones } + minus * SIGN;
    let mut readings = vec![began(0), began(top)];
    while readings.len() < n { readings.push(began((4 * t.from(0, top / 4) + rest).min(top))); }
    for i in 0..n { readings.swap(i, t.below(n as u64) as usize); }
    let (coarse, fine) = ((sets, 23 - cut as i32), (sets, 23));
    let calls = t.pick(&[&[coarse][..], &[fine, coarse], &[coarse, fine], &[fine, coarse, fine]]).to_vec();
    let calls = among(t, &calls);
    run(t, readings, n, 0x7FC00000, &[width], &calls);
}
/// One small reading among large ones whose units are larger, by keep bits.
fn unlike_units(t: &mut Tally, width: u32) {
    let (e, n) = (t.from(40, 254) as u32, t.pick(&[4, 9, 100]));
    let mut readings = vec![(e << 23) + (1 << 23) - 1; n];
    readings[t.below(n as u64) as usize] = (e - 30) << 23;
    let calls = among(t, &[(0, 0)]);
    run(t, readings, n, u32::MAX, &[width], &calls);
}
/// Two roundings, the first of which makes ties for the second; and readings that clip.
fn roundings(t: &mut Tally, width: u32) {
    let (e, n, cut, minus) = (t.from(1, 254) as u32, t.pick(&[1, 2, 5, 33]), t.from(3, 22) as u32, t.below(2) as u32);
    let x = (e << 23) + (1 << cut) + (3 << (cut - 3)) + minus * SIGN;
    let by = |t: &mut Tally, cut: u32| {
        let unit = (cut + spacing(x)) as i32 + LOW;
        t.pick(&[(4, 23 - cut as i32), (5, unit.min(127))])
    };
    let calls = [by(t, cut - 2), by(t, cut)];
    let calls = among(t, &calls);
    run(t, vec![x; n], n, 0x7FC00001, &[width], &calls);
    let top = INFINITY - 1 - t.below(1 << (cut - 2)) as u32;
    let calls = [t.pick(&[(4, 23 - cut as i32), (5, 104 + cut as i32)])];
    let calls = among(t, &calls);
    run(t, vec![top + minus * SIGN; n], n, 0, &[width], &calls);
}
/// Sets and roundings in turn, of which nothing is promised about where readings began.
fn both_kinds(t: &mut Tally, width: u32) {
    let (e, n, k) = (t.from(1, 250) as u32, t.pick(&[1, 3, 10]), t.from(1, 20) as i32);
    run(t, vec![e << 23; n], n, u32::MAX, &[width], &[(1, k), (4, k), (1, k), (4, k), (1, k), (4, k)]);
}
/// Marked cases: the layers P11 and P12, and their totals.
fn marked(t: &mut Tally) {
    run(t, vec![0x41200000, 0x41280000, 0x7CF00000, 0x41400000], 4, 0x7CF00000, &[16], &[]);
    t.same(("marked cases", 0), "total of P11", &t.last.clone(), &[3, 40_960], &String::new);
    for (reading, sum) in [(0xFFFE, 65_534), (0xFFFF, 32_768)] {
        run(t, vec![0, reading], 2, 0x7CF00000, &[16], &[]);
        t.same(("marked cases", 0), "total of P12", &t.last.clone(), &[2, sum], &String::new);
    }
    t.call(("marked cases", 0));
}

/// What must have been compared.
const CLASSES: [Class; 18] = [
    ("totals", 0), ("totals", 3), ("totals", 11), ("totals", 12),
    ("totals between pages", 0), ("totals between pages", 3), ("totals between pages", 11), ("totals between pages", 12),
    ("totals, more than 2^32 codes", 3), ("totals of packed layers", 0), ("promise", 0), ("promise, trimmed before", 0),
    ("packings", 0), ("packings", 6), ("trims of a list", 0), ("trims of a list", 1), ("trims of a list", 2), ("marked cases", 0),
];
const WANTED: [(&str, u64); 18] = [
    ("calls that break 3", 100), ("calls that break 11", 100), ("calls that break 12", 100), ("calls that break 3 and 11", 100),
    ("calls that break 3 and 12", 100), ("calls that break 11 and 12", 100), ("calls that break 3 and 11 and 12", 100),
    ("calls at an odd element's place", 1000), ("calls with codes right before a page", 1000),
    ("calls with codes right behind a page", 1000),
    ("places changed by trims", 100_000), ("places spared by trims", 100), ("places clipped by trims", 100),
    ("lists with refused calls beside accepted ones", 100), ("lists with no accepted call", 10),
    ("lists of more than one accepted call", 100),
    ("lists of rounds and absolutes", 100), ("layers of both kinds of trims", 100),
];
/// What must have been met at every width.
const WANTED_AT: [&str; 29] = [
    "calls with all codes missing", "calls with all codes 2^w - 2", "calls with all codes 2^w - 2, 65,536 of them",
    "calls with all codes 0",
    ONE_PRESENT[0], ONE_PRESENT[1], ONE_PRESENT[2], ONE_PRESENT[3], "one present code at the end",
    "trimmed layers more than half the bound off", "trimmed layers with nothing present", "layers of roundings",
    "layers of shaves, sets, grooms and halfshaves", "layers with nothing present", "layers of one reading",
    "layers with one present reading among missing ones", "layers with one value throughout", "layers with a total below zero",
    "layers with readings of both signs", "layers with a subnormal reference", "layers with exponent -149 and a sum",
    "layers with exponent 130 - w, the largest that a layer needs", "layers exactly count - 1 half steps off, above",
    "layers with the code 2^w - 2", "layers of 65,536 readings",
    "layers with missing readings, mark: NaN", "layers with missing readings, mark: infinity", "layers with missing readings, mark: zero",
    "layers with missing readings, mark: ordinary reading",
];
/// And at every width but 2: no width has a smaller missing code, and no span of its layers has a last tie that goes down.
const WANTED_WIDER: [&str; 2] = ["layers exactly count - 1 half steps off, below", "the missing code of another width, accepted"];
/// And at every width but 16, which has no such codes.
const WANTED_NARROW: [&str; 9] = [
    "codes one above the missing one", "the missing code of another width, refused", "codes above, at the first place",
    "codes above, at the last place", ONE_ABOVE[0], ONE_ABOVE[1], ONE_ABOVE[2], ONE_ABOVE[3],
    "65,535 in a narrow layer",
];
/// Prints what was compared and met. Answers whether a class is empty.
fn report(t: &Tally) -> bool {
    let mut empty = false;
    println!("\n{:<36} {:>6} {:>9} {:>12}", "", "answer", "calls", "comparisons");
    for class in CLASSES {
        let [calls, compared] = t.compared.get(&class).copied().unwrap_or_default();
        empty |= calls == 0 || compared == 0;
        println!("{:<36} {:>6} {calls:>9} {compared:>12}{}", class.0, class.1, if calls == 0 { " EMPTY" } else { "" });
    }
    println!("\n{:<72} {:>9}", "met", "times");
    let mut row = |what: String, times: u64, least: u64| {
        empty |= times < least;
        println!("{what:<72} {times:>9}{}", if times < least { " TOO FEW" } else { "" });
    };
    for (what, least) in WANTED { row(what.to_string(), t.met.get(what).copied().unwrap_or(0), least); }
    let fewest = |what: &str, widths: RangeInclusive<u32>| {
        let at = t.met_at.get(what).copied().unwrap_or_default();
        widths.map(|width| at[width as usize]).min().unwrap_or(0)
    };
    for what in WANTED_AT { row(format!("each width: {what}"), fewest(what, WIDTHS), 1); }
    for what in WANTED_WIDER { row(format!("each width: {what}"), fewest(what, 3..=16), 1); }
    for what in WANTED_NARROW { row(format!("each width: {what}"), fewest(what, 2..=15), 1); }
    let all = lengths();
    let covered = WIDTHS.map(|width| all.iter().filter(|&&n| t.lengths.contains(&(width, n))).count() as u64).min().unwrap_or(0);
    row(format!("each width: numbers of codes accepted, of {}", all.len()), covered, all.len() as u64);
    empty
}

fn main() {
    let t = &mut Tally::new();
    wholes(t);
    by_hand(t);
    marked(t);
    far(t);
    for width in WIDTHS {
        mixtures(t, width);
        // The longest layers show most wrong models that are left, and what follows is soon done with the rest.
        for n in [LONGEST, LONGEST - 1] {
            for fill in 0..FILLS { fill_of(t, fill, n, width); }
            if width < 16 { above(t, n, n - 1, width); }
        }
        wrong_lengths(t, width);
        accepted(t, width);
        single_places(t, width);
        for _ in 0..40 {
            one_way(t, width);
            unlike_units(t, width);
            roundings(t, width);
            both_kinds(t, width);
        }
    }
    wrong_widths(t);
    walled(t);
    packed(t);
    trimmed(t);
    let empty = report(t);
    let (rules, claims) = (t.rules.report(), t.claims.report());
    let unseen = rules[2] + claims[2];
    let [(models, widths), (wrong, at)] = [(rules[0], rules[1]), (claims[0], claims[1])];
    println!("\nturned: {models} wrong models ({widths} with their widths) and {wrong} wrong claims ({at} with theirs), {unseen} not seen");
    let compared: u64 = t.compared.values().map(|x| x[1]).sum();
    let found = [(t.lines > 0, "DIFFERENCES"), (empty, "a class with TOO FEW"), (unseen > 0, "a wrong model NOT SEEN")];
    let fault = found.into_iter().find(|x| x.0).map(|x| x.1);
    println!("totals: {compared} comparisons, {}", fault.unwrap_or("no difference"));
    if fault.is_some() { exit(1); }
}
