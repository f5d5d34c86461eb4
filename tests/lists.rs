//! Checks demand 3, without packing, on what lists of trims really left, over doubles and over singles, in exact whole numbers.
//!
//! Readings that nothing touched would keep every distance. So each call of a list is compared with the model too, and a library that
//! idles after the first call is seen. The claims themselves ask only where a reading began, what was left, and which calls were accepted.
use crate::draw::{Draw, SEED};
use crate::model::{left, Form};
use crate::nat::Nat;
use crate::{apart, hex, megharutti_trim_singles, Lent, Tally};
use std::fmt::UpperHex;

extern "C" {
    fn megharutti_trim_doubles(readings: *mut u64, n: usize, method: u32, setting: i32, mark: u64, counts: *mut u64) -> u32;
}

/// A wrong claim, which must be seen to fail.
#[derive(Clone, Copy, PartialEq)]
pub enum Wrong { HalfUnit, LeastUnit, FirstUnit, LastUnit, AnyMixture, TwoAsOne, OneThatClips, ByValue, SparesNone }
use Wrong::*;
pub const WRONG: [(Wrong, &str); 9] = [
    (HalfUnit, "less than half a unit"),
    (LeastUnit, "less than the smallest unit of the list"),
    (FirstUnit, "less than the first call's unit"),
    (LastUnit, "less than the last call's unit"),
    (AnyMixture, "less than a unit, in lists of both kinds too"),
    (TwoAsOne, "roundings that don't clip leave at most half a unit"),
    (OneThatClips, "one rounding leaves at most half a unit"),
    (ByValue, "missing by value exactly if it began so"),
    (SparesNone, "a last shave leaves the tail of each present reading zero"),
];

/// The patterns of a width, and the call that trims them.
trait Pattern: Copy + PartialEq + UpperHex + Into<u64> {
    const GUARD: Self;
    const TRIM: unsafe extern "C" fn(*mut Self, usize, u32, i32, Self, *mut u64) -> u32;
    fn of(pattern: u64) -> Self;
}
impl Pattern for u32 {
    const GUARD: u32 = 0x3FAA5A5B;
    const TRIM: unsafe extern "C" fn(*mut u32, usize, u32, i32, u32, *mut u64) -> u32 = megharutti_trim_singles;
    fn of(pattern: u64) -> u32 { pattern.try_into().expect("a single's pattern") }
}
impl Pattern for u64 {
    const GUARD: u64 = 0x3FF5_A5A5_1234_5A5B;
    const TRIM: unsafe extern "C" fn(*mut u64, usize, u32, i32, u64, *mut u64) -> u32 = megharutti_trim_doubles;
    fn of(pattern: u64) -> u64 { pattern }
}

pub struct Width {
    pub name: &'static str,
    trims: &'static str, // the names of what is compared
    claims: &'static str,
    lists: u32,
    least: [u64; 2], // the lists of one kind, and their readings, that a run must have met
    form: Form,
}
impl Width {
    pub fn both() -> [Width; 2] {
        [
            Width { name: "doubles", trims: "doubles: trims of a list", claims: "doubles: demand 3", lists: 5000, least: [3000, 200_000],
                form: Form::new(52, 11) },
            Width { name: "singles", trims: "singles: trims of a list", claims: "singles: demand 3, no packing", lists: 1700,
                least: [1000, 50_000], form: Form::new(23, 8) },
        ]
    }
    fn met(&self, t: &mut Tally, what: &str, times: u64) { t.meet(&format!("{}: {what}", self.name), times); }
    fn magnitude(&self, reading: u64) -> u64 { reading % self.form.sign }
    fn finite(&self, reading: u64) -> bool { self.magnitude(reading) < self.form.infinity }
    fn negative(&self, reading: u64) -> bool { reading >= self.form.sign }
    /// The exponent of the spacing at a reading, counted from the least spacing.
    fn spacing(&self, reading: u64) -> i32 { ((self.magnitude(reading) >> self.form.f) as i32).max(1) - 1 }
    /// The exact size in least spacings. It is written again here, so that the claims lean on nothing that makes the model's results.
    fn size(&self, reading: u64) -> Nat {
        let (hidden, m) = (1 << self.form.f, self.magnitude(reading));
        Nat::of(if m < hidden { m } else { hidden + m % hidden }).shl(self.spacing(reading) as u32)
    }
    fn distance(&self, a: u64, b: u64) -> Nat {
        let (size, other) = (self.size(a), self.size(b));
        if self.negative(a) == self.negative(b) { apart(&size, &other) } else { size.add(&other) }
    }
    /// The exponent of a call's unit at a reading, counted from the least spacing.
    fn unit(&self, (method, setting): Call, reading: u64) -> u32 {
        let unit = if method == 5 { setting + self.form.deep } else { self.form.f as i32 - setting + self.spacing(reading) };
        unit as u32
    }
}
type Call = (u32, i32); // the method and its setting
const LONG: usize = 70_001; // more readings than the longest layer has

/// What a list's accepted calls are.
#[derive(Clone, Copy, PartialEq)]
enum Kind { Roundings, Shaves, Both }
use Kind::*;

/// A list that was run: its accepted calls, what the array held before and after it, and how many places clipped, were spared, rose and
/// fell.
struct List { mark: u64, calls: Vec<Call>, began: Vec<u64>, left: Vec<u64>, clipped: u64, spared: u64, risen: u64, fallen: u64 }
impl List {
    fn kind(&self) -> Kind {
        let roundings = self.calls.iter().filter(|call| call.0 > 3).count();
        if roundings == self.calls.len() { Roundings } else if roundings == 0 { Shaves } else { Both }
    }
    fn set_then_round(&self) -> bool { matches!(self.calls[..], [(1, _), (4, _)]) }
    fn told(&self, at: usize) -> String {
        format!("accepted calls (method, setting) {:?} mark {:X} place {at} began {:X} left {:X}; all began {}", self.calls, self.mark,
            self.began[at], self.left[at], hex(&self.began))
    }
}

/// What a list is about: its readings lie about one exponent field, and its calls about one number of keep bits. So they meet.
struct About { kind: Kind, e: u64, k: i32 }

fn about(t: &mut Tally, w: &Width) -> About {
    let fields = 1u64 << w.form.e;
    let fields = [t.below(fields - 1), fields / 2 - 1, fields / 2 + 5, fields - 2, fields - 2, fields - 3, 0, 1];
    let f = w.form.f as i64;
    let k = [t.from(0, f), t.from(0, f), t.from(0, 12), 7, 0, f];
    let kind = t.pick(&[Roundings, Roundings, Roundings, Roundings, Shaves, Shaves, Shaves, Both]);
    About { kind, e: t.pick(&fields), k: t.pick(&k) as i32 }
}
fn accepted(t: &mut Tally, w: &Width, about: &About) -> Call {
    let f = w.form.f as i32;
    let k = [about.k + t.from(-3, 3) as i32, t.from(0, f as i64) as i32];
    let k = k[(t.below(12) == 0) as usize].clamp(0, f);
    // The step that is the unit of k where the readings lie, or any.
    let (least, most) = w.form.range(5);
    let step = f - k + about.e.max(1) as i32 - 1 - w.form.deep;
    let any = t.from(least as i64, most as i64) as i32;
    let p = if t.below(20) == 0 { t.pick(&[any, least, most]) } else { step.clamp(least, most) };
    let (rounding, shave) = (t.pick(&[(4, k), (5, p)]), (t.below(4) as u32, k));
    match about.kind {
        Roundings => rounding,
        Shaves => shave,
        Both => t.pick(&[rounding, shave]),
    }
}
fn refused(t: &mut Tally, w: &Width) -> Call {
    let (method, any) = (t.below(7) as u32, t.random() as i32);
    let (least, most) = w.form.range(method);
    let beyond = (method, t.pick(&[least - 1, most + 1, i32::MIN, i32::MAX]));
    // The last two are the method 4 in 8 and in 31 bits.
    t.pick(&[beyond, beyond, beyond, (7, 3), (8, any), (u32::MAX, any), (256 + 4, 3), ((1 << 31) + 4, 3)])
}
/// One to six calls, refused ones among them.
fn calls(t: &mut Tally, w: &Width, about: &About) -> Vec<Call> {
    if about.kind == Both && t.below(4) == 0 { return vec![(1, about.k), (4, about.k)]; }
    (0..1 + t.below(6)).map(|_| if t.below(4) == 0 { refused(t, w) } else { accepted(t, w, about) }).collect()
}

fn signed(t: &mut Tally, w: &Width, m: u64) -> u64 { m ^ (t.below(2) * w.form.sign) }
fn nan(t: &mut Tally, w: &Width) -> u64 {
    let m = w.form.infinity + 1 + t.below((1 << w.form.f) - 1);
    signed(t, w, m)
}
/// A unit such as the list's calls have, counted in patterns.
fn unit(t: &mut Tally, w: &Width, about: &About) -> u64 {
    let f = w.form.f as i64;
    1 << (f - about.k as i64 + t.from(-3, 3)).clamp(0, f)
}

/// A reading where the list's calls trim, often at the end or the middle of a tail, or where one rounding makes a tie for the next.
fn home(t: &mut Tally, w: &Width, about: &About) -> u64 {
    let one = 1u64 << w.form.f;
    let m = ((about.e + t.below(3)) << w.form.f).min(w.form.infinity - one) + t.below(one);
    let unit = unit(t, w, about);
    let (half, any) = (unit / 2, t.below(unit));
    let run = half.saturating_sub(1 << t.below(w.form.f as u64));
    let tails = [any, any, 0, 1 % unit, half, half.saturating_sub(1), (half + 1) % unit, unit - 1, run, half + run / 2];
    let m = m / unit * unit + t.pick(&tails);
    signed(t, w, m)
}
/// The mark, a neighbour of it, or a reading that a call may turn into it.
fn by_the_mark(t: &mut Tally, w: &Width, about: &About, mark: u64) -> u64 {
    let unit = unit(t, w, about);
    let part = t.below(unit);
    let by = t.pick(&[0, 1, 2, part, part]);
    let near = if t.below(2) == 0 { mark.wrapping_add(by) } else { mark.wrapping_sub(by) };
    if t.below(16) == 0 { mark ^ w.form.sign } else { near & w.form.all }
}
fn reading(t: &mut Tally, w: &Width, about: &About, mark: u64) -> u64 {
    let (one, top, few) = (1u64 << w.form.f, w.form.infinity, t.below(4));
    let unit = unit(t, w, about);
    let m = match t.below(20) {
        0 => t.below(top),
        1 | 2 => (t.below(1 << w.form.e) << w.form.f).saturating_add_signed(t.pick(&[-1, 0, 0, 1])),
        3 => t.below(one),
        4 => t.pick(&[few, one - 1 - few]),
        5 => 0,
        6 | 7 => top - 1 - t.below(unit),
        8 => t.pick(&[top, top - 1]),
        9 => return nan(t, w),
        10..=13 => return by_the_mark(t, w, about, mark),
        _ => return home(t, w, about),
    };
    signed(t, w, m)
}
/// Any pattern, or what some call of the list makes of a reading.
fn mark(t: &mut Tally, w: &Width, about: &About, calls: &[Call]) -> u64 {
    let (top, sign) = (w.form.infinity, w.form.sign);
    let marks = [top + (1 << (w.form.f - 1)), nan(t, w), w.form.all, 0, sign, top, top + sign, top - 1, 1, t.random() & w.form.all];
    let any = t.pick(&marks);
    let (call, odd) = (t.pick(calls), t.below(2) == 1);
    if t.below(2) == 0 || w.form.refusal(call.0, call.1) > 0 { return any; }
    let from = reading(t, w, about, any);
    w.form.trim(call.0, call.1, from, odd).0
}

/// What the model says that an accepted call leaves, and its counts.
fn modelled(w: &Width, now: &[u64], mark: u64, (method, setting): Call) -> (Vec<u64>, Vec<u64>) {
    let (mut counts, mut turn) = (vec![0; 6], 0);
    let place = |&old: &u64| {
        let (new, counted) = left(old, w.form.own(method, setting, old, turn % 2 == 1), mark);
        (0..6).for_each(|c| counts[c] += counted[c] as u64);
        turn += w.form.takes_turn(old, mark) as u64;
        new
    };
    (now.iter().map(place).collect(), counts)
}
/// One call on the array as the last one left it, compared with the model. Answers what the library left, and its counts if it accepted.
fn trim<P: Pattern>(t: &mut Tally, w: &Width, now: &[u64], mark: u64, call: Call) -> (Vec<u64>, Option<[u64; 6]>) {
    let refusal = w.form.refusal(call.0, call.1);
    let class = (w.trims, refusal);
    t.compared.entry(class).or_default()[0] += 1;
    let narrow = |xs: &[u64]| -> Vec<P> { xs.iter().map(|&x| P::of(x)).collect() };
    let untold = t.junk(6, |x| x);
    let mut lent = Lent::new(t, &narrow(now), P::GUARD);
    let mut counts = Lent::new(t, &untold, 0x5A5A_1234_5A5A_4321);
    let answer = unsafe { P::TRIM(lent.lend(), now.len(), call.0, call.1, P::of(mark), counts.lend()) };
    let told = &|i: usize| format!("call {call:?} mark {mark:X} before {:X} readings {}", now.get(i).unwrap_or(&0), hex(now));
    let want = if refusal == 0 { modelled(w, now, mark, call) } else { (now.to_vec(), untold) };
    t.same(class, "answer", &[answer], &[refusal], told);
    lent.check(t, class, "reading", &narrow(&want.0), told);
    counts.check(t, class, "count", &want.1, told);
    let counted: [u64; 6] = counts.left().try_into().expect("six counts");
    if answer == 0 { t.same(class, "risen and fallen, by changed", &[counted[4].wrapping_add(counted[5])], &counted[..1], told); }
    (lent.left().iter().map(|&x| x.into()).collect(), (answer == 0).then_some(counted))
}
/// Makes a list and runs it.
fn list<P: Pattern>(t: &mut Tally, w: &Width) -> List {
    let about = about(t, w);
    let calls = calls(t, w, &about);
    let mark = mark(t, w, &about, &calls);
    let n = if t.below(500) == 0 { LONG } else { t.pick(&[0, 1, 2, 5, 17, 64, 100, 200, 200]) };
    let mut began: Vec<u64> = (0..n).map(|_| reading(t, w, &about, mark)).collect();
    // A station that reports every second slot.
    let station = (t.below(6) == 0).then(|| t.below(2) as usize);
    if let Some(from) = station { began.iter_mut().skip(from).step_by(2).for_each(|x| *x = mark); }
    let mut list = List { mark, calls: vec![], left: began.clone(), began, clipped: 0, spared: 0, risen: 0, fallen: 0 };
    for &call in &calls {
        let (now, counts) = trim::<P>(t, w, &list.left, mark, call);
        list.left = now;
        let Some([_, spared, clipped, _, risen, fallen]) = counts else { continue };
        list.calls.push(call);
        list.spared += spared;
        list.clipped += clipped;
        list.risen += risen;
        list.fallen += fallen;
    }
    w.met(t, "lists with refused calls beside accepted ones", (!list.calls.is_empty() && list.calls.len() < calls.len()) as u64);
    list
}

/// Whether a distance is as claimed, by the exponents of the calls' units. A whole number is below 2^x exactly if it has at most x bits.
fn near(wrong: Option<Wrong>, list: &List, units: &[u32], distance: &Nat) -> bool {
    let largest = *units.iter().max().expect("an accepted call");
    let unit = match wrong {
        Some(LeastUnit) => *units.iter().min().expect("an accepted call"),
        Some(FirstUnit) => units[0],
        Some(LastUnit) => units[units.len() - 1],
        _ => largest,
    };
    let halved = match wrong {
        Some(TwoAsOne) => list.kind() == Roundings && list.clipped == 0,
        Some(OneThatClips) => list.kind() == Roundings && units.len() == 1,
        _ => false,
    };
    if halved { return distance.times(2).cmp(&Nat::of(1).shl(unit)).is_le(); }
    let twice = 1 + (wrong == Some(HalfUnit)) as u64;
    distance.times(twice).bits() <= unit
}
/// Whether two patterns are one value; no NaN is.
fn one_value(w: &Width, a: u64, b: u64) -> bool {
    let zero = |x| w.magnitude(x) == 0;
    w.magnitude(a) <= w.form.infinity && a == b || zero(a) && zero(b)
}
/// The claims about one reading of a list. Answers how far it moved and its largest unit, if it was present and finite and still is finite.
fn claim(t: &mut Tally, w: &Width, wrong: Option<Wrong>, list: &List, at: usize) -> Option<(Nat, u32)> {
    let (class, told) = ((w.claims, 0), || list.told(at));
    let (old, new, mark) = (list.began[at], list.left[at], list.mark);
    let missing = |x| if wrong == Some(ByValue) { one_value(w, x, mark) } else { x == mark };
    t.holds(class, "missing exactly if it began missing", missing(old) == missing(new), &told);
    if old == mark || !w.finite(old) {
        t.holds(class, "a missing, infinite or NaN reading keeps its pattern", old == new, &told);
        return None;
    }
    t.holds(class, "a present finite reading stays finite", w.finite(new), &told);
    t.holds(class, "a present finite reading keeps its sign", w.negative(old) == w.negative(new), &told);
    if !w.finite(new) { return None; }
    let distance = w.distance(old, new);
    let units: Vec<u32> = list.calls.iter().map(|&call| w.unit(call, old)).collect();
    // Nothing is claimed of a distance where the kinds are mixed.
    if list.kind() != Both || wrong == Some(AnyMixture) {
        t.holds(class, "a reading less than one unit off", near(wrong, list, &units, &distance), &told);
    }
    if let (Some(SparesNone), Some(&(0, k))) = (wrong, list.calls.last()) {
        t.holds(class, "a tail of zeros", new % (1 << (w.form.f as i32 - k)) == 0, &told);
    }
    Some((distance, *units.iter().max()?))
}
/// Notes what a list began with.
fn meet_readings(t: &mut Tally, w: &Width, list: &List) {
    let (one, top, mark) = (1 << w.form.f, w.form.infinity, list.mark);
    let met: [(&str, &dyn Fn(u64) -> bool); 7] = [
        ("missing readings", &|x| x == mark),
        ("zeros that are present", &|x| x != mark && w.magnitude(x) == 0),
        ("subnormals that are present", &|x| x != mark && (1..one).contains(&w.magnitude(x))),
        ("readings in the last binade", &|x| x != mark && (top - one..top).contains(&w.magnitude(x))),
        ("infinities that are present", &|x| x != mark && w.magnitude(x) == top),
        ("NaNs that are present", &|x| x != mark && w.magnitude(x) > top),
        ("neighbours of the mark", &|x| x.wrapping_sub(mark) == 1 || mark.wrapping_sub(x) == 1),
    ];
    for (what, is) in met { w.met(t, what, list.began.iter().filter(|&&x| is(x)).count() as u64); }
}
/// Notes the grooms of a list, and the readings whose turn has another parity than their place. The turn is the same in each of the list's
/// calls, since what takes none stays as it is and nothing becomes like it.
fn meet_grooms(t: &mut Tally, w: &Width, list: &List) {
    let grooms = list.calls.iter().filter(|call| call.0 == 2).count();
    if grooms == 0 { return; }
    let (mut turn, mut apart, mut idle) = (0, 0, 0);
    for (i, &x) in list.began.iter().enumerate() {
        let takes = x != list.mark && w.finite(x);
        apart += (takes && turn % 2 != i % 2) as u64;
        idle += (x != list.mark && !takes) as u64;
        turn += takes as usize;
    }
    let station = |from| list.began.len() > 4 && list.began.iter().skip(from).step_by(2).all(|&x| x == list.mark);
    w.met(t, "lists with grooms beside others", (grooms < list.calls.len()) as u64);
    w.met(t, "lists with more than one groom", (grooms > 1) as u64);
    w.met(t, "readings groomed at a turn unlike their place", apart);
    w.met(t, "infinities and NaNs beside groomed readings", idle);
    w.met(t, "groomed lists, even places missing", station(0) as u64);
    w.met(t, "groomed lists, odd places missing", station(1) as u64);
}
/// Notes a list of one kind, and how many of its readings moved far.
fn meet_list(t: &mut Tally, w: &Width, list: &List, half: u64) {
    let roundings = list.kind() == Roundings;
    let absolute = list.calls.iter().filter(|call| call.0 == 5).count();
    w.met(t, "lists of one kind", 1);
    w.met(t, if list.began.len() == LONG { "readings in long ones" } else { "readings in them" }, list.began.len() as u64);
    w.met(t, "places clipped in them", list.clipped);
    w.met(t, "places spared in them", list.spared);
    w.met(t, "places risen in them", list.risen);
    w.met(t, "places fallen in them", list.fallen);
    w.met(t, "lists of roundings", roundings as u64);
    w.met(t, "lists of rounds and absolutes", (roundings && (1..list.calls.len()).contains(&absolute)) as u64);
    w.met(t, "lists of shaves, sets, grooms, halfshaves", !roundings as u64);
    w.met(t, "lists of more than one accepted call", (list.calls.len() > 1) as u64);
    w.met(t, "lists of six accepted calls", (list.calls.len() == 6) as u64);
    meet_grooms(t, w, list);
    w.met(t, if roundings { "half a unit or more off, roundings" } else { "half a unit or more off, shaves .." }, half);
}
/// Demand 3 about a list that was run.
fn claims(t: &mut Tally, w: &Width, wrong: Option<Wrong>, list: &List) {
    let class = (w.claims, 0);
    if list.calls.is_empty() {
        w.met(t, "lists with no accepted call", 1);
        return t.same(class, "reading of a list with no accepted call", &list.left, &list.began, &|i| list.told(i));
    }
    t.compared.entry(class).or_default()[0] += 1;
    let (mut half, mut whole) = (0, 0);
    for at in 0..list.began.len() {
        let Some((distance, unit)) = claim(t, w, wrong, list, at) else { continue };
        half += (distance.times(2).bits() > unit) as u64;
        whole += (distance.bits() > unit) as u64;
    }
    meet_readings(t, w, list);
    if list.kind() != Both { return meet_list(t, w, list, half); }
    w.met(t, "lists of both kinds", 1);
    w.met(t, "a unit or more off, both kinds", whole);
    w.met(t, "a unit or more off, a set and then a round", whole * list.set_then_round() as u64);
}

/// Every list of a width, or as many as show the wrong claim.
pub fn run(t: &mut Tally, w: &Width, wrong: Option<Wrong>) {
    t.seed = SEED << w.form.e; // so that a wrong claim meets the lists of which the right one holds
    for _ in 0..w.lists {
        if t.over() { return; }
        let list = if w.form.f == 23 { list::<u32>(t, w) } else { list::<u64>(t, w) };
        claims(t, w, wrong, &list);
    }
}

/// What must have been compared.
pub fn classes(w: &Width) -> [(&'static str, u32); 4] { [(w.trims, 0), (w.trims, 1), (w.trims, 2), (w.claims, 0)] }
/// What must have been met, and how often at least.
pub fn wanted(w: &Width) -> Vec<(String, u64)> {
    let once = [
        "readings in long ones", "places clipped in them", "places spared in them", "places risen in them", "places fallen in them",
        "lists of roundings", "lists of rounds and absolutes", "lists of shaves, sets, grooms, halfshaves",
        "lists of more than one accepted call", "lists of six accepted calls", "half a unit or more off, roundings",
        "half a unit or more off, shaves ..", "lists with refused calls beside accepted ones", "lists with no accepted call",
        "lists of both kinds", "a unit or more off, both kinds", "a unit or more off, a set and then a round", "missing readings",
        "zeros that are present", "subnormals that are present", "readings in the last binade", "infinities that are present",
        "NaNs that are present", "neighbours of the mark", "lists with grooms beside others", "lists with more than one groom",
        "readings groomed at a turn unlike their place", "infinities and NaNs beside groomed readings",
        "groomed lists, even places missing", "groomed lists, odd places missing",
    ];
    let named = |(what, least): (&str, u64)| (format!("{}: {what}", w.name), least);
    let counted = [("lists of one kind", w.least[0]), ("readings in them", w.least[1])];
    counted.into_iter().chain(once.map(|what| (what, 1))).map(named).collect()
}
