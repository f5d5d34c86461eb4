//! Compares packing and unpacking of the C interface with a model of documents 01 and 02 (e) in exact whole numbers, and checks
//! demand 3 on what lists of trims and a packing really left; lists.rs does so without packing, for singles and for doubles.
//!
//! The model knows nothing of the library. Where the machine's own floats can give the same answer exactly, they are asked too.
//! Every run makes the same comparisons. It first turns one rule of the model, or one claim, at a time: each such wrong model
//! must differ from the library. With --self-test it ends there.
mod draw;
mod lists;
mod model;
mod nat;
use draw::{Draw, SEED};
use lists::Width;
use nat::{apart, goes_up, Nat};
use std::cmp::Ordering;
use std::collections::BTreeMap;
use std::fmt::UpperHex;
use std::ops::RangeInclusive;
use std::process::exit;
use std::ptr::NonNull;

extern "C" {
    fn megharutti_pack(
        readings: *const u32, n: usize, length: usize, mark: u32, widths: *const u32, n_widths: usize,
        codes: *mut u16, n_codes: usize, references: *mut f32, n_references: usize, exponents: *mut i32, n_exponents: usize,
    ) -> u32;
    fn megharutti_unpack(
        widths: *const u32, n_widths: usize, codes: *const u16, n_codes: usize, references: *const f32, n_references: usize,
        exponents: *const i32, n_exponents: usize, length: usize, mark: u64, readings: *mut u64, n: usize,
    ) -> u32;
    fn megharutti_trim_singles(readings: *mut u32, n: usize, method: u32, setting: i32, mark: u32, counts: *mut u64) -> u32;
}

const SIGN: u32 = 1 << 31;
const INFINITY: u32 = 0x7F800000;
const LOW: i32 = -149; // the least step exponent
const HIGH: i32 = 128;
const WIDTHS: RangeInclusive<u32> = 2..=16;

/// The call that a rule is about.
#[derive(Clone, Copy, PartialEq)]
enum Call { Pack, Unpack }
use Call::*;
impl Call {
    fn name(self) -> &'static str { if self == Pack { "pack" } else { "unpack" } }
    /// Its questions, in the order in which they are put.
    fn asked(self) -> &'static [u32] { if self == Pack { &[3, 4, 5, 11, 6] } else { &[3, 4, 5, 11, 7, 8, 12] } }
    /// The arrays of question 5: three with an entry for each layer, and one as long as the readings or codes that are given.
    fn arrays(self) -> [&'static str; 4] { ["widths", "references", "exponents", if self == Pack { "codes" } else { "readings" }] }
}

/// A rule of the model, or a claim, that can be turned.
#[derive(Clone, Copy, PartialEq)]
enum Rule {
    TieAway, CodeDown, CodeOfDouble, ExponentMore, ExponentOfDouble, StepsMore, StepsLess, NotExactly, Least148, ZeroSign, ByValue,
    ZerosAlike, NansAlike, MissingPlays, Nothing0, First6, NoReferences7, NoExponents7, First7, Unneeded7, Exponent129, Exponent150,
    ByWidth7, UnaskedMark, UnneededMark, Unasked12, First12, Last12, FirstCode12, Missing12, Above12, ThroughSingle, Through64, SumSign,
    Quieted, NumberMissing, HalfUnit, NoHalfStep, QuarterStep, FirstStep, LeastStepsMore, Least65534, ClaimMost114, Claim65535,
    Width16(Call), FirstWidth(Call), LastWidth(Call), WidthBefore(Call), Missing65535(Call), Most114(Call), Most127(Call),
    Length65536(Call), Length65537(Call), None4(Call), Longer5(Call), Unasked11(Call), First11(Call), NotLast11(Call), Width1(Call),
    Width17(Call), Width2Refused(Call), Width16Refused(Call),
    Unasked5(Call, usize), // by the array's place among the call's
    WidthMod(Call, u32), // by how many bits are taken
    Before(Call, u32, u32), // the question that is asked too early, and the one before which it is asked
}
use Rule::*;
const TURNED: [(Rule, &str); 44] = [
    (TieAway, "a code's tie goes up"),
    (CodeDown, "a code is rounded down"),
    (CodeOfDouble, "a code is taken from a difference rounded to a double"),
    (ExponentMore, "the exponent is one too large"),
    (ExponentOfDouble, "the exponent is taken from a span rounded to a double"),
    (StepsMore, "an exponent holds 2^w - 1 steps"),
    (StepsLess, "an exponent holds 2^w - 3 steps"),
    (NotExactly, "an exponent does not hold exactly 2^w - 2 steps"),
    (Least148, "the least exponent is -148"),
    (ZeroSign, "-0 is kept as the reference"),
    (ByValue, "missing is compared by value"),
    (ZerosAlike, "missing is compared by value among zeros only"),
    (NansAlike, "every NaN is missing where the mark is one"),
    (MissingPlays, "finite missing readings play a part in the summary"),
    (Nothing0, "the exponent is 0 if nothing is present"),
    (First6, "6 is asked of the first layer only"),
    (NoReferences7, "7 is not asked of the references"),
    (NoExponents7, "7 is not asked of the exponents"),
    (First7, "7 is asked of the first layer only"),
    (Unneeded7, "7 is not asked of layers with nothing present"),
    (Exponent129, "an exponent 129 is accepted"),
    (Exponent150, "an exponent -150 is accepted"),
    (ByWidth7, "an exponent that no packing of its width gives is refused"),
    (UnaskedMark, "8 is not asked where there are no codes"),
    (UnneededMark, "8 is not asked where no code is missing"),
    (Unasked12, "12 is not asked"),
    (First12, "12 is asked of the first layer only"),
    (Last12, "12 is asked of the last layer only"),
    (FirstCode12, "12 is asked of each layer's first code only"),
    (Missing12, "the missing code itself is refused"),
    (Above12, "a code 2^w is accepted"),
    (ThroughSingle, "unpacking rounds twice, through a single"),
    (Through64, "unpacking rounds twice, through 64 bits"),
    (SumSign, "a zero sum keeps the reference's sign"),
    (Quieted, "the double mark is quieted"),
    (NumberMissing, "the missing code is a number"),
    (HalfUnit, "claim: less than half a unit plus half a step"),
    (NoHalfStep, "claim: less than a unit"),
    (QuarterStep, "claim: less than a unit plus a quarter step"),
    (FirstStep, "claim: less than a unit plus half the first layer's step"),
    (LeastStepsMore, "claim: the least exponent that holds the span in 2^w - 1 steps"),
    (Least65534, "claim: the least exponent that holds the span in 65,534 steps"),
    (ClaimMost114, "claim: the exponents lie in -149 to 114"),
    (Claim65535, "claim: the missing code is 65,535"),
];
const TURNED_OF_BOTH: [(fn(Call) -> Rule, &str); 18] = [
    (Width16, "every layer has width 16"),
    (FirstWidth, "every layer has the first one's width"),
    (LastWidth, "every layer has the last one's width"),
    (WidthBefore, "a layer has the width of the one before"),
    (Missing65535, "the missing code of narrow layers is 65,535"),
    (Most114, "the largest exponent is 114"),
    (Most127, "the largest exponent is 127"),
    (Length65536, "L 65,536 is refused"),
    (Length65537, "L 65,537 is accepted"),
    (None4, "none at all is no multiple"),
    (Longer5, "5 accepts longer arrays"),
    (Unasked11, "11 is not asked"),
    (First11, "11 is asked of the first width only"),
    (NotLast11, "11 is not asked of the last width"),
    (Width1, "a width 1 is accepted"),
    (Width17, "a width 17 is accepted"),
    (Width2Refused, "a width 2 is refused"),
    (Width16Refused, "a width 16 is refused"),
];
/// Every rule and claim that is turned, with its name.
fn turned() -> Vec<(Rule, String)> {
    let mut out: Vec<(Rule, String)> = TURNED.map(|(rule, name)| (rule, name.to_string())).to_vec();
    for call in [Pack, Unpack] {
        let mut push = |rule, name: String| out.push((rule, format!("{}: {name}", call.name())));
        for (rule, name) in TURNED_OF_BOTH { push(rule(call), name.to_string()); }
        for (i, array) in call.arrays().iter().enumerate() { push(Unasked5(call, i), format!("5 is not asked of the {array}")); }
        for bits in [5, 8, 16] { push(WidthMod(call, bits), format!("a width is taken from its last {bits} bits")); }
        for (i, &late) in call.asked().iter().enumerate() {
            for &early in &call.asked()[..i] { push(Before(call, late, early), format!("{late} is asked before {early}")); }
        }
    }
    out
}

/// Counts what was compared and met, and holds the seed of the random numbers.
struct Tally {
    seed: u64,
    most: u32, // the differences after which the run ends
    differences: u32,
    first: String,
    compared: BTreeMap<(&'static str, u32), [u64; 2]>, // by call and answer: the calls and the comparisons
    met: BTreeMap<String, u64>,
    met_at: BTreeMap<&'static str, [u64; 17]>, // by the layer's width
}
impl Tally {
    /// For a run that ends after so many differences.
    fn new(most: u32) -> Tally {
        let (compared, met, met_at) = (BTreeMap::new(), BTreeMap::new(), BTreeMap::new());
        Tally { seed: SEED, most, differences: 0, first: String::new(), compared, met, met_at }
    }
    fn over(&self) -> bool { self.differences >= self.most }
    fn differs(&mut self, told: String) {
        self.differences += 1;
        if self.differences == 1 { self.first = told.clone(); }
        if self.most > 1 && self.differences <= self.most { println!("{told}"); }
    }
    fn same<T: PartialEq + UpperHex>(&mut self, class: Class, what: &str, got: &[T], want: &[T], told: &dyn Fn(usize) -> String) {
        assert_eq!(got.len(), want.len());
        self.compared.entry(class).or_default()[1] += got.len() as u64;
        if got == want { return; }
        let i = (0..got.len()).find(|&i| got[i] != want[i]).unwrap();
        self.differs(format!("{}: {what} {i}: got {:X} expected {:X}; {}", class.0, got[i], want[i], told(i)));
    }
    fn holds(&mut self, class: Class, what: &str, claim: bool, told: &dyn Fn() -> String) {
        self.compared.entry(class).or_default()[1] += 1;
        if !claim { self.differs(format!("{}: {what} does not hold; {}", class.0, told())); }
    }
    fn meet(&mut self, what: &str, times: u64) {
        if times == 0 { return; }
        if let Some(count) = self.met.get_mut(what) { *count += times } else { self.met.insert(what.to_string(), times); }
    }
    /// Notes what must be met at every width.
    fn meet_at(&mut self, what: &'static str, width: u32, times: u64) {
        if times > 0 && WIDTHS.contains(&width) { self.met_at.entry(what).or_insert([0; 17])[width as usize] += times; }
    }
    fn sign(&mut self, m: u32) -> u32 { m ^ (self.below(2) as u32 * SIGN) }
    fn junk<T>(&mut self, n: usize, of: fn(u64) -> T) -> Vec<T> { (0..n).map(|_| of(self.random())).collect() }
}
impl Draw for Tally { fn seed(&mut self) -> &mut u64 { &mut self.seed } }
type Class = (&'static str, u32);

/// Some elements in hexadecimal, for telling.
fn hex<T: UpperHex>(xs: &[T]) -> String {
    let told: Vec<String> = xs.iter().take(40).map(|x| format!("{x:X}")).collect();
    told.join(" ") + if xs.len() > 40 { " .." } else { "" }
}

/// A job for packing; of the result arrays, their lengths.
#[derive(Clone)]
struct Packing { readings: Vec<u32>, length: usize, mark: u32, widths: Vec<u32>, codes: usize, references: usize, exponents: usize }
impl Packing {
    fn new(readings: Vec<u32>, length: usize, mark: u32, widths: Vec<u32>) -> Packing {
        let (n, layers) = (readings.len(), readings.len() / length);
        Packing { readings, length, mark, widths, codes: n, references: layers, exponents: layers }
    }
    fn told(&self, at: usize) -> String {
        format!("length {} mark {:08X}, {} readings, {} widths, {} codes, {} references, {} exponents; reading {:08X}, widths {}, all {}",
            self.length, self.mark, self.readings.len(), self.widths.len(), self.codes, self.references, self.exponents,
            self.readings.get(at).unwrap_or(&0), hex(&self.widths), hex(&self.readings))
    }
    /// About the layer of the code at a place.
    fn told_code(&self, at: usize) -> String {
        let length = self.length.clamp(1, self.readings.len().max(1));
        let own = self.readings.chunks(length).nth(at / length).unwrap_or(&[]);
        let present: Vec<f32> = own.iter().filter(|&&x| x != self.mark).map(|&x| f32::from_bits(x)).collect();
        let ends = [present.iter().copied().fold(f32::MAX, f32::min), present.iter().copied().fold(f32::MIN, f32::max)];
        format!("layer {} width {:?} from {:08X} to {:08X}: {}; {}", at / length, self.widths.get(at / length), ends[0].to_bits(),
            ends[1].to_bits(), hex(own), self.told(at))
    }
}
/// Packed layers: the width, reference and exponent of each, and all their codes.
#[derive(Clone)]
struct Packed { widths: Vec<u32>, codes: Vec<u16>, references: Vec<u32>, exponents: Vec<i32> }

/// A job for unpacking; of the result array, its length.
#[derive(Clone)]
struct Unpacking { packed: Packed, length: usize, mark: u64, readings: usize }
impl Unpacking {
    fn told(&self, at: usize) -> String {
        let (p, layer) = (&self.packed, at / self.length.max(1));
        let own = (p.codes.get(at).copied().unwrap_or(0), p.references.get(layer).copied().unwrap_or(0), p.exponents.get(layer));
        format!("length {} mark {:016X}, {} widths, {} codes, {} references, {} exponents, {} readings; width {:?} code {:X} reference \
            {:08X} exponent {:?}; widths {}; codes {}; references {}; exponents {:?}", self.length, self.mark, p.widths.len(),
            p.codes.len(), p.references.len(), p.exponents.len(), self.readings, p.widths.get(layer), own.0, own.1, own.2,
            hex(&p.widths), hex(&p.codes), hex(&p.references), &p.exponents[..p.exponents.len().min(40)])
    }
}

fn finite(reading: u32) -> bool { reading % SIGN < INFINITY }
fn power(p: i32) -> f64 { f64::from_bits(((p + 1023) as u64) << 52) }
/// The exponent of the spacing, counted from the least spacing.
fn spacing(reading: u32) -> u32 { (reading % SIGN >> 23).max(1) - 1 }
/// The exact size in least spacings.
fn size(reading: u32) -> Nat {
    let (e, m) = (reading % SIGN >> 23, reading % (1 << 23));
    Nat::of(if e == 0 { m } else { (1 << 23) + m } as u64).shl(spacing(reading))
}
/// So many steps of an exponent, in least spacings.
fn steps(count: u64, exponent: i32) -> Nat { Nat::of(count).shl((exponent - LOW) as u32) }
/// The missing code of a width: 2^w - 1. A width that is refused may have any.
fn missing_code(width: u32) -> u64 { (1 << width.min(32)) - 1 }
/// The most steps that a span may have at a width: 2^w - 2.
fn most_steps(width: u32) -> u64 { missing_code(width).saturating_sub(1) }
/// How a size lies to the middle of the two neighbours on a grid of 2^unit, and the neighbour below, in units.
fn between(size: &Nat, unit: u32) -> (Ordering, Nat) {
    let below = size.shr(unit);
    (size.times(2).cmp(&below.times_add(2, &Nat::of(1)).shl(unit)), below)
}
/// A size rounded to its first bits, ties to even.
fn rounded(size: &Nat, bits: u32) -> Nat {
    let cut = size.bits().saturating_sub(bits);
    let (to_middle, below) = between(size, cut);
    below.add(&Nat::of(goes_up(to_middle, below.low() % 2 == 1) as u64)).shl(cut)
}
/// The double of a size of at most 53 bits; no such double is subnormal.
fn double(size: &Nat) -> u64 {
    let bits = size.bits();
    if bits == 0 { return 0; }
    let fraction = if bits > 53 { size.shr(bits - 53) } else { size.shl(53 - bits) }.low();
    ((bits as i32 - 1 + LOW + 1023) as u64) * (1 << 52) + fraction - (1 << 52)
}

/// Documents 01 and 02 (e), with no rule or one rule turned.
struct Model { turned: Option<Rule>, zero: Nat }

impl Model {
    fn new(turned: Option<Rule>) -> Model { Model { turned, zero: Nat::of(1).shl(300) } }
    fn is(&self, rule: Rule) -> bool { self.turned == Some(rule) }
    /// The model with no rule turned: a wrong one may accept, with a wrong library, what has no layers to work out.
    fn right(&self) -> Model { Model { turned: None, zero: self.zero.clone() } }
    /// The exact signed size, counted from -2^300, so that it is a natural number.
    fn signed(&self, reading: u32) -> Nat {
        if reading < SIGN { self.zero.add(&size(reading)) } else { self.zero.minus(&size(reading)) }
    }
    /// The exact meaning of a code, counted in the same way.
    fn meaning(&self, code: u16, reference: u32, exponent: i32) -> Nat { self.signed(reference).add(&steps(code as u64, exponent)) }
    fn missing(&self, reading: u32, mark: u32) -> bool {
        let both = |is: fn(u32) -> bool| is(reading % SIGN) && is(mark % SIGN);
        if self.is(ByValue) { return f32::from_bits(reading) == f32::from_bits(mark); }
        reading == mark || self.is(ZerosAlike) && both(|m| m == 0) || self.is(NansAlike) && both(|m| m > INFINITY)
    }
    /// A width as the call takes it from the array.
    fn taken(&self, call: Call, width: u32) -> u32 {
        match self.turned {
            Some(WidthMod(own, bits)) if own == call => width % (1 << bits),
            _ => width,
        }
    }
    /// The width of a layer.
    fn width(&self, call: Call, widths: &[u32], layer: usize) -> u32 {
        let at = match self.turned {
            Some(Width16(own)) if own == call => return 16,
            Some(FirstWidth(own)) if own == call => 0,
            Some(LastWidth(own)) if own == call => widths.len() - 1,
            Some(WidthBefore(own)) if own == call => layer.saturating_sub(1),
            _ => layer,
        };
        self.taken(call, widths[at])
    }
    fn missing_code(&self, call: Call, width: u32) -> u16 {
        if self.is(Missing65535(call)) { u16::MAX } else { missing_code(width) as u16 }
    }
    fn most_exponent(&self, call: Call) -> i32 {
        if self.is(Most114(call)) { 114 } else if self.is(Most127(call)) { 127 } else { HIGH }
    }

    /// The questions 3, 4, 5 and 11 that are answered "no", each for itself. The arrays are the call's, in their order.
    fn shape(&self, call: Call, length: usize, n: usize, arrays: [usize; 4], widths: &[u32]) -> Vec<u32> {
        let layers = n.checked_div(length).unwrap_or(0);
        let most = 65536 + self.is(Length65537(call)) as usize - self.is(Length65536(call)) as usize;
        let follow = [layers, layers, layers, n];
        let fits = |i: usize| match self.turned {
            Some(Unasked5(own, array)) if own == call && array == i => true,
            Some(Longer5(own)) if own == call => arrays[i] >= follow[i],
            _ => arrays[i] == follow[i],
        };
        let yes = [
            (3, (1..=most).contains(&length)),
            (4, n.checked_rem(length).unwrap_or(n) == 0 && !(n == 0 && self.is(None4(call)))),
            (5, (0..4).all(fits)),
            (11, self.widths_asked(call, widths).iter().all(|&w| self.sound(call, self.taken(call, w)))),
        ];
        yes.into_iter().filter(|x| !x.1).map(|x| x.0).collect()
    }
    fn widths_asked<'a>(&self, call: Call, widths: &'a [u32]) -> &'a [u32] {
        let asked = match self.turned {
            Some(Unasked11(own)) if own == call => 0,
            Some(First11(own)) if own == call => 1,
            Some(NotLast11(own)) if own == call => widths.len().saturating_sub(1),
            _ => widths.len(),
        };
        &widths[..asked.min(widths.len())]
    }
    /// Whether a width is 2 to 16.
    fn sound(&self, call: Call, width: u32) -> bool {
        match self.turned {
            Some(Width1(own)) if own == call && width == 1 => true,
            Some(Width17(own)) if own == call && width == 17 => true,
            Some(Width2Refused(own)) if own == call && width == 2 => false,
            Some(Width16Refused(own)) if own == call && width == 16 => false,
            _ => WIDTHS.contains(&width),
        }
    }
    fn pack_noes(&self, job: &Packing) -> Vec<u32> {
        let arrays = [job.widths.len(), job.references, job.exponents, job.codes];
        let mut noes = self.shape(Pack, job.length, job.readings.len(), arrays, &job.widths);
        let asked = if self.is(First6) { job.length } else { usize::MAX };
        if !job.readings.iter().take(asked).all(|&x| finite(x) || self.missing(x, job.mark)) { noes.push(6); }
        noes
    }
    fn unpack_noes(&self, job: &Unpacking) -> Vec<u32> {
        let p = &job.packed;
        let arrays = [p.widths.len(), p.references.len(), p.exponents.len(), job.readings];
        let mut noes = self.shape(Unpack, job.length, p.codes.len(), arrays, &p.widths);
        if !self.records_sound(job) { noes.push(7); }
        let unasked = match self.turned {
            Some(UnaskedMark) => p.codes.is_empty(),
            Some(UnneededMark) => self.layers(job).all(|(width, codes)| !codes.contains(&(missing_code(width) as u16))),
            _ => false,
        };
        if !f64::from_bits(job.mark).is_nan() && !unasked { noes.push(8); }
        if !self.codes_sound(job) { noes.push(12); }
        noes
    }
    /// Whether each reference is finite and each exponent in its range.
    fn records_sound(&self, job: &Unpacking) -> bool {
        let p = &job.packed;
        let nothing = |i| self.layers(job).nth(i).is_some_and(|(w, codes)| codes.iter().all(|&c| c as u64 == missing_code(w)));
        let unasked = |i: usize| self.is(First7) && i > 0 || self.is(Unneeded7) && nothing(i);
        let range = LOW - self.is(Exponent150) as i32..=self.most_exponent(Unpack) + self.is(Exponent129) as i32;
        let by_width = |i: usize, e: i32| p.widths.get(i).is_none_or(|&w| e as i64 <= 130 - w as i64);
        let reference = |(i, &r): (usize, &u32)| finite(r) || unasked(i);
        let exponent = |(i, &e): (usize, &i32)| range.contains(&e) && (!self.is(ByWidth7) || by_width(i, e)) || unasked(i);
        (self.is(NoReferences7) || p.references.iter().enumerate().all(reference))
            && (self.is(NoExponents7) || p.exponents.iter().enumerate().all(exponent))
    }
    /// The layers of a job that have a width, and their codes.
    fn layers<'a>(&'a self, job: &'a Unpacking) -> impl Iterator<Item = (u32, &'a [u16])> {
        let p = &job.packed;
        (0..p.widths.len()).map(|i| self.width(Unpack, &p.widths, i)).zip(p.codes.chunks(job.length.max(1)))
    }
    /// Whether no code is above its layer's missing code. Where the width is outside 2 to 16, no code is.
    fn codes_sound(&self, job: &Unpacking) -> bool {
        let asked = if self.is(FirstCode12) { 1 } else { usize::MAX };
        let last = job.packed.widths.len().saturating_sub(1);
        self.layers(job).enumerate().all(|(i, (width, codes))| {
            let unasked = self.is(Unasked12) || self.is(First12) && i > 0 || self.is(Last12) && i < last;
            if unasked || !WIDTHS.contains(&width) { return true; }
            let most = missing_code(width) + self.is(Above12) as u64 - self.is(Missing12) as u64;
            let code = |&c: &u16| c as u64 <= most || self.is(Missing65535(Unpack)) && c == u16::MAX;
            codes.iter().take(asked).all(code)
        })
    }
    /// The number of the first question answered "no", or 0.
    fn refusal(&self, call: Call, noes: &[u32]) -> u32 {
        let mut order = call.asked().to_vec();
        match self.turned {
            Some(Before(own, late, early)) if own == call => {
                order.retain(|&q| q != late);
                let at = order.iter().position(|&q| q == early).unwrap();
                order.insert(at, late);
            }
            _ => {}
        }
        order.into_iter().find(|q| noes.contains(q)).unwrap_or(0)
    }

    /// The reference, exponent and codes of one layer.
    fn pack(&self, t: &mut Tally, readings: &[u32], mark: u32, width: u32) -> (u32, i32, Vec<u16>) {
        let missing = self.missing_code(Pack, width);
        let sizes: Vec<Option<Nat>> = readings.iter().map(|&x| (!self.missing(x, mark)).then(|| self.signed(x))).collect();
        let mut plays: Vec<(Nat, u32)> = sizes.iter().zip(readings).filter_map(|(s, &x)| s.clone().map(|s| (s, x))).collect();
        if self.is(MissingPlays) && finite(mark) && plays.len() < readings.len() { plays.push((self.signed(mark), mark)); }
        let Some((smallest, pattern)) = plays.iter().min_by(|a, b| a.0.cmp(&b.0)) else {
            t.meet_at("layers with nothing present", width, 1);
            return (0, if self.is(Nothing0) { 0 } else { LOW }, vec![missing; readings.len()]);
        };
        let (largest, _) = plays.iter().max_by(|a, b| a.0.cmp(&b.0)).unwrap();
        let reference = if *pattern == SIGN && !self.is(ZeroSign) { 0 } else { *pattern };
        let span = largest.minus(smallest);
        let exponent = self.exponent(&span, width);
        self.meet_layer(t, &span, exponent, *pattern, width);
        let mut met = [0; 2];
        let codes = sizes.iter().map(|size| size.as_ref().map_or(missing, |size| {
            let (code, near) = self.code(&size.minus(smallest), exponent);
            if near < 2 { met[near] += 1; }
            code
        })).collect();
        t.meet_at("codes at an exact half", width, met[0]);
        t.meet_at("codes so near a half that a double takes them for it", width, met[1]);
        (reference, exponent, codes)
    }
    /// The least exponent whose 2^w - 2 steps hold the span.
    fn exponent(&self, span: &Nat, width: u32) -> i32 {
        let span = if self.is(ExponentOfDouble) { rounded(span, 53) } else { span.clone() };
        let most = most_steps(width) + self.is(StepsMore) as u64 - self.is(StepsLess) as u64;
        // One that is w + 1 below the span's length can't hold it.
        let from = (LOW + span.bits().saturating_sub(width + 1) as i32).max(LOW + self.is(Least148) as i32);
        let high = self.most_exponent(Pack);
        let holds = |e: &i32| span.cmp(&steps(most, *e)).is_lt() || span == steps(most, *e) && !self.is(NotExactly);
        let least = (from..=high).find(holds);
        assert!(least.is_some() || self.turned.is_some(), "an exponent that holds the span");
        least.unwrap_or(high) + self.is(ExponentMore) as i32
    }
    /// The code of a reading so far above the reference, and whether it lies at a half (0) or too near one for a double (1).
    fn code(&self, above: &Nat, exponent: i32) -> (u16, usize) {
        let above = if self.is(CodeOfDouble) { &rounded(above, 53) } else { above };
        let (to_middle, below) = between(above, (exponent - LOW) as u32);
        let up = match self.turned {
            Some(TieAway) => to_middle.is_ge(),
            Some(CodeDown) => false,
            _ => goes_up(to_middle, below.low() % 2 == 1),
        };
        let off = || apart(&above.times(2), &steps(2 * below.low() + 1, exponent)).bits() + 53 < above.bits();
        let near = if to_middle.is_eq() { 0 } else if above.bits() > 53 && off() { 1 } else { 2 };
        ((below.low() + up as u64) as u16, near)
    }
    fn meet_layer(&self, t: &mut Tally, span: &Nat, exponent: i32, smallest: u32, width: u32) {
        let most = most_steps(width);
        let met = [
            ("layers with one value throughout", span.bits() == 0),
            ("layers with a smallest -0", smallest == SIGN),
            ("spans that no 64-bit word holds", span.bits() > 64),
            ("spans of exactly 2^w - 2 steps", *span == steps(most, exponent)),
            ("spans one least spacing more", exponent > LOW && *span == steps(most, exponent - 1).add(&Nat::of(1))),
            ("exponent -149 with a span", exponent == LOW && span.bits() > 0),
            ("exponent 129 - w", exponent == 129 - width as i32),
            ("exponent 130 - w, the largest that a layer needs", exponent == 130 - width as i32),
        ];
        met.into_iter().for_each(|(what, is)| t.meet_at(what, width, is as u64));
    }

    /// The double that a code becomes.
    fn unpack(&self, t: &mut Tally, code: u16, (width, reference, exponent): (u32, u32, i32), mark: u64) -> u64 {
        if code == self.missing_code(Unpack, width) && !self.is(NumberMissing) {
            return if self.is(Quieted) { mark | 1 << 51 } else { mark };
        }
        let sum = self.meaning(code, reference, exponent);
        let below = sum.cmp(&self.zero).is_lt();
        let exact = apart(&sum, &self.zero);
        let once = match self.turned {
            Some(ThroughSingle) => &rounded(&exact, 24),
            Some(Through64) => &rounded(&exact, 64),
            _ => &exact,
        };
        let size = rounded(once, 53);
        let tie = exact.bits() > 53 && between(&exact, exact.bits() - 53).0.is_eq();
        t.meet_at("sums at an exact half", width, tie as u64);
        t.meet_at("sums that round", width, (size != exact) as u64);
        t.meet_at("sums of zero, of a number and its opposite", width, (size.bits() == 0 && code > 0) as u64);
        t.meet_at("sums of zero, from -0", width, (size.bits() == 0 && reference == SIGN) as u64);
        let sign = below || self.is(SumSign) && size.bits() == 0 && reference >= SIGN;
        double(&size) + ((sign as u64) << 63)
    }
}

/// An array as it is lent to a call: its elements stand between guards that must stay.
struct Lent<T> { cells: Vec<T>, front: usize, n: usize, guard: T }
impl<T: Copy + PartialEq + UpperHex> Lent<T> {
    fn new(t: &mut Tally, elements: &[T], guard: T) -> Lent<T> {
        let (n, front) = (elements.len(), 1 + t.below(8) as usize); // any alignment
        let mut cells = vec![guard; n + front + 4];
        cells[front..front + n].copy_from_slice(elements);
        Lent { cells, front, n, guard }
    }
    /// For an empty array it is a place between guards, or one with no memory at all.
    fn lend(&mut self) -> *mut T {
        if self.n == 0 && self.front % 2 == 0 { NonNull::dangling().as_ptr() } else { self.cells[self.front..].as_mut_ptr() }
    }
    fn left(&self) -> &[T] { &self.cells[self.front..self.front + self.n] }
    fn check(&self, t: &mut Tally, class: Class, what: &str, want: &[T], told: &dyn Fn(usize) -> String) {
        t.same(class, what, self.left(), want, told);
        let (before, after) = (&self.cells[..self.front], &self.cells[self.front + self.n..]);
        t.same(class, &format!("guard before {what}"), before, &vec![self.guard; before.len()], told);
        t.same(class, &format!("guard after {what}"), after, &vec![self.guard; after.len()], told);
    }
}

/// Notes a job that breaks one question alone, or two and no other.
fn meet_noes(t: &mut Tally, call: &str, noes: &[u32]) {
    match noes {
        [a] => t.meet(&format!("{call} that breaks {a} alone"), 1),
        [a, b] => t.meet(&format!("{call} that breaks {a} and {b}"), 1),
        _ => {}
    }
}

const WIDTH_GUARD: u32 = 0x5A5A1203; // refused, but a width in its last 8 bits
/// One packing against the model. Answers what an accepted call left.
fn pack(t: &mut Tally, model: &Model, job: &Packing) -> Option<Packed> {
    let noes = model.pack_noes(job);
    let refusal = model.refusal(Pack, &noes);
    let class = ("pack", refusal);
    t.compared.entry(class).or_default()[0] += 1;
    meet_noes(t, "pack", &noes);
    let codes = t.junk(job.codes, |x| x as u16);
    let references = t.junk(job.references, |x| x as u32);
    let exponents = t.junk(job.exponents, |x| x as i32);
    let mut want = Packed { widths: job.widths.clone(), codes, references, exponents };
    let mut lent = Lent::new(t, &job.readings, INFINITY + 1);
    let mut widths = Lent::new(t, &want.widths, WIDTH_GUARD);
    let mut codes = Lent::new(t, &want.codes, 0x5A5B);
    let mut references = Lent::new(t, &want.references, 0x7FA5A5A5);
    let mut exponents = Lent::new(t, &want.exponents, 0x5A5A1234);
    let answer = unsafe {
        megharutti_pack(lent.lend(), job.readings.len(), job.length, job.mark, widths.lend(), job.widths.len(),
            codes.lend(), job.codes, references.lend().cast(), job.references, exponents.lend(), job.exponents)
    };
    let accepted = answer == 0 && refusal == 0 && model.right().pack_noes(job).is_empty();
    if accepted {
        meet_pack(t, job);
        for (i, layer) in job.readings.chunks(job.length).enumerate() {
            let (reference, exponent, codes) = model.pack(t, layer, job.mark, model.width(Pack, &job.widths, i));
            want.codes[i * job.length..(i + 1) * job.length].copy_from_slice(&codes);
            (want.references[i], want.exponents[i]) = (reference, exponent);
        }
        if model.turned.is_none() { machine_packs(t, job, &want); }
    }
    let (told, told_code) = (&|i: usize| job.told(i), &|i: usize| job.told_code(i));
    let told_layer = &|i: usize| job.told_code(i.saturating_mul(job.length));
    t.same(class, "answer", &[answer], &[refusal], told);
    codes.check(t, class, "code", &want.codes, told_code);
    references.check(t, class, "reference", &want.references, told_layer);
    exponents.check(t, class, "exponent", &want.exponents, told_layer);
    lent.check(t, class, "reading", &job.readings, told);
    widths.check(t, class, "width", &job.widths, told);
    let (codes, references, exponents) = (codes.left().to_vec(), references.left().to_vec(), exponents.left().to_vec());
    accepted.then_some(Packed { widths: want.widths, codes, references, exponents })
}

fn meet_pack(t: &mut Tally, job: &Packing) {
    t.meet("readings packed", job.readings.len() as u64);
    t.meet("packings of no readings", job.readings.is_empty() as u64);
    t.meet(&format!("layers packed, L {}", job.length), job.references as u64);
    meet_widths(t, "packings with unlike widths", "layers packed", "layers packed, L 65536", job.length, &job.widths);
    if !job.readings.contains(&job.mark) { return; }
    let m = job.mark % SIGN;
    let kind = if m > INFINITY { "NaN" } else if m == INFINITY { "infinity" } else if m == 0 { "zero" } else { "ordinary reading" };
    t.meet(&format!("packings with missing readings, mark: {kind}"), 1);
    let opposite = job.readings.contains(&(job.mark ^ SIGN));
    t.meet("packings with a mark -0, missing readings and +0", (job.mark == SIGN && opposite) as u64);
    t.meet("packings with a mark +0, missing readings and -0", (job.mark == 0 && opposite) as u64);
}
/// Notes the widths of an accepted call, each for itself and whether they differ.
fn meet_widths(t: &mut Tally, unlike: &str, layers: &'static str, longest: &'static str, length: usize, widths: &[u32]) {
    t.meet(unlike, widths.iter().any(|w| *w != widths[0]) as u64);
    for &width in widths {
        t.meet_at(layers, width, 1);
        t.meet_at(longest, width, (length == 65536) as u64);
    }
}

/// The difference of two doubles, if one holds it exactly.
fn difference(x: f64, r: f64) -> Option<f64> {
    let difference = x - r;
    let back = difference - x; // what the difference lost is the sum of the two parts below
    ((x - (difference - back)) + (-r - back) == 0.0).then_some(difference)
}
/// The model's layers beside the machine's floats, where a double holds the difference exactly.
fn machine_packs(t: &mut Tally, job: &Packing, packed: &Packed) {
    let class = ("model of packing beside machine", 0);
    let single = |x: u32| f32::from_bits(x) as f64;
    for (layer, own) in job.readings.chunks(job.length).enumerate() {
        let (width, r, exponent) = (job.widths[layer], single(packed.references[layer]), packed.exponents[layer]);
        let present = || own.iter().filter(|&&x| x != job.mark).map(|&x| single(x));
        let told = &|i: usize| job.told_code(layer * job.length + i);
        let (least, most) = (present().fold(f64::MAX, f64::min), present().fold(f64::MIN, f64::max));
        if least > most { continue; }
        // Adding +0 makes +0 of -0, and nothing else of anything else.
        t.same(class, "reference", &[(least as f32 + 0.0).to_bits()], &[packed.references[layer]], told);
        if let Some(span) = difference(most, least) {
            let holds = |e: &i32| span <= ((1u32 << width) - 2) as f64 * power(*e);
            t.same(class, "exponent", &[exponent], &[(LOW..=HIGH).find(holds).unwrap()], told);
        }
        for (i, &x) in own.iter().enumerate().filter(|x| *x.1 != job.mark) {
            let Some(above) = difference(single(x), r) else { continue };
            let code = (above * power(-exponent)).round_ties_even() as u16;
            t.same(class, "code", &[packed.codes[layer * job.length + i]], &[code], &|_| told(i));
        }
    }
}

/// One unpacking against the model, and the model against the machine's floats.
fn unpack(t: &mut Tally, model: &Model, job: &Unpacking) {
    let p = &job.packed;
    let noes = model.unpack_noes(job);
    let refusal = model.refusal(Unpack, &noes);
    let class = ("unpack", refusal);
    t.compared.entry(class).or_default()[0] += 1;
    meet_noes(t, "unpack", &noes);
    let told = &|i: usize| job.told(i);
    let mut want = t.junk(job.readings, |x| x);
    let mut widths = Lent::new(t, &p.widths, WIDTH_GUARD);
    let mut codes = Lent::new(t, &p.codes, 0x5A5B);
    let mut references = Lent::new(t, &p.references, 0x7FA5A5A5);
    let mut exponents = Lent::new(t, &p.exponents, 0x5A5A1234);
    let mut lent = Lent::new(t, &want, 0x5A5A_1234_5A5A_4321);
    let answer = unsafe {
        megharutti_unpack(widths.lend(), p.widths.len(), codes.lend(), p.codes.len(), references.lend().cast(), p.references.len(),
            exponents.lend(), p.exponents.len(), job.length, job.mark, lent.lend(), job.readings)
    };
    if answer == 0 && refusal == 0 && model.right().unpack_noes(job).is_empty() {
        meet_unpack(t, job);
        for (i, &code) in p.codes.iter().enumerate() {
            let layer = i / job.length;
            let record = (model.width(Unpack, &p.widths, layer), p.references[layer], p.exponents[layer]);
            want[i] = model.unpack(t, code, record, job.mark);
            if code as u64 == missing_code(record.0) || model.turned.is_some() { continue; }
            let machine = code as f64 * power(record.2) + f32::from_bits(record.1) as f64;
            t.same(("model of unpacking beside machine", 0), "double", &[want[i]], &[machine.to_bits()], &|_| job.told(i));
        }
    }
    t.same(class, "answer", &[answer], &[refusal], told);
    lent.check(t, class, "double", &want, told);
    widths.check(t, class, "width", &p.widths, told);
    codes.check(t, class, "code", &p.codes, told);
    references.check(t, class, "reference", &p.references, told);
    exponents.check(t, class, "exponent", &p.exponents, told);
}

fn meet_unpack(t: &mut Tally, job: &Unpacking) {
    let p = &job.packed;
    t.meet("codes unpacked", job.readings as u64);
    t.meet("unpackings of no codes", (job.readings == 0) as u64);
    t.meet(&format!("layers unpacked, L {}", job.length), p.references.len() as u64);
    meet_widths(t, "unpackings with unlike widths", "layers unpacked", "layers unpacked, L 65536", job.length, &p.widths);
    for (layer, &width) in p.widths.iter().enumerate() {
        let codes = &p.codes[layer * job.length..][..job.length];
        let missing = codes.contains(&(missing_code(width) as u16));
        t.meet_at("layers unpacked with missing codes, quiet mark", width, (missing && job.mark >> 51 & 1 == 1) as u64);
        t.meet_at("layers unpacked with missing codes, signalling mark", width, (missing && job.mark >> 51 & 1 == 0) as u64);
        t.meet_at("layers unpacked, the largest code", width, codes.contains(&(most_steps(width) as u16)) as u64);
        t.meet_at("layers unpacked, reference -0", width, (p.references[layer] == SIGN) as u64);
        t.meet_at("layers unpacked, exponent -149", width, (p.exponents[layer] == LOW) as u64);
        t.meet_at("layers unpacked, exponents 115 to 127", width, (115..128).contains(&p.exponents[layer]) as u64);
        t.meet_at("layers unpacked, exponent 128", width, (p.exponents[layer] == HIGH) as u64);
    }
}

/// The single j times 2^u; it must be one.
fn grid(j: i64, u: i32) -> u32 {
    let x = j as f64 * power(u);
    assert!(x as f32 as f64 == x, "the test made a reading that isn't a single");
    (x as f32).to_bits()
}
/// The largest j up to 2^24 for which grid has j times 2^u.
fn reach(u: i32) -> i64 { if u > 104 { (1 << (128 - u)) - 1 } else { (1 << 24) - (u == 104) as i64 } }
fn any(t: &mut Tally) -> u32 {
    let m = t.below(INFINITY as u64) as u32;
    t.sign(m)
}
/// A reading at the end of a binade.
fn end(t: &mut Tally) -> u32 {
    let (e, by) = (t.below(256) as u32, t.pick(&[-1, 0, 1]));
    let m = (e << 23).saturating_add_signed(by).clamp(0, INFINITY - 1);
    t.sign(m)
}
/// A reading far below 2^e, often the least.
fn tiny(t: &mut Tally, e: i32) -> u32 {
    let m = 1 + t.below((((e + 120).max(0) as u64) << 23) + 1) as u32;
    let m = t.pick(&[m, m, 1, 2]);
    t.sign(m)
}
/// A number of the weather, by what is measured.
fn weather(t: &mut Tally, what: u64) -> u32 {
    let part = t.below(1 << 40) as f64 / (1u64 << 40) as f64;
    let x = match what {
        0 => 250.0 + 60.0 * part,
        1 => if t.below(3) > 0 { 0.0 } else { (part * part * 400.0).round() / 10.0 },
        2 => 98000.0 + 6000.0 * part,
        3 => 1e-9 + 1e-7 * part,
        4 => 40.0 * part - 20.0,
        _ => (600.0 * part).round() / 10.0 - 30.0,
    };
    (x as f32).to_bits()
}

fn width(t: &mut Tally) -> u32 { t.from(2, 16) as u32 }
/// A width for each of so many layers: any, or one throughout, at times the old form's.
fn widths(t: &mut Tally, count: usize) -> Vec<u32> {
    let one = width(t);
    match t.below(8) {
        0 => vec![16; count],
        1 => vec![one; count],
        _ => (0..count).map(|_| if t.below(8) == 0 { 16 } else { width(t) }).collect(),
    }
}

const KINDS: u64 = 14;
/// A layer of one kind: its smallest and largest reading, where the kind names them, at any places among others; and missing ones.
fn layer(t: &mut Tally, kind: u64, length: usize, mark: u32, width: u32) -> Vec<u32> {
    let (ends, mut more) = kind_of_layer(t, kind, mark, width as i32);
    let mut out: Vec<u32> = (0..length).map(|_| more(t)).collect();
    for (i, &end) in ends.iter().enumerate().take(length) { out[i] = end; }
    for i in 0..ends.len().min(length) { out.swap(i, t.below(length as u64) as usize); }
    let strewn = t.pick(&[0, 0, 0, 20, 3]);
    if strewn > 0 { out.iter_mut().for_each(|x| if t.below(strewn) == 0 { *x = mark }); }
    out
}
type More = Box<dyn FnMut(&mut Tally) -> u32>;
/// The named readings of a kind, and the making of more.
fn kind_of_layer(t: &mut Tally, kind: u64, mark: u32, width: i32) -> (Vec<u32>, More) {
    let most = most_steps(width as u32) as i64;
    match kind {
        // Any patterns.
        0 => (vec![], Box::new(any)),
        // Exponents near each other.
        1 => {
            let (e, wide, signs) = (t.below(255), t.pick(&[1, 2, 3, 10, 30, 60]), t.below(2) as u32);
            let one = move |t: &mut Tally| ((e + t.below(wide)).min(254) << 23) as u32 + t.below(1 << 23) as u32;
            (vec![], Box::new(move |t| one(t) + signs * SIGN * t.below(2) as u32))
        }
        // The weather.
        2 => {
            let what = t.below(6);
            (vec![], Box::new(move |t| weather(t, what)))
        }
        // Ends of binades.
        3 => (vec![], Box::new(end)),
        // Subnormals beside the largest finite values.
        4 => (vec![], Box::new(|t| {
            let m = [t.below(1 << 23) as u32, INFINITY - 1 - t.below(4) as u32, INFINITY - 1 - t.below(1 << 24) as u32];
            let m = t.pick(&m);
            t.sign(m)
        })),
        // Zeros of both signs, with nothing or something above or below them.
        5 => {
            let (other, signs) = (t.pick(&[0, 1, 9, 0x3F800000, 0x7F7FFFFF]), t.pick(&[0, 0, SIGN]));
            (vec![], Box::new(move |t| t.pick(&[0, SIGN, SIGN, other | signs])))
        }
        // Nothing present.
        6 => (vec![], Box::new(move |_| mark)),
        // One value throughout.
        7 => {
            let x = [any(t), end(t), weather(t, 0), 1, 0x7F7FFFFF, 0xFF7FFFFF, SIGN, 0];
            let x = t.pick(&x);
            (vec![], Box::new(move |t| if x % SIGN == 0 { t.sign(x) } else { x }))
        }
        // Readings half a step off the codes.
        8 => {
            let (e, s) = (t.from(-148, 129 - width as i64) as i32, t.from(most / 2 + 1, most));
            let far = t.from(-reach(e - 1), reach(e - 1) - 2 * s);
            let r = if e > 128 - width { far } else { t.pick(&[far, 0, -s, -1, 1]) };
            (vec![grid(r, e - 1), grid(r + 2 * s, e - 1)], Box::new(move |t| {
                let j = [2 * t.from(0, s - 1) + 1, 2 * t.from(0, s - 1) + 1, t.from(0, 2 * s)];
                grid(r + t.pick(&j), e - 1)
            }))
        }
        // The same, with a tiny reference.
        9 => {
            let (e, s) = (t.from(-140, 128 - width as i64) as i32, t.from(most / 2 + 1, most));
            (vec![tiny(t, e), grid(s, e)], Box::new(move |t| grid(2 * t.from(0, s - 1) + 1, e - 1)))
        }
        // The same, with tiny readings.
        10 => {
            let (e, s) = (t.from(-140, 128 - width as i64) as i32, t.from(most / 2 + 1, most));
            let r = -2 * t.from(0, most / 2 - 1) - 1;
            (vec![grid(r, e - 1), grid(r + 2 * s, e - 1)], Box::new(move |t| tiny(t, e)))
        }
        // A span of 2^w - 2 steps, or about so.
        11 => {
            let e = t.from(-149, 129 - width as i64) as i32;
            let u = e - t.from(0, 23 - width as i64).min((e - LOW) as i64) as i32;
            let s = most << (e - u);
            let far = t.from(-reach(u), reach(u) - s);
            let r = if e < 129 - width { t.pick(&[far, far, 0, -s]) } else { far };
            let (mut low, mut high) = (grid(r, u), grid(r + s, u));
            if r == 0 { low = t.pick(&[0, SIGN, 1, SIGN + 1, SIGN + 2]); }
            if r == -s { high = t.pick(&[0, SIGN, 1, 2, SIGN + 1]); }
            let by = t.pick(&[0, 0, 1, u32::MAX]);
            if high % SIGN > 0 && finite(high.wrapping_add(by)) { high = high.wrapping_add(by); }
            let by = t.pick(&[0, 0, 1, u32::MAX]);
            if low % SIGN > 0 && finite(low.wrapping_add(by)) { low = low.wrapping_add(by); }
            (vec![low, high], Box::new(move |t| grid(r + t.from(1, s - 1), u)))
        }
        // The widest spans, and readings half a step off the codes or a tiny way beside that. Their places count 2^104.
        12 => {
            let half = 1 << (25 - width);
            let a = t.pick(&[half, half, 1, 3, 1000]);
            let b = t.pick(&[1, 20, 2 * half - a, 2 * half - a - 1, 2 * half - a + 1, half - 1]).max(1);
            let (r, high) = (-(1 << 24) + a, (1 << 24) - b);
            (vec![grid(r, 104), grid(high, 104)], Box::new(move |t| {
                let x = [grid(r + half * (2 * t.from(0, ((high - r) / half - 1) / 2) + 1), 104), tiny(t, 113)];
                t.pick(&x)
            }))
        }
        // Where patterns are sizes: spans that the least exponents hold.
        _ => {
            let (p, m) = (t.below(1 << 23) as u32, most as u32);
            let s = t.pick(&[1, 2, m / 2 + 1, m - 1, m, m + 1, 2 * m - 1, 2 * m, 2 * m + 1, 2 * m + 2, 4 * m, 4 * m + 1]);
            let (p, signs) = (t.pick(&[p, 0]), t.below(2) as u32 * SIGN);
            (vec![p | signs, (p + s) | signs], Box::new(move |t| (p + t.below(s as u64 + 1) as u32) | signs))
        }
    }
}
fn mark(t: &mut Tally) -> u32 {
    let nan = INFINITY + 1 + t.below((1 << 23) - 1) as u32;
    let marks = [0x7FC00000, u32::MAX, INFINITY + 1, t.sign(nan), 0, SIGN, INFINITY, SIGN + INFINITY, 0x7CF00000, 1, 0x7F7FFFFF, any(t)];
    t.pick(&marks)
}
/// Layers of any kinds after each other, and a mark.
fn layers(t: &mut Tally, length: usize, widths: &[u32]) -> (Vec<u32>, u32) {
    let first = mark(t);
    let mut out = vec![];
    for &own in widths {
        // At times a layer that another width would suit.
        let (kind, other) = (t.below(KINDS), width(t));
        let width = if t.below(6) == 0 { other } else { own };
        out.extend(layer(t, kind, length, first, width));
    }
    // At times a reading of the array is the mark instead.
    let other = t.below(6) == 0 && finite(first) && !out.is_empty();
    let mark = if other { t.pick(&out) } else { first };
    (out, mark)
}

fn double_mark(t: &mut Tally) -> u64 {
    let payload = 1 + t.below((1 << 52) - 1);
    let marks = [0x7FF8 << 48, 0xFFF8 << 48, 0x7FF0 << 48 | 1, 0xFFF0 << 48 | 1, 0x7FF4 << 48, u64::MAX, 0x7FF7_FFFF_FFFF_FFFF];
    let all = [t.pick(&marks), 0x7FF0 << 48 | payload, 0xFFF0 << 48 | payload];
    t.pick(&all)
}
/// A width, a reference, an exponent and codes of one kind.
fn packed_layer(t: &mut Tally, length: usize, width: u32, packed: &mut Packed) {
    let (mut r, mut e) = (any(t), t.from(LOW as i64, HIGH as i64) as i32);
    let missing = missing_code(width);
    let code = t.below(missing) as u16;
    let kind = t.below(8);
    match kind {
        // Sums at a half, or about so: the codes' bits lie at the end of the sum's 53, on either side.
        0 | 1 => {
            let top = spacing(r) as i32 + 23 + LOW;
            e = (top - 53 + t.from(-3, 3) as i32).clamp(LOW, HIGH);
            if kind == 1 { r &= SIGN + INFINITY; }
        }
        2 => {
            let top = e + code.checked_ilog2().unwrap_or(0) as i32;
            let u = (top - 53 - t.from(0, 4) as i32).max(LOW);
            r = grid(2 * t.from(-(1 << 22), 1 << 22) + 1, u.min(100));
        }
        // A number and its opposite, or about so.
        3 => {
            e = t.from(LOW as i64, 128 - width as i64) as i32;
            let by = t.pick(&[0, 0, 1, u32::MAX]);
            r = grid(-(code as i64), e);
            if code > 0 { r = r.wrapping_add(by); }
        }
        4 => r = t.pick(&[0, SIGN, 1, SIGN + 1, 0x7F7FFFFF, 0xFF7FFFFF]),
        5 => r = end(t),
        6 => e = t.pick(&[LOW, LOW, LOW + 1, 114, 115, HIGH - 1, HIGH]),
        _ => {}
    }
    let strewn = t.pick(&[2, 10, 100]);
    for _ in 0..length {
        let codes = [code as u64, t.below(missing + 1), t.below(missing + 1) | 1, t.pick(&[0, 1, missing - 1])];
        packed.codes.push(if t.below(strewn) == 0 { missing } else { t.pick(&codes) } as u16);
    }
    packed.widths.push(width);
    packed.references.push(r);
    packed.exponents.push(e);
}
fn packed_layers(t: &mut Tally, length: usize, widths: &[u32]) -> Packed {
    let mut packed = Packed { widths: vec![], codes: vec![], references: vec![], exponents: vec![] };
    for &width in widths { packed_layer(t, length, width, &mut packed); }
    packed
}
fn unpacking(packed: Packed, length: usize, mark: u64) -> Unpacking {
    let readings = packed.codes.len();
    Unpacking { packed, length, mark, readings }
}

/// Packs layers of one length, unpacks what that left, and unpacks layers of other codes.
fn both_ways(t: &mut Tally, model: &Model, length: usize, widths: Vec<u32>) {
    let (readings, mark) = layers(t, length, &widths);
    let packed = packed_layers(t, length, &widths);
    let left = pack(t, model, &Packing::new(readings, length, mark, widths));
    let mark = double_mark(t);
    if let Some(packed) = left { unpack(t, model, &unpacking(packed, length, mark)); }
    unpack(t, model, &unpacking(packed, length, mark));
}

fn shuffle<T>(t: &mut Tally, xs: &mut [T]) { for i in 1..xs.len() { xs.swap(i, t.below(i as u64 + 1) as usize); } }
/// A layer of each kind, packed at every width in one call: the layers differ by their widths alone.
fn each_width(t: &mut Tally, model: &Model) {
    for kind in 0..KINDS {
        let (length, suited, mark) = (1 + t.below(40) as usize, width(t), mark(t));
        let mut widths: Vec<u32> = WIDTHS.collect();
        shuffle(t, &mut widths);
        let readings = layer(t, kind, length, mark, suited).repeat(widths.len());
        let left = pack(t, model, &Packing::new(readings, length, mark, widths));
        let mark = double_mark(t);
        if let Some(packed) = left { unpack(t, model, &unpacking(packed, length, mark)); }
    }
}

/// The next reading above a finite one, or below it.
fn beside(reading: u32, up: bool) -> u32 {
    if reading % SIGN == 0 { return if up { 1 } else { SIGN + 1 }; }
    if (reading < SIGN) == up { reading + 1 } else { reading - 1 }
}
/// At every width, for every exponent: spans of exactly 2^w - 2 steps, above, below and about zero and anywhere, and each end moved to
/// the reading beside it. Beside zero that is one least spacing.
fn edges(t: &mut Tally, model: &Model, exponents: RangeInclusive<i32>) {
    let mut made: Vec<([u32; 3], u32)> = vec![];
    for (e, width) in exponents.flat_map(|e| WIDTHS.map(move |width| (e, width))) {
        let (most, reach) = (most_steps(width) as i64, reach(e));
        if 2 * reach < most { continue; } // the singles span less
        let froms = [0, -most, -most / 2, t.from(-reach, reach - most)];
        for from in froms.into_iter().filter(|&from| from >= -reach && from + most <= reach) {
            let (low, high) = (grid(from, e), grid(from + most, e));
            for (low, high) in [(low, high), (beside(low, false), high), (low, beside(high, true)), (beside(low, true), high)] {
                if finite(low) && finite(high) { made.push(([low, high, t.pick(&[low, high, 0x7FC00000])], width)); }
            }
        }
    }
    shuffle(t, &mut made);
    let (readings, widths) = (made.iter().flat_map(|x| x.0).collect(), made.iter().map(|x| x.1).collect());
    let mark = double_mark(t);
    let left = pack(t, model, &Packing::new(readings, 3, 0x7FC00000, widths));
    if let Some(packed) = left { unpack(t, model, &unpacking(packed, 3, mark)); }
}

/// Every code of every width, packed and unpacked: readings that are whole steps above the reference, and a missing one.
fn every_code(t: &mut Tally, model: &Model) {
    for width in WIDTHS {
        let (most, mark) = (most_steps(width) as i64, double_mark(t));
        let e = t.from(LOW as i64, 128 - width as i64) as i32;
        let r = t.from(-reach(e), reach(e) - most);
        let readings: Vec<u32> = (0..=most).map(|j| grid(r + j, e)).chain([0x7FC00000]).collect();
        let length = readings.len();
        let Some(packed) = pack(t, model, &Packing::new(readings, length, 0x7FC00000, vec![width])) else { return };
        let counted: Vec<u16> = (0..=u16::MAX).take(length).collect();
        t.same(("marked cases", 0), "every code", &packed.codes, &counted, &|_| format!("width {width} reference {r} exponent {e}"));
        unpack(t, model, &unpacking(packed.clone(), length, mark));
        let (reference, exponent) = (any(t), t.from(LOW as i64, HIGH as i64) as i32);
        let packed = Packed { references: vec![reference], exponents: vec![exponent], ..packed };
        unpack(t, model, &unpacking(packed, length, mark));
    }
}

/// At every width, references of every sort and exponents at the ends of the range and beyond, first with every layer alike.
fn ranges(t: &mut Tally, model: &Model) {
    let references = [0, SIGN, 1, SIGN + 1, 0x7F7FFFFF, 0xFF7FFFFF, 0x3F800000, any(t)];
    for exponent in [-150, -149, -148, 113, 114, 115, 116, 127, 128, 129] {
        let mut all = vec![];
        for width in WIDTHS {
            let codes = [0, 1, most_steps(width) as u16, missing_code(width) as u16];
            let one = |r: u32| Packed { widths: vec![width], codes: codes.to_vec(), references: vec![r], exponents: vec![exponent] };
            let own = references.map(one);
            let mark = double_mark(t);
            unpack(t, model, &unpacking(joined(&own), 4, mark));
            all.extend(own);
        }
        let mark = double_mark(t);
        unpack(t, model, &unpacking(joined(&all), 4, mark));
    }
}
/// Packed layers after each other.
fn joined(all: &[Packed]) -> Packed {
    Packed {
        widths: all.iter().flat_map(|p| p.widths.clone()).collect(),
        codes: all.iter().flat_map(|p| p.codes.clone()).collect(),
        references: all.iter().flat_map(|p| p.references.clone()).collect(),
        exponents: all.iter().flat_map(|p| p.exponents.clone()).collect(),
    }
}

const BAD: [u32; 8] = [INFINITY, SIGN + INFINITY, 0x7FC00000, 0xFFC00000, INFINITY + 1, SIGN + INFINITY + 1, 0x7FA00001, u32::MAX];
const LENGTHS: [usize; 7] = [0, 65537, usize::MAX, 65538, 1 << 17, (1 << 32) + 1, 1 << 63];
const EXPONENTS: [i32; 9] = [-150, 129, i32::MIN, i32::MAX, -151, 130, -405, 363, 65536]; // -405 and 363 are 107 in 8 bits
// Many are 2, 3, 8 or 16 in their last 4 to 31 bits.
const BAD_WIDTHS: [u32; 22] = [
    0, 1, 17, 18, 34, 48, 66, 80, 255, 256, 258, 272, 65535, 65536, 65538, 65552, (1 << 24) + 8, SIGN, SIGN + 3, SIGN + 16, u32::MAX - 1,
    u32::MAX,
];
const PLAIN: [u64; 10] =
    [0, 1 << 63, 0x7FF0 << 48, 0xFFF0 << 48, 0x3FF0 << 48, 0x479E << 48, 1, 0x7FEF_FFFF_FFFF_FFFF, 0x7FC00000, 0x000F << 48];

/// The first, a middle and the last of so many places.
fn places(n: usize) -> Vec<usize> {
    let mut out = vec![0, n / 2, n.saturating_sub(1)];
    out.dedup();
    out.retain(|&i| i < n);
    out
}
/// A length one more or one less; of none, one more.
fn other(t: &mut Tally, n: usize) -> usize { if n == 0 || t.below(2) == 0 { n + 1 } else { n - 1 } }

/// A packing that nothing refuses.
fn sound_packing(t: &mut Tally, length: usize, count: usize) -> Packing {
    let widths = widths(t, count);
    let (mut readings, _) = layers(t, length, &widths);
    readings.iter_mut().for_each(|x| if !finite(*x) { *x = 0x7CF00000 });
    Packing::new(readings, length, 0x7CF00000, widths)
}
/// An unpacking that nothing refuses.
fn sound_unpacking(t: &mut Tally, length: usize, count: usize) -> Unpacking {
    let widths = widths(t, count);
    let (packed, mark) = (packed_layers(t, length, &widths), double_mark(t));
    unpacking(packed, length, mark)
}
/// Arrays of widths that are one entry longer than these, one shorter, empty and twice as long. Of none, some are as long.
fn other_widths(t: &mut Tally, widths: &[u32]) -> Vec<Vec<u32>> {
    let (n, more) = (widths.len(), t.pick(&[2, 16, 17, 0]));
    let longer = [widths, &[more]].concat();
    let shorter = widths[..n.saturating_sub(1)].to_vec();
    vec![longer, shorter, vec![], widths.repeat(2)]
}

/// Packings that break each question in each way.
fn pack_refusals(t: &mut Tally, model: &Model, length: usize, count: usize) {
    let job = sound_packing(t, length, count);
    let n = job.readings.len();
    pack(t, model, &job);
    for long in LENGTHS { pack(t, model, &Packing { length: long, ..job.clone() }); }
    for extra in 1..length {
        let mut job = job.clone();
        job.readings.resize(n + extra, 0);
        job.codes = n + extra;
        pack(t, model, &job);
    }
    for by in [1, -1] {
        let change = |x: usize| x.saturating_add_signed(by);
        pack(t, model, &Packing { codes: change(job.codes), ..job.clone() });
        pack(t, model, &Packing { references: change(job.references), ..job.clone() });
        pack(t, model, &Packing { exponents: change(job.exponents), ..job.clone() });
    }
    for widths in other_widths(t, &job.widths) { pack(t, model, &Packing { widths, ..job.clone() }); }
    for at in places(count) {
        for bad in BAD_WIDTHS {
            let mut job = job.clone();
            job.widths[at] = bad;
            pack(t, model, &job);
        }
    }
    for at in places(n) {
        for bad in BAD {
            let mut job = job.clone();
            job.readings[at] = bad;
            for mark in [job.mark, bad, bad ^ 1, bad ^ 1 << 22, bad ^ SIGN] { pack(t, model, &Packing { mark, ..job.clone() }); }
        }
    }
}
/// Breaks one question of a packing in some way, if it can be.
fn break_pack(t: &mut Tally, job: &mut Packing, question: u32) {
    match question {
        3 => job.length = t.pick(&LENGTHS),
        4 => {
            job.codes += 1 + t.below(job.length.max(2) as u64 - 1) as usize;
            job.readings.resize(job.codes, 0);
        }
        5 => match t.below(4) {
            0 => job.codes = other(t, job.codes),
            1 => job.references = other(t, job.references),
            2 => job.exponents = other(t, job.exponents),
            _ => job.widths.resize(other(t, job.widths.len()), t.pick(&[2, 16, 17])),
        },
        6 if !job.readings.is_empty() => {
            let at = t.below(job.readings.len() as u64) as usize;
            job.readings[at] = t.pick(&BAD);
        }
        11 if !job.widths.is_empty() => {
            let at = t.below(job.widths.len() as u64) as usize;
            job.widths[at] = t.pick(&BAD_WIDTHS);
        }
        _ => {}
    }
}

/// Unpackings that break each question in each way.
fn unpack_refusals(t: &mut Tally, model: &Model, length: usize, count: usize) {
    let job = sound_unpacking(t, length, count);
    let n = job.readings;
    unpack(t, model, &job);
    for long in LENGTHS { unpack(t, model, &Unpacking { length: long, ..job.clone() }); }
    for extra in 1..length {
        let mut job = job.clone();
        job.packed.codes.resize(n + extra, 3);
        job.readings = n + extra;
        unpack(t, model, &job);
    }
    for by in [1, -1] {
        let change = |x: usize| x.saturating_add_signed(by);
        unpack(t, model, &Unpacking { readings: change(n), ..job.clone() });
        let mut other = job.clone();
        other.packed.references.resize(change(count), 0);
        unpack(t, model, &other);
        let mut other = job.clone();
        other.packed.exponents.resize(change(count), 0);
        unpack(t, model, &other);
    }
    for widths in other_widths(t, &job.packed.widths) {
        unpack(t, model, &Unpacking { packed: Packed { widths, ..job.packed.clone() }, ..job.clone() });
    }
    for mark in PLAIN { unpack(t, model, &Unpacking { mark, ..job.clone() }); }
    for at in places(count) { bad_layer(t, model, &job, at); }
}
/// Each way to break the questions about a layer's record, also where nothing of it is present.
fn bad_layer(t: &mut Tally, model: &Model, job: &Unpacking, at: usize) {
    let missing = |mut job: Unpacking| {
        for (codes, &w) in job.packed.codes.chunks_mut(job.length).zip(&job.packed.widths) { codes.fill(missing_code(w) as u16); }
        job
    };
    for job in [job.clone(), missing(job.clone())] {
        for bad in BAD_WIDTHS {
            let mut job = job.clone();
            job.packed.widths[at] = bad;
            unpack(t, model, &job);
        }
        for bad in BAD {
            let mut job = job.clone();
            job.packed.references[at] = bad;
            unpack(t, model, &job);
        }
        for bad in EXPONENTS {
            let mut job = job.clone();
            job.packed.exponents[at] = bad;
            unpack(t, model, &job);
        }
    }
}
/// Breaks one question of an unpacking in some way, if it can be.
fn break_unpack(t: &mut Tally, job: &mut Unpacking, question: u32) {
    let p = &mut job.packed;
    let at = t.below(p.widths.len().max(1) as u64) as usize;
    let layers = p.widths.len();
    match question {
        3 => job.length = t.pick(&LENGTHS),
        4 => {
            job.readings += 1 + t.below(job.length.max(2) as u64 - 1) as usize;
            p.codes.resize(job.readings, 3);
        }
        5 => match t.below(4) {
            0 => job.readings = other(t, job.readings),
            1 => p.references.resize(other(t, layers), t.pick(&[0, INFINITY])),
            2 => p.exponents.resize(other(t, layers), t.pick(&[0, 129])),
            _ => p.widths.resize(other(t, layers), t.pick(&[2, 16, 17])),
        },
        7 if layers > 0 => if t.below(2) == 0 { p.references[at] = t.pick(&BAD) } else { p.exponents[at] = t.pick(&EXPONENTS) },
        8 => job.mark = t.pick(&PLAIN),
        11 if layers > 0 => p.widths[at] = t.pick(&BAD_WIDTHS),
        12 if layers > 0 => {
            if p.widths[at] == 16 { p.widths[at] = t.from(2, 15) as u32; }
            let place = at * job.length + t.below(job.length as u64) as usize;
            p.codes[place] = above(t, p.widths[at]);
        }
        _ => {}
    }
}
/// A code above the missing one of a width, if there is any.
fn above(t: &mut Tally, width: u32) -> u16 {
    let least = (missing_code(width) + 1).min(65535);
    let any = t.from(least as i64, 65535) as u64;
    t.pick(&[least, least, any, 65535]) as u16
}

/// Any questions broken at once: what changes whole arrays and lengths comes after what changes entries.
fn any_broken(t: &mut Tally, model: &Model) {
    for broken in 0..1 << 5 {
        let (length, count) = (t.pick(&[1, 2, 3, 17]), t.pick(&[0, 1, 2, 3, 3]));
        let mut job = sound_packing(t, length, count);
        for (i, q) in [4, 11, 6, 5, 3].into_iter().enumerate() { if broken >> i & 1 == 1 { break_pack(t, &mut job, q); } }
        pack(t, model, &job);
    }
    for broken in 0..1 << 7 {
        let (length, count) = (t.pick(&[1, 2, 3, 17]), t.pick(&[0, 1, 2, 3, 3]));
        let mut job = sound_unpacking(t, length, count);
        for (i, q) in [4, 12, 11, 7, 8, 5, 3].into_iter().enumerate() { if broken >> i & 1 == 1 { break_unpack(t, &mut job, q); } }
        unpack(t, model, &job);
    }
}
/// Each two questions of a call broken at once, 3 aside, which `too_long` breaks without the others.
fn pairs_broken(t: &mut Tally, model: &Model) {
    for (a, b) in Pack.asked()[1..].iter().flat_map(|&a| Pack.asked()[1..].iter().map(move |&b| (a, b))) {
        let mut job = sound_packing(t, 3, 3);
        for q in [4, 11, 6, 5].into_iter().filter(|&q| q == a || q == b) { break_pack(t, &mut job, q); }
        pack(t, model, &job);
    }
    for (a, b) in Unpack.asked()[1..].iter().flat_map(|&a| Unpack.asked()[1..].iter().map(move |&b| (a, b))) {
        let mut job = sound_unpacking(t, 3, 3);
        for q in [4, 12, 11, 7, 8, 5].into_iter().filter(|&q| q == a || q == b) { break_unpack(t, &mut job, q); }
        unpack(t, model, &job);
    }
}

/// Codes above the missing one of each narrow width, in each layer and place, beside layers of any width.
fn codes_above(t: &mut Tally, model: &Model, width: u32) {
    for (length, count) in [(1, 1), (1, 3), (3, 1), (3, 3), (17, 4)] {
        let sound = sound_unpacking(t, length, count);
        for (layer, place) in places(count).into_iter().flat_map(|layer| places(length).into_iter().map(move |place| (layer, place))) {
            let mut job = sound.clone();
            let codes = &mut job.packed.codes[layer * length..][..length];
            codes.iter_mut().for_each(|code| *code %= missing_code(width) as u16 + 1);
            job.packed.widths[layer] = width;
            unpack(t, model, &job);
            let missing = missing_code(width) as u16;
            for code in [missing, missing + 1, missing + 2, missing + 1 + (missing >> 1), 2 * missing + 1, 1 << 15, 65534, 65535] {
                let mut job = job.clone();
                job.packed.codes[layer * length + place] = code;
                unpack(t, model, &job);
                t.meet_at("codes above the missing one", width, (code > missing) as u64);
            }
        }
    }
}

/// Many layers or long ones, of which only the last entry of an array is wrong.
fn last_broken(t: &mut Tally, model: &Model, length: usize, count: usize) {
    let sound = sound_packing(t, length, count);
    let mut job = sound.clone();
    *job.widths.last_mut().unwrap() = 17;
    pack(t, model, &job);
    let mut job = sound;
    *job.readings.last_mut().unwrap() = INFINITY;
    pack(t, model, &job);
    let mut sound = sound_unpacking(t, length, count);
    *sound.packed.widths.last_mut().unwrap() = 15;
    sound.packed.codes.iter_mut().rev().take(length).for_each(|code| *code %= 32768);
    unpack(t, model, &sound);
    for q in [7, 11, 12] {
        let mut job = sound.clone();
        match q {
            7 => *job.packed.exponents.last_mut().unwrap() = 129,
            11 => *job.packed.widths.last_mut().unwrap() = 1,
            _ => *job.packed.codes.last_mut().unwrap() = 32768,
        }
        unpack(t, model, &job);
    }
}

/// A length one too large that divides the readings or codes, alone and beside each other question.
fn too_long(t: &mut Tally, model: &Model) {
    for layers in 0..3 {
        let (n, mut widths) = (65537 * layers, vec![5; layers]);
        let arrays = (n, layers, layers);
        let (readings, length, mark, (codes, references, exponents)) = (vec![1; n], 65537, 0, arrays);
        let job = Packing { readings, length, mark, widths: widths.clone(), codes, references, exponents };
        pack(t, model, &job);
        pack(t, model, &Packing { references: layers + 1, ..job.clone() });
        pack(t, model, &Packing { widths: vec![5; layers + 1], ..job.clone() });
        pack(t, model, &Packing { readings: vec![1; n + 5], codes: n + 5, ..job.clone() });
        if n > 0 {
            pack(t, model, &Packing { readings: [vec![1; n - 1], vec![INFINITY]].concat(), ..job.clone() });
            widths[layers - 1] = 17;
            pack(t, model, &Packing { widths: widths.clone(), ..job });
        }
        let (references, exponents) = (vec![1; layers], vec![0; layers]);
        let job = unpacking(Packed { widths: vec![5; layers], codes: vec![9; n], references, exponents }, 65537, 0x7FF8 << 48);
        let packed = &job.packed;
        unpack(t, model, &job);
        unpack(t, model, &Unpacking { readings: n + 1, ..job.clone() });
        unpack(t, model, &Unpacking { mark: 0, ..job.clone() });
        unpack(t, model, &Unpacking { packed: Packed { codes: vec![9; n + 5], ..packed.clone() }, readings: n + 5, ..job });
        let others = [
            Packed { references: vec![INFINITY; layers], ..packed.clone() },
            Packed { widths, ..packed.clone() },
            Packed { widths: vec![3; layers], ..packed.clone() },
        ];
        for packed in others { unpack(t, model, &Unpacking { packed, ..job }); }
    }
}

/// A list of trims of one array with one mark that was run: where the readings began, what was left, and the accepted calls.
struct List { mark: u32, began: Vec<u32>, left: Vec<u32>, trims: Vec<(u32, i32)>, rounding: bool }
impl List {
    fn told(&self, at: usize, length: usize) -> String {
        let job = format!("accepted calls (method, setting) {:?} mark {:08X} length {length}", self.trims, self.mark);
        format!("{job} place {at} began {:08X} left {:08X}; all began {}", self.began[at], self.left[at], hex(&self.began))
    }
    /// The largest unit at the original reading.
    fn unit(&self, old: u32) -> Nat {
        let unit = |&(method, setting): &(u32, i32)| if method == 5 { setting - LOW } else { 23 - setting + spacing(old) as i32 };
        Nat::of(1).shl(self.trims.iter().map(unit).max().expect("an accepted call") as u32)
    }
}
/// One trim of a list, on the array as the last one left it.
fn trim(t: &mut Tally, list: &mut List, method: u32, setting: i32) {
    let refusal = if method > 6 { 1 } else {
        let range = if method < 5 { 0..=23 } else if method == 5 { LOW..=127 } else { 1..=7 };
        if range.contains(&setting) { 0 } else { 2 }
    };
    let (class, mark, n) = (("trims of a list", refusal), list.mark, list.left.len());
    t.compared.entry(class).or_default()[0] += 1;
    let mut lent = Lent::new(t, &list.left, 0x3FAA5A5B);
    let untold = t.junk(6, |x| x);
    let mut counts = Lent::new(t, &untold, 0x5A5A_1234_5A5A_4321);
    let answer = unsafe { megharutti_trim_singles(lent.lend(), n, method, setting, mark, counts.lend()) };
    let told = &|_| format!("method {method} setting {setting} mark {mark:08X} readings {}", hex(&list.left));
    t.same(class, "answer", &[answer], &[refusal], told);
    let want = if refusal == 0 { (lent.left().to_vec(), counts.left().to_vec()) } else { (list.left.clone(), untold) };
    lent.check(t, class, "reading", &want.0, told);
    counts.check(t, class, "count", &want.1, told);
    if refusal == 0 { t.same(class, "risen and fallen, by changed", &[want.1[4].wrapping_add(want.1[5])], &want.1[..1], told); }
    list.left = want.0;
    if refusal == 0 { list.trims.push((method, setting)); }
}
/// Makes a list and runs it.
fn trims(t: &mut Tally, length: usize, count: usize) -> List {
    let widths = widths(t, count);
    let (mut began, mut mark) = layers(t, length, &widths);
    let n = began.len();
    if n > 0 && t.below(8) == 0 {
        // The list may start from any patterns; then no packing need be accepted.
        let at = t.below(n as u64) as usize;
        began[at] = t.pick(&BAD);
    }
    let near = if n > 0 { t.pick(&began) } else { 0 };
    if t.below(4) == 0 { mark = near >> t.below(23) << t.below(23); }
    let mut list = List { mark, left: began.clone(), began, trims: vec![], rounding: t.below(2) == 1 };
    for _ in 0..1 + t.below(5) {
        let (method, setting) = if t.below(4) == 0 {
            let any = t.random() as i32;
            let bits = (t.below(5) as u32, t.pick(&[-1, 24, i32::MIN, i32::MAX]));
            t.pick(&[(7, 3), (8, any), (u32::MAX, any), bits, bits, (5, -150), (5, 128), (5, i32::MIN), (6, 0), (6, 8)])
        } else {
            let step = (spacing(near) as i32 + LOW + t.from(-2, 26) as i32).clamp(LOW, 127);
            let bits = t.pick(&[0, 1, 2, 7, 12, 20, 22, 23]);
            let shave = (t.below(4) as u32, bits);
            if !list.rounding { shave } else if t.below(2) == 0 { (4, bits) } else { (5, step) }
        };
        trim(t, &mut list, method, setting);
    }
    list
}
/// A list of trims, then a packing with any widths, and demand 3 about all of it.
fn list(t: &mut Tally, model: &Model, length: usize, count: usize) {
    let class = ("demand 3", 0);
    let list = trims(t, length, count);
    let (n, mark) = (list.began.len(), list.mark);
    if list.trims.is_empty() {
        t.meet("lists with no accepted call", 1);
        let told = &|i: usize| format!("mark {mark:08X} began {:08X}", list.began[i]);
        return t.same(class, "reading of a list with no accepted call", &list.left, &list.began, told);
    }
    t.compared.entry(class).or_default()[0] += 1;
    t.meet(if list.rounding { "lists of roundings" } else { "lists of shaves, sets, grooms and halfshaves" }, 1);
    t.meet("lists of more than one accepted call", (list.trims.len() > 1) as u64);
    let length = t.pick(&[length, length, 1, n.max(1)]); // of the packing
    let widths = widths(t, n / length);
    let packed = pack(t, model, &Packing::new(list.left.clone(), length, mark, widths));
    t.meet("lists with no accepted packing", packed.is_none() as u64);
    let range = LOW..=if model.is(ClaimMost114) { 114 } else { HIGH };
    let sound = |p: &Packed| p.references.iter().all(|&r| finite(r)) && p.exponents.iter().all(|e| range.contains(e));
    let told = || format!("mark {mark:08X} length {length} readings {}", hex(&list.left));
    t.holds(class, "finite references and exponents of 02's range", packed.as_ref().is_none_or(sound), &told);
    let packed = packed.filter(sound);
    for at in 0..n { claim(t, model, &list, at, length, packed.as_ref()); }
    let Some(packed) = packed else { return };
    t.meet("lists with a packing of unlike widths", packed.widths.iter().any(|w| *w != packed.widths[0]) as u64);
    for (i, left) in list.left.chunks(length).enumerate() { claim_layer(t, model, left, mark, packed.widths[i], packed.exponents[i]); }
}
/// The claims about one reading of a list, and about its code if a packing was accepted.
fn claim(t: &mut Tally, model: &Model, list: &List, at: usize, length: usize, packed: Option<&Packed>) {
    let (class, told) = (("demand 3", 0), || list.told(at, length));
    let (old, new, mark) = (list.began[at], list.left[at], list.mark);
    t.holds(class, "missing exactly when it began missing", (old == mark) == (new == mark), &told);
    let record = packed.map(|p| (p.codes[at], p.widths[at / length], p.references[at / length], p.exponents[at / length]));
    if let Some((code, width, ..)) = record {
        let missing = if model.is(Claim65535) { 65535 } else { missing_code(width) };
        let told = || format!("code {code:X} width {width}; {}", told());
        t.holds(class, "the missing code exactly where the reading began missing", (old == mark) == (code as u64 == missing), &told);
        t.holds(class, "no code above the missing one", code as u64 <= missing, &told);
    }
    if old == mark || !finite(old) { return; }
    let (was, unit) = (model.signed(old), list.unit(old));
    t.holds(class, "a present finite reading stays finite", finite(new), &told);
    if !finite(new) { return; }
    t.holds(class, "a reading less than one unit off", apart(&was, &model.signed(new)).cmp(&unit).is_lt(), &told);
    let Some((code, width, reference, exponent)) = record.filter(|r| r.0 as u64 != missing_code(r.1)) else { return };
    let off = apart(&was, &model.meaning(code, reference, exponent));
    let first = packed.map_or(LOW, |p| p.exponents[0]);
    let step = steps(1, if model.is(FirstStep) { first } else { exponent });
    t.meet_at("codes with a meaning off by half a unit or more", width, (off.times(2).cmp(&unit).is_ge()) as u64);
    t.meet_at("codes with a meaning off by a unit or more", width, (off.cmp(&unit).is_ge()) as u64);
    // Both sides are taken four times.
    let most = match model.turned {
        Some(HalfUnit) => step.times(2).add(&unit.times(2)),
        Some(NoHalfStep) => unit.times(4),
        Some(QuarterStep) => step.add(&unit.times(4)),
        _ => step.times(2).add(&unit.times(4)),
    };
    let told = || format!("code {code:X} width {width} reference {reference:08X} exponent {exponent}; {}", told());
    t.holds(class, "a meaning less than the unit plus half its layer's step off", off.times(4).cmp(&most).is_lt(), &told);
}
/// The claims about the exponent of one layer, by what was packed.
fn claim_layer(t: &mut Tally, model: &Model, left: &[u32], mark: u32, width: u32, e: i32) {
    let class = ("demand 3", 0);
    let sizes: Vec<Nat> = left.iter().filter(|&&x| x != mark).map(|&x| model.signed(x)).collect();
    let (least, most) = (sizes.iter().min_by(|a, b| a.cmp(b)), sizes.iter().max_by(|a, b| a.cmp(b)));
    let span = least.map_or(Nat::of(0), |least| most.unwrap().minus(least));
    let count = match model.turned {
        Some(LeastStepsMore) => missing_code(width),
        Some(Least65534) => 65534,
        _ => most_steps(width),
    };
    let holds = |e| span.cmp(&steps(count, e)).is_le();
    let told = || format!("width {width} exponent {e} mark {mark:08X} readings {}", hex(left));
    t.holds(class, "an exponent that holds the span", holds(e), &told);
    t.holds(class, "every other exponent that holds it is larger", e == LOW || !holds(e - 1), &told);
}

/// A layer worked out by hand.
struct Case { name: &'static str, width: u32, readings: Vec<u32>, reference: u32, exponent: i32, codes: Vec<u16> }

/// The marked cases that concern layers, as document 01 prints them for 16 bits.
fn marked_cases(t: &mut Tally, model: &Model) {
    let cases: [(&str, &[u32], u32, i32, &[u16]); 3] = [
        ("P11", &[0x41200000, 0x41280000, 0x7CF00000, 0x41400000], 0x41200000, -14, &[0, 8192, 65535, 32768]),
        ("P12", &[0, 0xFFFE], 0, -149, &[0, 65534]),
        ("P12", &[0, 0xFFFF], 0, -148, &[0, 32768]),
    ];
    for (name, readings, reference, exponent, codes) in cases {
        worked(t, model, &[Case { name, width: 16, readings: readings.to_vec(), reference, exponent, codes: codes.to_vec() }]);
    }
    // The same at every width, and the widest span: each width alone, then all of them in one call.
    for case in [p11, p12, p12_more, widest] {
        let cases: Vec<Case> = WIDTHS.map(case).collect();
        for own in cases.chunks(1) { worked(t, model, own); }
        worked(t, model, &cases);
    }
}
/// 10, 10.5, missing, 12. Of 2^(2-w), 2^w - 2 steps are 4 - 2^(3-w), which holds the span 2; of 2^(1-w) they are less than 2.
fn p11(width: u32) -> Case {
    let codes = vec![0, ((1 << width) / 8) as u16, missing_code(width) as u16, 1 << (width - 1)]; // the tie at w = 2 goes to 0
    let readings = vec![0x41200000, 0x41280000, 0x7CF00000, 0x41400000];
    Case { name: "P11 at every width", width, readings, reference: 0x41200000, exponent: 2 - width as i32, codes }
}
/// A span of 2^w - 2 least spacings.
fn p12(width: u32) -> Case {
    let most = (1 << width) - 2;
    Case { name: "P12 at every width", width, readings: vec![0, most], reference: 0, exponent: -149, codes: vec![0, most as u16] }
}
/// One least spacing more: the code is a half above 2^(w-1) - 1, which is odd.
fn p12_more(width: u32) -> Case {
    let readings = vec![0, (1 << width) - 1];
    Case { name: "P12 at every width", width, readings, reference: 0, exponent: -148, codes: vec![0, 1 << (width - 1)] }
}
/// From the least to the largest finite single, 2^129 - 2^105. Of 2^(129-w), 2^w - 2 steps are 2^129 - 2^(130-w), which is less, since
/// 130 - w is above 105. The largest is 2^(w-25) below the code 2^(w-1), and zero half as far below half of it.
fn widest(width: u32) -> Case {
    let (top, half) = (1 << (width - 1), 1 << (width - 2));
    let readings = vec![0xFF7FFFFF, 0x7F7FFFFF, 0, SIGN];
    Case { name: "the widest span", width, readings, reference: 0xFF7FFFFF, exponent: 130 - width as i32, codes: vec![0, top, half, half] }
}
/// Packs the cases' layers in one call.
fn worked(t: &mut Tally, model: &Model, cases: &[Case]) {
    let (name, length) = (cases[0].name, cases[0].readings.len());
    let readings = cases.iter().flat_map(|case| case.readings.clone()).collect();
    let job = Packing::new(readings, length, 0x7CF00000, cases.iter().map(|case| case.width).collect());
    let Some(left) = pack(t, model, &job) else { return t.differs(format!("{name} is refused")) };
    let (class, told) = (("marked cases", 0), &|i: usize| job.told_code(i * length));
    t.compared.entry(class).or_default()[0] += 1;
    let codes: Vec<u16> = cases.iter().flat_map(|case| case.codes.clone()).collect();
    t.same(class, name, &left.codes, &codes, &|i| job.told_code(i));
    t.same(class, name, &left.references, &cases.iter().map(|case| case.reference).collect::<Vec<_>>(), told);
    t.same(class, name, &left.exponents, &cases.iter().map(|case| case.exponent).collect::<Vec<_>>(), told);
}

/// Everything, in rounds that differ by the seed.
fn run(turned: Option<Rule>) -> Tally {
    let mut tally = Tally::new(if turned.is_some() { 1 } else { 10 });
    let (t, model) = (&mut tally, &Model::new(turned));
    marked_cases(t, model);
    for round in 0..ROUNDS {
        refusals(t, model, round);
        for _ in 0..150 {
            if t.over() { return tally; }
            let (length, count) = (t.pick(&[1, 2, 3, 17, 60, 200]), t.below(5) as usize);
            list(t, model, length, count);
        }
        for length in [1, 2, 3, 17, 1000] {
            if t.over() { return tally; }
            let own = widths(t, 6000 / length);
            both_ways(t, model, length, own);
            let (other, own) = (1 + t.below(300) as usize, widths(t, 8));
            both_ways(t, model, other, own);
        }
        each_width(t, model);
        edges(t, model, LOW + 7 * round..=(LOW + 7 * round + 6).min(127)); // in 40 rounds, all of them
        if round == 0 { once(t, model); }
    }
    tally
}
const ROUNDS: i32 = 40;

fn refusals(t: &mut Tally, model: &Model, round: i32) {
    for (length, count) in [1, 2, 3, 17].into_iter().flat_map(|length| [0, 1, 3].map(|count| (length, count))) {
        if t.over() { return; }
        pack_refusals(t, model, length, count);
        unpack_refusals(t, model, length, count);
    }
    codes_above(t, model, 2 + round as u32 % 14);
    for _ in 0..8 {
        if t.over() { return; }
        any_broken(t, model);
        pairs_broken(t, model);
    }
    if round == 0 { too_long(t, model); }
}
/// What one round is enough for.
fn once(t: &mut Tally, model: &Model) {
    ranges(t, model);
    every_code(t, model);
    for (length, count) in [(65536, 3), (1, 70_001)] {
        let own = widths(t, count);
        both_ways(t, model, length, own);
        last_broken(t, model, length, count);
    }
    for _ in 0..4 { list(t, model, 65536, 1); }
    // The longest layers, of each kind: at width 16, and each kind at another width.
    for (kind, width) in (0..KINDS).flat_map(|kind| [(kind, 16), (kind, 2 + kind as u32)]) {
        if t.over() { return; }
        let (mark, double) = (mark(t), double_mark(t));
        let readings = layer(t, kind, 65536, mark, width);
        let left = pack(t, model, &Packing::new(readings, 65536, mark, vec![width]));
        if let Some(packed) = left { unpack(t, model, &unpacking(packed, 65536, double)); }
    }
}

/// What must have been met at least once, beside the questions and their pairs.
const WANTED: [&str; 28] = [
    "layers packed, L 1", "layers packed, L 2", "layers packed, L 3",
    "layers packed, L 17", "layers packed, L 1000", "layers packed, L 65536",
    "layers unpacked, L 1", "layers unpacked, L 2", "layers unpacked, L 3",
    "layers unpacked, L 17", "layers unpacked, L 1000", "layers unpacked, L 65536",
    "packings of no readings", "unpackings of no codes", "packings with unlike widths", "unpackings with unlike widths",
    "packings with missing readings, mark: NaN", "packings with missing readings, mark: zero",
    "packings with missing readings, mark: infinity", "packings with missing readings, mark: ordinary reading",
    "packings with a mark -0, missing readings and +0", "packings with a mark +0, missing readings and -0",
    "lists of roundings", "lists of shaves, sets, grooms and halfshaves", "lists of more than one accepted call",
    "lists with no accepted call", "lists with no accepted packing", "lists with a packing of unlike widths",
];
/// What must have been met at every width.
const WANTED_AT: [&str; 28] = [
    "layers packed", "layers packed, L 65536", "layers unpacked", "layers unpacked, L 65536",
    "layers with nothing present", "layers with one value throughout", "layers with a smallest -0",
    "codes at an exact half", "codes so near a half that a double takes them for it", "spans that no 64-bit word holds",
    "spans of exactly 2^w - 2 steps", "spans one least spacing more", "exponent -149 with a span", "exponent 129 - w",
    "exponent 130 - w, the largest that a layer needs", "layers unpacked with missing codes, quiet mark",
    "layers unpacked with missing codes, signalling mark", "layers unpacked, the largest code", "layers unpacked, reference -0",
    "layers unpacked, exponent -149", "layers unpacked, exponents 115 to 127", "layers unpacked, exponent 128",
    "sums at an exact half", "sums that round", "sums of zero, of a number and its opposite", "sums of zero, from -0",
    "codes with a meaning off by half a unit or more", "codes with a meaning off by a unit or more",
];
/// And at every width but 16, which has no such codes.
const WANTED_NARROW: [&str; 1] = ["codes above the missing one"];

/// All that must have been met: what, how often, and how often at least. Of what must be met at every width, the fewest of any width.
fn wanted(t: &Tally, forms: &[Width]) -> Vec<(String, u64, u64)> {
    let met = |what: &str| t.met.get(what).copied().unwrap_or(0);
    let fewest = |what: &str, widths: RangeInclusive<u32>| {
        let at = t.met_at.get(what).copied().unwrap_or_default();
        (format!("each width: {what}"), widths.map(|w| at[w as usize]).min().unwrap_or(0), 1)
    };
    let mut names: Vec<(String, u64)> = WANTED.iter().map(|x| (x.to_string(), 1)).collect();
    names.extend([("readings packed".to_string(), 1_000_000), ("codes unpacked".to_string(), 1_000_000)]);
    for call in [Pack, Unpack] {
        for (i, a) in call.asked().iter().enumerate() {
            names.push((format!("{} that breaks {a} alone", call.name()), 1));
            names.extend(call.asked()[i + 1..].iter().map(|b| (format!("{} that breaks {a} and {b}", call.name()), 1)));
        }
    }
    names.extend(forms.iter().flat_map(lists::wanted));
    let at = WANTED_AT.iter().map(|what| fewest(what, WIDTHS)).chain(WANTED_NARROW.iter().map(|what| fewest(what, 2..=15)));
    at.chain(names.into_iter().map(|(what, least)| { let times = met(&what); (what, times, least) })).collect()
}
/// Prints what was compared and met. Answers whether a class is empty.
fn report(t: &Tally, forms: &[Width]) -> bool {
    let mut empty = false;
    println!("\n{:<36} {:>6} {:>9} {:>12}", "call", "answer", "calls", "comparisons");
    let asked = |call: Call| [&[0], call.asked()].concat().into_iter().map(move |q| (call.name(), q));
    let others = [("trims of a list", 0), ("trims of a list", 1), ("trims of a list", 2), ("demand 3", 0), ("marked cases", 0)];
    for class in asked(Pack).chain(asked(Unpack)).chain(others).chain(forms.iter().flat_map(lists::classes)) {
        let [calls, compared] = t.compared.get(&class).copied().unwrap_or_default();
        empty |= calls == 0 || compared == 0;
        println!("{:<36} {:>6} {calls:>9} {compared:>12}{}", class.0, class.1, if calls == 0 { " EMPTY" } else { "" });
    }
    for name in ["model of packing beside machine", "model of unpacking beside machine"] {
        let compared = t.compared.get(&(name, 0)).map_or(0, |x| x[1]);
        empty |= compared == 0;
        println!("{name:<36} {:>6} {:>9} {compared:>12}{}", "", "", if compared == 0 { " EMPTY" } else { "" });
    }
    println!("\n{:<66} {:>9}", "met", "times");
    for (what, times, least) in wanted(t, forms) {
        empty |= times < least;
        println!("{what:<66} {times:>9}{}", if times < least { " TOO FEW" } else { "" });
    }
    empty
}

/// Says whether a run with a wrong model or claim saw it. Answers whether it did not.
fn unseen(t: &Tally, name: &str) -> bool {
    let compared: u64 = t.compared.values().map(|x| x[1]).sum();
    let seen: String = t.first.chars().take(180).collect();
    println!("turned, {name}: {}", if t.differences == 0 { "NOT SEEN".to_string() } else { format!("seen after {compared}: {seen}") });
    t.differences == 0
}
/// Turns each rule and each claim. Answers how many were not seen.
fn self_test(forms: &[Width]) -> usize {
    let mut not_seen = vec![];
    for (rule, name) in turned() { not_seen.push(unseen(&run(Some(rule)), &name)); }
    for form in forms {
        for (wrong, name) in lists::WRONG {
            let mut t = Tally::new(1);
            lists::run(&mut t, form, Some(wrong));
            not_seen.push(unseen(&t, &format!("{}, claim: {name}", form.name)));
        }
    }
    let count = not_seen.iter().filter(|x| **x).count();
    println!("self-test: {} wrong models or claims, {count} not seen", not_seen.len());
    count
}

fn main() {
    let forms = Width::both();
    let unseen = self_test(&forms);
    if std::env::args().any(|x| x == "--self-test") { exit((unseen > 0) as i32); }
    let mut t = run(None);
    forms.iter().for_each(|form| lists::run(&mut t, form, None));
    let empty = report(&t, &forms);
    let compared: u64 = t.compared.values().map(|x| x[1]).sum();
    let found = [(t.differences > 0, "DIFFERENCES"), (empty, "a class with TOO FEW"), (unseen > 0, "a wrong model NOT SEEN")];
    let fault = found.into_iter().find(|x| x.0).map(|x| x.1);
    println!("packs: {compared} comparisons, {}", fault.unwrap_or("no difference"));
    if fault.is_some() { exit(1); }
}
