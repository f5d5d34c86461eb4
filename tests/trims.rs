//! Compares the trims of the C interface with a model of document 01 and of requests (a) and (b) of document 02 in exact whole numbers,
//! place by place and count by count.
//!
//! The model knows nothing of the library. Where the machine's own floats can give the same answer exactly, they are asked too,
//! so that a slip in the model doesn't pass for a slip in the library. Every run makes the same comparisons. It first turns one rule of
//! the model at a time: each such wrong model must differ from the library, by each call and each method that the rule concerns. With
//! --self-test it ends there. With --all it takes every single pattern instead, by three methods, and more arrays of groom.
mod draw;
mod every;
mod met;
mod model;
mod nat;
mod turns;
mod wrong;
use draw::{Draw, SEED};
use met::Met;
use model::{ends, number, tens, ways, Form, Own};
use std::cmp::Ordering::{self, Greater, Less};
use std::process::exit;
use wrong::{row, Model, Rule, DOUBLES, LOADER, SINGLES};

extern "C" {
    fn megharutti_trim_single(reading: u32, method: u32, setting: i32, mark: u32, turn: u64) -> u64;
    fn megharutti_trim_singles(readings: *mut u32, n: usize, method: u32, setting: i32, mark: u32, counts: *mut u64) -> u32;
    fn megharutti_trim_doubles(readings: *mut u64, n: usize, method: u32, setting: i32, mark: u64, counts: *mut u64) -> u32;
}

struct Tally {
    compared: u64, lines: u32, seed: u64,
    turn: u64, // the turn after the last array call, for a wrong model that goes on from it
    only: Option<(usize, usize)>, // for a wrong model, the call and the method that are to show it
    first: (u64, String), // the first difference, and after how many comparisons
    met: Met,
}
impl Tally {
    fn new(only: Option<(usize, usize)>) -> Tally {
        Tally { compared: 0, lines: 0, seed: SEED, turn: 0, only, first: (0, String::new()), met: Met::new() }
    }
    fn same(&mut self, got: u64, want: u64, told: impl FnOnce() -> String) {
        self.compared += 1;
        if got == want { return; }
        self.lines += 1;
        if self.lines > 1 && self.only.is_some() { return; }
        let line = format!("{} got {got:08X} expected {want:08X}", told());
        if self.only.is_none() { println!("{line}"); }
        if self.lines == 1 { self.first = (self.compared, line); }
        if self.lines == 10 { exit(1); }
    }
    /// Whether a wrong model has been seen.
    fn over(&self) -> bool { self.only.is_some() && self.lines > 0 }
    fn skips_method(&self, method: u32) -> bool { self.only.is_some_and(|only| only.1 != row(method)) }
    fn skips(&self, call: usize, method: u32) -> bool { self.only.is_some_and(|only| only != (call, row(method))) }
}
impl Draw for Tally { fn seed(&mut self) -> &mut u64 { &mut self.seed } }

#[derive(Clone, Copy)]
struct Job { method: u32, setting: i32, mark: u64 }
impl Job {
    fn at(&self, what: &str, at: u64, before: u64) -> String {
        format!("{what}: method {} setting {} mark {:08X} at {at} before {before:08X}", self.method, self.setting, self.mark)
    }
}

/// A method's own results of some readings: at a turn that shaves, and at one that sets. Only groom asks for the turn.
struct Plain { shaves: Vec<Own>, sets: Vec<Own> }
impl Plain {
    fn of(model: &Model, job: Job, readings: &[u64]) -> Plain {
        let refused = model.form.refusal(job.method, job.setting) != 0;
        let trim = |x, sets| if refused { (x, false, Ordering::Equal) } else { model.own(job.method, job.setting, x, sets) };
        let all = |sets| readings.iter().map(|&x| trim(x, sets)).collect();
        let shaves: Vec<Own> = all(false);
        let sets = if job.method == 2 { all(true) } else { shaves.clone() };
        Plain { shaves, sets }
    }
    fn at(&self, i: usize, sets: bool) -> Own { if sets { self.sets[i] } else { self.shaves[i] } }
    /// Results of both kinds, in turns.
    fn mixed(&self) -> Vec<Own> { (0..self.sets.len()).map(|i| self.at(i, i % 2 == 1)).collect() }
    /// Those of the readings at some places.
    fn some(&self, places: &[usize]) -> Plain {
        let some = |of: &[Own]| places.iter().map(|&i| of[i]).collect();
        Plain { shaves: some(&self.shaves), sets: some(&self.sets) }
    }
    /// The same without the first reading.
    fn rest(&self) -> Plain { Plain { shaves: self.shaves[1..].to_vec(), sets: self.sets[1..].to_vec() } }
}

/// One array call, on a part of a longer array, against the model. Answers the array as the call left it.
fn array(t: &mut Tally, model: &Model, job: Job, before: &[u64], plain: &Plain) -> Vec<u64> {
    const UNTOLD: u64 = 0x5A5A_1234_5A5A_4321; // what the counts hold before the call, so that adding to them or leaving them shows
    let Job { method, setting, mark } = job;
    let (form, call) = (&model.form, if model.form.f == 23 { SINGLES } else { DOUBLES });
    let (n, front) = (before.len(), 1 + t.below(8) as usize); // any alignment
    if t.skips(call, method) { return before.to_vec(); }
    let guard = form.infinity / 2 + 0x2A5A5B; // trimming would change it
    let mut lent = vec![guard; n + front + 5];
    lent[front..front + n].copy_from_slice(before);
    let mut counts = [UNTOLD; 9];
    let told = unsafe { counts.as_mut_ptr().add(1) };
    let mut singles: Vec<u32> = lent.iter().map(|&x| x as u32).collect();
    let answer = match call {
        SINGLES => unsafe { megharutti_trim_singles(singles.as_mut_ptr().add(front), n, method, setting, mark as u32, told) },
        _ => unsafe { megharutti_trim_doubles(lent.as_mut_ptr().add(front), n, method, setting, mark, told) },
    };
    if call == SINGLES { lent = singles.iter().map(|&x| x as u64).collect(); }
    let (began, refusal) = (t.compared, model.refusal(method, setting));
    t.same(answer as u64, refusal as u64, || job.at("answer", n as u64, 0));
    let mut want = [UNTOLD, 0, 0, 0, 0, 0, 0, UNTOLD, UNTOLD];
    let mut follows = if model.is(Rule::CarriedOn) { t.turn } else { 0 }; // the turn that follows from the readings before
    for i in 0..n {
        let (old, turn) = (before[i], model.turn(n, i, follows));
        let own = plain.at(i, model.sets(turn));
        let (new, kinds) = if refusal != 0 { model.refused(old) } else { model.left(old, own, mark) };
        if refusal == 0 { t.met.reading(call, form, job, old, own, kinds, [i as u64, turn]); }
        (0..6).for_each(|k| want[k + 1] += kinds[k] as u64);
        t.same(lent[front + i], new, || format!("{} turn {turn}", job.at("array", i as u64, old)));
        follows = turn + model.takes_turn(old, mark, new, kinds) as u64;
    }
    t.turn = follows;
    let outside = (0..front).chain(front + n..lent.len());
    outside.for_each(|i| t.same(lent[i], guard, || job.at("outside the array", i as u64, guard)));
    let want = if refusal != 0 { model.uncounted(UNTOLD, want) } else { model.counted(want) };
    (0..9).for_each(|i| t.same(counts[i], want[i], || job.at("counts 1 to 6, 0, 7 and 8 outside", i as u64, UNTOLD)));
    let [_, changed, _, _, _, risen, fallen, ..] = counts;
    if answer == 0 { t.same(risen.wrapping_add(fallen), changed, || job.at("risen and fallen, by changed", n as u64, 0)); }
    t.met.call(call, form, job, refusal, [1, n as u64, t.compared - began]);
    lent[front..front + n].to_vec()
}

/// Even turns that no array reaches, on both sides of where a narrower number would end.
const FAR: [u64; 6] = [(1 << 32) - 2, 1 << 32, 1 << 53, (1 << 63) - 2, 1 << 63, u64::MAX - 1];

/// The loader's call on each reading at its turn and at the next, and at far ones of the same parities, against the model and against what
/// the array call left. How that stands to the reading is asked of the machine's floats there; what isn't finite stays.
fn loader(t: &mut Tally, model: &Model, job: Job, before: &[u64], after: &[u64], plain: &Plain) {
    if t.skips(LOADER, job.method) { return; }
    let (began, refusal) = (t.compared, model.refusal(job.method, job.setting));
    let mut turn = 0; // so many present finite readings came before
    for (i, &old) in before.iter().enumerate() {
        let far = FAR[i % 6] + turn % 2;
        let [risen, fallen] = ways(model.form.machine_moved(old, after[i]).unwrap_or(Ordering::Equal));
        for (turn, here) in [(turn, true), (far, true), (turn + 1, false), (far ^ 1, false)] {
            let own = plain.at(i, model.sets(turn));
            let (new, kinds) = model.left(old, own, job.mark);
            if refusal == 0 { t.met.reading(LOADER, &model.form, job, old, own, kinds, [i as u64, turn]); }
            let want = if refusal == 0 { model.accepted_alone(new, kinds) } else { model.refused_alone(refusal) };
            let got = unsafe { megharutti_trim_single(old as u32, job.method, job.setting, job.mark as u32, turn) };
            t.same(got, want, || job.at("loader, by turn", turn, old));
            let beside = refusal == 0 && here && t.only.is_none();
            if beside { t.same(got, number(after[i], risen, fallen), || job.at("loader beside array, by turn", turn, old)); }
        }
        turn += model.form.takes_turn(old, job.mark) as u64;
    }
    let calls = 4 * before.len() as u64;
    t.met.call(LOADER, &model.form, job, refusal, [calls, calls, t.compared - began]);
}

/// The magnitude with exponent field e and a fraction whose last bits lie at, or next to, what decides a rounding at bit `at`.
fn edge(t: &mut Tally, form: &Form, e: u64, at: u32) -> u64 {
    let (unit, random) = (1u64 << at, t.random());
    let fraction = t.pick(&[random, random, random, 0, u64::MAX]) / unit * unit;
    let tail = t.pick(&[0, 1, unit / 2 + unit - 1, unit / 2, unit / 2, unit / 2 + 1, unit - 1, random]) % unit;
    (e << form.f) + (fraction + tail) % (1 << form.f)
}
/// The readings for one job: those where its results change, then powers of two with neighbours, and any patterns.
fn readings(t: &mut Tally, form: &Form, method: u32, setting: i32, tens: &[u64]) -> Vec<u64> {
    let mut out = vec![];
    let top = (1u64 << form.e) - 2;
    for round in 0..1200 {
        let (any, bit) = (t.below(top + 1), t.below(form.f as u64 + 1) as i64);
        let e = t.pick(&[any, any, any, 0, 1, top]);
        // For a step, an exponent at which it is from 1 spacing to more than twice the reading, or any.
        let unit = setting.saturating_add(form.deep).clamp(0, 3000) as i64;
        let near = (unit + 1 - round % (form.f as i64 + 4)).clamp(0, top as i64) as u64;
        let e = if method == 5 { t.pick(&[near, near, near, near, e]) } else { e };
        let at = match method {
            0..=4 => (form.f as i64 - setting as i64).clamp(0, form.f as i64),
            5 => (unit - e.max(1) as i64 + 1).clamp(0, form.f as i64),
            _ => bit,
        };
        out.push(edge(t, form, e, at as u32));
    }
    let (from, stride) = if method == 5 { (t.below(23), 23) } else { (0, 1) };
    out.extend((from..top + 2).step_by(stride).flat_map(|e| [-1, 0, 1].map(|by| (e << form.f).saturating_add_signed(by))));
    if method == 6 { out.extend(tens) } else { out.extend((0..50).map(|_| t.pick(tens))) }
    out.iter_mut().for_each(|m| *m += form.sign * t.below(2));
    out.extend((0..500).map(|_| t.random() & form.all));
    out.extend(ends(form));
    out
}
/// Marks of each kind: NaNs, zeros, infinity, ends, a reading of the array, and patterns that trimming or clipping would make.
fn marks(t: &mut Tally, form: &Form, readings: &[u64], plain: &[Own]) -> Vec<u64> {
    let top = form.infinity;
    let mut out = vec![top + (1 << (form.f - 1)), form.all, 0, form.sign, form.sign + top, t.pick(readings)];
    let made: Vec<u64> = (0..readings.len()).filter(|&i| plain[i].0 != readings[i]).map(|i| plain[i].0).collect();
    let clipped = plain.iter().filter(|x| x.1).map(|x| x.0);
    let lone = t.pick(&[1, top - 1, 1 << form.f, top, top + 1]); // the last is a signalling NaN
    out.extend(clipped.clone().min().into_iter().chain(clipped.max()).chain([lone]));
    if !made.is_empty() { out.extend([t.pick(&made), t.pick(&made)]); }
    out
}

/// The marked cases that concern trims, as document 01 prints them: name, method, the settings in turn, before, after; and how the last
/// setting moves the value.
const CASES: [(&str, u32, &[i32], u64, u64, Ordering); 16] = [
    ("P1", 0, &[7], 0x40490FDB, 0x40490000, Less), ("P2", 1, &[7], 0x40490FDB, 0x4049FFFF, Greater),
    ("P3", 3, &[7], 0x40490FDB, 0x40498000, Greater), ("P4", 4, &[0], 0x40490FDB, 0x40800000, Greater),
    ("P5", 4, &[0], 0x3FC00000, 0x40000000, Greater), ("P5", 4, &[0], 0x40400000, 0x40000000, Less),
    ("P6", 4, &[7], 0x7F7FFFFF, 0x7F7F0000, Less), ("P7", 5, &[0], 0x3F000000, 0x00000000, Less),
    ("P7", 5, &[0], 0xBF000000, 0x80000000, Greater), ("P7", 5, &[0], 0x3FC00000, 0x40000000, Greater),
    ("P8", 6, &[1], 0x40490FDB, 0x40600000, Greater), ("P8", 6, &[3], 0x40490FDB, 0x40494000, Greater),
    ("P9", 6, &[1], 0x3DCCCCCD, 0x3DC00000, Less), ("P9", 6, &[1, 1], 0x3DCCCCCD, 0x3DC80000, Greater),
    ("P10", 4, &[8, 7], 0x3F817F80, 0x3F820000, Greater), ("P10", 4, &[7], 0x3F817F80, 0x3F810000, Less),
];

fn marked_cases(t: &mut Tally, model: &Model) {
    let (mark, sign) = (0x7FC00000, model.form.sign);
    // With the other sign what falls rises.
    let opposite = CASES.map(|case| (case.0, case.1, case.2, case.3 ^ sign, case.4 ^ sign, case.5.reverse()));
    for (name, method, settings, start, after, moved) in CASES.into_iter().chain(opposite) {
        let (&setting, earlier) = settings.split_last().unwrap();
        let loaded = |x: u64, s| unsafe { megharutti_trim_single(x as u32, method, s, mark as u32, 0) } % (1 << 32);
        let before = earlier.iter().fold(start, |x, &s| loaded(x, s));
        let (job, printed) = (Job { method, setting, mark }, vec![(after, name == "P6", moved)]);
        let own = model.form.own(method, setting, before, false);
        t.same(own.0, after, || job.at("model", 0, before));
        t.same(own.2 as u64, moved as u64, || job.at("model's move", 0, before));
        let plain = Plain { shaves: printed.clone(), sets: printed };
        let left = array(t, model, job, &[before], &plain);
        loader(t, model, job, &[before], &left, &plain);
    }
    // The document's list for the program, each series as one array, with the counts that it prints.
    let series = [([0x40490FDB, 0x7CF00001], [0x40490000, 0x7CF00001], [1, 1, 0, 0, 0, 1, 9]),
        ([0x7CF00000, 0x3F800000], [0x7CF00000, 0x3F800000], [0, 0, 0, 1, 0, 0, 9])];
    for (before, after, counts) in series {
        let (mut lent, mut told) = (before, [9; 7]); // the last is outside
        let answer = unsafe { megharutti_trim_singles(lent.as_mut_ptr(), 2, 4, 7, 0x7CF00000, told.as_mut_ptr()) };
        let job = Job { method: 4, setting: 7, mark: 0x7CF00000 };
        t.same(answer as u64, 0, || job.at("answer", 0, before[0] as u64));
        (0..2).for_each(|i| t.same(lent[i] as u64, after[i], || job.at("the document's list", i as u64, before[i] as u64)));
        (0..7).for_each(|i| t.same(told[i], counts[i], || job.at("the document's counts", i as u64, 9)));
    }
}

/// Printed with all its digits a reading shows its decade, so the model's decades are checked without the model's table.
fn decades(t: &mut Tally, form: &Form, tens: &[u64]) {
    for m in tens.iter().copied().chain(ends(form)).filter(|&m| m > 0 && m < form.infinity) {
        let x = if form.f == 23 { f32::from_bits(m as u32) as f64 } else { f64::from_bits(m) };
        let printed: i32 = format!("{x:.800e}").split_once('e').unwrap().1.parse().unwrap();
        t.same(form.decade(m) as u64, (printed + 1) as u64, || format!("model's decade: before {m:08X}"));
        t.met.decades += 1;
    }
}
/// The model beside the machine's floats: its results, and its moves.
fn machine(t: &mut Tally, form: &Form, job: Job, before: &[u64], plain: &Plain) {
    let set = if job.method == 2 { &plain.sets[..] } else { &[] };
    for (&old, &(new, _, moved)) in before.iter().zip(&plain.shaves).chain(before.iter().zip(set)) {
        if let Some(x) = form.machine(job.method, job.setting, old) {
            t.same(new, x, || job.at("model, expected by the machine's floats", 0, old));
            t.met.machine += 1;
        }
        if let Some(x) = form.machine_moved(old, new) {
            t.same(moved as u64, x as u64, || job.at("model's move, expected by the machine's floats", 0, old));
            t.met.moved += 1;
        }
    }
}
/// Every setting of a method, one more on each side and the ends of the number. Those where the answer changes come first, so that a wrong
/// model is seen soon.
fn settings(form: &Form, method: u32) -> Vec<i32> {
    let (least, most) = if method > 6 { (-1, 8) } else { form.range(method) };
    [i32::MIN, i32::MAX, least - 1, most + 1, least, most].into_iter().chain(least + 1..most).collect()
}
/// One method and setting, with marks of each kind.
fn setting(t: &mut Tally, model: &Model, method: u32, setting: i32, tens: &[u64]) {
    let (form, job) = (&model.form, Job { method, setting, mark: 0 });
    let mut before = readings(t, form, method, setting, tens);
    let refused = form.refusal(method, setting) != 0;
    before.truncate(if refused { 300 } else { usize::MAX });
    let plain = Plain::of(model, job, &before);
    if !refused && t.only.is_none() { machine(t, form, job, &before, &plain); }
    let rest = plain.rest();
    for mark in marks(t, form, &before, &plain.mixed()) {
        if t.over() { return; }
        let job = Job { mark, ..job };
        let after = array(t, model, job, &before, &plain);
        array(t, model, job, &before[1..], &rest); // each reading at a turn of the other parity, if the first takes one
        array(t, model, job, &[], &Plain { shaves: vec![], sets: vec![] });
        if form.f == 23 { loader(t, model, job, &before, &after, &plain); }
    }
    // The same readings without the subnormal ones, and more of every exponent: long arrays of such may be trimmed in a way of their own.
    let mut normal: Vec<u64> = before.iter().copied().filter(|x| x % form.sign == 0 || x % form.sign >= 1 << form.f).collect();
    while !refused && normal.len() < 5000 {
        normal.push(((1 + t.below((1 << form.e) - 1)) << form.f) + (t.random() >> (64 - form.f)) + form.sign * t.below(2));
    }
    let plain = Plain::of(model, job, &normal);
    if !refused && t.only.is_none() { machine(t, form, job, &normal, &plain); }
    for mark in marks(t, form, &normal, &plain.mixed()) { array(t, model, Job { mark, ..job }, &normal, &plain); }
}
/// Lengths around a block's, with missing readings strewn in, and with nothing else.
fn lengths(t: &mut Tally, model: &Model, method: u32) {
    let (form, ends) = (&model.form, ends(&model.form));
    for n in [0, 1, 2, 3, 5, 17, 1000, 65535, 65536, 65537, 131073] {
        let (least, most) = if method == 5 { (-4, 4) } else { form.range(method) };
        let mut before: Vec<u64> = (0..n).map(|_| (t.random() & form.all) >> t.below(3)).collect();
        (0..n / 9).for_each(|_| before[t.below(n) as usize] = t.pick(&ends));
        let job = Job { method, setting: least + t.below((most - least + 1) as u64) as i32, mark: t.pick(&ends) };
        let plain = Plain::of(model, job, &before);
        array(t, model, job, &before, &plain);
        // One reading all over, which rises or falls, so that a count is as large as it can be.
        for way in [Greater, Less] {
            let Some(at) = plain.mixed().iter().position(|own| own.2 == way) else { continue };
            let alike = vec![before[at]; n as usize];
            array(t, model, job, &alike, &Plain::of(model, job, &alike));
        }
        let refused = Job { setting: -2000, ..job };
        array(t, model, refused, &before, &Plain::of(model, refused, &before));
        let missing = vec![job.mark; n as usize];
        array(t, model, job, &missing, &Plain::of(model, job, &missing));
    }
}
/// A list of calls on one array with one mark, refused calls among them: each call gets the array as the last one left it.
fn list(t: &mut Tally, model: &Model) {
    let form = &model.form;
    let near = t.below((1 << form.e) - 1);
    let mut now: Vec<u64> = (0..1 + t.below(60)).map(|_| (near << form.f) + (t.random() >> (63 - form.f))).collect();
    now.iter_mut().for_each(|x| *x += form.sign * t.below(2));
    let mark = form.trim(4, t.below(form.f as u64) as i32, now[0], false).0;
    // What takes no turn of grooming, and zeros.
    let rare = [mark, mark, form.infinity, form.infinity + form.sign, form.infinity + 1, form.all, 0, form.sign];
    for x in now.iter_mut().skip(1) { if t.below(12) == 0 { *x = t.pick(&rare); } }
    for _ in 0..t.below(6) {
        let (method, bits) = (t.below(8) as u32, t.below(form.f as u64 + 2) as i32);
        let exponent = near as i32 - (1 << (form.e - 1)) + 1;
        let job = Job { method, setting: if method == 5 { exponent + 1 - bits } else { bits }, mark };
        now = array(t, model, job, &now, &Plain::of(model, job, &now));
    }
}
fn width(t: &mut Tally, model: &Model) {
    let tens = tens(&model.form);
    if t.only.is_none() { decades(t, &model.form, &tens); }
    if model.has_blocks() { turns::blocks(t, model); } // so that they are seen soon
    for method in (0..10).chain([u32::MAX]) {
        if t.skips_method(method) { continue; }
        for s in settings(&model.form, method) {
            if t.over() { return; }
            setting(t, model, method, s, &tens);
        }
    }
    if !t.over() && !t.skips_method(2) { turns::run(t, model); }
    for method in 0..7 {
        if !t.over() && !t.skips_method(method) { lengths(t, model, method); }
    }
    for _ in 0..3000 {
        if !t.over() { list(t, model); }
    }
}

/// Everything; with a rule turned only what one call and one method can show of it, up to the first difference.
fn run(turned: Option<Rule>, only: Option<(usize, usize)>) -> Tally {
    let mut t = Tally::new(only);
    let call = only.map(|x| x.0);
    if call != Some(DOUBLES) {
        let model = Model { form: Form::new(23, 8), turned }.slipped();
        if call.is_none() { marked_cases(&mut t, &model); }
        width(&mut t, &model);
    }
    if call.is_none() || call == Some(DOUBLES) { width(&mut t, &Model { form: Form::new(52, 11), turned }.slipped()); }
    t
}

fn main() {
    if std::env::args().any(|x| x == "--all") {
        let mut t = Tally::new(None);
        every::run(&mut t, &Form::new(23, 8));
        turns::all(&mut t);
        return finish(&t, None);
    }
    let unseen = wrong::self_test(|rule, call, method| run(Some(rule), Some((call, method))).first);
    if std::env::args().any(|x| x == "--self-test") { exit((unseen > 0) as i32); }
    let t = run(None, None);
    let few = t.met.report();
    finish(&t, [(few, "a class EMPTY or TOO FEW"), (unseen > 0, "a wrong model NOT SEEN")].into_iter().find(|x| x.0).map(|x| x.1));
}
/// The last line of a run; any difference comes before any other fault.
fn finish(t: &Tally, fault: Option<&str>) {
    let fault = if t.lines > 0 { Some("DIFFERENCES") } else { fault };
    println!("trims: {} comparisons, {}", t.compared, fault.unwrap_or("no difference"));
    if fault.is_some() { exit(1); }
}
