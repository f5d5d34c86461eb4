//! Arrays in which grooming's turns part from the places, by request (b) of document 02: missing readings, infinities and NaNs take no
//! turn, zeros and spared readings do.
//!
//! Nothing says in what blocks a library works. So what takes no turn, or may seem to take none, stands at each place of an array, at
//! pairs of places, and strewn over more than one block of any size. A job's readings are few, and the model's results of each are worked
//! out once.
use crate::draw::Draw;
use crate::model::Form;
use crate::wrong::Model;
use crate::{array, loader, Job, Plain, Tally};

const PI: u64 = 0x40490FDB;
const SHAVED: u64 = 0x40490000; // pi by groom 7 at an even turn, which is P1 of document 01
const SET: u64 = 0x4049FFFF; // and at an odd one, P2
const GONE: u64 = 0x7CF00000;
/// What groom 7 makes of singles, by the words of request (b): what it shows, the mark, before, after.
const CASES: [(&str, u64, &[u64], &[u64]); 17] = [
    ("each takes a turn", GONE, &[PI, PI, PI], &[SHAVED, SET, SHAVED]),
    ("every second slot, even places", GONE, &[PI, GONE, PI, GONE, PI, GONE], &[SHAVED, GONE, SET, GONE, SHAVED, GONE]),
    ("every second slot, odd places", GONE, &[GONE, PI, GONE, PI, GONE, PI], &[GONE, SHAVED, GONE, SET, GONE, SHAVED]),
    ("two missing readings", GONE, &[PI, GONE, GONE, PI], &[SHAVED, GONE, GONE, SET]),
    ("infinities", GONE, &[0x7F800000, PI, 0xFF800000, PI], &[0x7F800000, SHAVED, 0xFF800000, SET]),
    ("quiet NaNs", GONE, &[0x7FC00000, PI, 0xFFFFFFFF, PI], &[0x7FC00000, SHAVED, 0xFFFFFFFF, SET]),
    ("signalling NaNs", GONE, &[0x7F800001, PI, 0xFFBFFFFF, PI], &[0x7F800001, SHAVED, 0xFFBFFFFF, SET]),
    ("a mark that is a NaN, and another NaN", 0x7FC00000, &[0x7FC00000, PI, 0x7FC00001, PI], &[0x7FC00000, SHAVED, 0x7FC00001, SET]),
    ("a mark that is an infinity", 0x7F800000, &[0x7F800000, PI, 0xFF800000, PI], &[0x7F800000, SHAVED, 0xFF800000, SET]),
    ("a mark that is a reading", PI, &[PI, 0xC0490FDB, PI, 0xC0490FDB], &[PI, 0xC0490000, PI, 0xC049FFFF]),
    ("+0 takes a turn", GONE, &[0, PI, PI], &[0, SET, SHAVED]),
    ("-0 takes a turn", GONE, &[0x80000000, PI, PI], &[0x80000000, SET, SHAVED]),
    ("+0 is missing, and -0 takes a turn", 0, &[0, PI, 0x80000000, PI], &[0, SHAVED, 0x80000000, SHAVED]),
    ("-0 is missing, and +0 takes a turn", 0x80000000, &[0x80000000, PI, 0, PI], &[0x80000000, SHAVED, 0, SHAVED]),
    ("spared from a shave", SHAVED, &[PI, PI, PI, PI, PI], &[PI, SET, PI, SET, PI]),
    ("spared from a set", SET, &[PI, PI, PI, PI, PI], &[SHAVED, PI, SHAVED, PI, SHAVED]),
    ("what is shaved or set already takes a turn", GONE, &[SHAVED, SET, PI, SHAVED, PI], &[SHAVED, SET, SHAVED, SET, SHAVED]),
];
/// A pattern of the cases as a double has it: pi and what groom 7 makes of it, the mark, a zero, an infinity or a NaN.
fn doubled(single: u64) -> u64 {
    let (sign, m) = (single >> 31 << 63, single % (1 << 31));
    sign + match m {
        PI => 0x400921FB54442D18,
        SHAVED => 0x4009200000000000,
        SET => 0x40093FFFFFFFFFFF,
        GONE => 0x479E000000000000,
        0 => 0,
        // Of an infinity or a NaN the first bits of the fraction, and the last.
        _ => (0x7FF << 52) + (m % (1 << 23) >> 1 << 30) + m % 2,
    }
}
fn cases(t: &mut Tally, model: &Model) {
    for (name, mark, before, after) in CASES {
        let of = |x: u64| if model.form.f == 23 { x } else { doubled(x) };
        let (job, before) = (Job { method: 2, setting: 7, mark: of(mark) }, before.iter().map(|&x| of(x)).collect::<Vec<u64>>());
        let plain = Plain::of(model, job, &before);
        let left = array(t, model, job, &before, &plain);
        if model.form.f == 23 { loader(t, model, job, &before, &left, &plain); }
        if t.only.is_some() { continue; }
        (0..before.len()).for_each(|i| t.same(left[i], of(after[i]), || job.at(name, i as u64, before[i])));
    }
}

/// A job of groom, its readings, and the model's results of them. First stand usual readings; then those that take a turn and may seem to
/// take none, such as zeros and, by a finite mark, spared ones; then those that take none, the mark before all.
struct Pool { job: Job, readings: Vec<u64>, plain: Plain }
const USUAL: usize = 12;
const MARK: usize = USUAL + 9;
const END: usize = MARK + 8;

/// Marks of each kind: NaNs, infinities, zeros, the least and the largest reading, and a reading as it is, shaved and set.
fn marks(form: &Form, unit: u64) -> [u64; 11] {
    let (top, one) = (form.infinity, 1u64 << form.f);
    let x = top / 2 + one / 7 * 3;
    [top + one / 2, top + 1, top, top + form.sign, 0, form.sign, 1, top - 1, x, form.sign + x / unit * unit, x / unit * unit + (unit - 1)]
}
fn pool(t: &mut Tally, model: &Model, setting: i32, mark: usize) -> Pool {
    let (form, unit) = (&model.form, 1u64 << (model.form.f as i32 - setting));
    let (sign, top, half) = (form.sign, form.infinity, 1u64 << (form.f - 1));
    let mark = marks(form, unit)[mark % 11];
    let mut readings: Vec<u64> = (0..USUAL).map(|_| 1 + t.below(top - 1) + sign * t.below(2)).collect();
    // By the mark, what a shave or a set may turn into it.
    let by = mark / unit * unit;
    readings.extend([0, sign, 0, sign, 1, sign + top - 1, by, by + (unit - 1), by + unit / 2]);
    readings.extend([mark, mark, top, sign + top, top + half, form.all, top + 1, sign + top + half - 1]);
    assert_eq!(readings.len(), END);
    let job = Job { method: 2, setting, mark };
    Pool { job, plain: Plain::of(model, job, &readings), readings }
}
/// An array call on readings of a pool, and for singles the loader's call on each where it is asked for.
fn groom(t: &mut Tally, model: &Model, pool: &Pool, numbers: &[usize], loads: bool) {
    let (before, plain) = (numbers.iter().map(|&i| pool.readings[i]).collect::<Vec<u64>>(), pool.plain.some(numbers));
    let after = array(t, model, pool.job, &before, &plain);
    if loads && model.form.f == 23 { loader(t, model, pool.job, &before, &after, &plain); }
}
fn usual(t: &mut Tally, n: usize) -> Vec<usize> { (0..n).map(|_| t.below(USUAL as u64) as usize).collect() }
/// Any reading of a pool from a number on.
fn any(t: &mut Tally, from: usize) -> usize { from + t.below((END - from) as u64) as usize }
/// Usual readings, and in so many places one that isn't; none in 0.
fn strewn(t: &mut Tally, n: usize, one_in: u64) -> Vec<usize> {
    let mut out = usual(t, n);
    for x in &mut out { if one_in > 0 && t.below(one_in) == 0 { *x = any(t, USUAL); } }
    out
}
/// A station that reports every second slot, from the first or from the second on.
fn station(t: &mut Tally, n: usize, from: usize) -> Vec<usize> {
    let mut out = usual(t, n);
    (0..n).filter(|i| i % 2 != from).for_each(|i| out[i] = MARK);
    out
}

/// Each array of up to five readings of six kinds.
fn short(t: &mut Tally, model: &Model, setting: i32) {
    let pool = pool(t, model, setting, 8 + setting as usize / 9);
    for n in 0..6 {
        for mut number in 0..6usize.pow(n) {
            if t.over() { return; }
            let kind = |_| { let of = number % 6; number /= 6; of };
            let kinds: Vec<usize> = (0..n).map(kind).collect();
            let rare = [0, USUAL, USUAL + 6, MARK, MARK + 2, MARK + 4];
            let numbers: Vec<usize> = kinds.iter().map(|&of| if of == 0 { 0 } else { rare[of] + t.below(2) as usize }).collect();
            groom(t, model, &pool, &numbers, false);
        }
    }
}
/// One reading that isn't usual, at each place of so many.
fn alone(t: &mut Tally, model: &Model, pool: &Pool, n: usize, number: impl Fn(usize) -> usize) {
    for at in 0..n {
        if t.over() { return; }
        let mut numbers = usual(t, n);
        numbers[at] = number(at);
        groom(t, model, pool, &numbers, false);
    }
}
/// Two that aren't usual, at each pair of some places of so many.
fn pairs(t: &mut Tally, model: &Model, pool: &Pool, n: usize, places: &[usize]) {
    for (i, &first) in places.iter().enumerate() {
        for &second in &places[..i] {
            if t.over() { return; }
            let mut numbers = usual(t, n);
            for at in [first, second] { numbers[at] = any(t, USUAL); }
            groom(t, model, pool, &numbers, false);
        }
    }
}
/// Runs of readings that take no turn, between usual ones.
fn runs(t: &mut Tally, model: &Model, pool: &Pool) {
    let near = |at: usize| at - 1..at + 2;
    for from in (0..18).chain(near(32)).chain(near(64)) {
        for run in (1..18).chain(near(32)).chain(near(64)).chain(near(128)).chain(near(256)) {
            if t.over() { return; }
            let mut numbers = usual(t, from + run + 70);
            for x in &mut numbers[from..from + run] { *x = any(t, MARK); }
            groom(t, model, pool, &numbers, false);
        }
    }
}
/// The ends of blocks, with the places next to them.
fn edges() -> Vec<usize> { [32, 64, 128, 256, 512, 1024].iter().flat_map(|at| at - 2..at + 2).collect() }

/// A length, with more and more readings that aren't usual, with none that takes a turn, and with every second one missing.
fn length(t: &mut Tally, model: &Model, n: usize, loads: bool) {
    let idle: Vec<usize> = (0..n).map(|_| any(t, MARK)).collect();
    let mut arrays: Vec<Vec<usize>> = [0, 1000, 20, 5, 2, 1].map(|one_in| strewn(t, n, one_in)).to_vec();
    arrays.extend([idle, station(t, n, 0), station(t, n, 1)]);
    for numbers in arrays {
        if t.over() { return; }
        let (setting, mark) = (t.below(model.form.f as u64 + 1) as i32, t.below(11) as usize);
        let pool = pool(t, model, setting, mark);
        groom(t, model, &pool, &numbers, loads);
    }
}
const LONG: usize = 3 * 65_536 + 777;
/// Long arrays with one missing reading, next to the end of a block.
fn long(t: &mut Tally, model: &Model, mark: usize) {
    for at in [65_535, 65_536, 131_071, 131_072] {
        if t.over() { return; }
        let pool = pool(t, model, at as i32 % (model.form.f as i32 + 1), mark);
        let mut numbers = usual(t, LONG);
        numbers[at] = MARK;
        groom(t, model, &pool, &numbers, false);
    }
}

/// What each run takes: every keep bits, each mark with some of them.
pub fn run(t: &mut Tally, model: &Model) {
    let every: Vec<usize> = (0..67).collect();
    cases(t, model);
    for setting in 0..model.form.f as i32 + 1 {
        if t.over() { return; }
        let pool = pool(t, model, setting, setting as usize);
        alone(t, model, &pool, 300, |at| USUAL + (at + setting as usize) % (END - USUAL));
        if setting % 9 == 4 { short(t, model, setting); }
        if setting % 9 == 6 { runs(t, model, &pool); }
        if setting % 9 == 7 { pairs(t, model, &pool, 67, &every); }
        if setting % 9 == 8 { pairs(t, model, &pool, 1030, &edges()); }
    }
    for n in 0..301 { length(t, model, n, true); }
    blocks(t, model);
}
/// Arrays of several large blocks.
pub fn blocks(t: &mut Tally, model: &Model) {
    length(t, model, LONG, false);
    long(t, model, 0);
}
/// With --all: each reading that isn't usual at each place, by every keep bits and every mark; each pair of places; and more runs and long
/// arrays.
pub fn all(t: &mut Tally) {
    let every: Vec<usize> = (0..300).collect();
    for model in [Form::new(23, 8), Form::new(52, 11)].map(|form| Model { form, turned: None }) {
        let began = t.compared;
        for mark in 0..11 {
            for setting in 0..model.form.f as i32 + 1 {
                let pool = pool(t, &model, setting, mark);
                (USUAL..END).for_each(|number| alone(t, &model, &pool, 300, |_| number));
                if setting == 7 { pairs(t, &model, &pool, 300, &every); }
                runs(t, &model, &pool);
            }
            (0..3).for_each(|_| length(t, &model, LONG, false));
            long(t, &model, mark);
        }
        println!("groom, {} bits: {} comparisons, {} differences", model.form.f + model.form.e + 1, t.compared - began, t.lines);
    }
}
