//! The long run of the trims' test: every single pattern, by three methods, against the model; by groom at a turn that shaves and at one
//! that sets.
//!
//! The exact model takes too long for so many patterns. A fast form of it, in machine words, stands in; it is itself compared with the
//! exact one, on patterns strewn over all and on those around each place where its rule changes.
use crate::model::{left, number, ways, Form};
use crate::{megharutti_trim_single, megharutti_trim_singles, Job, Tally};
use std::cmp::Ordering;
use std::time::Instant;

const MARK: u32 = 0x7CF00000;
const SIGN: u32 = 1 << 31;
const INFINITY: u32 = 0x7F800000;
const BLOCK: usize = 1 << 16;
const JOBS: [Job; 3] = [job(4, 7), job(6, 3), job(2, 7)];
const fn job(method: u32, setting: i32) -> Job { Job { method, setting, mark: MARK as u64 } }

/// The magnitudes from one on, up to the next stretch's, that the fast form treats alike.
struct Stretch { from: u32, rule: Rule }
#[derive(Clone, Copy)]
enum Rule { Stays, Half(u32), Round(u32), Groom(u32) } // with the number of tail bits

/// The least magnitude at which digits counts a decade, or a later one.
fn decade_begins(form: &Form, decade: i32) -> u32 {
    let (mut low, mut high) = (1, INFINITY);
    while low < high {
        let middle = low + (high - low) / 2;
        if form.decade(middle as u64) >= decade { high = middle } else { low = middle + 1 }
    }
    low
}
fn stretches(form: &Form, job: Job) -> Vec<Stretch> {
    if job.method < 5 {
        let tail = 23 - job.setting as u32;
        let rule = if job.method == 4 { Rule::Round(tail) } else { Rule::Groom(tail) };
        return vec![Stretch { from: 0, rule }, Stretch { from: INFINITY, rule: Rule::Stays }];
    }
    // For digits a binade, or the part of it in one decade, has one q.
    let mut starts: Vec<u32> = (1..255).map(|e| e << 23).chain((-45..40).map(|decade| decade_begins(form, decade))).chain([1]).collect();
    starts.sort();
    starts.dedup();
    let rule = |from: u32| {
        let decade = form.decade(from as u64);
        let q = ((decade - job.setting) as f64 * std::f64::consts::LOG2_10).floor() as i32 + 149;
        let tail = q - form.spacing(from as u64) as i32;
        if tail < 1 { Rule::Stays } else { Rule::Half(tail as u32) }
    };
    let mut out = vec![Stretch { from: 0, rule: Rule::Stays }];
    out.extend(starts.into_iter().filter(|&from| from < INFINITY).map(|from| Stretch { from, rule: rule(from) }));
    out.push(Stretch { from: INFINITY, rule: Rule::Stays });
    out
}
/// What a rule makes of a magnitude, for groom at a turn that sets or at one that shaves, and whether it clips.
fn fast(rule: Rule, m: u32, sets: bool) -> (u32, bool) {
    match rule {
        Rule::Stays => (m, false),
        Rule::Groom(tail) => (if !sets { m >> tail << tail } else if m == 0 { m } else { m | ((1 << tail) - 1) }, false),
        Rule::Half(tail) => (m >> tail << tail | 1 << (tail - 1), false),
        Rule::Round(tail) => {
            let (odd, below) = (m >> tail & 1, m >> tail << tail);
            let new = (m + (1 << (tail - 1)) - 1 + odd) >> tail << tail;
            if new < INFINITY { (new, false) } else { (below, true) }
        }
    }
}
/// How a pattern moves, by the machine's floats. A NaN stays.
fn moved(old: u32, new: u32) -> Ordering { f32::from_bits(new).partial_cmp(&f32::from_bits(old)).unwrap_or(Ordering::Equal) }
/// The rule of the stretch that a magnitude lies in.
fn rule_at(stretches: &[Stretch], m: u32) -> Rule { stretches[stretches.partition_point(|x| x.from <= m) - 1].rule }

/// The fast form beside the exact model. Answers how many patterns were compared.
fn beside_exact(t: &mut Tally, form: &Form, job: Job, stretches: &[Stretch]) -> u64 {
    let strewn = (0..1u64 << 32).step_by(1021);
    let around = stretches.iter().flat_map(|x| (0..2001).map(|by| ((x.from + by).wrapping_sub(1000)) as u64));
    let (mut n, mut sets) = (0, false);
    for old in strewn.chain(around) {
        let (m, sign) = (old as u32 % SIGN, old as u32 & SIGN);
        let (new, clipped) = fast(rule_at(stretches, m), m, sets);
        let exact = form.own(job.method, job.setting, old, sets);
        t.same((new + sign) as u64, exact.0, || job.at("fast form of the model", 0, old));
        t.same(clipped as u64, exact.1 as u64, || job.at("fast form of the model, clipping", 0, old));
        t.same(moved(old as u32, new + sign) as u64, exact.2 as u64, || job.at("fast form of the model, its move", 0, old));
        (n, sets) = (n + 1, !sets);
    }
    n
}
/// Whether a pattern takes a turn of grooming.
fn takes_turn(pattern: u32) -> bool { pattern != MARK && pattern % SIGN < INFINITY }
/// What a block of patterns becomes from a turn on, and its counts, by the fast form.
fn block_after(stretches: &[Stretch], before: &[u32], mut turn: u64, after: &mut [u32]) -> [u64; 6] {
    let mut counts = [0; 6];
    let (sign, first, end) = (before[0] & SIGN, before[0] % SIGN, (before[0] % SIGN) as u64 + before.len() as u64);
    let mut at = stretches.partition_point(|x| x.from <= first) - 1;
    let mut from = first as u64;
    while from < end {
        let to = stretches.get(at + 1).map_or(end, |next| end.min(next.from as u64));
        for m in from as u32..to as u32 {
            let (new, clipped) = fast(stretches[at].rule, m, turn % 2 == 1);
            let own = ((sign + new) as u64, clipped, moved(sign + m, sign + new));
            let (new, kinds) = left((sign + m) as u64, own, MARK as u64);
            after[(m - first) as usize] = new as u32;
            turn += takes_turn(sign + m) as u64;
            (0..6).for_each(|k| counts[k] += kinds[k] as u64);
        }
        (from, at) = (to, at + 1);
    }
    counts
}
/// One call on a block, after so many readings of the least size.
fn array(t: &mut Tally, job: Job, before: &[u32], after: &[u32], counts: [u64; 6], least: usize) {
    let mut lent: Vec<u32> = vec![1; least];
    lent.extend_from_slice(before);
    let mut told = [9; 8]; // the last two are outside
    let answer = unsafe { megharutti_trim_singles(lent.as_mut_ptr(), lent.len(), job.method, job.setting, MARK, told.as_mut_ptr()) };
    t.same(answer as u64, 0, || job.at("answer", 0, before[0] as u64));
    t.compared += before.len() as u64;
    if lent[least..] != *after {
        t.compared -= before.len() as u64;
        (0..before.len()).for_each(|i| t.same(lent[least + i] as u64, after[i] as u64, || job.at("array", i as u64, before[i] as u64)));
    }
    // The least reading is a zero by round and by groom at its first turn, which is a fall, and stays by digits.
    let fallen = least as u64 * (job.method != 6) as u64;
    (0..6).for_each(|k| t.same(told[k], counts[k] + fallen * matches!(k, 0 | 5) as u64, || job.at("counts", k as u64, before[0] as u64)));
    (6..8).for_each(|k| t.same(told[k], 9, || job.at("outside the counts", k as u64, before[0] as u64)));
    t.same(told[4].wrapping_add(told[5]), told[0], || job.at("risen and fallen, by changed", 0, before[0] as u64));
}
/// The loader's call on each pattern of a block, from a turn on.
fn alone(t: &mut Tally, job: Job, before: &[u32], after: &[u32], mut turn: u64) {
    for (&old, &new) in before.iter().zip(after) {
        let got = unsafe { megharutti_trim_single(old, job.method, job.setting, MARK, turn) };
        let [risen, fallen] = ways(moved(old, new));
        t.same(got, number(new as u64, risen, fallen), || job.at("loader, by turn", turn, old as u64));
        turn += takes_turn(old) as u64;
    }
}
fn every_pattern(t: &mut Tally, form: &Form, job: Job) {
    let began = Instant::now();
    let stretches = stretches(form, job);
    let sample = beside_exact(t, form, job, &stretches);
    println!("method {} setting {}: fast form of the model beside the exact one, {sample} patterns", job.method, job.setting);
    let (mut after, mut sums) = (vec![0; BLOCK], [0; 6]);
    let patterns = 1u64 << 32;
    for from in (0..patterns).step_by(BLOCK) {
        let before: Vec<u32> = (0..BLOCK as u32).map(|i| from as u32 + i).collect();
        // Twice, since an array without subnormal readings may be trimmed in a way of its own. The reading before the block takes a turn,
        // so that groom then sets where it shaved.
        for least in 0..2 {
            let counts = block_after(&stretches, &before, least as u64, &mut after);
            array(t, job, &before, &after, counts, least);
            if least == 0 || job.method == 2 { alone(t, job, &before, &after, least as u64); }
            (0..6).for_each(|k| sums[k] += counts[k]);
        }
    }
    let [changed, spared, clipped, missing, risen, fallen] = sums;
    println!("method {} setting {} mark {MARK:08X}: {patterns} patterns, in two arrays each and by the loader", job.method, job.setting);
    println!("  in both changed {changed}, spared {spared}, clipped {clipped}, missing {missing}, risen {risen}, fallen {fallen}");
    println!("  {} differences", t.lines);
    println!("  {} s", began.elapsed().as_secs());
}
pub fn run(t: &mut Tally, form: &Form) { JOBS.iter().for_each(|&job| every_pattern(t, form, job)); }
