//! What the trims' test compared and met, so that an empty class shows.
use crate::model::{ways, Form, Kinds, Own};
use crate::wrong::{named, row, CALLS, DOUBLES, LOADER, SINGLES};
use crate::Job;

const METHODS: [&str; 7] = ["method 0", "method 1", "method 2", "method 3", "method 4", "method 5", "method 6"];
/// What may happen to a reading, by the model. The last is a reading that is spared from a clipped result.
const WAYS: [&str; 8] = ["changed", "spared", "clipped", "missing", "tie down", "tie up", "tie clipped", "clip spared"];
/// How a reading moves, by the model: with a sign of 0 or 1, to a zero, and clipped.
const MOVES: [&str; 8] = ["rose, 0", "rose, 1", "fell, 0", "fell, 1", "rose to -0", "fell to +0", "clip rose", "clip fell"];
/// What stays: spared and missing readings that would have moved, those on the grid or without a tail, and those that are no number.
const STAYS: [&str; 8] = ["spared up", "spared down", "missing up", "missing down", "stayed, 0", "stayed, 1", "infinity", "NaN"];
/// The kinds of patterns.
const KINDS: [&str; 8] = ["+0", "-0", "subnormal", "normal", "largest", "infinity", "quiet NaN", "other NaN"];
/// The remainders of a reading's turn and of its place by 2, of present and of missing readings.
const TURNS: [&str; 8] = ["0 at 0", "0 at 1", "1 at 0", "1 at 1", "gone 0 at 0", "gone 0 at 1", "gone 1 at 0", "gone 1 at 1"];
/// What is counted by the kind of the mark. The last are zeros of the other sign, and other NaNs.
const MARKS: [&str; 4] = ["calls", "missing", "spared", "mark's like"];

fn kind(form: &Form, pattern: u64) -> usize {
    let m = pattern % form.sign;
    if m == 0 { return (pattern != 0) as usize; }
    if m < 1 << form.f { return 2; }
    if m < form.infinity { return 3 + (m == form.infinity - 1) as usize; }
    if m == form.infinity { 5 } else { 7 - (m >> (form.f - 1) & 1) as usize }
}
/// Whether a finite magnitude lies in the middle of two neighbours on the grid: its lowest one bit stands for half a unit.
fn tie(form: &Form, job: Job, m: u64) -> bool {
    let (spacings, unit) = match job.method {
        4 => (m, form.f as i32 - job.setting),
        5 => (if m >> form.f == 0 { m } else { m % (1 << form.f) + (1 << form.f) }, job.setting + form.deep - form.spacing(m) as i32),
        _ => return false,
    };
    m > 0 && m < form.infinity && spacings.trailing_zeros() as i32 + 1 == unit
}

/// The powers of ten that are doubles; those up to 10^10 are singles too.
const TENS: [f64; 23] = [
    1e0, 1e1, 1e2, 1e3, 1e4, 1e5, 1e6, 1e7, 1e8, 1e9, 1e10, 1e11, 1e12, 1e13, 1e14, 1e15, 1e16, 1e17, 1e18, 1e19, 1e20, 1e21, 1e22,
];
pub fn ten(form: &Form, m: u64) -> bool { TENS.contains(&if form.f == 23 { f32::from_bits(m as u32) as f64 } else { f64::from_bits(m) }) }

type Counts = [[[u64; 8]; 8]; 3]; // by call, then by method or by what else is counted, then by column
pub struct Met {
    calls: [[[[u64; 3]; 3]; 8]; 3], // by call, method and answer: calls, readings and comparisons
    ways: Counts, moves: Counts, stays: Counts, readings: Counts, marks: Counts,
    turns: Counts, // of groom alone, by parities of turn and place
    tens: [u64; 3], // by call: readings for digits that are a power of ten
    pub machine: u64, pub moved: u64, pub decades: u64,
}
impl Met {
    pub fn new() -> Met {
        let none = [[[0; 8]; 8]; 3];
        let (calls, tens) = ([[[[0; 3]; 3]; 8]; 3], [0; 3]);
        Met { calls, ways: none, moves: none, stays: none, readings: none, marks: none, turns: none, tens, machine: 0, moved: 0, decades: 0 }
    }
    pub fn call(&mut self, call: usize, form: &Form, job: Job, answer: u32, counts: [u64; 3]) {
        (0..3).for_each(|i| self.calls[call][row(job.method)][answer as usize][i] += counts[i]);
        if answer == 0 { self.marks[call][0][kind(form, job.mark)] += counts[0]; }
    }
    /// A reading of an accepted call, by the method's own result, the kinds that it counts as, and its place and turn.
    pub fn reading(&mut self, call: usize, form: &Form, job: Job, old: u64, own: Own, kinds: Kinds, [place, turn]: [u64; 2]) {
        let counts = &mut self.ways[call][row(job.method)];
        let [_, spared, clipped, missing, risen, fallen] = kinds;
        (0..4).for_each(|k| counts[k] += kinds[k] as u64);
        let (m, new, like) = (old % form.sign, own.0 % form.sign, kind(form, old));
        if !missing && tie(form, job, m) { counts[if own.1 { 6 } else { 4 + (new > m) as usize }] += 1; }
        counts[7] += (spared && own.1) as u64;
        let (minus, zero, finite, [up, down]) = (old >= form.sign, new == 0, m < form.infinity, ways(own.2));
        let stayed = !spared && !missing && !risen && !fallen;
        let moves = [risen && !minus, risen && minus, fallen && !minus, fallen && minus, risen && minus && zero, fallen && !minus && zero,
            clipped && risen, clipped && fallen];
        let stays = [spared && up, spared && down, missing && up, missing && down, stayed && finite && !minus, stayed && finite && minus,
            stayed && m == form.infinity, stayed && m > form.infinity];
        for (counts, is) in [(&mut self.moves, moves), (&mut self.stays, stays)] {
            (0..8).for_each(|k| counts[call][row(job.method)][k] += is[k] as u64);
        }
        self.tens[call] += (job.method == 6 && !missing && ten(form, m)) as u64;
        if !missing { self.readings[call][row(job.method)][like] += 1; }
        if job.method == 2 { self.turns[call][missing as usize * 4 + (turn % 2 * 2 + place % 2) as usize][like] += 1; }
        let of = kind(form, job.mark);
        let pair = |x| x < 2 || x > 5; // kinds that could be taken for each other
        let likes = !missing && pair(like) && pair(of) && (like < 2) == (of < 2);
        let marks = &mut self.marks[call];
        [missing, spared, likes].iter().enumerate().for_each(|(i, &is)| marks[i + 1][of] += is as u64);
    }

    /// Prints everything. Answers whether a class that can be met is empty, or a number too small.
    pub fn report(&self) -> bool {
        let mut few = self.report_calls();
        println!("\nReadings of accepted calls, by what happens to them. Only 4 and 5 round, so only they can clip or have ties.");
        few |= table(&self.ways, &WAYS, &METHODS, |method, way| matches!(way, 0 | 1 | 3) || matches!(method, 4 | 5));
        println!("\nReadings of accepted calls that move, by their sign. Shave goes towards zero alone, and set away from it.");
        println!("Set, halfshave and digits make no zero of what isn't one. What clips goes towards zero.");
        few |= table(&self.moves, &MOVES, &METHODS, |method, way| match way {
            0 | 3 => method != 0,
            1 | 2 => method != 1,
            4 | 5 => matches!(method, 0 | 2 | 4 | 5),
            _ => matches!(method, 4 | 5),
        });
        println!("\nReadings of accepted calls that stay, spared and missing ones by how they would have moved. Each can be met.");
        few |= table(&self.stays, &STAYS, &METHODS, |_, _| true);
        println!("\nReadings of accepted calls that aren't missing, by kind. Each can be met.");
        few |= table(&self.readings, &KINDS, &METHODS, |_, _| true);
        println!("\nReadings that groom meets, by whether their turn and their place are even or odd, and missing ones likewise. Each can be met.");
        few |= table(&self.turns, &KINDS, &TURNS, |_, _| true);
        println!("\nAccepted calls and their readings, by the mark's kind. A reading becomes neither infinite nor a NaN, so such marks");
        println!("can't spare. A mark's like is a zero of the other sign, or another NaN; other kinds can't have one.");
        few | table(&self.marks, &KINDS, &MARKS, |what, kind| match what { 0 | 1 => true, 2 => kind < 5, _ => kind < 2 || kind > 5 })
    }
    fn report_calls(&self) -> bool {
        let mut few = false;
        println!("\nCalls by answer. A known method is never answered 1, and an unknown one always.");
        println!("{:<13} {:>7} {:>6} {:>10} {:>11} {:>12}", "call", "method", "answer", "calls", "readings", "comparisons");
        for (call, name) in CALLS.iter().enumerate() {
            for (method, answer) in (0..7).flat_map(|method| [(method, 0), (method, 2)]).chain([(7, 1)]) {
                let [calls, readings, compared] = self.calls[call][method][answer];
                let (method, empty) = (named(method), if readings == 0 { " EMPTY" } else { "" });
                println!("{name:<13} {method:>7} {answer:>6} {calls:>10} {readings:>11} {compared:>12}{empty}");
                few |= readings == 0;
            }
        }
        let sum = |call: usize, answers: &[usize], what: usize| -> u64 {
            self.calls[call].iter().map(|by| answers.iter().map(|&answer| by[answer][what]).sum::<u64>()).sum()
        };
        let refused: u64 = (0..3).map(|call| sum(call, &[1, 2], 0)).sum();
        println!();
        for (what, times, least) in [
            ("singles by accepted array calls", sum(SINGLES, &[0], 1), 10_000_000),
            ("doubles by accepted array calls", sum(DOUBLES, &[0], 1), 1_000_000),
            ("singles by accepted calls on numbers", sum(LOADER, &[0], 1), 10_000_000),
            ("refused array calls", sum(SINGLES, &[1, 2], 0) + sum(DOUBLES, &[1, 2], 0), 1),
            ("refused calls, with those on numbers", refused, 100_000),
            ("powers of ten in digits, trim_singles", self.tens[SINGLES], 1),
            ("powers of ten in digits, trim_doubles", self.tens[DOUBLES], 1),
            ("powers of ten in digits, trim_single", self.tens[LOADER], 1),
            ("model's results beside the machine's", self.machine, 1),
            ("model's moves beside the machine's", self.moved, 10_000_000),
            ("model's decades beside printed ones", self.decades, 1),
        ] {
            println!("{what:<38} {times:>11}{}", if times < least { " TOO FEW" } else { "" });
            few |= times < least;
        }
        few
    }
}
/// Prints a table of each call's rows. Answers whether a cell that can be met is empty, or one that can't be is not.
fn table(counts: &Counts, columns: &[&str; 8], rows: &[&str], can: impl Fn(usize, usize) -> bool) -> bool {
    let mut empty = false;
    let head: String = columns.iter().map(|column| format!(" {column:>11}")).collect();
    println!("{:<25}{head}", "call");
    for (call, name) in CALLS.iter().enumerate() {
        for (r, row) in rows.iter().enumerate() {
            let none = (0..8).any(|c| can(r, c) == (counts[call][r][c] == 0));
            let cell = |c: usize| match counts[call][r][c] { 0 if !can(r, c) => format!(" {:>11}", "-"), n => format!(" {n:>11}") };
            println!("{name:<13} {row:>11}{}{}", (0..8).map(cell).collect::<String>(), if none { " EMPTY, or not to be met" } else { "" });
            empty |= none;
        }
    }
    empty
}
