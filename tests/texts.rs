//! Compares what the program trimlist prints with a model of document 01, with document 02's columns and its turns of grooming, text by
//! text and byte by byte.
//!
//!     texts PROGRAM [ARGUMENT ..]    runs the program once for each text
//!     texts --stand-in               is such a program itself, by the model
//!
//! The model knows nothing of the program. Every run makes the same texts. Then it turns one rule of the model at a time: each such
//! wrong model must differ from what the program printed.
mod model;
mod nat;
use model::{ends, left, tens, ways, Form, Kinds, Own, Slip};
use std::collections::BTreeMap;
use std::fs::File;
use std::io::{Read, Write};
use std::os::unix::process::ExitStatusExt;
use std::process::{exit, Child, ChildStdin, Command, Stdio};
use std::sync::atomic::{AtomicI32, AtomicUsize, Ordering::SeqCst};
use std::thread;
use std::time::{Duration, Instant};

const HEAD: &str = "method,setting,mark";
const COUNTS: &str = "changed,spared,clipped,missing,risen,fallen";
const SIX: [usize; 6] = [0, 1, 2, 3, 4, 5]; // the counts
const WORDS: [&str; 7] = ["shave", "set", "groom", "halfshave", "round", "absolute", "digits"];
/// The input and the output that document 01 prints, with the columns that document 02 adds.
const LISTING: &str = "method,setting,mark\nround,7,7CF00000\nrain,ozone\n40490FDB,7CF00000\n7CF00001,3F800000\n";
const LISTED: &str = "rain,ozone\n40490000,7CF00000\n7CF00001,3F800000\nchanged,spared,clipped,missing,risen,fallen\n\
    1,1,0,0,0,1\n0,0,0,1,0,0\n";
/// Two stations that report every second slot, pi each time, and a third with what takes no turn, a zero and another zero: each series is
/// shaved and set in turns of its own.
const STATIONS: &str = "method,setting,mark\ngroom,7,7CF00000\nrain,ozone,dust\n40490FDB,7CF00000,7F800000\n7CF00000,40490FDB,80000000\n\
    40490FDB,7CF00000,40490FDB\n7CF00000,40490FDB,7FC00001\n40490FDB,7CF00000,00000000\n7CF00000,40490FDB,C0490FDB\n";
const STATIONED: &str = "rain,ozone,dust\n40490000,7CF00000,7F800000\n7CF00000,40490000,80000000\n4049FFFF,7CF00000,4049FFFF\n\
    7CF00000,4049FFFF,7FC00001\n40490000,7CF00000,00000000\n7CF00000,40490000,C049FFFF\n\
    changed,spared,clipped,missing,risen,fallen\n3,0,0,3,1,2\n3,0,0,3,1,2\n2,0,0,0,1,1\n";
/// The longest text of the form: the head, the job's line, the names' line, 512 lines of values; each with its commas and its newline.
const LONGEST: usize = 20 + (16 + 1 + 5 + 1 + 8 + 1) + (8 * 16 + 7 + 1) + 512 * (8 * 8 + 7 + 1);
/// The longest answer: the names' line, 512 lines of values, the counts' names, and for each series six counts of three digits: 512 places
/// have room for 100 of each kind.
const LONGEST_ANSWER: usize = (8 * 16 + 7 + 1) + 512 * (8 * 8 + 7 + 1) + (COUNTS.len() + 1) + 8 * (6 * 3 + 5 + 1);

/// A rule of the model that can be turned.
#[derive(Clone, Copy, PartialEq)]
enum Rule {
    Trim(Slip), NotSpared, SparedChanged, SparedClipped, MissingTrimmed, ZerosAlike, NansAlike,
    ByPlace, MissingTurn, FiniteMarkTurn, InfinityTurn, NanTurn, ZeroWaits, PlusWaits, MinusWaits, OtherZeroWaits, SparedWaits, SameWaits,
    SetFirst, OnFrom, AlongLines, Anew(usize),
    Order19, Order29, Order21, Unknown2, Beginning, Capitals, Numbered,
    LastNewline, SecondNewline, Returns, Spaces, Tabs, UntilNul, FirstText, Bits7, LastComma, Mark3, Head,
    LowerValue, LowerMark, Seven, Nine, Shorter, Longer, Lines513, Lines511, NoLines, Series9, Series7,
    Name17, Name15, NameCapital, NameDigit, NameEmpty, NamesApart, Word17, Word15,
    Digits5, Digits3, Plus, MinusAlone, LeadingZero, Octal, MinusZero,
    Range(usize, i32, i32), Exchanged, OfAll, CountsHead, Untrimmed, BySeries, RefusalNames, RefusalLine, Lower,
    Upside, BySize, SparedMoved, MissingMoved, ClipTurned, ZeroStays(u64), MissingLast, FourColumns, FourNames, NamesTurned, Net,
}
use Rule::*;
const TURNED: [(Rule, &str); 102] = [
    (Trim(Slip::TieUp), "a tie goes up"),
    (Trim(Slip::Overflow), "round passes the largest finite pattern"),
    (Trim(Slip::ClipToTop), "a clipped reading becomes the largest finite pattern"),
    (Trim(Slip::ZeroTail), "set and halfshave give a zero a tail"),
    (Trim(Slip::ZeroSign), "absolute takes the sign from a zero result"),
    (Trim(Slip::DecadeBelow), "a power of ten stands in the decade below"),
    (Trim(Slip::TwoSpacingsStay), "digits leaves a reading where q is two spacings"),
    (Trim(Slip::NanTail), "the tail of a NaN is trimmed"),
    (Trim(Slip::Flush), "subnormal readings become zero"),
    (NotSpared, "nothing is spared"),
    (SparedChanged, "a spared reading counts as changed"),
    (SparedClipped, "a spared reading counts as clipped"),
    (MissingTrimmed, "missing readings are trimmed"),
    (ZerosAlike, "-0 is missing where the mark is +0"),
    (NansAlike, "every NaN is missing where the mark is one"),
    (ByPlace, "groom goes by place, as in document 01"),
    (MissingTurn, "a missing reading takes a turn"),
    (FiniteMarkTurn, "a missing reading takes a turn where the mark is finite"),
    (InfinityTurn, "an infinity takes a turn"),
    (NanTurn, "a NaN takes a turn"),
    (ZeroWaits, "a zero takes no turn"),
    (PlusWaits, "+0 takes no turn"),
    (MinusWaits, "-0 takes no turn"),
    (OtherZeroWaits, "a zero takes no turn where the mark is the other zero"),
    (SparedWaits, "a spared reading takes no turn"),
    (SameWaits, "a reading that stays as it was takes no turn"),
    (SetFirst, "groom sets at the first turn"),
    (OnFrom, "the turns of the second series are counted on from the first"),
    (AlongLines, "the turns go along the lines, from series to series"),
    (Anew(4), "the turns begin anew after 4 lines"),
    (Anew(16), "the turns begin anew after 16 lines"),
    (Anew(64), "the turns begin anew after 64 lines"),
    (Anew(256), "the turns begin anew after 256 lines"),
    (Order19, "1 is asked before 9"),
    (Order29, "2 is asked before 9"),
    (Order21, "2 is asked before 1"),
    (Unknown2, "an unknown word is refused with 2"),
    (Beginning, "a word is known by its beginning"),
    (Capitals, "a word may have capitals"),
    (Numbered, "a method's number is a known word"),
    (LastNewline, "the last newline may lack"),
    (SecondNewline, "a second newline may stand at the end"),
    (Returns, "a line may end in CR LF"),
    (Spaces, "spaces are passed over"),
    (Tabs, "tabs are passed over"),
    (UntilNul, "the text ends at a NUL byte"),
    (FirstText, "a second text is passed over"),
    (Bits7, "the highest bit of a byte is passed over"),
    (LastComma, "a line may end in a comma"),
    (Mark3, "what follows the mark in its line is passed over"),
    (Head, "the first line is passed over"),
    (LowerValue, "a value may have a to f"),
    (LowerMark, "the mark may have a to f"),
    (Seven, "a value may have 7 digits"),
    (Nine, "a value may have 9 digits"),
    (Shorter, "a line may have fewer values"),
    (Longer, "a line may have more values"),
    (Lines513, "513 lines are accepted"),
    (Lines511, "512 lines are refused"),
    (NoLines, "no lines at all are refused"),
    (Series9, "nine series are accepted"),
    (Series7, "eight series are refused"),
    (Name17, "a name of 17 letters is accepted"),
    (Name15, "a name of 16 letters is refused"),
    (NameCapital, "a capital in a name is accepted"),
    (NameDigit, "a digit in a name is accepted"),
    (NameEmpty, "an empty name is accepted"),
    (NamesApart, "a repeated name is refused"),
    (Word17, "a word of 17 letters is accepted"),
    (Word15, "a word of 16 letters is refused with 9"),
    (Digits5, "a setting of 5 digits is accepted"),
    (Digits3, "a setting of 4 digits is refused with 9"),
    (Plus, "a setting may have a plus"),
    (MinusAlone, "a minus alone is a setting"),
    (LeadingZero, "a leading zero of the setting is refused"),
    (Octal, "a setting with a leading zero is octal"),
    (MinusZero, "the setting -0 is refused"),
    (Range(5, -150, 127), "absolute -150 is accepted"),
    (Range(5, -149, 128), "absolute 128 is accepted"),
    (Range(6, 0, 7), "digits 0 is accepted"),
    (Range(6, 1, 8), "digits 8 is accepted"),
    (Range(1, 0, 22), "set 23 is refused"),
    (Exchanged, "the counts of spared and clipped are exchanged"),
    (Upside, "the counts of risen and fallen are exchanged"),
    (BySize, "a rise is one of the size, without its sign"),
    (SparedMoved, "a spared reading counts as risen or fallen where its result would have"),
    (MissingMoved, "a missing reading counts as risen or fallen where it would have"),
    (ClipTurned, "a clipped reading counts the other way"),
    (ZeroStays(0), "a reading that becomes +0 counts as stayed"),
    (ZeroStays(1), "a reading that becomes -0 counts as stayed"),
    (MissingLast, "the counts of risen and fallen stand before that of missing"),
    (FourColumns, "the counts of risen and fallen are left out"),
    (FourNames, "the names of risen and fallen are left out"),
    (NamesTurned, "the names of risen and fallen are exchanged"),
    (Net, "risen and fallen are set off against each other"),
    (OfAll, "each line of counts is that of all series"),
    (CountsHead, "the line before the counts is left out"),
    (Untrimmed, "the lines are printed as they were read"),
    (BySeries, "the values are printed by series"),
    (RefusalNames, "a refusal prints the names too"),
    (RefusalLine, "a refusal has no newline"),
    (Lower, "patterns are printed with a to f"),
];

/// The methods among whose accepted texts a turned rule must show, each for itself; none where any text will do.
fn methods(rule: Rule) -> &'static [u32] {
    match rule {
        Trim(Slip::Overflow) => &[4],
        Trim(Slip::TieUp | Slip::ClipToTop) | SparedClipped | ClipTurned => &[4, 5],
        ZeroStays(_) => &[0, 2, 4, 5],
        Trim(Slip::ZeroTail) => &[1, 2, 3],
        Trim(Slip::ZeroSign) => &[5],
        Trim(Slip::DecadeBelow | Slip::TwoSpacingsStay) => &[6],
        Trim(Slip::NanTail) => &[0, 1, 2, 3],
        ByPlace | MissingTurn | FiniteMarkTurn | InfinityTurn | NanTurn | ZeroWaits | PlusWaits | MinusWaits | OtherZeroWaits => &[2],
        SparedWaits | SameWaits | SetFirst | OnFrom | AlongLines | Anew(_) => &[2],
        Trim(Slip::Flush) | NotSpared | SparedChanged | MissingTrimmed | ZerosAlike | NansAlike => &[0, 1, 2, 3, 4, 5, 6],
        Exchanged | OfAll | Untrimmed | BySeries | Lower => &[0, 1, 2, 3, 4, 5, 6],
        Upside | BySize | SparedMoved | MissingMoved | MissingLast | FourColumns | FourNames | NamesTurned | Net => &[0, 1, 2, 3, 4, 5, 6],
        _ => &[],
    }
}

/// What a text of the form says.
struct Job { word: Vec<u8>, setting: i32, mark: u64, names: Vec<Vec<u8>>, lines: Vec<Vec<u64>> }

/// A trimmed series and its six counts.
type Series = (Vec<u64>, [u64; 6]);

/// Document 01's program, with no rule or one rule turned.
struct Model { form: Form, turned: Option<Rule> }

/// The text without a byte wherever it stands before another one.
fn without_before(text: &[u8], byte: u8, other: u8) -> Vec<u8> {
    (0..text.len()).filter(|&i| text[i] != byte || text.get(i + 1) != Some(&other)).map(|i| text[i]).collect()
}
fn fields(line: &[u8]) -> Vec<&[u8]> { line.split(|&x| x == b',').collect() }

impl Model {
    fn new(turned: Option<Rule>) -> Model {
        let mut form = Form::new(23, 8);
        if let Some(Trim(slip)) = turned { form.slip = Some(slip); }
        Model { form, turned }
    }
    fn is(&self, rule: Rule) -> bool { self.turned == Some(rule) }
    /// 1 where the rule is turned.
    fn one(&self, rule: Rule) -> usize { self.is(rule) as usize }

    /// The text as a wrong model takes it; as it is where no such rule is turned.
    fn taken(&self, text: &[u8]) -> Vec<u8> {
        let without = |byte: u8| text.iter().copied().filter(|&x| x != byte).collect();
        let cut = |at: Option<usize>| text[..at.unwrap_or(text.len())].to_vec();
        match self.turned {
            Some(LastNewline) if !text.ends_with(b"\n") => [text, b"\n"].concat(),
            Some(SecondNewline) if text.ends_with(b"\n\n") => text[..text.len() - 1].to_vec(),
            Some(Spaces) => without(b' '),
            Some(Tabs) => without(b'\t'),
            Some(UntilNul) => cut(text.iter().position(|&x| x == 0)),
            Some(FirstText) => cut((1..text.len()).find(|&i| text[i - 1] == b'\n' && text[i..].starts_with(HEAD.as_bytes()))),
            Some(Bits7) => text.iter().map(|x| x & 0x7F).collect(),
            Some(Returns) => without_before(text, b'\r', b'\n'),
            Some(LastComma) => without_before(text, b',', b'\n'),
            _ => text.to_vec(),
        }
    }
    fn letters(&self, field: &[u8], most: usize, also: fn(&u8) -> bool) -> bool {
        (1..=most).contains(&field.len()) && field.iter().all(|x| x.is_ascii_lowercase() || also(x))
    }
    fn name(&self, field: &[u8]) -> bool {
        let also = match self.turned {
            Some(NameCapital) => u8::is_ascii_uppercase,
            Some(NameDigit) => u8::is_ascii_digit,
            _ => |_: &u8| false,
        };
        self.letters(field, 16 + self.one(Name17) - self.one(Name15), also) || self.is(NameEmpty) && field.is_empty()
    }
    fn word(&self, field: &[u8]) -> bool {
        let also = match self.turned {
            Some(Capitals) => u8::is_ascii_uppercase,
            Some(Numbered) => u8::is_ascii_digit,
            _ => |_: &u8| false,
        };
        self.letters(field, 16 + self.one(Word17) - self.one(Word15), also)
    }
    fn setting(&self, field: &[u8]) -> Option<i32> {
        let field = if self.is(Plus) { field.strip_prefix(b"+").unwrap_or(field) } else { field };
        let digits = field.strip_prefix(b"-").unwrap_or(field);
        let most = 4 + self.one(Digits5) - self.one(Digits3);
        if self.is(MinusAlone) && field == b"-" { return Some(0); }
        if !(1..=most).contains(&digits.len()) || !digits.iter().all(u8::is_ascii_digit) { return None; }
        if self.is(LeadingZero) && digits.len() > 1 && digits[0] == b'0' { return None; }
        let base = if self.is(Octal) && digits[0] == b'0' { 8 } else { 10 };
        let size = digits.iter().fold(0, |sum, x| sum * base + (x - b'0') as i32);
        if self.is(MinusZero) && digits != field && size == 0 { return None; }
        Some(if digits != field { -size } else { size })
    }
    fn pattern(&self, field: &[u8], lower: Rule) -> Option<u64> {
        let digit = |x: &u8| x.is_ascii_digit() || (b'A'..=b'F').contains(x) || self.is(lower) && (b'a'..=b'f').contains(x);
        let counted = field.len() == 8 || self.is(Seven) && field.len() == 7 || self.is(Nine) && field.len() == 9;
        if !counted || !field.iter().all(digit) { return None; }
        let text = std::str::from_utf8(field).unwrap();
        Some(u64::from_str_radix(text, 16).unwrap() & 0xFFFF_FFFF)
    }
    /// The word, the setting and the mark of the job's line.
    fn job(&self, line: &[u8]) -> Option<(Vec<u8>, i32, u64)> {
        let mut fields = fields(line);
        if self.is(Mark3) { fields.truncate(3); }
        let [word, setting, mark] = fields[..] else { return None };
        if !self.word(word) { return None; }
        Some((word.to_ascii_lowercase(), self.setting(setting)?, self.pattern(mark, LowerMark)?))
    }
    fn values(&self, line: &[u8], count: usize) -> Option<Vec<u64>> {
        let mut fields = fields(line);
        if self.is(Longer) { fields.truncate(count); }
        let short = self.is(Shorter) && fields.len() < count;
        let mut values = fields.into_iter().map(|x| self.pattern(x, LowerValue)).collect::<Option<Vec<u64>>>()?;
        if short { values.resize(count, 0); }
        (values.len() == count).then_some(values)
    }
    /// What the text says, if it has the form.
    fn read(&self, text: &[u8]) -> Option<Job> {
        let lines: Vec<&[u8]> = text.strip_suffix(b"\n")?.split(|&x| x == b'\n').collect();
        let [head, job, names, values @ ..] = &lines[..] else { return None };
        let (word, setting, mark) = self.job(job)?;
        let names: Vec<Vec<u8>> = fields(names).into_iter().map(<[u8]>::to_vec).collect();
        let series = 8 + self.one(Series9) - self.one(Series7);
        let most = 512 + self.one(Lines513) - self.one(Lines511);
        let good = (*head == HEAD.as_bytes() || self.is(Head)) && (1..=series).contains(&names.len()) && values.len() <= most;
        let repeated = (1..names.len()).any(|i| names[..i].contains(&names[i]));
        if !good || !names.iter().all(|x| self.name(x)) || self.is(NamesApart) && repeated { return None; }
        if self.is(NoLines) && values.is_empty() { return None; }
        let lines = values.iter().map(|line| self.values(line, names.len())).collect::<Option<_>>()?;
        Some(Job { word, setting, mark, names, lines })
    }
    fn method(&self, word: &[u8]) -> Option<u32> {
        let alike = |known: &str| known.as_bytes().starts_with(word) || word.starts_with(known.as_bytes());
        let known = |known: &&str| if self.is(Beginning) { alike(known) } else { known.as_bytes() == word };
        if self.is(Numbered) && word.len() == 1 && (b'0'..b'7').contains(&word[0]) { return Some((word[0] - b'0') as u32); }
        WORDS.iter().position(|x| known(&x)).map(|x| x as u32)
    }
    /// The questions 1 and 2; 0 where both are answered "yes".
    fn refusal(&self, word: &[u8], setting: i32) -> u32 {
        let Some(method) = self.method(word) else {
            let far = !(-149..=127).contains(&setting);
            return if self.is(Unknown2) || self.is(Order21) && far { 2 } else { 1 };
        };
        match self.turned {
            Some(Range(of, least, most)) if method == of as u32 => if (least..=most).contains(&setting) { 0 } else { 2 },
            _ => self.form.refusal(method, setting),
        }
    }
    /// The number of the first question answered "no", or 0, and what the text says.
    fn ask(&self, text: &[u8]) -> (u32, Option<Job>) {
        let early = text.split(|&x| x == b'\n').nth(1).and_then(|line| self.job(line)).map_or(0, |job| self.refusal(&job.0, job.1));
        if early == 1 && self.is(Order19) || early == 2 && self.is(Order29) { return (early, None); }
        let Some(job) = self.read(text) else { return (9, None) };
        (self.refusal(&job.word, job.setting), Some(job))
    }

    fn left(&self, old: u64, plain: Own, mark: u64) -> (u64, Kinds) {
        let both = |is: fn(u64) -> bool| is(old % (1 << 31)) && is(mark % (1 << 31));
        let (mut new, mut kinds) = left(old, plain, mark);
        let ([up, down], alike) = (ways(plain.2), [false, false, false, true, false, false]);
        match self.turned {
            Some(NotSpared) if kinds[1] => (new, kinds) = (mark, [true, false, plain.1, false, up, down]),
            Some(SparedChanged) => kinds[0] |= kinds[1],
            Some(SparedClipped) => kinds[2] = plain.1 && !kinds[3],
            Some(MissingTrimmed) if kinds[3] => (new, kinds[0]) = (plain.0, plain.0 != old),
            Some(ZerosAlike) if both(|m| m == 0) => (new, kinds) = (old, alike),
            Some(NansAlike) if both(|m| m > 0x7F800000) => (new, kinds) = (old, alike),
            Some(Upside) => kinds.swap(4, 5),
            Some(BySize) if old >= 1 << 31 => kinds.swap(4, 5),
            Some(SparedMoved) if kinds[1] => (kinds[4], kinds[5]) = (up, down),
            Some(MissingMoved) if kinds[3] => (kinds[4], kinds[5]) = (up, down),
            Some(ClipTurned) if kinds[2] => kinds.swap(4, 5),
            Some(ZeroStays(sign)) if new == sign << 31 => (kinds[4], kinds[5]) = (false, false),
            _ => {}
        }
        (new, kinds)
    }
    fn series(&self, job: &Job, column: usize) -> Series {
        let method = self.method(&job.word).unwrap();
        // Beyond its range a setting means nothing; a model that accepts one takes the last that does.
        let (least, most) = self.form.range(method);
        let setting = job.setting.clamp(least, most);
        let (mut out, mut counts, mut follows) = (vec![], [0; 6], 0);
        for (i, line) in job.lines.iter().enumerate() {
            let turn = self.turn(job, column, i, follows);
            let plain = self.form.own(method, setting, line[column], turn % 2 == 1);
            let (new, kinds) = self.left(line[column], plain, job.mark);
            (0..6).for_each(|k| counts[k] += kinds[k] as u64);
            follows = turn + self.takes_turn(line[column], job.mark, new, kinds) as usize;
            out.push(if self.is(Untrimmed) { line[column] } else { new });
        }
        (out, counts)
    }
    /// The turn of a series at a line, by the one that follows from its lines before.
    fn turn(&self, job: &Job, column: usize, line: usize, follows: usize) -> usize {
        let takers = |of: &[u64]| of.iter().filter(|&&x| self.form.takes_turn(x, job.mark)).count();
        match self.turned {
            Some(SetFirst) if line == 0 => 1,
            Some(OnFrom) if line == 0 => job.lines.iter().map(|x| takers(&x[..column])).sum(),
            Some(AlongLines) => job.lines[..line].iter().map(|x| takers(x)).sum::<usize>() + takers(&job.lines[line][..column]),
            Some(Anew(block)) if line % block == 0 => 0,
            _ => follows,
        }
    }
    /// Whether a reading takes a turn, by what is left of it and what it counts as.
    fn takes_turn(&self, old: u64, mark: u64, new: u64, [_, spared, _, missing, ..]: Kinds) -> bool {
        let (m, top) = (old % (1 << 31), self.form.infinity);
        let wrongly = match self.turned {
            Some(ByPlace) => missing || m >= top,
            Some(MissingTurn) => missing,
            Some(FiniteMarkTurn) => missing && m < top,
            Some(InfinityTurn) => !missing && m == top,
            Some(NanTurn) => !missing && m > top,
            Some(ZeroWaits) => !missing && m == 0,
            Some(PlusWaits) => !missing && old == 0,
            Some(MinusWaits) => !missing && old == 1 << 31,
            Some(OtherZeroWaits) => !missing && m == 0 && mark % (1 << 31) == 0,
            Some(SparedWaits) => spared,
            Some(SameWaits) => !missing && m < top && new == old,
            _ => false,
        };
        self.form.takes_turn(old, mark) != wrongly
    }
    /// What an accepted text prints.
    fn print(&self, job: &Job, mut series: Vec<Series>) -> String {
        let hex = |x: u64| if self.is(Lower) { format!("{x:08x}") } else { format!("{x:08X}") };
        let line = |values: Vec<String>| values.join(",") + "\n";
        let mut out = self.names(job);
        if self.is(BySeries) {
            series.iter().for_each(|s| out += &line(s.0.iter().map(|&x| hex(x)).collect()));
        } else {
            (0..job.lines.len()).for_each(|i| out += &line(series.iter().map(|s| hex(s.0[i])).collect()));
        }
        let mut names: Vec<String> = COUNTS.split(',').map(String::from).collect();
        if self.is(NamesTurned) { names.swap(4, 5); }
        if self.is(FourNames) { names.truncate(4); }
        if !self.is(CountsHead) { out += &line(names); }
        let all = series.iter().fold([0; 6], |sum, s| SIX.map(|k| sum[k] + s.1[k]));
        for (_, counts) in &mut series {
            if self.is(Exchanged) { counts.swap(1, 2); }
            if self.is(OfAll) { *counts = all; }
            if self.is(MissingLast) { counts[3..].rotate_left(1); }
            if self.is(Net) { let less = counts[4].min(counts[5]); counts[4] -= less; counts[5] -= less; }
            out += &line(counts.iter().take(if self.is(FourColumns) { 4 } else { 6 }).map(u64::to_string).collect());
        }
        out
    }
    fn names(&self, job: &Job) -> String { String::from_utf8(job.names.join(&b","[..])).expect("names in ASCII") + "\n" }
    /// What the program prints, the number of the refusal, or 0, and for an accepted text what it says and its trimmed series.
    fn answer(&self, text: &[u8]) -> (String, u32, Option<(Job, Vec<Series>)>) {
        let (refusal, job) = self.ask(&self.taken(text));
        if refusal == 0 {
            let job = job.unwrap();
            let series: Vec<Series> = (0..job.names.len()).map(|column| self.series(&job, column)).collect();
            return (self.print(&job, series.clone()), 0, Some((job, series)));
        }
        let names = if self.is(RefusalNames) { job.map_or(String::new(), |job| self.names(&job)) } else { String::new() };
        (format!("{names}refused,{refusal}{}", if self.is(RefusalLine) { "" } else { "\n" }), refusal, None)
    }
}

/// How a text comes to the program.
#[derive(Clone, Copy, PartialEq)]
enum Way { Whole, Pieces(usize), Stored }

/// A text for the program, and the answer it was made for: 0 or the refusal's number, if that was settled when it was made.
struct Text { kind: &'static str, bytes: Vec<u8>, said: Option<u32>, way: Way }

/// The parts of a text of the form, each of which may be damaged.
#[derive(Clone)]
struct Draft { head: String, job: Vec<String>, names: Vec<String>, lines: Vec<Vec<String>> }
impl Draft {
    fn text(&self) -> Vec<u8> {
        let mut lines = vec![self.head.clone(), self.job.join(","), self.names.join(",")];
        lines.extend(self.lines.iter().map(|line| line.join(",")));
        lines.iter().flat_map(|line| line.bytes().chain([b'\n'])).collect()
    }
}

/// Makes the texts; the same ones in every run.
struct Maker { seed: u64, model: Model, ends: Vec<u64>, tens: Vec<u64>, texts: Vec<Text> }

/// The kinds of marks.
const MARKS: [&str; 16] = [
    "a quiet NaN", "a NaN with a payload", "+infinity", "-infinity", "+0", "-0",
    "a reading", "the result of a reading", "the result of a clipped one", "a neighbour of a reading",
    "the largest finite", "a subnormal", "the end of a binade", "any pattern", "01's", "the opposite of a reading",
];

impl Maker {
    fn new() -> Maker {
        let model = Model::new(None);
        let (ends, tens) = (ends(&model.form), tens(&model.form));
        Maker { seed: 0x9E3779B97F4A7C15, model, ends, tens, texts: vec![] }
    }
    fn random(&mut self) -> u64 {
        self.seed ^= self.seed << 13; self.seed ^= self.seed >> 7; self.seed ^= self.seed << 17;
        self.seed.wrapping_mul(0x2545F4914F6CDD1D).rotate_left(29)
    }
    fn below(&mut self, n: usize) -> usize { (self.random() % n as u64) as usize }
    fn pick<T: Copy>(&mut self, from: &[T]) -> T { from[self.below(from.len())] }
    fn sign(&mut self, m: u64) -> u64 { m ^ (self.below(2) as u64) << 31 }
    fn add(&mut self, kind: &'static str, said: impl Into<Option<u32>>, bytes: impl Into<Vec<u8>>) {
        self.texts.push(Text { kind, bytes: bytes.into(), said: said.into(), way: Way::Whole });
    }
    fn letters(&mut self, n: usize) -> String { (0..n).map(|_| (b'a' + self.below(26) as u8) as char).collect() }

    /// A reading whose last bits lie at, or next to, what decides about it.
    fn edge(&mut self, method: u32, setting: i32) -> u64 {
        let (any, near) = (self.below(255) as i32, self.below(27) as i32);
        let e = if method == 5 { setting + 150 - near } else { self.pick(&[any, any, any, 0, 1, 127, 254]) }.clamp(0, 254);
        let at = match method {
            0..=4 => 23 - setting,
            5 => setting + 150 - e.max(1),
            _ => near,
        };
        let (unit, random) = (1u64 << at.clamp(0, 23), self.random());
        let fraction = self.pick(&[random, random, random, 0, u64::MAX]) / unit * unit;
        let tail = self.pick(&[0, 1, unit / 2 + unit - 1, unit / 2, unit / 2, unit / 2 + 1, unit - 1, random]) % unit;
        ((e as u64) << 23) + fraction % (1 << 23) + tail
    }
    fn reading(&mut self, method: u32, setting: i32) -> u64 {
        let (random, end, ten) = (self.random(), self.below(self.ends.len()), self.below(self.tens.len()));
        let m = match self.below(if method == 6 { 14 } else { 11 }) {
            0 => self.ends[end],
            1 => random & 0xFFFF_FFFF,
            2 => random % (1 << 23) >> self.below(23),
            3 => (self.below(100_000) as f32 / 1000.0).to_bits() as u64,
            4 => 0x7F800000 - random % 3 * (1 << self.below(16)),
            5..=9 => self.edge(method, setting),
            _ => self.tens[ten],
        };
        self.sign(m)
    }
    /// A mark of a kind, for these lines.
    fn mark(&mut self, kind: usize, method: u32, setting: i32, lines: &[Vec<u64>]) -> u64 {
        let (at, random) = (self.below(lines.len().max(1)), self.random());
        let column = self.below(lines.first().map_or(1, Vec::len));
        let x = lines.get(at).map_or(0x40490FDB, |line| line[column]);
        let trimmed = |x: u64| self.model.form.trim(method, setting, x, at % 2 == 1).0;
        let mark = match kind {
            0 => 0x7FC00000,
            1 => self.sign(0x7F800001 + random % 0x7FFFFF),
            2 => 0x7F800000,
            3 => 0xFF800000,
            4 => 0,
            5 => 1 << 31,
            6 => x,
            7 => trimmed(x),
            8 => trimmed(0x7F7FFFFF ^ random >> 63 << 31),
            9 => x + random % 2 * 2 + 0xFFFF_FFFF,
            10 => self.sign(0x7F7FFFFF),
            11 => self.sign(random % (1 << 23)),
            12 => self.sign((1 + random % 254 << 23) - (random >> 63)),
            13 => random,
            14 => 0x7CF00000,
            _ => x ^ 1 << 31,
        };
        mark & 0xFFFF_FFFF
    }
    /// A setting in the method's range.
    fn setting(&mut self, method: u32) -> i32 {
        let (least, most) = self.model.form.range(method);
        least + self.below((most - least + 1) as usize) as i32
    }
    fn spelled(&mut self, setting: i32) -> String {
        let minus = if setting < 0 || setting == 0 && self.below(4) == 0 { "-" } else { "" };
        let width = self.pick(&[1, 1, 1, 2, 3, 4]);
        format!("{minus}{:0width$}", setting.unsigned_abs())
    }
    fn names(&mut self, n: usize) -> Vec<String> {
        let mut out: Vec<String> = vec![];
        for i in 0..n {
            let length = self.pick(&[1, 2, 4, 5, 9, 15, 16]);
            let earlier = if i > 0 && self.below(6) == 0 { Some(self.below(i)) } else { None };
            out.push(earlier.map_or_else(|| self.letters(length), |at: usize| out[at].clone()));
        }
        out
    }
    /// A text of the form, with a known word; the setting may lie beyond its range.
    fn draft(&mut self, method: u32, setting: i32, series: usize, lines: usize, kind: usize) -> Draft {
        let (least, most) = self.model.form.range(method);
        let near = setting.clamp(least, most);
        let mut values: Vec<Vec<u64>> = (0..lines).map(|_| (0..series).map(|_| self.reading(method, near)).collect()).collect();
        let mark = self.mark(kind, method, near, &values);
        // The mark itself, its neighbours and its opposite are strewn in, and readings that clip where their result is the mark.
        let mut strewn = vec![mark, mark, mark + 1, mark + 0xFFFF_FFFF, mark ^ 1 << 31];
        if kind == 8 { strewn = vec![mark, mark | 0x7FFFFF, mark | 0x7FFFFF, mark + 1]; }
        for value in values.iter_mut().flatten() {
            if self.below(6) == 0 { *value = self.pick(&strewn) & 0xFFFF_FFFF; }
        }
        let hex = |x: &u64| format!("{x:08X}");
        let job = vec![WORDS[method as usize].to_string(), self.spelled(setting), hex(&mark)];
        let lines = values.iter().map(|line| line.iter().map(hex).collect()).collect();
        Draft { head: HEAD.to_string(), job, names: self.names(series), lines }
    }
    /// A small accepted draft of any kind.
    fn small(&mut self) -> Draft {
        let method = self.below(7) as u32;
        let setting = self.setting(method);
        let (series, lines, kind) = (1 + self.below(4), 1 + self.below(6), self.below(MARKS.len()));
        self.draft(method, setting, series, lines, kind)
    }

    /// Texts of the form, and those whose job alone is refused.
    fn good(&mut self) {
        self.add("01's listing", 0, LISTING);
        for method in 0..7 {
            let (least, most) = self.model.form.range(method);
            for setting in (least - 1..=most + 1).chain(least - 1..=most + 1) {
                let (series, lines, kind) = (1 + self.below(3), self.pick(&[1, 2, 3, 8, 20]), self.below(MARKS.len()));
                let said = if (least..=most).contains(&setting) { 0 } else { 2 };
                let text = self.draft(method, setting, series, lines, kind).text();
                self.add(if said == 0 { "every setting" } else { "one setting beyond" }, said, text);
            }
            for kind in (0..MARKS.len()).flat_map(|kind| [kind; 4]) {
                let setting = self.setting(method);
                let (series, lines) = (1 + self.below(3), 6 + self.below(30));
                let text = self.draft(method, setting, series, lines, kind).text();
                self.add(told("mark", MARKS[kind]), 0, text);
            }
        }
        for lines in [0, 1, 2, 3, 4, 5, 15, 16, 17, 32, 63, 64, 65, 255, 256, 257, 511, 512] {
            for series in 1..=8 {
                let method = self.below(7) as u32;
                let (setting, kind) = (self.setting(method), self.below(MARKS.len()));
                let text = self.draft(method, setting, series, lines, kind).text();
                self.add("every number of series", 0, text);
            }
        }
    }
    /// The largest texts of each method, and counts from 0 to 512 of each kind, which take from one digit to three.
    fn large(&mut self) {
        for method in 0..7 {
            let setting = self.setting(method);
            let text = self.draft(method, setting, 8, 512, 7).text();
            self.add("512 lines of 8 series", 0, text);
        }
        // By round 7 with 01's mark these fall, rise, are spared, clip and fall, clip and rise, and are missing; and the last stays.
        let readings = ["40490FDB", "C0490FDB", "7CF00001", "7F7FFFFF", "FF7FFFFF", "7CF00000", "3F800000"];
        let counts = [0, 1, 2, 8, 9, 10, 11, 19, 20, 90, 99, 100, 101, 109, 110, 199, 200, 255, 256, 257, 499, 500, 509, 510, 511, 512];
        for n in counts {
            let lines = self.pick(&[n, 512, 512]);
            let reading = |line: usize, series: usize| readings[if line * n / lines < (line + 1) * n / lines { series } else { 6 }];
            let line = |line| (0..6).map(|series| reading(line, series)).collect::<Vec<_>>().join(",") + "\n";
            let values: String = (0..lines).map(line).collect();
            self.add("counts of each length", 0, format!("{HEAD}\nround,7,7CF00000\na,b,c,d,e,f\n{values}"));
            let (want, ..) = self.model.answer(&self.texts.last().unwrap().bytes);
            let moved = format!("{n},0,0,0,0,{n}\n{n},0,0,0,{n},0\n");
            let counts = format!("{COUNTS}\n{moved}0,{n},0,0,0,0\n{n},0,{n},0,0,{n}\n{n},0,{n},0,{n},0\n0,0,0,{n},0,0\n");
            assert!(want.ends_with(&counts), "the model's counts");
        }
    }
    /// Texts to groom whose series have turns of their own: each has other readings that take none, and zeros.
    fn turns(&mut self) {
        self.add("stations of every second slot", 0, STATIONS);
        for (i, lines) in (0..=40).chain([63, 64, 65, 127, 128, 129, 255, 256, 257, 300, 400, 511, 512]).enumerate() {
            let setting = self.setting(2);
            let mut draft = self.draft(2, setting, 1 + i % 8, lines, i % MARKS.len());
            let mark = draft.job[2].clone();
            let idle = [&mark[..], &mark, "7F800000", "FF800000", "7FC00000", "FF800001"];
            let zeros = ["00000000", "80000000"];
            for line in 0..lines {
                for (series, value) in draft.lines[line].iter_mut().enumerate() {
                    let other = match (series + i) % 8 {
                        0 => (line % 2 == 0).then_some(&mark[..]),
                        1 => (line % 2 == 1).then_some(&mark[..]),
                        2 => (self.below(20) == 0).then(|| self.pick(&idle)),
                        3 => (self.below(2) == 0).then(|| self.pick(&idle)),
                        4 => (self.below(4) == 0).then(|| self.pick(&zeros)),
                        5 => (line == i % 8).then(|| self.pick(&idle)),
                        6 => Some(self.pick(&idle)),
                        _ => None,
                    };
                    if let Some(other) = other { *value = other.to_string(); }
                }
            }
            self.add("series with turns of their own", 0, draft.text());
        }
    }
    /// The job's line: settings as they may be spelled, and unknown words.
    fn jobs(&mut self) {
        let spelled = [
            "0", "00", "000", "0000", "-0", "-00", "-000", "-0000", "1", "01", "7", "07", "007", "0007", "-7", "-07", "-0007",
            "8", "08", "010", "0010", "012", "23", "023", "0023", "24", "127", "0127", "128", "-1", "-149", "-0149", "-150", "-0150",
            "999", "1023", "-1074", "9999", "-9999",
        ];
        for (word, setting) in WORDS.iter().flat_map(|word| spelled.map(|setting| (word, setting))) {
            let mut draft = self.small();
            draft.job = vec![word.to_string(), setting.to_string(), draft.job[2].clone()];
            let method = WORDS.iter().position(|x| x == word).unwrap() as u32;
            let said = self.model.form.refusal(method, setting.parse().unwrap());
            self.add(if said == 0 { "spelled settings" } else { "spelled settings beyond" }, said, draft.text());
        }
        let unknown = [
            "a", "z", "r", "roun", "rounds", "rround", "roundround", "se", "sets", "shav", "shaved", "half", "halfshav", "halfshaved",
            "groo", "grooms", "absolut", "absolutes", "digit", "digitss", "bitround", "granular", "method", "mark", "none", "refused",
            "abcdefghijklmnop", "zzzzzzzzzzzzzzzz", "setsetsetsetsets", "rain",
        ];
        for word in unknown {
            for setting in ["0", "7", "-1", "24", "128", "9999", "-9999", "-0000"] {
                let mut draft = self.small();
                draft.job = vec![word.to_string(), setting.to_string(), draft.job[2].clone()];
                self.add("an unknown word", 1, draft.text());
            }
        }
        let words = ["a", "z", "method", "setting", "mark", "round", "changed", "risen", "fallen", "refused"];
        for name in words.into_iter().chain(["abcdefghijklmnop", "zzzzzzzzzzzzzzzz"]) {
            let mut draft = self.small();
            draft.names[0] = name.to_string();
            self.add("names", 0, draft.text());
            draft.names.fill(name.to_string());
            self.add("names, repeated", 0, draft.text());
        }
    }
    /// The longest text of the form, with this word.
    fn longest(&mut self, word: &str) -> Draft {
        let mut draft = self.draft(3, 0, 8, 512, 7);
        draft.job = vec![word.to_string(), "-0000".to_string(), draft.job[2].clone()];
        draft.names = (0..8).map(|_| self.letters(16)).collect();
        draft
    }
    /// The longest answers: only a method that clips makes them. In each series the first readings clip and fall, the next clip and rise,
    /// the next are spared and the last are missing, 100 or more of each.
    fn longest_answers(&mut self) {
        let reading = |line: usize, series: usize| match line {
            _ if line < 100 + series => "7F7FFFFF",
            _ if line < 210 + 2 * series => "FF7FFFFF",
            _ if line < 330 + 3 * series => "7CF00001",
            _ => "7CF00000",
        };
        let counts = |s: u64| format!("{},{},{0},{},{},{}\n", 210 + 2 * s, 120 + s, 182 - 3 * s, 110 + s, 100 + s);
        for job in ["round,0007", "absolute,0119"] {
            let names: Vec<String> = (0..8).map(|_| self.letters(16)).collect();
            let line = |line| (0..8).map(|series| reading(line, series)).collect::<Vec<_>>().join(",") + "\n";
            let values: String = (0..512).map(line).collect();
            self.add("the longest answer", 0, format!("{HEAD}\n{job},7CF00000\n{}\n{values}", names.join(",")));
            let (want, ..) = self.model.answer(&self.texts.last().unwrap().bytes);
            assert!(want.ends_with(&format!("\n{COUNTS}\n{}", (0..8).map(counts).collect::<String>())), "the longest answer's counts");
            assert_eq!((want.len(), LONGEST_ANSWER), (37236, 37236), "the longest answer");
        }
    }
    /// The longest texts, and those that are one byte longer.
    fn long(&mut self) {
        let unknown = self.longest("abcdefghijklmnop");
        let known = self.longest("halfshave");
        assert_eq!((unknown.text().len(), known.text().len(), LONGEST), (37052, 37045, 37052), "the longest texts");
        self.add("the longest text, unknown word", 1, unknown.text());
        self.add("the longest text, known word", 0, known.text());
        let mut edits = vec![unknown.clone(); 6];
        edits[0].job[0] += "q";
        edits[1].job[1] += "0";
        edits[2].job[2] += "0";
        edits[3].names[7] += "q";
        edits[4].lines[511][7] += "0";
        edits[5].lines[511][7] += "\n";
        for edit in edits {
            assert_eq!(edit.text().len(), LONGEST + 1, "one byte longer");
            self.add("one byte longer than the longest", 9, edit.text());
        }
        for (series, lines) in [(1, 513), (8, 513), (3, 514), (1, 1000), (9, 0), (9, 1), (9, 512), (10, 2), (40, 3), (9, 513)] {
            let draft = self.draft(4, 7, series, lines, 14);
            self.add(if lines > 512 { "513 lines and more" } else { "nine series and more" }, 9, draft.text());
        }
    }
    /// Texts that come in pieces, so that a read gives less than there is to come, and from a file.
    fn ways(&mut self) {
        let long = self.longest("halfshave").text();
        let mut damaged = long.clone();
        damaged[37000] = b'x';
        let listing = LISTING.as_bytes().to_vec();
        let texts = [(listing.clone(), 0), (listing[..83].to_vec(), 9), (vec![], 9), (long, 0), (damaged, 9)];
        for (bytes, said) in texts {
            let size = if bytes.len() < 100 { 1 } else { 1000 };
            for (kind, way) in [("in small pieces", Way::Pieces(size)), ("in pieces", Way::Pieces(4096)), ("from a file", Way::Stored)] {
                self.add(kind, said, bytes.clone());
                self.texts.last_mut().unwrap().way = way;
            }
        }
    }
}

/// Fields that are no pattern, no setting, no word and no name, with the kind of damage.
const NO_PATTERNS: [(&str, &[&str]); 8] = [
    ("lower case", &["7cf00000", "7CF0000f", "a0000000", "deadbeef", "7CF0000a", "0000000b"]),
    ("7 digits", &["7CF0000", "0000000"]),
    ("9 digits", &["7CF000000", "07CF00000", "000000000"]),
    ("empty", &[""]),
    ("a space", &[" 7CF00000", "7CF00000 ", "7CF0 000", " 7CF0000", "7CF0000 ", "        "]),
    ("a tab or CR", &["\t7CF00000", "7CF00000\t", "7CF00000\r", "\r7CF00000", "7CF0000\r"]),
    ("no digit", &["7CF0000G", "7CF0000/", "7CF0000:", "7CF0000@", "7CF0000`", "7CF0000g", "-7CF0000", "+7CF0000", "0x7CF000"]),
    ("no pattern", &["3.141592", "NaN", "7CF0000\0", "7CF000é", "\07CF00000", "########"]),
];
const NO_SETTINGS: [(&str, &[&str]); 6] = [
    ("5 digits", &["00007", "12345", "-00007", "99999", "-99999", "00000", "4294967303", "18446744073709551623"]),
    ("a plus", &["+7", "+0", "+0007", "-+7", "+-7", "+"]),
    ("two minuses", &["--7", "7-", "--0", "--", "1-1"]),
    ("a minus alone", &["-"]),
    ("empty", &[""]),
    ("no digit", &["7 ", " 7", "- 7", "0x7", "7.0", "1e1", "/", ":", "a", "7\0", "7\r", "٣", "A"]),
];
const NO_LETTERS: [(&str, &[&str]); 6] = [
    ("17 letters", &["abcdefghijklmnopq", "aaaaaaaaaaaaaaaaa", "rainrainrainrainrain", "halfshavehalfshave"]),
    ("empty", &[""]),
    ("a capital", &["Round", "ROUND", "rounD", "Z", "raiN", "Shave", "dIgits"]),
    ("a digit", &["4", "r0und", "round7", "0", "6", "rain1"]),
    ("a space, tab or CR", &["round ", " round", "ro und", "\tround", "round\r", " "]),
    ("another byte", &["round\0", "ro-und", "rain_a", "`", "{", "@", "[", "é", "rainé", "\"rain\"", "round;"]),
];

impl Maker {
    /// 01's listing with one byte deleted, doubled, changed, put in, exchanged; and cut.
    fn listing(&mut self) {
        let listing = LISTING.as_bytes();
        assert_eq!(listing.len(), 84, "01's listing");
        for i in 0..84 {
            // The first line is fixed, so that any change to it is against the form.
            let said = (i < 20).then_some(9);
            let (before, byte, after) = (&listing[..i], listing[i], &listing[i + 1..]);
            self.add("listing, a byte deleted", if byte == b'\n' { Some(9) } else { said }, [before, after].concat());
            let doubled = if [b'\n', b','].contains(&byte) { Some(9) } else { said };
            self.add("listing, a byte doubled", doubled, [before, &[byte, byte], after].concat());
            let mut others = [&b"\n, \r\t079AFGafz-\0"[..], &[byte | 0x80, byte ^ 0x20, byte + 1, byte - 1]].concat();
            if [0, 19, 20, 26, 27, 28, 36, 37, 48, 83].contains(&i) { others = (0..=255).collect(); }
            others.sort();
            others.dedup();
            for other in others.into_iter().filter(|&x| x != byte) {
                self.add("listing, a byte changed", said, [before, &[other], after].concat());
            }
            for other in [b'\n', b',', b' ', b'\r', b'0', b'a', b'-', 0, 0xFF] {
                self.add("listing, a byte put in", said, [before, &[other], &listing[i..]].concat());
            }
            if i < 83 { self.add("listing, two bytes exchanged", None, [before, &[listing[i + 1], byte], &listing[i + 2..]].concat()); }
            // A text may end after the names and after each line.
            self.add("listing, cut", if [48, 66].contains(&i) { 0 } else { 9 }, before);
            self.add("listing, cut at the front", if i == 0 { 0 } else { 9 }, &listing[i..]);
        }
    }
    /// A damage to some drafts: as it is, with an unknown word, and with a setting out of range; 9 is asked before both.
    fn harm(&mut self, kind: &'static str, damage: impl Fn(&mut Maker, &mut Draft)) {
        for word in [None, Some("unknown"), Some("shave")] {
            let mut draft = self.small();
            if let Some(word) = word { draft.job = vec![word.to_string(), "9999".to_string(), draft.job[2].clone()]; }
            damage(self, &mut draft);
            self.add(kind, 9, draft.text());
        }
    }
    /// One field that hasn't its form.
    fn fields(&mut self) {
        for (kind, fields) in NO_PATTERNS {
            for &field in fields {
                self.harm(told("a value", kind), |maker, draft| {
                    let (line, column) = (maker.below(draft.lines.len()), maker.below(draft.names.len()));
                    draft.lines[line][column] = field.to_string();
                });
                self.harm(told("the mark", kind), |_, draft| draft.job[2] = field.to_string());
            }
        }
        for (kind, fields) in NO_SETTINGS {
            fields.iter().for_each(|field| self.harm(told("the setting", kind), |_, draft| draft.job[1] = field.to_string()));
        }
        for (kind, fields) in NO_LETTERS {
            for &field in fields {
                self.harm(told("the word", kind), |_, draft| draft.job[0] = field.to_string());
                self.harm(told("a name", kind), |maker, draft| {
                    let column = maker.below(draft.names.len());
                    draft.names[column] = field.to_string();
                });
            }
        }
    }
    /// Lines with too few or too many fields, and other lines than those of the form.
    fn lines(&mut self) {
        for i in 0..5 {
            // Any line; often the first or the last.
            let at = |draft: &Draft| i % draft.lines.len();
            self.harm("a line with a value less", |_, draft| { let at = at(draft); draft.lines[at].pop(); });
            self.harm("a line with a value more", |_, draft| { let at = at(draft); draft.lines[at].push("3F800000".into()); });
            self.harm("a line that ends in a comma", |_, draft| { let at = at(draft); draft.lines[at].push(String::new()); });
            self.harm("a line that begins with a comma", |_, draft| { let at = at(draft); draft.lines[at].insert(0, String::new()); });
            self.harm("an empty line among the values", |_, draft| { let at = at(draft); draft.lines.insert(at, vec![]); });
            self.harm("a second newline at the end", |_, draft| draft.lines.push(vec![]));
            self.harm("an empty line before the names", |_, draft| draft.names[0].insert(0, '\n'));
            self.harm("an empty line before the job", |_, draft| draft.job[0].insert(0, '\n'));
            self.harm("an empty line before the first", |_, draft| draft.head.insert(0, '\n'));
            self.harm("a job with a value more", |_, draft| draft.job[2] += ",7");
            self.harm("a job that ends in a comma", |_, draft| draft.job[2] += ",");
            self.harm("a job with a value less", |maker, draft| { let at = maker.below(3); draft.job.remove(at); });
            self.harm("names that end in a comma", |_, draft| draft.names.push(String::new()));
            self.harm("a name more than values", |_, draft| draft.names.push("rain".into()));
            self.harm("a semicolon for a comma", |_, draft| draft.lines[0][0] += ";3F800000");
        }
        let heads = [
            "", "method,setting", "method,setting,mark,", "Method,setting,mark", "METHOD,SETTING,MARK", "setting,method,mark",
            "method, setting, mark", "method,setting,mark ", " method,setting,mark", "\u{FEFF}method,setting,mark", "method;setting;mark",
            "method,setting,mark\r", "method,setting,marks", "method,setting,mar", "#method,setting,mark", "method,setting,mark\n#",
        ];
        for head in heads { self.harm("another first line", |_, draft| draft.head = head.to_string()); }
        for _ in 0..6 {
            let text = self.small().text();
            let with = |byte: u8, new: &[u8]| text.split(|&x| x == byte).collect::<Vec<_>>().join(new);
            let lines: Vec<&[u8]> = text.split_inclusive(|&x| x == b'\n').collect();
            self.add("no last newline", 9, &text[..text.len() - 1]);
            self.add("no first line", 9, lines[1..].concat());
            self.add("no names", 9, [&lines[..2], &lines[3..]].concat().concat());
            self.add("no job", 9, [&lines[..1], &lines[2..]].concat().concat());
            self.add("CR LF", 9, with(b'\n', b"\r\n"));
            self.add("CR alone", 9, with(b'\n', b"\r"));
            self.add("a space after each comma", 9, with(b',', b", "));
            self.add("a tab for each comma", 9, with(b',', b"\t"));
            let ends = ["\r\n", "\n", "\n\n", "\0", "\n\0", "\x1A", " ", "\t", "\t\n", " \n", ",", ",\n", "0", "q", "\x04", "é"];
            ends.iter().for_each(|end| self.add("something at the end", 9, [&text, end.as_bytes()].concat()));
            let second = self.small().text();
            for between in ["", "\n", "\0"] { self.add("two texts", 9, [&text, between.as_bytes(), &second].concat()); }
        }
        self.add("two texts", 9, [LISTING, LISTING].concat());
    }
    /// Any single change to any small text; the model says what follows.
    fn changes(&mut self) {
        for _ in 0..150 {
            let mut text = self.small().text();
            let (at, other) = (20 + self.below(text.len() - 20), self.below(text.len()));
            let byte = self.pick(b"\n,-0123456789ABCDEFabcdefghijklmnopqrstuvwxyz");
            let mut lines: Vec<Vec<u8>> = text.split_inclusive(|&x| x == b'\n').map(<[u8]>::to_vec).collect();
            let (a, b) = (self.below(lines.len()), self.below(lines.len()));
            lines.swap(a, b);
            self.add("a text, lines exchanged", None, lines.concat());
            lines.swap(a, b);
            lines.insert(a, lines[b].clone());
            self.add("a text, a line repeated", None, lines.concat());
            self.add("a text, a byte deleted", None, [&text[..at], &text[at + 1..]].concat());
            let mut exchanged = text.clone();
            exchanged.swap(at, other);
            self.add("a text, bytes exchanged", None, exchanged);
            text[at] = byte;
            self.add("a text, a byte changed", None, text);
        }
    }
    /// What was never meant to be such a text.
    fn junk(&mut self) {
        const MEGABYTE: usize = 1 << 20;
        self.add("nothing", 9, "");
        ["\n", "\n\n\n", ",", "\0", "-", "rain\n"].iter().for_each(|text| self.add("hardly anything", 9, *text));
        ["", "\n", "\n\n"].iter().for_each(|end| self.add("the first line alone", 9, format!("{HEAD}{end}")));
        ["", "\n", "\n\n"].iter().for_each(|end| self.add("the first two lines alone", 9, format!("{HEAD}\nround,7,7CF00000{end}")));
        for n in [1, 2, 19, 20, 83, 84, 85, 4095, 4096, 4097, 37051, 37052, 37053, 65535, 65536, 65537] {
            let bytes: Vec<u8> = (0..n).map(|_| self.random() as u8).collect();
            self.add("any bytes", 9, bytes);
            let bytes: Vec<u8> = (0..n).map(|_| self.pick(b"\n,-0123456789ABCDEFround")).collect();
            self.add("bytes of the form's kinds", 9, bytes);
        }
        for byte in [0, b'\n', b',', b'a', b'0', 0xFF] { self.add("a megabyte of one byte", 9, vec![byte; MEGABYTE]); }
        let bytes: Vec<u8> = (0..MEGABYTE).map(|_| self.random() as u8).collect();
        self.add("a megabyte of any bytes", 9, bytes);
        let line = b"40490FDB,7CF00000\n";
        let long = [LISTING.as_bytes(), &line.repeat(MEGABYTE / line.len())].concat();
        self.add("a megabyte of good lines", 9, long);
        let (digits, letters) = ("0".repeat(MEGABYTE), "r".repeat(MEGABYTE));
        self.add("a megabyte of one field", 9, format!("{HEAD}\n{letters},7,7CF00000\nrain\n"));
        self.add("a megabyte of one field", 9, format!("{HEAD}\nround,{digits}7,7CF00000\nrain\n"));
        self.add("a megabyte of one field", 9, format!("{HEAD}\nround,7,7CF00000\n{letters}\n"));
        self.add("a megabyte of one field", 9, format!("{HEAD}\nround,7,7CF00000\nrain\n{digits}\n"));
    }
}
/// The name of a kind that has two parts. There are few, and they last as long as the run.
fn told(what: &str, kind: &str) -> &'static str { format!("{what}: {kind}").leak() }

fn texts() -> Vec<Text> {
    let mut maker = Maker::new();
    maker.good();
    maker.large();
    maker.turns();
    maker.jobs();
    maker.long();
    maker.longest_answers();
    maker.ways();
    maker.listing();
    maker.fields();
    maker.lines();
    maker.changes();
    maker.junk();
    maker.texts
}

/// What the program did with a text: what it printed, its exit status, and what is wrong beside that.
struct Printed { out: Vec<u8>, status: Option<i32>, fault: Option<String> }

extern "C" { fn kill(process: i32, signal: i32) -> i32; }
static TEXT: AtomicUsize = AtomicUsize::new(0); // the text that is being run
static PROCESS: AtomicI32 = AtomicI32::new(0); // the program's process

/// Ends the program and this test where one text takes more than a minute: every call ends.
fn watch() {
    let (mut text, mut since) = (0, Instant::now());
    loop {
        thread::sleep(Duration::from_secs(1));
        let now = TEXT.load(SeqCst);
        if now != text { (text, since) = (now, Instant::now()); }
        let process = PROCESS.load(SeqCst);
        if process == 0 || since.elapsed() < Duration::from_secs(60) { continue; }
        unsafe { kill(process, 9) };
        println!("texts: the program does not end on text {now}");
        exit(1);
    }
}
/// Gives the program its text. One that has seen enough need not read on.
fn feed(input: &mut ChildStdin, bytes: &[u8], size: usize) {
    for (i, piece) in bytes.chunks(size).enumerate() {
        if i > 0 { thread::sleep(Duration::from_millis(1)); }
        if input.write_all(piece).is_err() { return; }
    }
}
fn start(program: &[String], input: Stdio) -> Child {
    let mut command = Command::new(&program[0]);
    command.args(&program[1..]).stdin(input).stdout(Stdio::piped()).stderr(Stdio::piped());
    let child = command.spawn().unwrap_or_else(|why| { println!("texts: {} cannot be started: {why}", program[0]); exit(1) });
    PROCESS.store(child.id() as i32, SeqCst);
    child
}
fn run(program: &[String], text: &Text) -> Printed {
    let done = match text.way {
        Way::Stored => {
            let path = std::env::temp_dir().join(format!("texts-{}", std::process::id()));
            std::fs::write(&path, &text.bytes).expect("a temporary file");
            let file = File::open(&path).expect("the temporary file");
            std::fs::remove_file(&path).expect("the temporary file");
            start(program, file.into()).wait_with_output()
        }
        way => {
            let mut child = start(program, Stdio::piped());
            let size = if let Way::Pieces(size) = way { size } else { usize::MAX };
            if text.bytes.len() < 60_000 {
                // It fits into the pipe, whether the program reads it or not.
                feed(&mut child.stdin.take().unwrap(), &text.bytes, size);
                child.wait_with_output()
            } else {
                let mut input = child.stdin.take().unwrap();
                thread::scope(|scope| {
                    scope.spawn(move || feed(&mut input, &text.bytes, size));
                    child.wait_with_output()
                })
            }
        }
    };
    PROCESS.store(0, SeqCst);
    let done = done.expect("what the program printed");
    let signal = done.status.signal().map(|signal| format!("ended by signal {signal}"));
    let said = (!is_said(&done.stdout, &done.stderr)).then(|| format!("standard error: {}", shown(&done.stderr, 0)));
    Printed { out: done.stdout, status: done.status.code(), fault: signal.or(said) }
}

/// Is this what may stand on standard error: nothing beside an answer, and beside a refusal one line with a reason of its kind? The reasons themselves are compared in
/// tests/reasons.txt; here it is seen that every refused text has one.
fn is_said(out: &[u8], errors: &[u8]) -> bool {
    let errors = String::from_utf8_lossy(errors);
    let (job, range) = (errors.contains(" is none of "), errors.contains(" takes "));
    let kind = match out {
        b"refused,1\n" => job && !range,
        b"refused,2\n" => range && !job,
        b"refused,9\n" => !job && !range && !errors.contains("doesn't have the form"),
        _ => return errors.is_empty(),
    };
    let line = errors.strip_prefix("trimlist: ").and_then(|rest| rest.strip_suffix('\n'));
    kind && line.is_some_and(|line| !line.is_empty() && line.bytes().all(|byte| (32..127).contains(&byte)))
}

/// Some bytes from a place on, for telling.
fn shown(bytes: &[u8], from: usize) -> String {
    let part = &bytes[from.min(bytes.len())..];
    format!("{}{}", part[..part.len().min(240)].escape_ascii(), if part.len() > 240 { " .." } else { "" })
}
/// Where two outputs differ.
fn difference(got: &[u8], want: &[u8]) -> String {
    let at = (0..got.len().min(want.len())).find(|&i| got[i] != want[i]).unwrap_or(got.len().min(want.len()));
    let from = got[..at].iter().rposition(|&x| x == b'\n').map_or(0, |x| x + 1);
    format!("at byte {at}: got \"{}\" expected \"{}\"", shown(got, from), shown(want, from))
}

/// Counts what was met, by kind of text, by method and by other classes.
#[derive(Default)]
struct Met {
    kinds: Vec<(&'static str, [u64; 5])>, // texts, accepted ones, and refused with 1, 2 and 9
    methods: [[u64; 8]; 7], // accepted texts, readings, and the six counts
    moves: [[u64; 10]; 7],
    others: BTreeMap<String, u64>,
    statuses: BTreeMap<(u32, String), u64>, // by the refusal's number and the exit status, of which document 01 says nothing
}

/// The kind of a pattern.
fn pattern_kind(x: u64) -> &'static str {
    match x % (1 << 31) {
        0 => if x == 0 { "+0" } else { "-0" },
        0x7F800000 => if x < 1 << 31 { "+infinity" } else { "-infinity" },
        0x7FC00000 => "NaN without payload",
        m if m > 0x7F800000 => "NaN with payload",
        0x7F7FFFFF => "largest finite",
        m if m < 1 << 23 => "subnormal",
        m if m % (1 << 23) == 0 || m % (1 << 23) == (1 << 23) - 1 => "end of a binade",
        _ => "other",
    }
}
const PATTERN_KINDS: [&str; 10] = [
    "+0", "-0", "+infinity", "-infinity", "NaN without payload", "NaN with payload",
    "largest finite", "subnormal", "end of a binade", "other",
];

/// Groomed readings whose turn and place have another parity.
const UNLIKE: [&str; 2] = ["readings groomed at an even turn and an odd place", "readings groomed at an odd turn and an even place"];

/// How a reading moves or would have moved, by its sign, and the methods by which it can: shave goes towards zero, set away from it; what
/// clips goes towards zero.
const MOVES: [(&str, &[usize]); 10] = [
    ("risen with sign 0", &[1, 2, 3, 4, 5, 6]), ("risen with sign 1", &[0, 2, 3, 4, 5, 6]),
    ("fallen with sign 0", &[0, 2, 3, 4, 5, 6]), ("fallen with sign 1", &[1, 2, 3, 4, 5, 6]),
    ("risen to -0", &[0, 2, 4, 5]), ("fallen to +0", &[0, 2, 4, 5]), ("clipped and risen", &[4, 5]), ("clipped and fallen", &[4, 5]),
    ("spared from a rise", &[0, 1, 2, 3, 4, 5, 6]), ("spared from a fall", &[0, 1, 2, 3, 4, 5, 6]),
];

impl Met {
    fn meet(&mut self, what: impl Into<String>, times: u64) { *self.others.entry(what.into()).or_default() += times; }
    fn text(&mut self, text: &Text, refusal: u32) {
        if !self.kinds.iter().any(|x| x.0 == text.kind) { self.kinds.push((text.kind, [0; 5])); }
        let row = &mut self.kinds.iter_mut().find(|x| x.0 == text.kind).unwrap().1;
        row[0] += 1;
        row[match refusal { 0 => 1, 1 => 2, 2 => 3, _ => 4 }] += 1;
    }
    fn accepted(&mut self, model: &Model, text: &Text, job: &Job, series: &[Series]) {
        let method = model.method(&job.word).unwrap();
        let (least, most) = model.form.range(method);
        let word = WORDS[method as usize];
        let spelled = fields(text.bytes.split(|&x| x == b'\n').nth(1).unwrap())[1];
        let digits = spelled.strip_prefix(b"-").unwrap_or(spelled);
        self.meet(format!("{word} with its least setting"), (job.setting == least) as u64);
        self.meet(format!("{word} with its largest setting"), (job.setting == most) as u64);
        self.meet("a setting with leading zeros", (digits.len() > 1 && digits[0] == b'0') as u64);
        self.meet("a setting of -0", (spelled == b"-0") as u64);
        self.meet("a setting of -0000", (spelled == b"-0000") as u64);
        self.meet(format!("lines: {}", job.lines.len()), 1);
        self.meet(format!("series: {}", job.names.len()), 1);
        self.meet("repeated names", (1..job.names.len()).any(|i| job.names[..i].contains(&job.names[i])) as u64);
        self.meet("a name of 1 letter", job.names.iter().any(|x| x.len() == 1) as u64);
        self.meet("a name of 16 letters", job.names.iter().any(|x| x.len() == 16) as u64);
        let takers = |column: usize| job.lines.iter().filter(|line| model.form.takes_turn(line[column], job.mark)).count();
        let uneven = job.names.len() > 1 && (0..job.names.len() - 1).any(|column| takers(column) % 2 == 1);
        self.meet("groom of a series behind one with an odd number of turns", (method == 2 && uneven) as u64);
        let slots = |from: usize, column: usize| job.lines.iter().skip(from).step_by(2).all(|line| line[column] == job.mark);
        let half = |from: usize, column: usize| slots(from, column) && !slots(1 - from, column);
        let station = |from: usize| job.lines.len() > 4 && (0..job.names.len()).any(|column| half(from, column));
        self.meet("groom of a series with its even places missing", (method == 2 && station(0)) as u64);
        self.meet("groom of a series with its odd places missing", (method == 2 && station(1)) as u64);
        let missing: u64 = series.iter().map(|x| x.1[3]).sum();
        self.meet(format!("mark with missing readings: {}", pattern_kind(job.mark)), (missing > 0) as u64);
        let row = &mut self.methods[method as usize];
        row[0] += 1;
        row[1] += (job.lines.len() * series.len()) as u64;
        series.iter().for_each(|x| (0..6).for_each(|k| row[k + 2] += x.1[k]));
        for column in 0..job.names.len() { self.series(model, method, job, column); }
    }
    /// The readings of a series, at their turns.
    fn series(&mut self, model: &Model, method: u32, job: &Job, column: usize) {
        let mut turn = 0;
        for (i, old) in job.lines.iter().map(|line| line[column]).enumerate().filter(|x| x.1 != job.mark) {
            self.meet(format!("reading: {}", pattern_kind(old)), 1);
            let own = model.form.own(method, job.setting, old, turn % 2 == 1);
            self.meet("readings spared after clipping", (own.1 && own.0 == job.mark) as u64);
            self.moved(method as usize, old, own, job.mark);
            let takes = model.form.takes_turn(old, job.mark);
            self.meet(UNLIKE[turn % 2], (method == 2 && takes && turn % 2 != i % 2) as u64);
            turn += takes as usize;
        }
    }
    fn moved(&mut self, method: usize, old: u64, (new, clipped, moved): Own, mark: u64) {
        let ([up, down], spared, minus) = (ways(moved), new == mark, old >= 1 << 31);
        let (rose, fell, zero) = (up && !spared, down && !spared, new % (1 << 31) == 0);
        let is = [rose && !minus, rose && minus, fell && !minus, fell && minus, rose && minus && zero, fell && !minus && zero,
            clipped && rose, clipped && fell, spared && up, spared && down];
        (0..10).filter(|&k| is[k]).for_each(|k| self.moves[method][k] += 1);
    }
    /// Prints what was met. Answers whether a class is empty.
    fn report(&self) -> bool {
        let mut empty = false;
        let mut flag = |bad: bool| { empty |= bad; if bad { " EMPTY" } else { "" } };
        let [texts, yes, one, two, nine] = ["texts", "accepted", "refused,1", "refused,2", "refused,9"];
        println!("\n{:<44} {texts:>6} {yes:>9} {one:>10} {two:>10} {nine:>10}", "kind of text");
        for (kind, [texts, rest @ ..]) in &self.kinds {
            println!("{kind:<44} {texts:>6} {:>9} {:>10} {:>10} {:>10}", rest[0], rest[1], rest[2], rest[3]);
        }
        let sums = self.kinds.iter().fold([0; 5], |sum, x| [0, 1, 2, 3, 4].map(|k| sum[k] + x.1[k]));
        let bad = flag(sums.contains(&0));
        println!("{:<44} {:>6} {:>9} {:>10} {:>10} {:>10}{bad}", "all", sums[0], sums[1], sums[2], sums[3], sums[4]);
        let cells = |cells: Vec<String>| cells.iter().map(|cell| format!(" {cell:>9}")).collect::<String>();
        println!("\n{:<12}{}", "accepted", cells(["texts", "readings"].into_iter().chain(COUNTS.split(',')).map(String::from).collect()));
        for (i, row) in self.methods.iter().enumerate() {
            // Rounding alone clips.
            let bad = flag((0..8).any(|k| row[k] == 0 && (k != 4 || i == 4 || i == 5)));
            println!("{:<12}{}{bad}", WORDS[i], cells(row.iter().map(u64::to_string).collect()));
        }
        println!("\n{:<20}{}", "present readings", cells(WORDS.map(String::from).to_vec()));
        for (k, (what, by)) in MOVES.iter().enumerate() {
            let bad = flag((0..7).any(|i| by.contains(&i) == (self.moves[i][k] == 0)));
            println!("{what:<20}{}{bad}", cells((0..7).map(|i| self.moves[i][k].to_string()).collect()));
        }
        let mut wanted: Vec<String> = [0, 1, 511, 512].map(|n| format!("lines: {n}")).to_vec();
        wanted.extend((1..=8).map(|n| format!("series: {n}")));
        wanted.extend(WORDS.iter().flat_map(|word| [format!("{word} with its least setting"), format!("{word} with its largest setting")]));
        wanted.extend(PATTERN_KINDS.iter().map(|kind| format!("mark with missing readings: {kind}")));
        wanted.extend(PATTERN_KINDS.iter().map(|kind| format!("reading: {kind}")));
        wanted.extend([
            "a setting with leading zeros", "a setting of -0", "a setting of -0000", "repeated names", "a name of 1 letter",
            "a name of 16 letters", "groom of a series behind one with an odd number of turns",
            "groom of a series with its even places missing", "groom of a series with its odd places missing", UNLIKE[0], UNLIKE[1],
            "readings spared after clipping", "the longest answer",
        ].map(String::from));
        println!("\n{:<60} {:>8}", "met in accepted texts", "times");
        for what in wanted {
            let times = self.others.get(&what).copied().unwrap_or(0);
            println!("{what:<60} {times:>8}{}", flag(times == 0));
        }
        println!();
        for ((refusal, status), n) in &self.statuses {
            println!("exit status {status} with answer {refusal}: {n} texts");
        }
        empty
    }
}

/// How many wrong models don't differ from what the program printed. `by` has each text's method, if it is accepted.
fn self_test(texts: &[Text], by: &[Option<u32>], printed: &[Printed]) -> usize {
    println!();
    let mut unseen = 0;
    for (rule, name) in TURNED {
        let model = Model::new(Some(rule));
        let differs = |&i: &usize| model.answer(&texts[i].bytes).0.as_bytes() != printed[i].out;
        let first = |method: Option<u32>| (0..texts.len()).filter(|&i| method.is_none() || by[i] == method).find(differs);
        let anywhere = methods(rule).is_empty().then(|| first(None));
        let seen: Vec<Option<usize>> = anywhere.into_iter().chain(methods(rule).iter().map(|&method| first(Some(method)))).collect();
        unseen += seen.contains(&None) as usize;
        let told: Vec<String> = seen.iter().map(|at| at.map_or("NOT SEEN".to_string(), |i| (i + 1).to_string())).collect();
        println!("turned, {name}: seen at text {}", told.join(", "));
    }
    println!("self-test: {} wrong models, {unseen} not seen", TURNED.len());
    unseen
}

fn stand_in() {
    let mut text = vec![];
    std::io::stdin().read_to_end(&mut text).expect("standard input");
    print!("{}", Model::new(None).answer(&text).0);
}

fn main() {
    let program: Vec<String> = std::env::args().skip(1).collect();
    if program.is_empty() {
        println!("texts: the program's path is wanted");
        exit(2);
    }
    if program[0] == "--stand-in" { return stand_in(); }
    let (texts, model) = (texts(), Model::new(None));
    let (mut met, mut differences, mut printed, mut by) = (Met::default(), 0, vec![], vec![]);
    let mut differs = |told: String| { differences += 1; if differences <= 10 { println!("{told}"); } };
    if model.answer(LISTING.as_bytes()).0 != LISTED { differs("the model prints something else than document 01's output".to_string()); }
    if model.answer(STATIONS.as_bytes()).0 != STATIONED { differs("the model grooms stations otherwise".to_string()); }
    thread::spawn(watch);
    let began = Instant::now();
    for (i, text) in texts.iter().enumerate() {
        TEXT.store(i + 1, SeqCst);
        let got = run(&program, text);
        let (want, refusal, accepted) = model.answer(&text.bytes);
        let told = || format!("text {}, {}, {} bytes: \"{}\"", i + 1, text.kind, text.bytes.len(), shown(&text.bytes, 0));
        let said = text.said.unwrap_or(refusal);
        if said != refusal {
            differs(format!("model answers {refusal}, made for {said}; {}", told()));
        } else if let Some(fault) = &got.fault {
            differs(format!("{fault}; {}", told()));
        } else if got.out != want.as_bytes() {
            differs(format!("{}; {}", difference(&got.out, want.as_bytes()), told()));
        }
        met.text(text, refusal);
        met.meet("the longest answer", (want.len() == LONGEST_ANSWER) as u64);
        by.push(accepted.as_ref().and_then(|x| model.method(&x.0.word)));
        if let Some((job, series)) = accepted { met.accepted(&model, text, &job, &series); }
        *met.statuses.entry((refusal, got.status.map_or("none".to_string(), |x| x.to_string()))).or_default() += 1;
        printed.push(got);
    }
    let took = began.elapsed();
    let empty = met.report();
    let unseen = self_test(&texts, &by, &printed);
    println!("{} runs of the program in {:.1} s", texts.len(), took.as_secs_f64());
    let fault = if empty { ", an EMPTY class" } else if unseen > 0 { ", a wrong model NOT SEEN" } else { "" };
    println!("texts: {} texts, {differences} differences{fault}", texts.len());
    if differences > 0 || empty || unseen > 0 { exit(1); }
}
