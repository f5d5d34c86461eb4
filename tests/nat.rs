//! Exact whole numbers for the models that the tests compare the library with. Each test uses its own part of them.
#![allow(dead_code)]
use std::cmp::Ordering;

/// A natural number of any size: least limb first, and no zero limb at the top, so that equal numbers have equal limbs.
#[derive(Clone, PartialEq)]
pub struct Nat(Vec<u32>);

impl Nat {
    fn new(limbs: impl Iterator<Item = u32>) -> Nat {
        let mut limbs: Vec<u32> = limbs.collect();
        while limbs.last() == Some(&0) { limbs.pop(); }
        Nat(limbs)
    }
    pub fn of(v: u64) -> Nat { Nat::new([v as u32, (v >> 32) as u32].into_iter()) }
    fn limb(&self, i: usize) -> u64 { *self.0.get(i).unwrap_or(&0) as u64 }
    pub fn low(&self) -> u64 { self.limb(0) | self.limb(1) << 32 }
    pub fn bits(&self) -> u32 { self.0.last().map_or(0, |top| 32 * self.0.len() as u32 - top.leading_zeros()) }
    pub fn shl(&self, n: u32) -> Nat {
        let under = |i: usize| if i == 0 { 0 } else { self.limb(i - 1) };
        let limbs = (0..=self.0.len()).map(|i| ((self.limb(i) << 32 | under(i)) << (n % 32) >> 32) as u32);
        Nat::new((0..n / 32).map(|_| 0).chain(limbs))
    }
    pub fn shr(&self, n: u32) -> Nat {
        Nat::new((n as usize / 32..self.0.len()).map(|i| ((self.limb(i + 1) << 32 | self.limb(i)) >> (n % 32)) as u32))
    }
    pub fn times(&self, small: u64) -> Nat { self.times_add(small, &Nat(vec![])) }
    pub fn add(&self, other: &Nat) -> Nat { self.times_add(1, other) }
    pub fn times_add(&self, small: u64, other: &Nat) -> Nat {
        let (mut sum, limbs) = (0, 0..=self.0.len().max(other.0.len()));
        Nat::new(limbs.map(|i| { sum = self.limb(i) * small + other.limb(i) + (sum >> 32); sum as u32 }))
    }
    /// The difference; the other is not larger.
    pub fn minus(&self, other: &Nat) -> Nat {
        assert!(other.cmp(self).is_le(), "the model made a difference below zero");
        let (mut rest, limbs) = (0, 0..self.0.len());
        Nat::new(limbs.map(|i| { rest = self.limb(i) as i64 - other.limb(i) as i64 + (rest >> 32); rest as u32 }))
    }
    /// The quotient, rounded up.
    pub fn over(&self, small: u64) -> Nat {
        let (mut out, mut rest) = (self.add(&Nat::of(small - 1)), 0);
        for limb in out.0.iter_mut().rev() {
            rest = rest << 32 | *limb as u64;
            *limb = (rest / small) as u32;
            rest %= small;
        }
        Nat::new(out.0.into_iter())
    }
    pub fn cmp(&self, other: &Nat) -> Ordering {
        self.0.len().cmp(&other.0.len()).then_with(|| self.0.iter().rev().cmp(other.0.iter().rev()))
    }
}

/// The difference of two numbers, whichever is the larger.
pub fn apart(a: &Nat, b: &Nat) -> Nat { if a.cmp(b).is_ge() { a.minus(b) } else { b.minus(a) } }
/// The nearer of two neighbours on a grid, by how a reading lies to their middle; a tie goes to the even one.
pub fn goes_up(to_middle: Ordering, below_is_odd: bool) -> bool { to_middle.is_gt() || to_middle.is_eq() && below_is_odd }
