//! Taints of a register's bytes: as sets, and what a host's own operations make of them, by twins that differ in tainted bytes
//! alone.

mod reference;
mod support;

use milestarling::{Taint, VectorTaint};
use support::Random;

const CASES: usize = 20_000;

/// The taint of each byte that a bit of this number is set for.
fn of_bits(bits: usize) -> Taint {
    (0..8).filter(|byte| bits >> byte & 1 == 1).fold(Taint::NONE, |taint, byte| taint | Taint::bytes(byte..=byte))
}

/// Each of the 256 taints, by its bits: what is made of one, and of two.
#[test]
fn taints_are_sets_of_bytes() {
    assert_eq!((of_bits(0), of_bits(255), Taint::bytes(..)), (Taint::NONE, Taint::ALL, Taint::ALL));
    assert_eq!((Taint::bytes(2..5), Taint::bytes(6..99)), (of_bits(0b1_1100), of_bits(0b1100_0000)));
    assert_eq!((Taint::bytes(8..), Taint::bytes(5..5)), (Taint::NONE, Taint::NONE));
    assert!(!Taint::ALL.contains(8) && !Taint::ALL.contains(usize::MAX));
    for bits in 0..256 {
        let taint = of_bits(bits);
        let lowest = (0..8).find(|&byte| taint.contains(byte));
        assert_eq!(taint.is_none(), bits == 0);
        assert!((0..8).all(|byte| taint.contains(byte) == (bits >> byte & 1 == 1)));
        assert_eq!(taint.carried(), lowest.map_or(Taint::NONE, |byte| Taint::bytes(byte..)));
        assert_eq!(taint.word(), of_bits(bits & 15));
        assert_eq!(format!("{taint:?}"), format!("Taint({bits:08b})"));
        assert_eq!(Taint::from_raw(taint.to_raw()), taint);
        for other in [0, 1, 0b1010_0101, 255] {
            let mut both = taint;
            both |= of_bits(other);
            assert_eq!((both, taint | of_bits(other)), (of_bits(bits | other), of_bits(bits | other)));
        }
    }
}

/// Each pair of a few halves, by its bits: a vector register's bytes are those of its halves.
#[test]
fn vector_taints_are_sets_of_bytes() {
    let of_wide_bits = |bits: usize| {
        let bytes = (0..16).filter(|byte| bits >> byte & 1 == 1);
        bytes.fold(VectorTaint::NONE, |taint, byte| taint | VectorTaint::bytes(byte..=byte))
    };
    assert_eq!((VectorTaint::bytes(..), VectorTaint::bytes(3..99)), (VectorTaint::ALL, of_wide_bits(0xfff8)));
    assert_eq!((VectorTaint::bytes(16..), VectorTaint::bytes(9..9)), (VectorTaint::NONE, VectorTaint::NONE));
    assert!(!VectorTaint::ALL.contains(16) && !VectorTaint::ALL.contains(usize::MAX));
    for bits in 0..1 << 16 {
        let (low, high) = (of_bits(bits & 255), of_bits(bits >> 8));
        let taint = VectorTaint::halves(low, high);
        assert_eq!((taint, taint.low(), taint.high()), (of_wide_bits(bits), low, high));
        assert!((0..16).all(|byte| taint.contains(byte) == (bits >> byte & 1 == 1)));
        assert_eq!(taint.is_none(), bits == 0);
        let mut both = taint;
        both |= VectorTaint::bytes(5..11);
        assert_eq!(both, of_wide_bits(bits | 0x07e0));
    }
    assert_eq!(format!("{:?}", of_wide_bits(0x8003)), "VectorTaint(1000000000000011)");
}

/// A taint's text names its bytes, and is read as that taint.
#[test]
fn taints_have_texts() {
    for bits in 1..256 {
        let (taint, wide) = (of_bits(bits), VectorTaint::halves(of_bits(bits), of_bits(bits ^ 0xff)));
        assert_eq!((taint.to_string().parse(), wide.to_string().parse()), (Ok(taint), Ok(wide)));
    }
    let texts = [(0b1, "0"), (0b11, "0-1"), (0b1000_1101, "0,2-3,7"), (0xff, "0-7"), (0, "")];
    texts.iter().for_each(|&(bits, text)| assert_eq!(of_bits(bits).to_string(), text));
    assert_eq!(("7,0-3,2".parse(), "8-15".parse()), (Ok(of_bits(0x8f)), Ok(VectorTaint::bytes(8..))));
    for wrong in ["", ",", "0,", "8", "3-2", "0-8", "-1", "+1", "01", "0 ", "0-1-2", "x"] {
        assert!(wrong.parse::<Taint>().is_err(), "{wrong}");
    }
    assert!("16".parse::<VectorTaint>().is_err());
}

/// The bytes in which two values differ.
fn difference(one: u64, other: u64) -> Taint {
    of_bits((0..8).filter(|byte| (one ^ other) >> (8 * byte) & 0xff != 0).map(|byte| 1 << byte).sum())
}

/// Two values that differ in tainted bytes alone; small differences and equal bytes are among them.
fn twins(random: &mut Random, taint: Taint) -> [u64; 2] {
    let mask = taint.to_raw() * 0xff;
    let value = random.next() & random.next();
    [value, value & !mask | (value ^ random.next() & random.next() & random.next()) & mask]
}

type Computed = fn(u64, u64) -> u64;

/// The operations that the documents name, with what they make of two taints. What a right shift makes of one isn't carried.
#[test]
fn what_a_host_computes_differs_in_tainted_bytes_alone() {
    let by_byte: [Computed; 5] = [|a, b| a & b, |a, b| a | b, |a, b| a ^ b, |a, b| a & !b, |a, _| !a];
    let upwards: [Computed; 4] =
        [|a, b| a.wrapping_add(b), |a, b| a.wrapping_sub(b), |a, b| a.wrapping_mul(b), |a, _| a << 13];
    let mut random = Random::new(14);
    for _ in 0..CASES {
        let taints = [of_bits(random.below(256)), of_bits(random.below(256))];
        let (a, b) = (twins(&mut random, taints[0]), twins(&mut random, taints[1]));
        let both = taints[0] | taints[1];
        let rows = by_byte.iter().map(|f| (f, both)).chain(upwards.iter().map(|f| (f, both.carried())));
        for (computed, taint) in rows {
            let [one, other] = [0, 1].map(|at| computed(a[at], b[at]));
            assert_eq!(difference(one, other) | taint, taint, "{a:x?} {b:x?}");
            let [one, other] = [one, other].map(|value| value & 0xffff_ffff);
            assert_eq!(difference(one, other) | taint.word(), taint.word(), "{a:x?} {b:x?}");
        }
    }
    let (secret, shifted) = (Taint::bytes(7..), difference(1 << 63 >> 32, 0));
    assert!(shifted == Taint::bytes(3..4) && !secret.carried().contains(3));
}
