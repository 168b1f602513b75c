//! Numbers of boats that are easily taken for one another.

use crate::batch_valid::{once_in, pick};
use crate::random::Random;
use std::collections::BTreeSet;

/// Primes and powers of two that a table of boats may be as long as.
const MODULI: [u64; 20] =
    [2, 3, 7, 16, 31, 61, 64, 97, 127, 128, 251, 256, 257, 509, 1 << 10, 1021, 1 << 12, 1 << 16, 65_537, 1 << 24];

/// Up to so many numbers of one family: small ones, ones that agree modulo a number, ones that differ in one byte, ones that
/// differ in one bit, the same bytes in another order, or any.
fn family(r: &mut Random, most: u64) -> Vec<u32> {
    let (any, modulus, byte) = (r.next() as u32, pick(r, &MODULI), 8 * r.within(0, 3));
    let sort = r.within(0, 6);
    let member = |n: u64| match sort {
        0 => n as u32,
        1 | 2 => (u64::from(any) % modulus + (n % ((1 << 32) / modulus)) * modulus) as u32,
        3 => any & !(255 << byte) | (n as u32 & 255) << byte,
        4 => any ^ (1 << (n % 32)),
        5 => any.rotate_left(8 * (n as u32 & 3)) ^ (n as u32 >> 2),
        _ => r.next() as u32,
    };
    (0..most).map(member).collect()
}

/// Up to so many different boats, at least one: of one family or of two, now and then the least and the greatest number among
/// them.
pub fn boats(r: &mut Random, most: usize) -> Vec<u32> {
    let ends = if once_in(r, 3) { vec![0, u32::MAX] } else { vec![] };
    let mut all = [ends, family(r, most as u64)].concat();
    if once_in(r, 3) {
        all.truncate(most.div_ceil(2));
        all.extend(family(r, most as u64));
    }
    let mut seen = BTreeSet::new();
    all.retain(|boat| seen.insert(*boat));
    all.truncate(most.max(1));
    all
}

/// Another boat than this, that is easily taken for it.
pub fn near(r: &mut Random, boat: u32) -> u32 {
    let (bit, modulus) = (1 << r.within(0, 31), pick(r, &MODULI) as u32);
    match r.within(0, 5) {
        0 => boat ^ bit,
        1 => boat.wrapping_add(modulus),
        2 => boat.wrapping_sub(modulus),
        3 if boat != boat.swap_bytes() => boat.swap_bytes(),
        4 => !boat,
        _ => boat ^ (r.within(1, 255) as u32) << (8 * r.within(0, 3)),
    }
}

#[cfg(test)]
mod tests {
    use super::*;

    /// No boat comes twice, and none is near itself. There are lists that agree modulo each number, that differ in each byte
    /// alone, and with both ends.
    #[test]
    fn easily_taken_for_one_another() {
        let mut r = Random::new(90);
        let mut seen = BTreeSet::new();
        for n in 0..4000 {
            let most = n % 40 + 1;
            let boats = boats(&mut r, most);
            assert!(!boats.is_empty() && boats.len() <= most);
            assert_eq!(boats.iter().collect::<BTreeSet<_>>().len(), boats.len());
            assert!(boats.iter().all(|boat| near(&mut r, *boat) != *boat));
            if boats.len() >= 8 {
                let alike = |of: &dyn Fn(u32) -> u64| boats.iter().all(|boat| of(*boat) == of(boats[0]));
                let moduli = MODULI.into_iter().filter(|modulus| alike(&|boat| u64::from(boat) % modulus));
                seen.extend(moduli.map(|modulus| format!("modulo {modulus}")));
                let bytes = (0..4).filter(|byte| alike(&|boat| u64::from(boat & !(255 << (8 * byte)))));
                seen.extend(bytes.map(|byte| format!("but for byte {byte}")));
                seen.extend((boats.contains(&0) && boats.contains(&u32::MAX)).then(|| "both ends".into()));
            }
        }
        let moduli = MODULI.map(|modulus| format!("modulo {modulus}"));
        let bytes = (0..4).map(|byte| format!("but for byte {byte}"));
        for mark in moduli.into_iter().chain(bytes).chain(["both ends".into()]) {
            assert!(seen.contains(&mark), "{mark}");
        }
    }

    /// A list may have several hundred boats.
    #[test]
    fn many() {
        let mut r = Random::new(91);
        let long = (0..60).filter(|_| boats(&mut r, 900).len() == 900).count();
        assert!(long > 20, "{long}");
    }
}
