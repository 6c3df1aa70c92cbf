//! Rule lists, lawful and unlawful.

use crate::protocol::put_two;
use crate::rng::Rng;

type Bytes = [u8; 4];

fn rule(rng: &mut Rng, bits: usize) -> Bytes {
    let mask = (1_u32 << bits.min(8)).wrapping_sub(1) as u8;
    let care = match rng.below(4) {
        0 => 0,
        1 => mask,
        _ => rng.byte() & mask,
    };
    let set = rng.byte() & rng.byte() & mask;
    let clear = rng.byte() & mask & !set;
    [care, rng.byte() & care, set, clear]
}

fn bits(rng: &mut Rng) -> usize {
    rng.pick(&[1, 1, 2, 2, 3, 3, 4, 5, 8])
}

/// Breaks one of the laws of a rule.
fn damage(rng: &mut Rng, rules: &mut [Bytes], bits: usize) {
    if rules.is_empty() {
        return;
    }
    let number = rng.below(rules.len());
    let rule = &mut rules[number];
    let bit = 1 << rng.below(bits.clamp(1, 8));
    match rng.below(4) {
        0 => {
            rule[0] &= !bit;
            rule[1] |= bit;
        }
        1 => {
            rule[2] |= bit;
            rule[3] |= bit;
        }
        2 if bits < 8 => {
            let beyond = 1 << rng.pick(&[bits, 7]);
            let byte = rng.below(4);
            rule[byte] |= beyond;
            // A bit of `need` would be outside `care` as well.
            rule[0] |= rule[1];
        }
        _ => rule[rng.below(4)] ^= 1 << rng.below(8),
    }
}

fn encode(bits: usize, initial: usize, rules: &[Bytes]) -> Vec<u8> {
    let mut bytes = Vec::new();
    put_two(&mut bytes, bits);
    put_two(&mut bytes, initial);
    bytes.extend(rules.concat());
    bytes
}

/// What is outside its limits in a rule list.
#[derive(Clone, Copy, PartialEq)]
enum Damage {
    Nothing,
    Bits,
    Count,
    Initial,
    Rules,
}

/// A rule list, damaged in so many of a hundred cases.
pub fn rule_list(rng: &mut Rng, percent: usize) -> Vec<u8> {
    let broken = if rng.chance(percent) {
        rng.pick(&[
            Damage::Bits,
            Damage::Count,
            Damage::Initial,
            Damage::Rules,
            Damage::Rules,
        ])
    } else {
        Damage::Nothing
    };
    let bits = match broken {
        Damage::Bits => rng.pick(&[0, 9, 16, 17, 31, 32, 63, 64, 65, 256, 257, 65535]),
        _ => bits(rng),
    };
    let count = match rng.below(10) {
        _ if broken == Damage::Count => rng.pick(&[17, 17, 18, 20]),
        0 => 0,
        1 | 2 => 16,
        _ => rng.between(1, 8),
    };
    let states = 1 << bits.min(8);
    let initial = match rng.below(4) {
        _ if broken == Damage::Initial => rng.pick(&[states, states, states + 1, 256, 257, 65535]),
        0 => states - 1,
        _ => rng.below(states),
    };
    let mut rules: Vec<Bytes> = (0..count).map(|_| rule(rng, bits)).collect();
    if broken == Damage::Rules || broken != Damage::Nothing && rng.chance(20) {
        for _ in 0..rng.between(1, 3) {
            damage(rng, &mut rules, bits);
        }
    }
    encode(bits, initial, &rules)
}

/// Two lawful lists on as many bits, the second a copy of the first with a
/// rule changed or moved.
pub fn pair(rng: &mut Rng) -> (Vec<u8>, Vec<u8>) {
    let bits = bits(rng);
    let count = rng.between(1, 16);
    let initial = rng.below(1 << bits);
    let rules: Vec<Bytes> = (0..count).map(|_| rule(rng, bits)).collect();
    let mut other = rules.clone();
    match rng.below(3) {
        0 => rng.shuffle(&mut other),
        1 => other[rng.below(count)] = rule(rng, bits),
        _ => {
            other.remove(rng.below(count));
        }
    }
    (encode(bits, initial, &rules), encode(bits, initial, &other))
}
