//! Damage to days and to the bytes of files.

use super::chance::Chance;
use super::day::*;
use super::made;

/// Puts a wrong or a boundary value into a field of the sheet or the roster; the form stays right.
pub fn spoil_field(chance: &mut Chance, day: &mut Day) {
    let near_unit_ceiling = [0, 999_999_999, 1_000_000_000, 1_000_000_001, u32::MAX];
    let currency = chance.index(day.currencies.len());
    let member = chance.index(day.members.len());
    let letter = chance.pick(b"@A[Z`az \0\xff");
    let sign = chance.pick(&[0, 10, 31, 32, 33, 126, 127, 128, 255]);
    match chance.between(0, 11) {
        0..=5 if day.currencies.is_empty() => (),
        0 => day.currencies[currency].code[chance.index(3)] = letter,
        1 => day.currencies[currency].code = day.currencies[chance.index(day.currencies.len())].code,
        2 => day.currencies[currency].rate = chance.pick(&[0, 1, 199_999, 200_000, 200_001, u32::MAX]),
        3 => day.currencies[currency].haircut = chance.pick(&[0, 1, 499, 500, 501, u16::MAX]),
        4 | 5 => day.currencies[currency].instalments = chance.pick(&[0, 1, 5, 6, 255]),
        _ if day.members.is_empty() => (),
        6 => day.members[member].name[chance.index(16)] = sign,
        7 => day.members[member].name = day.members[chance.index(day.members.len())].name,
        8 => day.members[member].name = [chance.pick(&[b' ', 0, b'X']); 16],
        9 | 10 => {
            day.members[member].aggregate_limit =
                chance.pick(&[0, LARGEST_AGGREGATE - 1, LARGEST_AGGREGATE, LARGEST_AGGREGATE + 1, 1 << 63, u64::MAX]);
        }
        _ => {
            for limit in &mut day.members[member].short_limits {
                if chance.one_in(2) {
                    *limit = chance.pick(&near_unit_ceiling);
                }
            }
        }
    }
}

/// Damages the bytes of a file.
pub fn spoil_bytes(chance: &mut Chance, file: &mut Vec<u8>) {
    match chance.between(0, 7) {
        0 => file.truncate(chance.index(file.len() + 1)),
        1 => file.extend((0..chance.between(1, 40)).map(|_| 0)),
        2 => file.resize(chance.pick(&[0, 7, 8, 9, 39_999, 40_000, 40_001, 50_000]), 0),
        3 => {
            let count = chance.pick(&[0_u16, 1, 24, 25, 32, 33, 1_024, 1_025, 2_000, 2_001, 0x8000, u16::MAX]);
            let at = 2 * chance.index(4);
            file[at..at + 2].copy_from_slice(&count.to_le_bytes());
        }
        4 => {
            let at = 2 * chance.index(4);
            file[at] = file[at].wrapping_add(chance.pick(&[1, 255]));
        }
        5 => {
            for _ in 0..chance.between(1, 8) {
                let at = chance.index(file.len());
                file[at] ^= 1 << chance.between(0, 7);
            }
        }
        6 => {
            for _ in 0..chance.between(1, 12) {
                let at = chance.index(file.len());
                file[at] = chance.byte();
            }
        }
        _ => {
            // Past the counts only, so that the form stays right more often.
            for _ in 0..chance.between(1, 30) {
                let at = chance.between(8, file.len().max(9) as u64 - 1) as usize;
                if let Some(byte) = file.get_mut(at) {
                    *byte ^= 1 << chance.between(0, 7);
                }
            }
        }
    }
}

pub fn spoil_kinds(chance: &mut Chance, day: &mut Day) {
    for _ in 0..chance.between(1, 3) {
        let at = chance.index(day.steps.len());
        if let Some(step) = day.steps.get_mut(at) {
            step.kind = chance.pick(&[0, 5, 6, 128, 255]);
        }
    }
}

/// A day with more records of one sort than may be, and the length that its counts give.
pub fn too_many(chance: &mut Chance, day: &mut Day) {
    match chance.between(0, 3) {
        0 => {
            let spare = made::currency(chance, 25, 10);
            day.currencies.resize(chance.between(24, 26) as usize, spare);
            for member in &mut day.members {
                member.short_limits.resize(day.currencies.len(), 0);
            }
        }
        1 => {
            let spare = Member { name: [b'~'; 16], aggregate_limit: 0, short_limits: vec![0; day.currencies.len()] };
            day.members.resize(chance.between(32, 34) as usize, spare);
        }
        2 => {
            let spare = Instruction {
                submitter: 0,
                counterparty: 1,
                bought_currency: 0,
                sold_currency: 1,
                bought_amount: 1,
                sold_amount: 1,
                reference: 9,
            };
            day.instructions.resize(chance.between(1_024, 1_026) as usize, spare);
        }
        _ => day.steps.resize(chance.between(2_000, 2_002) as usize, Step::settle()),
    }
}

pub fn noise(chance: &mut Chance) -> Vec<u8> {
    let mut file: Vec<u8> = (0..chance.between(0, 400)).map(|_| chance.byte()).collect();
    // With no high bytes in its counts a file of noise has a chance to pass the first checks.
    for at in [1, 3, 5, 7] {
        if let Some(byte) = file.get_mut(at) {
            *byte = 0;
        }
    }
    file
}
