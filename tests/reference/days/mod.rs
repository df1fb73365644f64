//! Day files to try programs on: days at each bound and one past it, days that a seed decides, and damaged ones.

#![allow(dead_code)] // each program that has this module takes from it what it needs

pub mod bounds;
pub mod built;
pub mod chance;
mod damage;
mod day;
pub mod made;

use built::{chain_day, day_sum_day, full_chain_day};
use chance::Chance;
use damage::{noise, spoil_bytes, spoil_field, spoil_kinds, too_many};
use day::{Day, UNIT_CEILING};
use made::{Shape, ordinary_day};

/// A day of every shape that matters most, for the first days of a seed.
fn first_day(chance: &mut Chance, number: u64) -> Option<Day> {
    match number {
        0 => {
            let shape = Shape::full(chance);
            Some(ordinary_day(chance, &shape))
        }
        1 => Some(chain_day(500)),
        2 => Some(full_chain_day(chance)),
        3 => Some(near_day_sum(chance, false)),
        4 => Some(near_day_sum(chance, true)),
        _ => None,
    }
}

fn near_day_sum(chance: &mut Chance, stays: bool) -> Day {
    let short_by = chance.pick(&[0, 0, 1, 5]);
    day_sum_day(short_by, stays, &[UNIT_CEILING, short_by + 1, short_by, 1])
}

/// The file of a day of a seed, by its number.
pub fn seeded(seed: u64, number: u64) -> Vec<u8> {
    let chance = &mut Chance::of(seed, number);
    if let Some(day) = first_day(chance, number) {
        return day.bytes();
    }
    let shape = match chance.between(0, 99) {
        0 => Shape::full(chance),
        1..=9 => Shape::medium(chance),
        10..=49 => Shape::small(chance),
        _ => Shape::tiny(chance),
    };
    let mut day = match chance.between(0, 299) {
        0 => chain_day(chance.between(1, 512) as usize),
        1 => {
            let stays = chance.one_in(2);
            near_day_sum(chance, stays)
        }
        _ => ordinary_day(chance, &shape),
    };
    match chance.between(0, 99) {
        0..=59 => day.bytes(),
        60..=74 => {
            for _ in 0..chance.between(1, 3) {
                spoil_field(chance, &mut day);
            }
            day.bytes()
        }
        75..=79 => {
            spoil_kinds(chance, &mut day);
            if chance.one_in(2) {
                spoil_field(chance, &mut day);
            }
            day.bytes()
        }
        80..=83 => {
            too_many(chance, &mut day);
            day.bytes()
        }
        84..=86 => noise(chance),
        _ => {
            let mut file = day.bytes();
            spoil_bytes(chance, &mut file);
            file
        }
    }
}
