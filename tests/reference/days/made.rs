//! Days whose records chance decides.

use super::chance::Chance;
use super::day::*;

/// How large a day is, and how large its numbers are.
pub struct Shape {
    pub currencies: usize,
    pub members: usize,
    pub instructions: usize,
    pub steps: usize,
    pub largest_amount: u64,
    pub largest_rate: u64,
}

impl Shape {
    /// Numbers so small that limits and tests are often met exactly.
    pub fn tiny(chance: &mut Chance) -> Shape {
        Shape {
            currencies: chance.between(2, 3) as usize,
            members: chance.between(2, 3) as usize,
            instructions: chance.between(2, 16) as usize,
            steps: chance.between(1, 24) as usize,
            largest_amount: chance.between(1, 6),
            largest_rate: chance.between(1, 4),
        }
    }

    pub fn small(chance: &mut Chance) -> Shape {
        Shape {
            currencies: chance.between(0, 4) as usize,
            members: chance.between(0, 5) as usize,
            instructions: chance.between(0, 40) as usize,
            steps: chance.between(0, 60) as usize,
            largest_amount: chance.pick(&[10, 1_000, 1_000_000, UNIT_CEILING]),
            largest_rate: chance.pick(&[3, 100, 20_000, LARGEST_RATE]),
        }
    }

    pub fn medium(chance: &mut Chance) -> Shape {
        Shape {
            currencies: chance.between(2, 10) as usize,
            members: chance.between(2, 12) as usize,
            instructions: chance.between(20, 300) as usize,
            steps: chance.between(20, 300) as usize,
            largest_amount: chance.pick(&[5, 1_000, 1_000_000, UNIT_CEILING]),
            largest_rate: chance.pick(&[3, 20_000, LARGEST_RATE]),
        }
    }

    pub fn full(chance: &mut Chance) -> Shape {
        Shape {
            currencies: 24,
            members: 32,
            instructions: 1_024,
            steps: 2_000,
            largest_amount: chance.pick(&[20, 1_000_000, UNIT_CEILING]),
            largest_rate: chance.pick(&[3, LARGEST_RATE]),
        }
    }
}

pub fn currency(chance: &mut Chance, number: usize, largest_rate: u64) -> Currency {
    let rate = if chance.one_in(10) { largest_rate } else { chance.between(1, largest_rate) };
    let haircut = match chance.between(0, 3) {
        0 => 0,
        1 => chance.between(1, 500),
        2 => chance.pick(&[1, 20, 100, 250, 499, 500]),
        _ => chance.between(0, 50),
    };
    let [first, third] = [chance.between(65, 90) as u8, chance.between(65, 90) as u8];
    Currency {
        code: [first, b'A' + number as u8, third],
        instalments: chance.between(1, 5) as u8,
        rate: rate as u32,
        haircut: haircut as u16,
    }
}

fn member(chance: &mut Chance, number: usize, shape: &Shape) -> Member {
    let mut name = [b' '; 16];
    let length = chance.between(1, 16) as usize;
    for byte in name.iter_mut().take(length) {
        *byte = chance.between(33, 126) as u8;
    }
    name[0] = 33 + number as u8;
    let generous = chance.one_in(3);
    let mut short_limit = || match chance.between(0, 5) {
        0 => 0,
        1 => UNIT_CEILING,
        2 => chance.between(0, shape.largest_amount),
        _ if generous => (shape.largest_amount * 4).min(UNIT_CEILING),
        _ => chance.between(0, (shape.largest_amount * 2).min(UNIT_CEILING)),
    };
    let short_limits = (0..shape.currencies).map(|_| short_limit() as u32).collect();
    let typical = shape.largest_amount * shape.largest_rate;
    let aggregate_limit = match chance.between(0, 5) {
        0 => 0,
        1 => LARGEST_AGGREGATE,
        2 => chance.between(0, typical),
        3 => chance.between(0, typical / 10),
        _ => chance.between(0, typical * 4),
    };
    Member { name, aggregate_limit, short_limits }
}

fn two_of(chance: &mut Chance, length: usize) -> (u8, u8) {
    let one = chance.index(length);
    let other = (one + 1 + chance.index(length.saturating_sub(1))) % length.max(1);
    (one as u8, other as u8)
}

/// An instruction whose legs are of nearly the same value, so that its pair is neither hopeless nor harmless.
fn instruction(chance: &mut Chance, day: &Day, shape: &Shape, reference: u32) -> Instruction {
    let (submitter, counterparty) = two_of(chance, shape.members);
    let (bought_currency, sold_currency) = two_of(chance, shape.currencies);
    let rate = |currency: u8| day.currencies.get(usize::from(currency)).map_or(1, |c| u64::from(c.rate));
    let bought_amount = chance.between(1, shape.largest_amount);
    let fair = bought_amount * rate(bought_currency) / rate(sold_currency);
    let sold_amount = (fair * chance.between(80, 120) / 100).clamp(1, shape.largest_amount.max(2));
    Instruction {
        submitter,
        counterparty,
        bought_currency,
        sold_currency,
        bought_amount: bought_amount as u32,
        sold_amount: sold_amount as u32,
        reference,
    }
}

/// Spoils one field, so that the instruction is refused, or kept and unmatched.
fn spoil_instruction(chance: &mut Chance, i: &mut Instruction) {
    let amount = chance.pick(&[0, 1, 999_999_999, 1_000_000_000, 1_000_000_001, u32::MAX]);
    let number = chance.pick(&[0, 1, 23, 24, 25, 31, 32, 33, 255]);
    match chance.between(0, 8) {
        0 => i.submitter = number,
        1 => i.counterparty = number,
        2 => i.bought_currency = number,
        3 => i.sold_currency = number,
        4 => i.bought_amount = amount,
        5 => i.sold_amount = amount,
        6 => i.reference = chance.pick(&[0, 1, 2, u32::MAX]),
        7 => i.counterparty = i.submitter,
        _ => i.sold_currency = i.bought_currency,
    }
}

fn instructions(chance: &mut Chance, day: &Day, shape: &Shape) -> Vec<Instruction> {
    let mut list: Vec<Instruction> = Vec::new();
    let spoilt_one_in = chance.pick(&[6, 20, 1_000]);
    let mut reference = chance.pick(&[1, 7, u32::MAX - 5_000]);
    while list.len() < shape.instructions {
        reference += if chance.one_in(20) { 0 } else { 1 };
        let one = instruction(chance, day, shape, reference);
        list.push(one.mirror());
        list.push(one);
        if chance.one_in(spoilt_one_in) {
            let at = list.len() - 1;
            spoil_instruction(chance, &mut list[at]);
        }
        if chance.one_in(40) {
            let again = list[chance.index(list.len())].clone();
            list.push(again);
        }
    }
    if chance.one_in(2) {
        chance.shuffle(&mut list);
    }
    list.truncate(shape.instructions);
    list
}

pub fn steps(chance: &mut Chance, shape: &Shape) -> Vec<Step> {
    let mut list: Vec<Step> = Vec::new();
    let settle_one_in = chance.pick(&[3, 8, 30]);
    let clock_one_in = chance.pick(&[10, 100]);
    let out_in_ten = chance.pick(&[1, 3, 6]);
    let spoilt_one_in = chance.pick(&[10, 50, 1_000]);
    let mut hour = 0;
    while list.len() < shape.steps {
        if chance.one_in(settle_one_in) {
            list.push(Step::settle());
        } else if chance.one_in(clock_one_in) {
            hour = if chance.one_in(4) { chance.between(0, 7) } else { (hour + chance.between(0, 2)).min(5) };
            list.push(Step::clock(hour));
        } else {
            let kind = if chance.between(1, 10) <= out_in_ten { PAY_OUT } else { PAY_IN };
            let amount = chance.between(1, shape.largest_amount);
            let step = Step::money(kind, chance.index(shape.members), chance.index(shape.currencies), amount);
            list.push(step);
        }
        // The same member and currency again, the other way and by nearly the same amount, meets bounds exactly.
        if chance.one_in(5) {
            let mut again = list[list.len() - 1].clone();
            again.kind = chance.pick(&[PAY_IN, PAY_OUT, PAY_OUT]);
            again.amount = again.amount.wrapping_add(chance.pick(&[0, 0, 1, u32::MAX]));
            list.push(again);
        }
        if chance.one_in(spoilt_one_in) {
            let at = list.len() - 1;
            spoil_step(chance, &mut list[at]);
        }
    }
    list.truncate(shape.steps);
    list
}

fn spoil_step(chance: &mut Chance, step: &mut Step) {
    match chance.between(0, 4) {
        0 => step.member = chance.pick(&[0, 31, 32, 255]),
        1 => step.currency = chance.pick(&[0, 23, 24, 255]),
        2 => step.amount = chance.pick(&[0, 1, 999_999_999, 1_000_000_000, 1_000_000_001, u32::MAX]),
        3 => step.hour = chance.pick(&[0, 4, 5, 6, 255]),
        _ => {
            // Fields that a step does not read may hold anything.
            step.hour = chance.byte();
            if step.kind == SETTLE {
                (step.member, step.currency, step.amount) = (chance.byte(), chance.byte(), chance.next() as u32);
            }
        }
    }
}

pub fn ordinary_day(chance: &mut Chance, shape: &Shape) -> Day {
    let currencies = (0..shape.currencies).map(|number| currency(chance, number, shape.largest_rate)).collect();
    let members = (0..shape.members).map(|number| member(chance, number, shape)).collect();
    let mut day = Day { currencies, members, instructions: Vec::new(), steps: Vec::new() };
    day.instructions = instructions(chance, &day, shape);
    day.steps = steps(chance, shape);
    day
}
