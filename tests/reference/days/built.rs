//! Days that are built to reach what chance hardly reaches.

use super::chance::Chance;
use super::day::*;
use super::made::{self, Shape};

/// Members without tight limits, for the days that are built by hand.
pub fn plain_members(count: usize, short_limits: &[u32]) -> Vec<Member> {
    let named = |number: usize| {
        let mut name = [b' '; 16];
        (name[0], name[1]) = (b'A' + (number / 26) as u8, b'A' + (number % 26) as u8);
        Member { name, aggregate_limit: LARGEST_AGGREGATE, short_limits: short_limits.to_vec() }
    };
    (0..count).map(named).collect()
}

pub fn plain_currency(code: &[u8; 3], rate: u32) -> Currency {
    Currency { code: *code, instalments: 1, rate, haircut: 0 }
}

/// A day on which each pass settles one pair: a sum goes from member to member, each adding one unit, and the pair of
/// the last move has the lowest number. So many pairs, and one more pass than that.
pub fn chain_day(pairs: usize) -> Day {
    const RING: usize = 32;
    const BASE: usize = 1_000;
    let mut instructions = Vec::new();
    for hop in (0..pairs).rev() {
        let seller = Instruction {
            submitter: (hop % RING) as u8,
            counterparty: ((hop + 1) % RING) as u8,
            bought_currency: 1,
            sold_currency: 0,
            bought_amount: 1,
            sold_amount: (BASE + hop) as u32,
            reference: hop as u32 + 1,
        };
        instructions.extend([seller.clone(), seller.mirror()]);
    }
    let mut steps = vec![Step::money(PAY_IN, 0, 0, BASE as u64)];
    for number in 0..RING {
        // Every hop but the first needs one unit more than came in.
        let hops = (1..pairs).filter(|hop| hop % RING == number).count();
        if hops > 0 {
            steps.push(Step::money(PAY_IN, number, 0, hops as u64));
        }
        steps.push(Step::money(PAY_IN, number, 1, 100));
    }
    steps.push(Step::settle());
    steps.push(Step::clock(1));
    Day {
        currencies: vec![plain_currency(b"TOK", 10), plain_currency(b"FEE", 1)],
        members: plain_members(RING, &[0, 0]),
        instructions,
        steps,
    }
}

/// The longest such day within a day that is full in every count.
pub fn full_chain_day(chance: &mut Chance) -> Day {
    let mut day = chain_day(512);
    day.currencies.extend((2..24).map(|number| plain_currency(&[b'X', b'A' + number, b'X'], u32::from(number))));
    for member in &mut day.members {
        member.short_limits.resize(24, 5);
    }
    let rest = Shape {
        currencies: 24,
        members: 32,
        instructions: 0,
        steps: 2_000 - day.steps.len(),
        largest_amount: 50,
        largest_rate: 1,
    };
    day.steps.extend(made::steps(chance, &rest));
    day
}

/// A day on which one member's pay-ins come to the day ceiling, short by a little. What it pays in goes to others by
/// settled pairs until each of them has the unit ceiling, and after that out again; but the last may stay, so that a
/// further one meets both ceilings. The further pay-ins come last.
pub fn day_sum_day(short_by: u64, stays: bool, further: &[u64]) -> Day {
    let pair = |other: u8| Instruction {
        submitter: 0,
        counterparty: other,
        bought_currency: 1,
        sold_currency: 0,
        bought_amount: 5_000,
        sold_amount: UNIT_CEILING as u32,
        reference: u32::from(other),
    };
    let mut steps = vec![Step::settle()];
    let mut paid_in = 0;
    for _ in 0..15 {
        steps.extend([
            Step::money(PAY_IN, 0, 0, UNIT_CEILING),
            Step::money(PAY_IN, 0, 0, UNIT_CEILING),
            Step::settle(),
        ]);
        paid_in += 2;
    }
    steps.push(Step::money(PAY_IN, 0, 0, UNIT_CEILING));
    paid_in += 1;
    while paid_in < 1_000 {
        paid_in += 1;
        let less = if paid_in == 1_000 { short_by } else { 0 };
        steps.extend([Step::money(PAY_IN, 0, 0, UNIT_CEILING - less), Step::money(PAY_OUT, 0, 0, UNIT_CEILING - less)]);
    }
    if stays {
        steps.pop();
    }
    steps.extend(further.iter().map(|&amount| Step::money(PAY_IN, 0, 0, amount)));
    Day {
        currencies: vec![plain_currency(b"LOW", 1), plain_currency(b"TOP", LARGEST_RATE as u32)],
        members: plain_members(32, &[UNIT_CEILING as u32, UNIT_CEILING as u32]),
        instructions: (1..32).flat_map(|other| [pair(other), pair(other).mirror()]).collect(),
        steps,
    }
}
