//! Every bound that a day file can meet, in two days: one at the bound, and one that is the least past it.

use super::built::{day_sum_day, plain_currency, plain_members};
use super::day::*;

/// A day at a bound, and the same day one past it. They print different texts.
pub type Bound = [Vec<u8>; 2];

pub fn bounds() -> Vec<Bound> {
    [form(), counts(), sheet(), roster(), intake(), mirrors(), steps(), sums(), pay_outs(), tests(), dues()].concat()
}

const UNIT: u32 = UNIT_CEILING as u32;
const USD: usize = 0;
const EUR: usize = 1;
const GBP: usize = 2;

/// Three members, three currencies, and a pair that settles: the first member buys 100 EUR for 110 USD from the second.
fn base() -> Day {
    let first = Instruction {
        submitter: 0,
        counterparty: 1,
        bought_currency: EUR as u8,
        sold_currency: USD as u8,
        bought_amount: 100,
        sold_amount: 110,
        reference: 7,
    };
    Day {
        currencies: vec![plain_currency(b"USD", 10), plain_currency(b"EUR", 11), plain_currency(b"GBP", 12)],
        members: plain_members(3, &[1_000, 1_000, 1_000]),
        instructions: vec![first.clone(), first.mirror()],
        steps: vec![pay_in(0, USD, 13), pay_in(1, EUR, 100), Step::settle(), Step::clock(1)],
    }
}

fn pay_in(member: usize, currency: usize, amount: u32) -> Step {
    Step::money(PAY_IN, member, currency, u64::from(amount))
}

fn pay_out(member: usize, currency: usize, amount: u32) -> Step {
    Step::money(PAY_OUT, member, currency, u64::from(amount))
}

/// The base day with a value at a bound, and with the one past it.
fn bound<T>([at, past]: [T; 2], change: impl Fn(&mut Day, T)) -> Bound {
    [at, past].map(|value| {
        let mut day = base();
        change(&mut day, value);
        day.bytes()
    })
}

fn form() -> Vec<Bound> {
    let file = base().bytes();
    let resized = |length: usize| {
        let mut other = file.clone();
        other.resize(length, 0);
        other
    };
    vec![
        [vec![0; 8], vec![0; 7]],
        [vec![0; 40_000], vec![0; 40_001]],
        [file.clone(), resized(file.len() - 1)],
        [file.clone(), resized(file.len() + 1)],
        bound([1, 0], |day, kind| day.steps[0].kind = kind),
        bound([4, 5], |day, kind| day.steps[3].kind = kind),
    ]
}

/// The most records of each sort and one more, with the length that the counts give.
fn counts() -> Vec<Bound> {
    let code = |number: usize| [b'X', b'A' + (number / 26) as u8, b'A' + (number % 26) as u8];
    vec![
        bound([24, 25], |day, count| {
            day.currencies = (0..count).map(|number| plain_currency(&code(number), 10)).collect();
            day.members = plain_members(3, &vec![1_000; count]);
        }),
        bound([32, 33], |day, count| day.members = plain_members(count, &[1_000; 3])),
        bound([1_024, 1_025], |day, count| {
            let one = day.instructions[0].clone();
            day.instructions = (1..=count).map(|n| Instruction { reference: n as u32, ..one.clone() }).collect();
        }),
        bound([2_000, 2_001], |day, count| day.steps.resize(count, pay_in(2, GBP, 1))),
    ]
}

fn sheet() -> Vec<Bound> {
    let mut list = vec![
        bound([*b"USE", *b"USD"], |day, code| day.currencies[EUR].code = code),
        bound([1, 0], |day, rate| day.currencies[EUR].rate = rate),
        bound([200_000, 200_001], |day, rate| day.currencies[EUR].rate = rate),
        bound([500, 501], |day, haircut| day.currencies[EUR].haircut = haircut),
        bound([1, 0], |day, instalments| day.currencies[EUR].instalments = instalments),
        bound([5, 6], |day, instalments| day.currencies[EUR].instalments = instalments),
    ];
    for at in 0..3 {
        list.push(bound([b'A', b'A' - 1], |day, letter| day.currencies[EUR].code[at] = letter));
        list.push(bound([b'Z', b'Z' + 1], |day, letter| day.currencies[EUR].code[at] = letter));
    }
    list
}

fn roster() -> Vec<Bound> {
    let mut list = vec![
        bound([*b"A               ", *b"                "], |day, name| day.members[1].name = name),
        bound([LARGEST_AGGREGATE, LARGEST_AGGREGATE + 1], |day, limit| day.members[1].aggregate_limit = limit),
        bound([*b"SIXTEENBYTESOF-1", *b"SIXTEENBYTESOF-0"], |day, name| {
            day.members[0].name = *b"SIXTEENBYTESOF-0";
            day.members[1].name = name;
        }),
    ];
    for currency in [USD, EUR, GBP] {
        list.push(bound([UNIT, UNIT + 1], |day, limit| day.members[1].short_limits[currency] = limit));
    }
    for at in [0, 7, 14] {
        for signs in [[33, 32], [126, 127]] {
            list.push(bound(signs, |day, sign| {
                day.members[1].name = *b"SIXTEENBYTESNAME";
                day.members[1].name[at] = sign;
            }));
        }
    }
    list
}

/// Changes the first instruction, and the second so that it stays the mirror.
fn both(day: &mut Day, change: impl Fn(&mut Instruction)) {
    change(&mut day.instructions[0]);
    day.instructions[1] = day.instructions[0].mirror();
}

fn intake() -> Vec<Bound> {
    let mut list = vec![
        bound([2, 3], |day, member| both(day, |i| i.submitter = member)),
        bound([2, 3], |day, member| both(day, |i| i.counterparty = member)),
        bound([1, 0], |day, member| both(day, |i| i.counterparty = member)),
        bound([2, 3], |day, currency| both(day, |i| i.bought_currency = currency)),
        bound([2, 3], |day, currency| both(day, |i| i.sold_currency = currency)),
        bound([1, 0], |day, currency| both(day, |i| i.bought_currency = currency)),
        bound([1, 0], |day, reference| both(day, |i| i.reference = reference)),
        bound([u32::MAX, 0], |day, reference| both(day, |i| i.reference = reference)),
        // The reference again, by a submitter that has kept it and by one that has not.
        bound([2, 0], |day, submitter| {
            let again = Instruction { submitter, counterparty: 1, ..day.instructions[0].clone() };
            day.instructions.push(again);
        }),
    ];
    for amounts in [[1, 0], [UNIT, UNIT + 1]] {
        list.push(bound(amounts, |day, amount| both(day, |i| i.bought_amount = amount)));
        list.push(bound(amounts, |day, amount| both(day, |i| i.sold_amount = amount)));
    }
    list
}

/// A mirror, and an instruction that is one but for one field.
fn mirrors() -> Vec<Bound> {
    vec![
        bound([0, 1], |day, more| day.instructions[1].bought_amount += more),
        bound([0, 1], |day, more| day.instructions[1].sold_amount += more),
        bound([0, 1], |day, more| day.instructions[1].reference += more),
        bound([0, 2], |day, other| day.instructions[1].counterparty = other),
        bound([1, 2], |day, other| day.instructions[1].submitter = other),
        bound([0, 2], |day, other| day.instructions[1].bought_currency = other),
        bound([1, 2], |day, other| day.instructions[1].sold_currency = other),
    ]
}

fn steps() -> Vec<Bound> {
    let mut list = vec![
        bound([5, 6], |day, hour| day.steps.push(Step::clock(hour))),
        bound([3, 2], |day, hour| day.steps.extend([Step::clock(3), Step::clock(hour)])),
    ];
    for kind in [PAY_IN, PAY_OUT] {
        // Enough stands in the account for a pay-out to be granted.
        let after_pay_ins = |day: &mut Day, step: Step| {
            day.steps = if kind == PAY_OUT { vec![pay_in(2, GBP, UNIT), step] } else { vec![step] };
        };
        list.push(bound([2, 3], |day, member| after_pay_ins(day, Step::money(kind, member, GBP, 1))));
        list.push(bound([2, 3], |day, currency| after_pay_ins(day, Step::money(kind, 2, currency, 1))));
        list.push(bound([1, 0], |day, amount| after_pay_ins(day, Step::money(kind, 2, GBP, amount))));
        list.push(bound([UNIT_CEILING, UNIT_CEILING + 1], |day, amount| {
            after_pay_ins(day, Step::money(kind, 2, GBP, amount));
        }));
    }
    list
}

/// What a member has in its account, and what it has paid in over the day.
fn sums() -> Vec<Bound> {
    let mut list =
        vec![bound([5, 6], |day, amount| day.steps.extend([pay_in(2, GBP, UNIT - 5), pay_in(2, GBP, amount)]))];
    for short_by in [1, 5] {
        list.push([short_by, short_by + 1].map(|last| day_sum_day(short_by, false, &[last]).bytes()));
    }
    list.push([[].as_slice(), &[1]].map(|last| day_sum_day(0, false, last).bytes()));
    list
}

fn pay_outs() -> Vec<Bound> {
    vec![
        // The account.
        bound([10, 11], |day, amount| day.steps.extend([pay_in(2, GBP, 10), pay_out(2, GBP, amount)])),
        // The cash: the second member has bought 110 USD, of which 13 were paid in.
        bound([13, 14], |day, amount| day.steps.push(pay_out(1, USD, amount))),
        // The adjusted value, which is 0 at the bound, without haircuts and with them.
        bound([130, 131], |day, amount| value_after_pay_out(day, 0, 0, amount)),
        bound([119, 120], |day, amount| value_after_pay_out(day, 0, 100, amount)),
        bound([9, 10], |day, amount| value_after_pay_out(day, 500, 50, amount)),
    ]
}

/// The second member has paid in 130 USD and no EUR and has sold 100 EUR for 110 USD, so that it has 240 USD and is
/// short of 100 EUR. It is paid out USD.
fn value_after_pay_out(day: &mut Day, long_haircut: u16, short_haircut: u16, amount: u32) {
    day.currencies[USD].haircut = long_haircut;
    day.currencies[EUR].haircut = short_haircut;
    day.steps = vec![pay_in(0, USD, 110), pay_in(1, USD, 130), Step::settle(), pay_out(1, USD, amount)];
}

/// The four tests, of the pair's first party and of its second: the party that they stop is the first member, which is
/// the second party where the mirror comes first.
fn tests() -> Vec<Bound> {
    let mut list = Vec::new();
    for mirror_first in [false, true] {
        let ordered = |day: &mut Day| {
            if mirror_first {
                day.instructions.reverse();
            }
        };
        list.extend([
            bound([UNIT - 100, UNIT - 99], |day, amount| {
                ordered(day);
                day.steps.insert(0, pay_in(0, EUR, amount));
            }),
            bound([97, 96], |day, limit| {
                ordered(day);
                day.members[0].short_limits[USD] = limit;
            }),
            bound([970, 969], |day, limit| {
                ordered(day);
                day.members[0].aggregate_limit = limit;
            }),
            // It buys 102 EUR, which are cut by half, and sells 50 USD, which it has not and which are raised by 20.
            bound([50, 51], |day, amount| {
                both(day, |i| (i.bought_amount, i.sold_amount) = (102, amount));
                ordered(day);
                (day.currencies[USD].rate, day.currencies[USD].haircut) = (10, 20);
                (day.currencies[EUR].rate, day.currencies[EUR].haircut) = (10, 500);
                day.steps = vec![pay_in(1, EUR, 102), Step::settle()];
            }),
        ]);
    }
    list
}

/// The whole instalment at each hour, and one unit less: the first member is required to pay in 110 USD.
fn dues() -> Vec<Bound> {
    let mut list = Vec::new();
    for instalments in 1..=5 {
        for hour in 1..=5 {
            let due = (110 * u64::min(hour, instalments)).div_ceil(instalments);
            list.push(bound([due, due - 1], |day, amount| {
                day.currencies[USD].instalments = instalments as u8;
                day.steps = vec![Step::money(PAY_IN, 0, USD, amount), Step::clock(hour)];
            }));
        }
    }
    list
}
