//! The records of a day file, and its bytes.

pub const UNIT_CEILING: u64 = 1_000_000_000;
pub const LARGEST_AGGREGATE: u64 = 1_000_000_000_000_000_000;
pub const LARGEST_RATE: u64 = 200_000;

#[derive(Clone)]
pub struct Currency {
    pub code: [u8; 3],
    pub instalments: u8,
    pub rate: u32,
    pub haircut: u16,
}

#[derive(Clone)]
pub struct Member {
    pub name: [u8; 16],
    pub aggregate_limit: u64,
    pub short_limits: Vec<u32>,
}

#[derive(Clone)]
pub struct Instruction {
    pub submitter: u8,
    pub counterparty: u8,
    pub bought_currency: u8,
    pub sold_currency: u8,
    pub bought_amount: u32,
    pub sold_amount: u32,
    pub reference: u32,
}

impl Instruction {
    pub fn mirror(&self) -> Instruction {
        Instruction {
            submitter: self.counterparty,
            counterparty: self.submitter,
            bought_currency: self.sold_currency,
            sold_currency: self.bought_currency,
            bought_amount: self.sold_amount,
            sold_amount: self.bought_amount,
            reference: self.reference,
        }
    }
}

#[derive(Clone)]
pub struct Step {
    pub kind: u8,
    pub member: u8,
    pub currency: u8,
    pub hour: u8,
    pub amount: u32,
}

pub const PAY_IN: u8 = 1;
pub const CLOCK: u8 = 2;
pub const SETTLE: u8 = 3;
pub const PAY_OUT: u8 = 4;

impl Step {
    pub fn money(kind: u8, member: usize, currency: usize, amount: u64) -> Step {
        Step { kind, member: member as u8, currency: currency as u8, hour: 0, amount: amount as u32 }
    }

    pub fn settle() -> Step {
        Step { kind: SETTLE, member: 0, currency: 0, hour: 0, amount: 0 }
    }

    pub fn clock(hour: u64) -> Step {
        Step { kind: CLOCK, member: 0, currency: 0, hour: hour as u8, amount: 0 }
    }
}

#[derive(Clone)]
pub struct Day {
    pub currencies: Vec<Currency>,
    pub members: Vec<Member>,
    pub instructions: Vec<Instruction>,
    pub steps: Vec<Step>,
}

impl Day {
    pub fn bytes(&self) -> Vec<u8> {
        let mut file = Vec::new();
        for count in [self.currencies.len(), self.members.len(), self.instructions.len(), self.steps.len()] {
            file.extend((count as u16).to_le_bytes());
        }
        for currency in &self.currencies {
            file.extend(currency.code);
            file.push(currency.instalments);
            file.extend(currency.rate.to_le_bytes());
            file.extend(currency.haircut.to_le_bytes());
        }
        for member in &self.members {
            file.extend(member.name);
            file.extend(member.aggregate_limit.to_le_bytes());
            file.extend(member.short_limits.iter().flat_map(|limit| limit.to_le_bytes()));
        }
        for i in &self.instructions {
            file.extend([i.submitter, i.counterparty, i.bought_currency, i.sold_currency]);
            file.extend([i.bought_amount, i.sold_amount, i.reference].iter().flat_map(|field| field.to_le_bytes()));
        }
        for step in &self.steps {
            file.extend([step.kind, step.member, step.currency, step.hour]);
            file.extend(step.amount.to_le_bytes());
        }
        file
    }
}
