//! Settles one day: reads a day file from standard input and writes the text for it to standard output.
//!
//! It follows docs/RULES.md, docs/DAYFILE.md and docs/REFUSALS.md and shares nothing with the engine, so that the two
//! can be compared. It prefers the plain form of each rule to speed: rows are copied, sums are added anew.

use std::io::{self, Read, Write};
use std::process::ExitCode;

const UNIT_CEILING: i64 = 1_000_000_000;
const DAY_CEILING: i64 = 1_000_000_000_000;
const LARGEST_AGGREGATE: u64 = 1_000_000_000_000_000_000;
const MOST_CURRENCIES: usize = 24;
const MOST_MEMBERS: usize = 32;
const MOST_INSTRUCTIONS: usize = 1_024;
const MOST_STEPS: usize = 2_000;
const LARGEST_RATE: u32 = 200_000;
const LARGEST_HAIRCUT: u16 = 500;
const MOST_INSTALMENTS: u8 = 5;
const LAST_HOUR: u8 = 5;

const COUNTS_LENGTH: usize = 8;
const CURRENCY_LENGTH: usize = 10;
const INSTRUCTION_LENGTH: usize = 16;
const STEP_LENGTH: usize = 8;
const LONGEST_FILE: usize = 40_000;

// ---------------------------------------------------------------------------------------------------------------------
// Refusals

/// Why something is refused; the number is the one that is printed.
#[derive(Clone, Copy)]
enum Cause {
    FileLength = 1,
    Counts = 2,
    FileForm = 3,
    StepKind = 4,
    Full = 5,
    Name = 6,
    Range = 8,
    Member = 9,
    Currency = 10,
    Amount = 11,
    Reference = 12,
    SameCurrency = 13,
    AccountCeiling = 14,
    DaySum = 15,
    CashCeiling = 16,
    Hour = 17,
    Account = 18,
    AdjustedValue = 19,
    Cash = 20,
    Reserved = 21,
}

#[derive(Clone, Copy)]
enum Layer {
    File,
    Sheet,
    Roster,
    Intake,
    Session,
    Nostro,
}

impl Layer {
    fn word(self) -> &'static str {
        match self {
            Layer::File => "file",
            Layer::Sheet => "sheet",
            Layer::Roster => "roster",
            Layer::Intake => "intake",
            Layer::Session => "session",
            Layer::Nostro => "nostro",
        }
    }
}

/// What a part refuses, before the runner says for which member, which currency and at which place.
type Verdict<T> = Result<T, (Cause, Layer)>;

struct Refusal {
    cause: Cause,
    layer: Layer,
    member: Option<usize>,
    currency: Option<usize>,
    place: usize,
}

impl Refusal {
    fn of_file(cause: Cause, place: usize) -> Refusal {
        Refusal { cause, layer: Layer::File, member: None, currency: None, place }
    }

    fn line(&self) -> String {
        format!(
            "refusal {} {} member {} currency {} place {}\n",
            self.cause as u8,
            self.layer.word(),
            number_or_dash(self.member),
            number_or_dash(self.currency),
            self.place
        )
    }
}

fn number_or_dash(which: Option<usize>) -> String {
    which.map_or("-".to_string(), |number| number.to_string())
}

// ---------------------------------------------------------------------------------------------------------------------
// The form of a file

struct CurrencyRecord {
    code: [u8; 3],
    instalments: u8,
    rate: u32,
    haircut: u16,
}

struct MemberRecord {
    name: Vec<u8>,
    aggregate_limit: u64,
    short_limits: Vec<u32>,
}

#[derive(Clone, Copy)]
struct InstructionRecord {
    submitter: u8,
    counterparty: u8,
    bought_currency: u8,
    sold_currency: u8,
    bought_amount: u32,
    sold_amount: u32,
    reference: u32,
}

#[derive(Clone, Copy)]
enum Step {
    PayIn { member: u8, currency: u8, amount: u32 },
    Clock { hour: u8 },
    Settle,
    PayOut { member: u8, currency: u8, amount: u32 },
}

struct DayFile {
    currencies: Vec<CurrencyRecord>,
    members: Vec<MemberRecord>,
    instructions: Vec<InstructionRecord>,
    steps: Vec<Step>,
}

/// Reads fields one after the other. The file's length is checked before, so that no field is ever cut off; were one,
/// its missing bytes would count as 0 rather than stop the program.
struct Fields<'a> {
    file: &'a [u8],
    at: usize,
}

impl Fields<'_> {
    fn bytes<const N: usize>(&mut self) -> [u8; N] {
        let mut field = [0; N];
        for byte in &mut field {
            *byte = self.file.get(self.at).copied().unwrap_or(0);
            self.at = self.at.saturating_add(1);
        }
        field
    }

    fn byte(&mut self) -> u8 {
        u8::from_le_bytes(self.bytes())
    }

    fn two(&mut self) -> u16 {
        u16::from_le_bytes(self.bytes())
    }

    fn four(&mut self) -> u32 {
        u32::from_le_bytes(self.bytes())
    }

    fn eight(&mut self) -> u64 {
        u64::from_le_bytes(self.bytes())
    }

    fn currency(&mut self) -> CurrencyRecord {
        CurrencyRecord { code: self.bytes(), instalments: self.byte(), rate: self.four(), haircut: self.two() }
    }

    fn member(&mut self, currencies: usize) -> MemberRecord {
        let padded: [u8; 16] = self.bytes();
        let length = padded.iter().rposition(|&byte| byte != b' ').map_or(0, |last| last + 1);
        MemberRecord {
            name: padded.into_iter().take(length).collect(),
            aggregate_limit: self.eight(),
            short_limits: (0..currencies).map(|_| self.four()).collect(),
        }
    }

    fn instruction(&mut self) -> InstructionRecord {
        InstructionRecord {
            submitter: self.byte(),
            counterparty: self.byte(),
            bought_currency: self.byte(),
            sold_currency: self.byte(),
            bought_amount: self.four(),
            sold_amount: self.four(),
            reference: self.four(),
        }
    }

    /// The step here, or the refusal of its kind at its own offset.
    fn step(&mut self) -> Result<Step, Refusal> {
        let place = self.at;
        let (kind, member, currency, hour, amount) = (self.byte(), self.byte(), self.byte(), self.byte(), self.four());
        match kind {
            1 => Ok(Step::PayIn { member, currency, amount }),
            2 => Ok(Step::Clock { hour }),
            3 => Ok(Step::Settle),
            4 => Ok(Step::PayOut { member, currency, amount }),
            _ => Err(Refusal::of_file(Cause::StepKind, place)),
        }
    }
}

fn read_day(file: &[u8]) -> Result<DayFile, Refusal> {
    if file.len() < COUNTS_LENGTH || file.len() > LONGEST_FILE {
        return Err(Refusal::of_file(Cause::FileLength, 0));
    }
    let mut fields = Fields { file, at: 0 };
    let [currencies, members, instructions, steps] = [(); 4].map(|()| usize::from(fields.two()));
    if currencies > MOST_CURRENCIES || members > MOST_MEMBERS || instructions > MOST_INSTRUCTIONS || steps > MOST_STEPS
    {
        return Err(Refusal::of_file(Cause::Counts, 0));
    }
    let member_length = 24 + 4 * currencies;
    let length = COUNTS_LENGTH
        + CURRENCY_LENGTH * currencies
        + member_length * members
        + INSTRUCTION_LENGTH * instructions
        + STEP_LENGTH * steps;
    if file.len() != length {
        return Err(Refusal::of_file(Cause::FileForm, 0));
    }
    Ok(DayFile {
        currencies: (0..currencies).map(|_| fields.currency()).collect(),
        members: (0..members).map(|_| fields.member(currencies)).collect(),
        instructions: (0..instructions).map(|_| fields.instruction()).collect(),
        steps: (0..steps).map(|_| fields.step()).collect::<Result<_, _>>()?,
    })
}

// ---------------------------------------------------------------------------------------------------------------------
// The sheet

struct Currency {
    code: [u8; 3],
    rate: i128,
    haircut: i128,
    instalments: i64,
}

struct Sheet {
    currencies: Vec<Currency>,
}

impl Sheet {
    fn add(&mut self, record: &CurrencyRecord) -> Verdict<()> {
        let refuse = |cause| Err((cause, Layer::Sheet));
        if self.currencies.len() >= MOST_CURRENCIES {
            return refuse(Cause::Full);
        }
        let taken = self.currencies.iter().any(|other| other.code == record.code);
        if taken || !record.code.iter().all(u8::is_ascii_uppercase) {
            return refuse(Cause::Name);
        }
        if !(1..=LARGEST_RATE).contains(&record.rate)
            || record.haircut > LARGEST_HAIRCUT
            || !(1..=MOST_INSTALMENTS).contains(&record.instalments)
        {
            return refuse(Cause::Range);
        }
        self.currencies.push(Currency {
            code: record.code,
            rate: i128::from(record.rate),
            haircut: i128::from(record.haircut),
            instalments: i64::from(record.instalments),
        });
        Ok(())
    }

    /// The adjusted value of a row of balances, in thousandths of a mark.
    fn adjusted_value(&self, row: &[i64]) -> i128 {
        let worth = |(currency, &balance): (&Currency, &i64)| {
            let factor = if balance >= 0 { 1000 - currency.haircut } else { 1000 + currency.haircut };
            i128::from(balance) * currency.rate * factor
        };
        self.currencies.iter().zip(row).map(worth).sum()
    }

    /// The short marks of a row of balances.
    fn short_marks(&self, row: &[i64]) -> i128 {
        let short = |(currency, &balance): (&Currency, &i64)| -i128::from(balance.min(0)) * currency.rate;
        self.currencies.iter().zip(row).map(short).sum()
    }
}

// ---------------------------------------------------------------------------------------------------------------------
// The roster

struct Member {
    name: Vec<u8>,
    short_limits: Vec<i64>,
    aggregate_limit: i128,
}

struct Roster {
    members: Vec<Member>,
}

impl Roster {
    fn add(&mut self, record: &MemberRecord) -> Verdict<()> {
        let refuse = |cause| Err((cause, Layer::Roster));
        if self.members.len() >= MOST_MEMBERS {
            return refuse(Cause::Full);
        }
        // A name has at most 16 bytes, since its field has no more; it has none where the field is all spaces.
        let taken = self.members.iter().any(|other| other.name == record.name);
        let well_formed = !record.name.is_empty() && record.name.iter().all(|byte| (33..=126).contains(byte));
        if taken || !well_formed {
            return refuse(Cause::Name);
        }
        let short_limits: Vec<i64> = record.short_limits.iter().map(|&limit| i64::from(limit)).collect();
        if record.aggregate_limit > LARGEST_AGGREGATE || short_limits.iter().any(|&limit| limit > UNIT_CEILING) {
            return refuse(Cause::Range);
        }
        self.members.push(Member {
            name: record.name.clone(),
            short_limits,
            aggregate_limit: i128::from(record.aggregate_limit),
        });
        Ok(())
    }
}

// ---------------------------------------------------------------------------------------------------------------------
// The intake

#[derive(Clone, Copy, PartialEq, Eq)]
struct Leg {
    currency: usize,
    amount: i64,
}

#[derive(Clone, Copy, PartialEq, Eq)]
struct Instruction {
    submitter: usize,
    counterparty: usize,
    bought: Leg,
    sold: Leg,
    reference: u32,
}

impl Instruction {
    fn mirror(&self) -> Instruction {
        Instruction {
            submitter: self.counterparty,
            counterparty: self.submitter,
            bought: self.sold,
            sold: self.bought,
            reference: self.reference,
        }
    }
}

/// One side of a pair; bought and sold are its own.
struct Party {
    member: usize,
    bought: Leg,
    sold: Leg,
}

struct Pair {
    first: Party,
    second: Party,
    settled: bool,
}

impl Pair {
    fn parties(&self) -> [&Party; 2] {
        [&self.first, &self.second]
    }

    fn is_of(&self, member: usize) -> bool {
        self.parties().iter().any(|party| party.member == member)
    }
}

struct Kept {
    instruction: Instruction,
    matched: bool,
}

struct Intake {
    currencies: usize,
    members: usize,
    kept: Vec<Kept>,
    pairs: Vec<Pair>,
}

impl Intake {
    fn submit(&mut self, record: &InstructionRecord) -> Verdict<()> {
        let refuse = |cause| Err((cause, Layer::Intake));
        let instruction = Instruction {
            submitter: usize::from(record.submitter),
            counterparty: usize::from(record.counterparty),
            bought: Leg { currency: usize::from(record.bought_currency), amount: i64::from(record.bought_amount) },
            sold: Leg { currency: usize::from(record.sold_currency), amount: i64::from(record.sold_amount) },
            reference: record.reference,
        };
        let Instruction { submitter, counterparty, bought, sold, reference } = instruction;
        if self.kept.len() >= MOST_INSTRUCTIONS {
            return refuse(Cause::Full);
        }
        if submitter >= self.members || counterparty >= self.members || submitter == counterparty {
            return refuse(Cause::Member);
        }
        if bought.currency >= self.currencies || sold.currency >= self.currencies {
            return refuse(Cause::Currency);
        }
        if !is_amount(bought.amount) || !is_amount(sold.amount) {
            return refuse(Cause::Amount);
        }
        let is_used = |kept: &Kept| (kept.instruction.submitter, kept.instruction.reference) == (submitter, reference);
        if reference == 0 || self.kept.iter().any(is_used) {
            return refuse(Cause::Reference);
        }
        if bought.currency == sold.currency {
            return refuse(Cause::SameCurrency);
        }
        self.keep(instruction);
        Ok(())
    }

    /// Keeps an instruction, and joins it with its mirror if that waits for it. The mirror came first, so its submitter
    /// is the pair's first party.
    fn keep(&mut self, instruction: Instruction) {
        let mirror = instruction.mirror();
        let waiting = self.kept.iter_mut().find(|kept| !kept.matched && kept.instruction == mirror);
        let matched = waiting.is_some();
        if let Some(first) = waiting {
            first.matched = true;
            self.pairs.push(Pair {
                first: Party { member: mirror.submitter, bought: mirror.bought, sold: mirror.sold },
                second: Party { member: instruction.submitter, bought: instruction.bought, sold: instruction.sold },
                settled: false,
            });
        }
        self.kept.push(Kept { instruction, matched });
    }
}

fn is_amount(amount: i64) -> bool {
    (1..=UNIT_CEILING).contains(&amount)
}

// ---------------------------------------------------------------------------------------------------------------------
// The single book

struct SingleBook {
    cash: [i64; MOST_CURRENCIES],
}

impl SingleBook {
    fn receive(&mut self, currency: usize, amount: i64) -> Verdict<()> {
        let cash = self.cash.get_mut(currency).ok_or((Cause::Currency, Layer::Nostro))?;
        if *cash + amount > DAY_CEILING {
            return Err((Cause::CashCeiling, Layer::Nostro));
        }
        *cash += amount;
        Ok(())
    }

    fn pay(&mut self, currency: usize, amount: i64) -> Verdict<()> {
        let cash = self.cash.get_mut(currency).ok_or((Cause::Currency, Layer::Nostro))?;
        if amount > *cash {
            return Err((Cause::Cash, Layer::Nostro));
        }
        *cash -= amount;
        Ok(())
    }

    fn cash(&self, currency: usize) -> i64 {
        self.cash.get(currency).copied().unwrap_or(0)
    }
}

// ---------------------------------------------------------------------------------------------------------------------
// The session

/// What the session keeps of one member, each row with one entry for each currency.
#[derive(Clone)]
struct Rows {
    accounts: Vec<i64>,
    reserved: Vec<i64>,
    paid_in: Vec<i64>,
    paid_out: Vec<i64>,
}

struct Reservation {
    member: usize,
    currency: usize,
    amount: i64,
}

struct Session {
    sheet: Sheet,
    roster: Roster,
    pairs: Vec<Pair>,
    nostro: SingleBook,
    rows: Vec<Rows>,
    hour: u8,
}

impl Session {
    fn open(sheet: Sheet, roster: Roster, pairs: Vec<Pair>) -> Session {
        let zeros = vec![0; sheet.currencies.len()];
        let rows = Rows { accounts: zeros.clone(), reserved: zeros.clone(), paid_in: zeros.clone(), paid_out: zeros };
        let rows = vec![rows; roster.members.len()];
        Session { sheet, roster, pairs, nostro: SingleBook { cash: [0; MOST_CURRENCIES] }, rows, hour: 0 }
    }

    fn apply(&mut self, step: Step) -> Verdict<()> {
        match step {
            Step::PayIn { member, currency, amount } => {
                self.pay_in(usize::from(member), usize::from(currency), i64::from(amount))
            }
            Step::Clock { hour } => self.clock(hour),
            Step::Settle => {
                self.settle();
                Ok(())
            }
            Step::PayOut { member, currency, amount } => {
                let reservation = self.reserve(usize::from(member), usize::from(currency), i64::from(amount))?;
                self.pay(reservation)
            }
        }
    }

    fn check_numbers(&self, member: usize, currency: usize) -> Verdict<()> {
        if member >= self.roster.members.len() {
            return Err((Cause::Member, Layer::Session));
        }
        if currency >= self.sheet.currencies.len() {
            return Err((Cause::Currency, Layer::Session));
        }
        Ok(())
    }

    fn pay_in(&mut self, member: usize, currency: usize, amount: i64) -> Verdict<()> {
        let refuse = |cause| Err((cause, Layer::Session));
        self.check_numbers(member, currency)?;
        if !is_amount(amount) {
            return refuse(Cause::Amount);
        }
        let rows = &mut self.rows[member];
        if rows.accounts[currency] + rows.reserved[currency] + amount > UNIT_CEILING {
            return refuse(Cause::AccountCeiling);
        }
        if rows.paid_in[currency] + amount > DAY_CEILING {
            return refuse(Cause::DaySum);
        }
        self.nostro.receive(currency, amount)?;
        rows.accounts[currency] += amount;
        rows.paid_in[currency] += amount;
        Ok(())
    }

    fn clock(&mut self, hour: u8) -> Verdict<()> {
        if hour < self.hour || hour > LAST_HOUR {
            return Err((Cause::Hour, Layer::Session));
        }
        self.hour = hour;
        Ok(())
    }

    /// Passes over the waiting pairs until one settles nothing. Pairs stand in the order of their numbers, which is the
    /// queue's, and no pair begins to wait during a pass.
    fn settle(&mut self) {
        while self.pass() > 0 {}
    }

    /// One pass; answers how many pairs it settled.
    fn pass(&mut self) -> usize {
        let mut pairs = std::mem::take(&mut self.pairs);
        let mut settled = 0;
        for pair in pairs.iter_mut().filter(|pair| !pair.settled) {
            let after = pair.parties().map(|party| (party, self.accounts_after(party)));
            if after.iter().all(|(party, row)| self.party_passes(party, row)) {
                for (party, row) in after {
                    self.rows[party.member].accounts = row;
                }
                pair.settled = true;
                settled += 1;
            }
        }
        self.pairs = pairs;
        settled
    }

    /// The row of a party as it would be after both legs. A pair's parties are different members, so that the row of
    /// one says all about it.
    fn accounts_after(&self, party: &Party) -> Vec<i64> {
        let mut row = self.rows[party.member].accounts.clone();
        row[party.bought.currency] += party.bought.amount;
        row[party.sold.currency] -= party.sold.amount;
        row
    }

    /// Whether the four tests hold of one party, given its row after both legs. Which of them fails first is not
    /// printed for a day, so their order over the two parties does not matter here.
    fn party_passes(&self, party: &Party, row: &[i64]) -> bool {
        let member = &self.roster.members[party.member];
        let (bought, sold) = (party.bought.currency, party.sold.currency);
        let below_ceiling = row[bought] + self.rows[party.member].reserved[bought] <= UNIT_CEILING;
        let within_limit = row[sold] >= -member.short_limits[sold];
        let within_aggregate = self.sheet.short_marks(row) <= member.aggregate_limit;
        let covered = self.sheet.adjusted_value(row) >= 0;
        below_ceiling && within_limit && within_aggregate && covered
    }

    fn reserve(&mut self, member: usize, currency: usize, amount: i64) -> Verdict<Reservation> {
        let refuse = |cause| Err((cause, Layer::Session));
        self.check_numbers(member, currency)?;
        if !is_amount(amount) {
            return refuse(Cause::Amount);
        }
        let rows = &self.rows[member];
        if rows.paid_out[currency] + rows.reserved[currency] + amount > DAY_CEILING {
            return refuse(Cause::DaySum);
        }
        if amount > rows.accounts[currency] {
            return refuse(Cause::Account);
        }
        let mut after = rows.accounts.clone();
        after[currency] -= amount;
        if self.sheet.adjusted_value(&after) < 0 {
            return refuse(Cause::AdjustedValue);
        }
        let reserved: i64 = self.rows.iter().map(|rows| rows.reserved[currency]).sum();
        if amount > self.nostro.cash(currency) - reserved {
            return refuse(Cause::Cash);
        }
        let rows = &mut self.rows[member];
        rows.accounts = after;
        rows.reserved[currency] += amount;
        Ok(Reservation { member, currency, amount })
    }

    fn pay(&mut self, Reservation { member, currency, amount }: Reservation) -> Verdict<()> {
        self.check_numbers(member, currency)?;
        let rows = &mut self.rows[member];
        if amount > rows.reserved[currency] {
            return Err((Cause::Reserved, Layer::Session));
        }
        self.nostro.pay(currency, amount)?;
        rows.reserved[currency] -= amount;
        rows.paid_out[currency] += amount;
        Ok(())
    }

    /// Gives what is still reserved back to the accounts.
    fn close(&mut self) {
        for rows in &mut self.rows {
            for (account, reserved) in rows.accounts.iter_mut().zip(&mut rows.reserved) {
                *account += std::mem::take(reserved);
            }
        }
    }

    /// What a member sells less what it buys in a currency over all its pairs, settled or not, and at least 0.
    fn required(&self, member: usize, currency: usize) -> i64 {
        let own = self.pairs.iter().flat_map(Pair::parties).filter(|party| party.member == member);
        let in_currency = |leg: Leg| if leg.currency == currency { leg.amount } else { 0 };
        own.map(|party| in_currency(party.sold) - in_currency(party.bought)).sum::<i64>().max(0)
    }

    fn due(&self, member: usize, currency: usize) -> i64 {
        let instalments = self.sheet.currencies[currency].instalments;
        let gone = i64::from(self.hour).min(instalments);
        let by_now = self.required(member, currency) * gone;
        // Rounded up to a whole unit; both numbers are 0 or more.
        let by_now = (by_now + instalments - 1) / instalments;
        (by_now - self.rows[member].paid_in[currency]).max(0)
    }

    fn statement(&self, number: usize) -> String {
        let rows = &self.rows[number];
        let mut text = format!("member {}\n", ascii(&self.roster.members[number].name));
        for (at, currency) in self.sheet.currencies.iter().enumerate() {
            text += &format!(
                "{} account {} in {} out {} due {}\n",
                ascii(&currency.code),
                rows.accounts[at],
                rows.paid_in[at],
                rows.paid_out[at],
                self.due(number, at)
            );
        }
        let (settled, waiting): (Vec<&Pair>, Vec<&Pair>) =
            self.pairs.iter().filter(|pair| pair.is_of(number)).partition(|pair| pair.settled);
        text + &format!("settled {} waiting {}\n", settled.len(), waiting.len())
    }
}

/// Text of bytes that were found to be letters or printable when their record was added.
fn ascii(bytes: &[u8]) -> String {
    bytes.iter().copied().map(char::from).collect()
}

// ---------------------------------------------------------------------------------------------------------------------
// The day

/// The stages up to the opening, or the refusal that ends the day. Refused instructions put their lines into `text`.
fn open_day(day: &DayFile, text: &mut String) -> Result<Session, Refusal> {
    let mut sheet = Sheet { currencies: Vec::new() };
    for (number, record) in day.currencies.iter().enumerate() {
        sheet.add(record).map_err(|(cause, layer)| Refusal {
            cause,
            layer,
            member: None,
            currency: Some(number),
            place: 0,
        })?;
    }
    let mut roster = Roster { members: Vec::new() };
    for (number, record) in day.members.iter().enumerate() {
        roster.add(record).map_err(|(cause, layer)| Refusal {
            cause,
            layer,
            member: Some(number),
            currency: None,
            place: 0,
        })?;
    }
    let (currencies, members) = (sheet.currencies.len(), roster.members.len());
    let mut intake = Intake { currencies, members, kept: Vec::new(), pairs: Vec::new() };
    for (place, record) in day.instructions.iter().enumerate() {
        if let Err((cause, layer)) = intake.submit(record) {
            let member = Some(usize::from(record.submitter));
            let currency = Some(usize::from(record.bought_currency));
            *text += &Refusal { cause, layer, member, currency, place }.line();
        }
    }
    Ok(Session::open(sheet, roster, intake.pairs))
}

/// The member and the currency that a step's refusal shows.
fn shown(step: Step) -> (Option<usize>, Option<usize>) {
    match step {
        Step::PayIn { member, currency, .. } | Step::PayOut { member, currency, .. } => {
            (Some(usize::from(member)), Some(usize::from(currency)))
        }
        Step::Clock { .. } | Step::Settle => (None, None),
    }
}

fn run(file: &[u8]) -> Result<String, Refusal> {
    let day = read_day(file)?;
    let mut text = String::new();
    let mut session = open_day(&day, &mut text)?;
    for (place, &step) in day.steps.iter().enumerate() {
        if let Err((cause, layer)) = session.apply(step) {
            let (member, currency) = shown(step);
            text += &Refusal { cause, layer, member, currency, place }.line();
        }
    }
    session.close();
    text.extend((0..day.members.len()).map(|number| session.statement(number)));
    Ok(text)
}

/// Reads one byte more than the longest file has, which is enough to see that a file is longer.
fn read_input() -> io::Result<Vec<u8>> {
    let mut file = Vec::new();
    io::stdin().lock().take(LONGEST_FILE as u64 + 1).read_to_end(&mut file)?;
    Ok(file)
}

fn print(text: &str) -> io::Result<()> {
    let mut output = io::stdout().lock();
    output.write_all(text.as_bytes())?;
    output.flush()
}

fn main() -> ExitCode {
    let text = read_input().map(|file| run(&file).unwrap_or_else(|refusal| refusal.line()));
    match text.and_then(|text| print(&text)) {
        Ok(()) => ExitCode::SUCCESS,
        Err(_) => ExitCode::FAILURE,
    }
}
