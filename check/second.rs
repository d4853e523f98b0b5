//! A second change book, written from docs/ alone, to check the first.
//!
//! It is slow and direct on purpose. Every ending of the pending transactions is kept
//! apart, and the book is read in two ways at once: as lines, each with the endings in
//! which it holds, and as plain tables, one set of four for every ending. After every
//! accepted call the two readings must agree.

use std::collections::BTreeSet;
use std::env;
use std::fmt;
use std::fs;
use std::io::{self, Read, Write as _};
use std::mem;
use std::panic;
use std::process::{Command, ExitCode, Stdio};
use std::thread;

const MOST_PENDING: usize = 6;
const MOST_MEMORY: usize = 4_096;
const RUN_MEMORY: usize = 256;
const RUN_FIRST: u32 = 1;
const PAGE_BYTES: usize = 65_536;

// ---------------------------------------------------------------- the words of docs/

type Row = [u32; 4];

/// How one transaction ends.
#[derive(Clone, Copy, Debug, PartialEq, Eq)]
enum Fate {
    Aborts,
    Commits,
}

impl Fate {
    fn read(word: u8) -> Result<Fate, Refusal> {
        match word {
            0 => Ok(Fate::Aborts),
            1 => Ok(Fate::Commits),
            _ => Err(Refusal::GarbledWord),
        }
    }
}

#[derive(Clone, Copy, Debug, PartialEq, Eq, PartialOrd, Ord)]
enum Refusal {
    GarbledWord = 1,
    NotPending = 2,
    NoSuchTable = 3,
    BadFilter = 4,
    BadChange = 5,
    BadChoice = 6,
    TooManyPending = 9,
    NumbersSpent = 10,
    NoRoom = 11,
    CutShort = 12,
    UnknownKind = 13,
    BadMaking = 14,
}

/// One more than the highest refusal number, for counting them.
const REFUSAL_NUMBERS: usize = Refusal::BadMaking as usize + 1;

#[derive(Clone, Copy, Debug, PartialEq, Eq, PartialOrd, Ord)]
enum Table {
    Script,
    Music,
    Third,
    Fourth,
}

impl Table {
    const ALL: [Table; 4] = [Table::Script, Table::Music, Table::Third, Table::Fourth];

    fn read(byte: u8) -> Result<Table, Refusal> {
        match byte {
            1 => Ok(Table::Script),
            2 => Ok(Table::Music),
            3 => Ok(Table::Third),
            4 => Ok(Table::Fourth),
            _ => Err(Refusal::NoSuchTable),
        }
    }
}

/// One of the four fields of a row. docs/ counts them from 1.
#[derive(Clone, Copy)]
struct Field(usize);

impl Field {
    fn read(byte: u8) -> Option<Field> {
        (1..=4).contains(&byte).then(|| Field(byte as usize - 1))
    }
}

/// A filter as a record gives it, not yet looked at.
#[derive(Clone, Copy, Debug)]
struct RawFilter {
    field: u8,
    low: u32,
    high: u32,
}

/// A good filter.
#[derive(Clone, Copy)]
enum Filter {
    Every,
    Between { field: Field, low: u32, high: u32 },
}

impl RawFilter {
    fn read(self) -> Result<Filter, Refusal> {
        if self.field == 0 {
            return Ok(Filter::Every);
        }
        let field = Field::read(self.field).ok_or(Refusal::BadFilter)?;
        let RawFilter { low, high, .. } = self;
        if low > high {
            return Err(Refusal::BadFilter);
        }
        Ok(Filter::Between { field, low, high })
    }
}

impl Filter {
    fn passes(self, row: &Row) -> bool {
        match self {
            Filter::Every => true,
            Filter::Between { field, low, high } => low <= row[field.0] && row[field.0] <= high,
        }
    }
}

/// A change as a record gives it, not yet looked at.
#[derive(Clone, Copy, Debug)]
struct RawChange {
    field: u8,
    operation: u8,
    amount: u32,
}

#[derive(Clone, Copy)]
enum Operation {
    Set,
    Later,
    Earlier,
}

/// A good change.
#[derive(Clone, Copy)]
struct Change {
    field: Field,
    operation: Operation,
    amount: u32,
}

impl RawChange {
    fn read(self) -> Result<Change, Refusal> {
        let field = Field::read(self.field).ok_or(Refusal::BadChange)?;
        let operation = match self.operation {
            0 => Operation::Set,
            1 => Operation::Later,
            2 => Operation::Earlier,
            _ => return Err(Refusal::BadChange),
        };
        let amount = self.amount;
        Ok(Change {
            field,
            operation,
            amount,
        })
    }
}

impl Change {
    /// Works in wide numbers, so that a result past an end is seen and stopped there.
    fn changed(self, row: &Row) -> Row {
        let old = i64::from(row[self.field.0]);
        let amount = i64::from(self.amount);
        let result = match self.operation {
            Operation::Set => amount,
            Operation::Later => old + amount,
            Operation::Earlier => old - amount,
        };
        let mut row = *row;
        row[self.field.0] = result.clamp(0, i64::from(u32::MAX)) as u32;
        row
    }
}

#[derive(Clone, Copy, Debug)]
enum Call {
    Open,
    Insert {
        number: u32,
        table: u8,
        row: Row,
    },
    Delete {
        number: u32,
        table: u8,
        filter: RawFilter,
    },
    Update {
        number: u32,
        table: u8,
        filter: RawFilter,
        change: RawChange,
    },
    Decide {
        number: u32,
        word: u8,
    },
    Vote {
        number: u32,
    },
    Count {
        table: u8,
        choice: u8,
    },
}

#[derive(Clone, Copy, Debug, PartialEq, Eq)]
enum Answer {
    Number(u32),
    Yes,
    No(u8),
}

impl fmt::Display for Answer {
    fn fmt(&self, f: &mut fmt::Formatter) -> fmt::Result {
        match self {
            Answer::Number(number) => write!(f, "{number}"),
            Answer::Yes => write!(f, "yes"),
            Answer::No(choice) => write!(f, "no {choice}"),
        }
    }
}

// ---------------------------------------------------------------- the plain tables

/// A write whose arguments were found good.
#[derive(Clone, Copy)]
enum Write {
    Insert(Row),
    Delete(Filter),
    Update(Filter, Change),
}

/// Four sets of rows, with no transactions, no memory and no refusals.
#[derive(Clone, Default)]
struct PlainTables([BTreeSet<Row>; 4]);

impl PlainTables {
    fn rows(&self, table: Table) -> &BTreeSet<Row> {
        &self.0[table as usize]
    }

    fn all_rows(&self) -> impl Iterator<Item = (Table, Row)> + Clone + '_ {
        let rows_of = |table| self.rows(table).iter().map(move |row| (table, *row));
        Table::ALL.into_iter().flat_map(rows_of)
    }

    fn write(&mut self, table: Table, write: Write) {
        let rows = &mut self.0[table as usize];
        match write {
            Write::Insert(row) => {
                rows.insert(row);
            }
            Write::Delete(filter) => rows.retain(|row| !filter.passes(row)),
            Write::Update(filter, change) => {
                let replaced = |row: Row| {
                    if filter.passes(&row) {
                        change.changed(&row)
                    } else {
                        row
                    }
                };
                *rows = mem::take(rows).into_iter().map(replaced).collect();
            }
        }
    }

    fn has_orphan(&self) -> bool {
        let cues: BTreeSet<u32> = self.rows(Table::Music).iter().map(|row| row[0]).collect();
        self.rows(Table::Script)
            .iter()
            .any(|row| !cues.contains(&row[0]))
    }
}

/// One ending: how each pending transaction ends, in order of opening, and the tables
/// that stand if it comes so.
#[derive(Clone, Default)]
struct Ending {
    fates: Vec<(u32, Fate)>,
    tables: PlainTables,
}

impl Ending {
    fn split(&self, number: u32, fate: Fate) -> Ending {
        let mut ending = self.clone();
        ending.fates.push((number, fate));
        ending
    }

    fn has(&self, number: u32, fate: Fate) -> bool {
        self.fates.contains(&(number, fate))
    }

    /// The number that names this ending: bit i tells of the transaction at position i.
    fn choice(&self) -> u8 {
        let commits = |i: &usize| self.fates[*i].1 == Fate::Commits;
        (0..self.fates.len())
            .filter(commits)
            .map(|i| 2u8.pow(i as u32))
            .sum()
    }
}

/// The formula of `decided`: the choice that c was before position i ended as s.
fn choice_before(c: u32, i: u32, fate: Fate) -> u32 {
    let s = fate as u32;
    let bit = 2u32.pow(i);
    c % bit + s * bit + (c / bit * (2 * bit)) % 64
}

// ---------------------------------------------------------------- the lines

/// A line, with the endings in which it holds: `holds` stands beside the book's endings.
#[derive(Clone)]
struct Line {
    table: Table,
    row: Row,
    holds: Vec<bool>,
}

impl Line {
    /// Holds where the old one holds and the ending is one of those told.
    fn narrowed(&self, endings: &[bool]) -> Line {
        let both = |(&old, &told): (&bool, &bool)| old && told;
        let holds = self.holds.iter().zip(endings).map(both).collect();
        Line { holds, ..*self }
    }

    fn is_possible(&self) -> bool {
        self.holds.contains(&true)
    }
}

/// What a write leaves of the lines, impossible ones dropped.
fn lines_after(lines: &[Line], table: Table, write: Write, commits: &[bool]) -> Vec<Line> {
    let aborts: Vec<bool> = commits.iter().map(|commits| !commits).collect();
    let mut after = Vec::new();
    for line in lines {
        match write {
            Write::Delete(filter) if line.table == table && filter.passes(&line.row) => {
                after.push(line.narrowed(&aborts));
            }
            Write::Update(filter, change) if line.table == table && filter.passes(&line.row) => {
                after.push(line.narrowed(&aborts));
                let row = change.changed(&line.row);
                after.push(Line {
                    row,
                    ..line.narrowed(commits)
                });
            }
            _ => after.push(line.clone()),
        }
    }
    if let Write::Insert(row) = write {
        after.push(Line {
            table,
            row,
            holds: commits.to_vec(),
        });
    }
    after.retain(Line::is_possible);
    after
}

// ---------------------------------------------------------------- the book

struct Book {
    memory: usize,
    first: u32,
    last_given: Option<u32>,
    pending: Vec<u32>,
    endings: Vec<Ending>,
    lines: Vec<Line>,
}

impl Book {
    fn made(memory: usize, first: u32) -> Book {
        Book {
            memory,
            first,
            last_given: None,
            pending: Vec::new(),
            endings: vec![Ending::default()],
            lines: Vec::new(),
        }
    }

    fn call(&mut self, call: Call) -> Result<Answer, Refusal> {
        match call {
            Call::Open => self.open(),
            Call::Insert { number, table, row } => self.insert(number, table, row),
            Call::Delete {
                number,
                table,
                filter,
            } => self.delete(number, table, filter),
            Call::Update {
                number,
                table,
                filter,
                change,
            } => self.update(number, table, filter, change),
            Call::Decide { number, word } => self.decide(number, word),
            Call::Vote { number } => self.vote(number),
            Call::Count { table, choice } => self.count(table, choice),
        }
    }

    fn is_full(&self) -> bool {
        self.lines.len() == self.memory
    }

    fn is_well_made(&self) -> bool {
        (1..=MOST_MEMORY).contains(&self.memory) && self.first != 0
    }

    fn lines_in_use(&self) -> Answer {
        Answer::Number(self.lines.len() as u32)
    }

    fn position(&self, number: u32) -> Result<usize, Refusal> {
        let position = self.pending.iter().position(|&other| other == number);
        position.ok_or(Refusal::NotPending)
    }

    /// For each ending, whether the transaction ends so there.
    fn endings_with(&self, number: u32, fate: Fate) -> Vec<bool> {
        self.endings
            .iter()
            .map(|ending| ending.has(number, fate))
            .collect()
    }

    /// Every ending becomes two, and each line holds in both where it held in the one.
    fn open(&mut self) -> Result<Answer, Refusal> {
        if self.pending.len() == MOST_PENDING {
            return Err(Refusal::TooManyPending);
        }
        if self.last_given == Some(u32::MAX) {
            return Err(Refusal::NumbersSpent);
        }
        if !self.is_well_made() {
            return Err(Refusal::BadMaking);
        }
        let number = self.last_given.map_or(self.first, |last| last + 1);
        self.last_given = Some(number);
        self.pending.push(number);
        let aborting = self
            .endings
            .iter()
            .map(|ending| ending.split(number, Fate::Aborts));
        let committing = self
            .endings
            .iter()
            .map(|ending| ending.split(number, Fate::Commits));
        self.endings = aborting.chain(committing).collect();
        for line in &mut self.lines {
            line.holds = line.holds.repeat(2);
        }
        Ok(Answer::Number(number))
    }

    fn insert(&mut self, number: u32, table: u8, row: Row) -> Result<Answer, Refusal> {
        self.position(number)?;
        let table = Table::read(table)?;
        self.write(number, table, Write::Insert(row))
    }

    fn delete(&mut self, number: u32, table: u8, filter: RawFilter) -> Result<Answer, Refusal> {
        self.position(number)?;
        let table = Table::read(table)?;
        let filter = filter.read()?;
        self.write(number, table, Write::Delete(filter))
    }

    fn update(
        &mut self,
        number: u32,
        table: u8,
        filter: RawFilter,
        change: RawChange,
    ) -> Result<Answer, Refusal> {
        self.position(number)?;
        let table = Table::read(table)?;
        let filter = filter.read()?;
        let change = change.read()?;
        self.write(number, table, Write::Update(filter, change))
    }

    /// Writes in both readings: over the lines, and over the tables of the endings.
    fn write(&mut self, number: u32, table: Table, write: Write) -> Result<Answer, Refusal> {
        let commits = self.endings_with(number, Fate::Commits);
        let after = lines_after(&self.lines, table, write, &commits);
        if after.len() > self.memory {
            return Err(Refusal::NoRoom);
        }
        self.lines = after;
        for ending in &mut self.endings {
            if ending.has(number, Fate::Commits) {
                ending.tables.write(table, write);
            }
        }
        Ok(self.lines_in_use())
    }

    /// The endings that came otherwise are struck out, for the lines as for the tables.
    fn decide(&mut self, number: u32, word: u8) -> Result<Answer, Refusal> {
        let fate = Fate::read(word)?;
        let position = self.position(number)?;
        let kept = self.endings_with(number, fate);
        for line in &mut self.lines {
            line.holds = keep(&line.holds, &kept);
        }
        self.lines.retain(Line::is_possible);
        self.endings = keep(&self.endings, &kept);
        self.pending.retain(|&other| other != number);
        for ending in &mut self.endings {
            let before = u32::from(ending.choice());
            ending.fates.retain(|&(other, _)| other != number);
            let after = u32::from(ending.choice());
            let formula = choice_before(after, position as u32, fate);
            assert_eq!(
                before, formula,
                "decided: c' of choice {after} after {number} {fate:?}"
            );
        }
        Ok(self.lines_in_use())
    }

    fn vote(&self, number: u32) -> Result<Answer, Refusal> {
        self.position(number)?;
        let orphaned =
            |ending: &&Ending| ending.has(number, Fate::Commits) && ending.tables.has_orphan();
        let lowest = self
            .endings
            .iter()
            .filter(orphaned)
            .map(Ending::choice)
            .min();
        Ok(lowest.map_or(Answer::Yes, Answer::No))
    }

    fn count(&self, table: u8, choice: u8) -> Result<Answer, Refusal> {
        let table = Table::read(table)?;
        let named = self.endings.iter().find(|ending| ending.choice() == choice);
        let rows = named.ok_or(Refusal::BadChoice)?.tables.rows(table);
        Ok(Answer::Number(rows.len() as u32))
    }

    /// The heart of the check: under each choice the lines show what the tables hold.
    fn assert_readings_agree(&self, place: usize, call: Call) {
        let mut lines: Vec<&Line> = self.lines.iter().collect();
        lines.sort_by_key(|line| (line.table, line.row));
        for (at, ending) in self.endings.iter().enumerate() {
            let holding = lines.iter().filter(|line| line.holds[at]);
            let mut shown: Vec<(Table, Row)> = holding.map(|line| (line.table, line.row)).collect();
            shown.dedup();
            let plain = ending.tables.all_rows();
            assert!(
                plain.clone().eq(shown.iter().copied()),
                "place {place}, {call:?}: under choice {} the lines show {shown:?}, \
                 but the plain tables hold {:?}",
                ending.choice(),
                plain.collect::<Vec<_>>(),
            );
        }
    }
}

/// Those of the things that are told to be kept.
fn keep<T: Clone>(things: &[T], kept: &[bool]) -> Vec<T> {
    let told = things.iter().zip(kept).filter(|(_, &kept)| kept);
    told.map(|(thing, _)| thing.clone()).collect()
}

// ---------------------------------------------------------------- pages of records

#[derive(Clone, Copy, Debug, PartialEq, Eq)]
enum Kind {
    Open = 1,
    Insert = 2,
    Delete = 3,
    Update = 4,
    Decide = 5,
    Vote = 6,
    Count = 7,
}

impl Kind {
    const ALL: [Kind; 7] = [
        Kind::Open,
        Kind::Insert,
        Kind::Delete,
        Kind::Update,
        Kind::Decide,
        Kind::Vote,
        Kind::Count,
    ];

    fn read(byte: u8) -> Option<Kind> {
        Kind::ALL.into_iter().find(|&kind| kind as u8 == byte)
    }

    fn body_bytes(self) -> usize {
        match self {
            Kind::Open => 0,
            Kind::Insert => 21,
            Kind::Delete => 14,
            Kind::Update => 20,
            Kind::Decide => 5,
            Kind::Vote => 4,
            Kind::Count => 2,
        }
    }
}

/// Reads a body from its start. The body is known to be whole.
struct Body<'a>(&'a [u8]);

impl Body<'_> {
    fn byte(&mut self) -> u8 {
        let (first, rest) = self.0.split_first().expect("a whole body");
        self.0 = rest;
        *first
    }

    fn number(&mut self) -> u32 {
        (0..4).fold(0, |number, _| number * 256 + u32::from(self.byte()))
    }

    fn row(&mut self) -> Row {
        [self.number(), self.number(), self.number(), self.number()]
    }

    fn filter(&mut self) -> RawFilter {
        RawFilter {
            field: self.byte(),
            low: self.number(),
            high: self.number(),
        }
    }

    fn change(&mut self) -> RawChange {
        RawChange {
            field: self.byte(),
            operation: self.byte(),
            amount: self.number(),
        }
    }

    fn call(&mut self, kind: Kind) -> Call {
        match kind {
            Kind::Open => Call::Open,
            Kind::Insert => Call::Insert {
                number: self.number(),
                table: self.byte(),
                row: self.row(),
            },
            Kind::Delete => Call::Delete {
                number: self.number(),
                table: self.byte(),
                filter: self.filter(),
            },
            Kind::Update => Call::Update {
                number: self.number(),
                table: self.byte(),
                filter: self.filter(),
                change: self.change(),
            },
            Kind::Decide => Call::Decide {
                number: self.number(),
                word: self.byte(),
            },
            Kind::Vote => Call::Vote {
                number: self.number(),
            },
            Kind::Count => Call::Count {
                table: self.byte(),
                choice: self.byte(),
            },
        }
    }
}

/// The call of the first record, and the bytes after that record.
fn read_record(bytes: &[u8]) -> Result<(Call, &[u8]), Refusal> {
    let kind = Kind::read(bytes[0]).ok_or(Refusal::UnknownKind)?;
    let body = bytes[1..]
        .get(..kind.body_bytes())
        .ok_or(Refusal::CutShort)?;
    let rest = &bytes[1 + kind.body_bytes()..];
    Ok((Body(body).call(kind), rest))
}

/// What became of one record.
struct Outcome {
    place: usize,
    kind: u8,
    /// Whether the memory was full before the call.
    full: bool,
    result: Result<Answer, Refusal>,
}

impl fmt::Display for Outcome {
    fn fmt(&self, f: &mut fmt::Formatter) -> fmt::Result {
        write!(f, "{} {} ", self.place, self.kind)?;
        match self.result {
            Ok(answer) => write!(f, "ok {answer}"),
            Err(refusal) => write!(f, "refused {}", refusal as u8),
        }
    }
}

/// Runs a page as `bookrun` does, and checks the two readings after every accepted call.
fn run(page: &[u8]) -> Vec<Outcome> {
    let page = &page[..page.len().min(PAGE_BYTES)];
    let mut book = Book::made(RUN_MEMORY, RUN_FIRST);
    let mut outcomes = Vec::new();
    let mut left = page;
    while let Some(&kind) = left.first() {
        let place = page.len() - left.len();
        let full = book.is_full();
        match read_record(left) {
            Ok((call, rest)) => {
                let result = book.call(call);
                if result.is_ok() {
                    book.assert_readings_agree(place, call);
                }
                outcomes.push(Outcome {
                    place,
                    kind,
                    full,
                    result,
                });
                left = rest;
            }
            Err(refusal) => {
                outcomes.push(Outcome {
                    place,
                    kind,
                    full,
                    result: Err(refusal),
                });
                break;
            }
        }
    }
    outcomes
}

fn text_of(outcomes: &[Outcome]) -> String {
    outcomes
        .iter()
        .map(|outcome| format!("{outcome}\n"))
        .collect()
}

/// Writes records: the other way round from `Body`.
struct PageWriter(Vec<u8>);

impl PageWriter {
    fn numbers(&mut self, numbers: &[u32]) {
        for number in numbers {
            self.0.extend(number.to_be_bytes());
        }
    }

    fn head(&mut self, kind: Kind, number: u32) {
        self.0.push(kind as u8);
        self.numbers(&[number]);
    }

    fn filter(&mut self, filter: RawFilter) {
        self.0.push(filter.field);
        self.numbers(&[filter.low, filter.high]);
    }

    fn record(&mut self, call: Call) {
        match call {
            Call::Open => self.0.push(Kind::Open as u8),
            Call::Insert { number, table, row } => {
                self.head(Kind::Insert, number);
                self.0.push(table);
                self.numbers(&row);
            }
            Call::Delete {
                number,
                table,
                filter,
            } => {
                self.head(Kind::Delete, number);
                self.0.push(table);
                self.filter(filter);
            }
            Call::Update {
                number,
                table,
                filter,
                change,
            } => {
                self.head(Kind::Update, number);
                self.0.push(table);
                self.filter(filter);
                self.0.extend([change.field, change.operation]);
                self.numbers(&[change.amount]);
            }
            Call::Decide { number, word } => {
                self.head(Kind::Decide, number);
                self.0.push(word);
            }
            Call::Vote { number } => self.head(Kind::Vote, number),
            Call::Count { table, choice } => self.0.extend([Kind::Count as u8, table, choice]),
        }
    }
}

// ---------------------------------------------------------------- dice

/// The finisher of splitmix64: makes seeds that stand near one another far apart.
fn scatter(seed: u64) -> u64 {
    let mut mixed = seed.wrapping_add(0x9E37_79B9_7F4A_7C15);
    mixed = (mixed ^ (mixed >> 30)).wrapping_mul(0xBF58_476D_1CE4_E5B9);
    mixed = (mixed ^ (mixed >> 27)).wrapping_mul(0x94D0_49BB_1331_11EB);
    mixed ^ (mixed >> 31)
}

/// xorshift64*: the same throws for the same seed, on every machine.
struct Dice(u64);

impl Dice {
    fn new(seed: u64) -> Dice {
        // The state must not be 0, from where it never moves.
        Dice(scatter(seed).max(1))
    }

    fn next(&mut self) -> u64 {
        self.0 ^= self.0 >> 12;
        self.0 ^= self.0 << 25;
        self.0 ^= self.0 >> 27;
        self.0.wrapping_mul(0x2545_F491_4F6C_DD1D)
    }

    fn below(&mut self, end: u64) -> u64 {
        (self.next() >> 16) % end
    }

    fn between(&mut self, low: u64, high: u64) -> u64 {
        low + self.below(high - low + 1)
    }

    fn percent(&mut self, chance: u64) -> bool {
        self.below(100) < chance
    }

    fn byte(&mut self, low: u8, high: u8) -> u8 {
        self.between(low.into(), high.into()) as u8
    }

    fn number(&mut self) -> u32 {
        (self.next() >> 32) as u32
    }

    fn one_of<T: Copy>(&mut self, things: &[T]) -> T {
        things[self.below(things.len() as u64) as usize]
    }
}

// ---------------------------------------------------------------- making pages

/// Where fields, ends of filters and amounts come from.
#[derive(Clone, Copy)]
enum Values {
    OneOf(&'static [u32]),
    Below(u32),
}

/// What the calls of a page are drawn from.
#[derive(Clone, Copy)]
struct Blend {
    /// How often each kind comes, in the order of `Kind::ALL`.
    weights: [u64; 7],
    values: Values,
    tables: &'static [u8],
    /// Of 100 arguments, how many are bad on purpose.
    faults: u64,
    /// Of 100 filters, how many pass every row.
    wide: u64,
    /// Of 100 good words, how many commit.
    commits: u64,
}

const FEW: Values = Values::OneOf(&[0, 1, 2, 3]);
const LAST: u32 = u32::MAX;
const HALF: u32 = LAST / 2;
const ENDS: Values = Values::OneOf(&[0, 1, HALF, LAST - 1, LAST]);

const MEETING: Blend = Blend {
    weights: [9, 22, 12, 14, 9, 9, 25],
    values: FEW,
    tables: &[1, 1, 2, 2, 3, 4],
    faults: 1,
    wide: 12,
    commits: 60,
};
const NEAR_ENDS: Blend = Blend {
    values: ENDS,
    tables: &[1, 2],
    ..MEETING
};
const FAULTY: Blend = Blend {
    faults: 12,
    ..MEETING
};
const DOUBLING: Blend = Blend {
    weights: [12, 34, 2, 30, 2, 4, 16],
    values: Values::Below(8),
    tables: &[1, 2],
    wide: 30,
    ..MEETING
};
const BRIM: Blend = Blend {
    weights: [8, 10, 12, 46, 2, 2, 20],
    values: Values::Below(120),
    tables: &[1],
    faults: 3,
    wide: 3,
    ..MEETING
};
const DECIDING: Blend = Blend {
    weights: [30, 14, 4, 8, 26, 4, 14],
    faults: 4,
    tables: &[1, 2],
    ..MEETING
};
const VOTING: Blend = Blend {
    weights: [8, 14, 5, 10, 7, 40, 16],
    tables: &[1, 2, 2],
    wide: 4,
    ..MEETING
};
const LONG: Blend = Blend {
    weights: [8, 16, 14, 8, 10, 16, 28],
    commits: 75,
    wide: 25,
    ..MEETING
};

/// The sorts of pages.
#[derive(Clone, Copy, PartialEq, Eq)]
enum Recipe {
    Meeting,
    Ends,
    Doubling,
    Brim,
    Deciding,
    Voting,
    Faulty,
    Cut,
    Unknown,
    Shaken,
    Noise,
    Bodies,
    Long,
    Empty,
}

const RECIPES: [(Recipe, &str); 14] = [
    (Recipe::Meeting, "meeting"),
    (Recipe::Ends, "ends"),
    (Recipe::Doubling, "doubling"),
    (Recipe::Brim, "brim"),
    (Recipe::Deciding, "deciding"),
    (Recipe::Voting, "voting"),
    (Recipe::Faulty, "faulty"),
    (Recipe::Cut, "cut"),
    (Recipe::Unknown, "unknown"),
    (Recipe::Shaken, "shaken"),
    (Recipe::Noise, "noise"),
    (Recipe::Bodies, "bodies"),
    (Recipe::Long, "long"),
    (Recipe::Empty, "empty"),
];

/// Makes a page call by call. It runs each call on a book of its own, so that it knows
/// what is pending and how full the memory is.
struct Maker {
    dice: Dice,
    book: Book,
    page: PageWriter,
}

impl Maker {
    fn new(seed: u64) -> Maker {
        let book = Book::made(RUN_MEMORY, RUN_FIRST);
        Maker {
            dice: Dice::new(seed),
            book,
            page: PageWriter(Vec::new()),
        }
    }

    fn push(&mut self, call: Call) {
        self.page.record(call);
        // A refused call is welcome too: it stands on the page all the same.
        let _ = self.book.call(call);
    }

    fn value(&mut self, blend: &Blend) -> u32 {
        match blend.values {
            Values::OneOf(values) => self.dice.one_of(values),
            Values::Below(end) => self.dice.below(end.into()) as u32,
        }
    }

    fn row(&mut self, blend: &Blend) -> Row {
        [(); 4].map(|()| self.value(blend))
    }

    fn number(&mut self, blend: &Blend) -> u32 {
        if self.book.pending.is_empty() || self.dice.percent(blend.faults) {
            return self.strange_number();
        }
        self.dice.one_of(&self.book.pending)
    }

    /// Mostly not pending: decided long ago, not yet given, or far away.
    fn strange_number(&mut self) -> u32 {
        let last = self.book.last_given.unwrap_or(0);
        match self.dice.below(5) {
            0 => 0,
            1 => last + 1,
            2 => self.dice.one_of(&[u32::MAX, 1 << 24, 1 << 31]),
            3 => self.dice.number(),
            _ => self.dice.between(0, last.into()) as u32,
        }
    }

    fn table(&mut self, blend: &Blend) -> u8 {
        if self.dice.percent(blend.faults) {
            return self.dice.one_of(&[0, 5, 6, 255]);
        }
        self.dice.one_of(blend.tables)
    }

    fn filter(&mut self, blend: &Blend) -> RawFilter {
        let ends = [self.value(blend), self.value(blend)];
        let (low, high) = (ends[0].min(ends[1]), ends[0].max(ends[1]));
        if self.dice.percent(blend.faults) {
            return self.bad_filter(low, high);
        }
        if self.dice.percent(blend.wide) {
            // The ends of field 0 are not looked at, whatever their order.
            let (field, [low, high]) = (0, ends);
            return RawFilter { field, low, high };
        }
        let field = self.dice.byte(1, 4);
        // Most filters ask for one value, so that they do not sweep the tables empty.
        let high = if self.dice.percent(33) { high } else { low };
        RawFilter { field, low, high }
    }

    /// No such field, or the ends the wrong way round; good all the same where the ends
    /// are one number.
    fn bad_filter(&mut self, low: u32, high: u32) -> RawFilter {
        if self.dice.percent(50) {
            let field = self.dice.byte(5, 255);
            return RawFilter { field, low, high };
        }
        let field = self.dice.byte(1, 4);
        let (low, high) = (high, low);
        RawFilter { field, low, high }
    }

    fn change(&mut self, blend: &Blend) -> RawChange {
        let amount = self.value(blend);
        let mut change = RawChange {
            field: self.dice.byte(1, 4),
            operation: self.dice.byte(0, 2),
            amount,
        };
        if self.dice.percent(blend.faults) {
            change.field = self.dice.one_of(&[0, 5, 255]);
        }
        if self.dice.percent(blend.faults) {
            change.operation = self.dice.byte(3, 255);
        }
        change
    }

    fn choice(&mut self, blend: &Blend) -> u8 {
        let end = self.book.endings.len() as u64;
        if self.dice.percent(blend.faults) {
            return self.dice.one_of(&[end as u8, 63, 64, 128, 255]);
        }
        self.dice.below(end) as u8
    }

    fn word(&mut self, blend: &Blend) -> u8 {
        if self.dice.percent(blend.faults) {
            return self.dice.byte(2, 255);
        }
        u8::from(self.dice.percent(blend.commits))
    }

    fn kind(&mut self, blend: &Blend) -> Kind {
        if self.book.pending.is_empty() && self.dice.percent(90) {
            return Kind::Open;
        }
        let mut throw = self.dice.below(blend.weights.iter().sum());
        for (kind, &weight) in Kind::ALL.into_iter().zip(&blend.weights) {
            if throw < weight {
                return kind;
            }
            throw -= weight;
        }
        unreachable!("a throw is below the sum of the weights")
    }

    fn draw(&mut self, blend: &Blend) -> Call {
        let kind = self.kind(blend);
        self.draw_kind(kind, blend)
    }

    fn draw_kind(&mut self, kind: Kind, blend: &Blend) -> Call {
        let number = self.number(blend);
        let table = self.table(blend);
        match kind {
            Kind::Open => Call::Open,
            Kind::Insert => Call::Insert {
                number,
                table,
                row: self.row(blend),
            },
            Kind::Delete => Call::Delete {
                number,
                table,
                filter: self.filter(blend),
            },
            Kind::Update => {
                let filter = self.filter(blend);
                Call::Update {
                    number,
                    table,
                    filter,
                    change: self.change(blend),
                }
            }
            Kind::Decide => Call::Decide {
                number,
                word: self.word(blend),
            },
            Kind::Vote => Call::Vote { number },
            Kind::Count => Call::Count {
                table,
                choice: self.choice(blend),
            },
        }
    }

    fn calls(&mut self, blend: &Blend, low: u64, high: u64) {
        for _ in 0..self.dice.between(low, high) {
            let call = self.draw(blend);
            self.push(call);
        }
    }

    fn opens(&mut self, times: u64) {
        for _ in 0..times {
            self.push(Call::Open);
        }
    }

    /// Fills the memory, or nearly: under a few transactions, most of them undecided.
    fn fill(&mut self, blend: &Blend) {
        let opens = self.dice.between(1, 3);
        self.opens(opens);
        let good = Blend {
            faults: 0,
            ..*blend
        };
        let target = RUN_MEMORY - self.dice.below(6) as usize;
        while self.book.lines.len() < target {
            let update = self.dice.percent(2);
            let kind = if update { Kind::Update } else { Kind::Insert };
            let call = self.draw_kind(kind, &good);
            self.push(call);
        }
    }

    /// Stays at the brim: room that a call gives back is soon used again.
    fn brim(&mut self) {
        self.fill(&BRIM);
        for _ in 0..self.dice.between(60, 200) {
            let refill = !self.book.is_full() && self.dice.percent(50);
            let kind = if refill {
                Kind::Insert
            } else {
                self.kind(&BRIM)
            };
            let call = self.draw_kind(kind, &BRIM);
            self.push(call);
        }
    }

    /// Puts every cue of the blend in the music and commits, so that votes can be yes.
    fn score(&mut self, blend: &Blend) {
        let Values::OneOf(cues) = blend.values else {
            return;
        };
        self.push(Call::Open);
        let number = self.book.last_given.unwrap_or(RUN_FIRST);
        for &cue in cues {
            let row = [cue, self.value(blend), self.value(blend), 0];
            self.push(Call::Insert {
                number,
                table: 2,
                row,
            });
        }
        self.push(Call::Decide { number, word: 1 });
    }

    /// Shows what a page has made: every vote, every count, and which values the rows
    /// have, by deleting some and counting again.
    fn probe(&mut self, blend: &Blend) {
        let good = Blend {
            faults: 0,
            wide: 0,
            ..*blend
        };
        for number in self.book.pending.clone() {
            self.push(Call::Vote { number });
        }
        for &table in good.tables {
            self.count_all(table);
            for _ in 0..3 {
                let delete = self.draw_kind(Kind::Delete, &good);
                self.push(delete);
                self.count_all(table);
            }
        }
    }

    fn count_all(&mut self, table: u8) {
        for choice in 0..self.book.endings.len() as u8 {
            self.push(Call::Count { table, choice });
        }
    }

    fn lively(&mut self, blend: &Blend, low: u64, high: u64) {
        if self.dice.percent(50) {
            self.score(blend);
        }
        self.calls(blend, low, high);
        if self.dice.percent(35) {
            self.probe(blend);
        }
    }

    /// A good page whose last record misses some bytes.
    fn cut(&mut self) {
        self.calls(&MEETING, 0, 80);
        let before = self.page.0.len();
        let kind = self.dice.one_of(&Kind::ALL[1..]);
        let call = self.draw_kind(kind, &MEETING);
        self.push(call);
        let record = self.page.0.len() - before;
        let left = self.dice.between(1, record as u64 - 1) as usize;
        self.page.0.truncate(before + left);
    }

    /// A good page with a kind that is not known, and records after it that must not run.
    fn unknown(&mut self) {
        self.calls(&MEETING, 0, 80);
        let above = self.dice.byte(8, 255);
        let kind = self.dice.one_of(&[0, 8, 255, above, above]);
        self.page.0.push(kind);
        self.calls(&MEETING, 0, 5);
    }

    /// A good page with a few bytes changed anywhere.
    fn shaken(&mut self) {
        self.calls(&MEETING, 40, 160);
        for _ in 0..self.dice.between(1, 6) {
            let at = self.dice.below(self.page.0.len() as u64) as usize;
            self.page.0[at] = self.dice.byte(0, 255);
        }
    }

    fn noise(&mut self) {
        for _ in 0..self.dice.between(1, 200) {
            let byte = self.dice.byte(0, 255);
            self.page.0.push(byte);
        }
    }

    /// Good kinds with bodies of any bytes. Most bytes are small, and where a number
    /// stands, three in four are 0, so that it is often that of a pending transaction.
    fn bodies(&mut self) {
        let opens = self.dice.between(1, 7);
        self.opens(opens);
        for _ in 0..self.dice.between(10, 150) {
            let kind = self.dice.one_of(&Kind::ALL);
            self.page.0.push(kind as u8);
            for at in 0..kind.body_bytes() {
                let byte = match self.dice.below(40) {
                    0 => self.dice.byte(0, 255),
                    _ if at < 3 && kind != Kind::Count => 0,
                    1..=25 => self.dice.byte(1, 4),
                    _ => 0,
                };
                self.page.0.push(byte);
            }
        }
    }

    /// A page about as long as is read, or longer. Opens, of one byte each, bring most of
    /// them to where a record begins or ends at the border or just before it.
    fn long(&mut self) {
        let longest = 1 + Kind::Insert.body_bytes();
        while self.page.0.len() + longest < PAGE_BYTES {
            let call = self.draw(&LONG);
            self.push(call);
        }
        if self.dice.percent(75) {
            let near = PAGE_BYTES - self.dice.below(3) as usize;
            while self.page.0.len() < near {
                self.push(Call::Open);
            }
        }
        self.calls(&LONG, 0, 40);
    }

    fn cook(&mut self, recipe: Recipe) {
        match recipe {
            Recipe::Meeting => self.lively(&MEETING, 40, 220),
            Recipe::Ends => {
                self.lively(&NEAR_ENDS, 40, 220);
                self.probe(&NEAR_ENDS);
            }
            Recipe::Doubling => {
                self.opens(4);
                self.lively(&DOUBLING, 120, 280);
            }
            Recipe::Brim => self.brim(),
            Recipe::Deciding => self.lively(&DECIDING, 60, 260),
            Recipe::Voting => self.lively(&VOTING, 40, 220),
            Recipe::Faulty => self.lively(&FAULTY, 60, 260),
            Recipe::Cut => self.cut(),
            Recipe::Unknown => self.unknown(),
            Recipe::Shaken => self.shaken(),
            Recipe::Noise => self.noise(),
            Recipe::Bodies => self.bodies(),
            Recipe::Long => self.long(),
            Recipe::Empty => {}
        }
    }
}

fn make_page(recipe: Recipe, seed: u64) -> Vec<u8> {
    let mut maker = Maker::new(seed);
    maker.cook(recipe);
    maker.page.0
}

// ---------------------------------------------------------------- hexadecimal

fn hex(bytes: &[u8]) -> String {
    bytes.iter().map(|byte| format!("{byte:02x}")).collect()
}

/// Reads hexadecimal and skips everything that is not a digit of it.
fn unhex(text: &str) -> Vec<u8> {
    let digits: Vec<u8> = text
        .chars()
        .filter_map(|c| c.to_digit(16))
        .map(|d| d as u8)
        .collect();
    digits
        .chunks_exact(2)
        .map(|pair| pair[0] * 16 + pair[1])
        .collect()
}

// ---------------------------------------------------------------- the cross-check

/// How often each kind was accepted and refused, and what the pages reached besides.
#[derive(Default)]
struct Tally {
    pages: u64,
    records: u64,
    accepted: [u64; 8],
    refused: [[u64; REFUSAL_NUMBERS]; 8],
    votes_yes: u64,
    votes_no: u64,
    updates_when_full: u64,
}

impl Tally {
    /// Kinds that are not known are all counted at 0.
    fn slot(kind: u8) -> usize {
        Kind::read(kind).map_or(0, |kind| kind as usize)
    }

    fn add(&mut self, outcomes: &[Outcome]) {
        self.pages += 1;
        self.records += outcomes.len() as u64;
        for outcome in outcomes {
            let slot = Tally::slot(outcome.kind);
            match outcome.result {
                Ok(answer) => {
                    self.accepted[slot] += 1;
                    self.votes_yes += u64::from(answer == Answer::Yes);
                    self.votes_no += u64::from(matches!(answer, Answer::No(_)));
                    let update = slot == Kind::Update as usize;
                    self.updates_when_full += u64::from(update && outcome.full);
                }
                Err(refusal) => self.refused[slot][refusal as usize] += 1,
            }
        }
    }

    fn refusals_of(&self, slot: usize) -> String {
        let counts = self.refused[slot].iter().enumerate();
        let seen = counts.filter(|(_, &count)| count > 0);
        seen.map(|(number, count)| format!("  {number}: {count}"))
            .collect()
    }

    fn print(&self) {
        println!("kind       accepted   refused, by number");
        for kind in Kind::ALL {
            let (name, slot) = (format!("{kind:?}"), kind as usize);
            println!(
                "{name:<8} {:>10} {}",
                self.accepted[slot],
                self.refusals_of(slot)
            );
        }
        println!(
            "{:<8} {:>10} {}",
            "unknown",
            self.accepted[0],
            self.refusals_of(0)
        );
        println!(
            "votes: {} yes, {} no; updates accepted in a full book: {}",
            self.votes_yes, self.votes_no, self.updates_when_full
        );
    }
}

/// Runs the other program on a page, and gives what it printed.
fn run_program(program: &str, page: &[u8]) -> Result<String, String> {
    let mut child = Command::new(program)
        .stdin(Stdio::piped())
        .stdout(Stdio::piped())
        .spawn()
        .map_err(|error| format!("{program} does not start: {error}"))?;
    let mut stdin = child.stdin.take().ok_or("no standard input")?;
    let output = thread::scope(|scope| {
        scope.spawn(move || {
            // It may stop reading at its 65,536 bytes; what it prints then is judged.
            let _ = stdin.write_all(page);
        });
        child.wait_with_output()
    });
    let output = output.map_err(|error| format!("{program} cannot be read: {error}"))?;
    if !output.status.success() {
        return Err(format!("{program} ended with {}", output.status));
    }
    Ok(String::from_utf8_lossy(&output.stdout).into_owned())
}

/// Tells the first line in which two outputs differ.
fn first_difference(expected: &str, got: &str) -> String {
    let mut expected_lines = expected.split_inclusive('\n');
    let mut got_lines = got.split_inclusive('\n');
    for number in 1.. {
        let (left, right) = (expected_lines.next(), got_lines.next());
        if left != right {
            return format!("line {number}\n  model:   {left:?}\n  program: {right:?}");
        }
        if left.is_none() {
            break;
        }
    }
    String::from("no line")
}

/// Runs one page on the model and on the program, and compares.
fn cross_page(program: &str, page: &[u8]) -> Result<Vec<Outcome>, String> {
    let outcomes = panic::catch_unwind(|| run(page))
        .map_err(|_| String::from("the model's own two readings differ"))?;
    let expected = text_of(&outcomes);
    let got = run_program(program, page)?;
    if expected != got {
        let difference = first_difference(&expected, &got);
        return Err(format!("the outputs differ at {difference}"));
    }
    Ok(outcomes)
}

fn cross(program: &str, count: u64, seed: u64) -> Result<(), String> {
    let mut tally = Tally::default();
    for index in 0..count {
        let (recipe, name) = RECIPES[(index % RECIPES.len() as u64) as usize];
        let page_seed = scatter(seed ^ scatter(index));
        let page = make_page(recipe, page_seed);
        match cross_page(program, &page) {
            Ok(outcomes) => tally.add(&outcomes),
            Err(trouble) => {
                let file = env::temp_dir().join(format!("second-{seed}-{index}.hex"));
                fs::write(&file, hex(&page)).map_err(|error| error.to_string())?;
                let kept = file.display();
                return Err(format!(
                    "page {index} of seed {seed}: {trouble}\n\
                     the page is kept in {kept} (second make {name} {page_seed})"
                ));
            }
        }
    }
    println!(
        "cross: {} pages, {} records, every line the same",
        tally.pages, tally.records
    );
    tally.print();
    Ok(())
}

// ---------------------------------------------------------------- the self check

const EXAMPLE_1: (&str, &str) = (
    "010200000001010000000a00000bb80000000500000007010200000002010000000a00000bb8000000050000\
     00070200000002010000000b00000fa000000005000000080701000701010701020701030701040200000003\
     0100000000000000000000000000000000020000000105000000000000000000000000000000000500000001\
     02050000000100070101050000000201070100020000",
    "0 1 ok 1|1 2 ok 1|23 1 ok 2|24 2 ok 2|46 2 ok 3|68 7 ok 0|71 7 ok 1|74 7 ok 2|\
     77 7 ok 2|80 7 refused 6|83 2 refused 2|105 2 refused 3|127 5 refused 1|133 5 ok 2|\
     139 7 ok 2|142 5 ok 2|148 7 ok 2|151 2 refused 12|",
);

const EXAMPLE_2: (&str, &str) = (
    "010200000001020000000a00000fa00000000000000000010200000002010000000a00000bb8000000050000\
     000706000000020500000001010600000002070100050000000901ff",
    "0 1 ok 1|1 2 ok 1|23 1 ok 2|24 2 ok 2|46 6 ok no 2|51 5 ok 2|57 6 ok yes|62 7 ok 0|\
     65 5 refused 2|71 255 refused 13|",
);

/// Small pages of our own, with the lines they print.
const SMALL: [(&str, &str, &str); 8] = [
    ("an empty page", "", ""),
    (
        "the seventh Open",
        "01010101010101",
        "0 1 ok 1|1 1 ok 2|2 1 ok 3|3 1 ok 4|4 1 ok 5|5 1 ok 6|6 1 refused 9|",
    ),
    (
        "garbled before not pending",
        "05 00000009 02",
        "0 5 refused 1|",
    ),
    (
        "no such table before bad choice",
        "07 00 ff",
        "0 7 refused 3|",
    ),
    ("kind 0", "00 01", "0 0 refused 13|"),
    (
        "a kind with no body at all",
        "01 06",
        "0 1 ok 1|1 6 refused 12|",
    ),
    (
        "bad filter before bad change; the ends of field 0 are free",
        "01 04 00000001 01 05 00000000 00000000 00 09 00000000 \
         04 00000001 01 00 00000002 00000001 00 00 00000000 \
         04 00000001 01 00 00000002 00000001 01 00 00000000",
        "0 1 ok 1|1 4 refused 4|22 4 refused 5|43 4 ok 0|",
    ),
    (
        "a delete and an update of one row, and the aborts that give it back",
        "01 01 02 00000001 01 00000001 00000001 00000001 00000001 05 00000001 01 01 01 \
         03 00000003 01 00 00000000 00000000 04 00000002 01 00 00000000 00000000 01 01 00000001 \
         07 01 00 07 01 01 07 01 02 07 01 03 \
         05 00000003 00 07 01 01 06 00000002 05 00000002 00 07 01 00",
        "0 1 ok 1|1 1 ok 2|2 2 ok 1|24 5 ok 1|30 1 ok 3|31 1 ok 4|32 3 ok 1|47 4 ok 2|\
         68 7 ok 1|71 7 ok 1|74 7 ok 0|77 7 ok 0|80 5 ok 2|86 7 ok 1|89 6 ok no 1|\
         94 5 ok 1|100 7 ok 1|",
    ),
];

fn check_page(name: &str, page: &str, lines: &str) -> Result<(), String> {
    let got = text_of(&run(&unhex(page)));
    let expected = lines.replace('|', "\n");
    if got == expected {
        return Ok(());
    }
    Err(format!("{name}: {}", first_difference(&expected, &got)))
}

fn check(name: &str, good: bool) -> Result<(), String> {
    good.then_some(()).ok_or_else(|| format!("{name}: not so"))
}

fn check_makings() -> Result<(), String> {
    for (memory, first) in [(0, 1), (MOST_MEMORY + 1, 1), (1, 0)] {
        let refused = Book::made(memory, first).call(Call::Open);
        check("a bad making", refused == Err(Refusal::BadMaking))?;
    }
    let mut book = Book::made(MOST_MEMORY, u32::MAX);
    check(
        "the last number",
        book.call(Call::Open) == Ok(Answer::Number(u32::MAX)),
    )?;
    check(
        "numbers spent",
        book.call(Call::Open) == Err(Refusal::NumbersSpent),
    )
}

fn check_changes() -> Result<(), String> {
    let cases = [
        (5, 0, 9, 9),
        (u32::MAX - 1, 1, 1, u32::MAX),
        (u32::MAX, 1, 1, u32::MAX),
    ];
    let earlier = [
        (1, 2, 1, 0),
        (1, 2, 2, 0),
        (0, 2, u32::MAX, 0),
        (9, 2, 4, 5),
    ];
    for (old, operation, amount, expected) in cases.into_iter().chain(earlier) {
        let field = 3;
        let raw = RawChange {
            field,
            operation,
            amount,
        };
        let changed = raw.read().map(|change| change.changed(&[7, 7, old, 7]));
        check("a change", changed == Ok([7, 7, expected, 7]))?;
    }
    Ok(())
}

const EVERY: RawFilter = RawFilter {
    field: 0,
    low: 0,
    high: 0,
};
const ONE_LATER: RawChange = RawChange {
    field: 1,
    operation: 1,
    amount: 1,
};

/// In a full book of one line a transaction may update its own row, but no other's.
fn check_full_book() -> Result<(), String> {
    let table = 3;
    let row = [0; 4];
    let (filter, change) = (EVERY, ONE_LATER);
    let insert = |number| Call::Insert { number, table, row };
    let update = |number| Call::Update {
        number,
        table,
        filter,
        change,
    };
    let steps = [
        (Call::Open, Ok(Answer::Number(1))),
        (Call::Open, Ok(Answer::Number(2))),
        (insert(1), Ok(Answer::Number(1))),
        (insert(2), Err(Refusal::NoRoom)),
        (update(1), Ok(Answer::Number(1))),
        (update(2), Err(Refusal::NoRoom)),
        (Call::Decide { number: 1, word: 0 }, Ok(Answer::Number(0))),
        (insert(2), Ok(Answer::Number(1))),
    ];
    let mut book = Book::made(1, 1);
    for (step, expected) in steps {
        let result = book.call(step);
        check(&format!("a full book, {step:?}"), result == expected)?;
        book.assert_readings_agree(0, step);
    }
    Ok(())
}

/// What is written as a record is read as the same record, and cut anywhere is cut short.
fn check_records() -> Result<(), String> {
    let mut maker = Maker::new(1);
    for kind in Kind::ALL {
        let call = maker.draw_kind(kind, &MEETING);
        let mut page = PageWriter(Vec::new());
        page.record(call);
        let bytes = page.0;
        check("a record's length", bytes.len() == 1 + kind.body_bytes())?;
        let read = read_record(&bytes).map(|(read, rest)| (format!("{read:?}"), rest.len()));
        check("a record read again", read == Ok((format!("{call:?}"), 0)))?;
        for cut in 1..bytes.len() {
            let short = read_record(&bytes[..cut]).err();
            check("a record cut short", short == Some(Refusal::CutShort))?;
        }
    }
    Ok(())
}

fn self_check() -> Result<(), String> {
    check_page("example 1", EXAMPLE_1.0, EXAMPLE_1.1)?;
    check_page("example 2", EXAMPLE_2.0, EXAMPLE_2.1)?;
    for (name, page, lines) in SMALL {
        check_page(name, page, lines)?;
    }
    check_makings()?;
    check_changes()?;
    check_full_book()?;
    check_records()?;
    println!(
        "self: 2 known pages and {} small pages are as told",
        SMALL.len()
    );
    Ok(())
}

// ---------------------------------------------------------------- the command line

const USAGE: &str = "second run < PAGE                the lines that bookrun prints
second cross BOOKRUN COUNT SEED  compares BOOKRUN with this model on random pages
second make KIND SEED            a random page in hexadecimal
second bytes < HEX               hexadecimal to bytes
second self                      checks the model on known pages";

fn read_input() -> Result<Vec<u8>, String> {
    let mut bytes = Vec::new();
    io::stdin()
        .read_to_end(&mut bytes)
        .map_err(|error| error.to_string())?;
    Ok(bytes)
}

fn write_output(bytes: &[u8]) -> Result<(), String> {
    io::stdout()
        .write_all(bytes)
        .map_err(|error| error.to_string())
}

fn number_of(text: &str) -> Result<u64, String> {
    text.parse().map_err(|_| format!("{text} is not a number"))
}

fn make(name: &str, seed: &str) -> Result<(), String> {
    let names: Vec<&str> = RECIPES.iter().map(|recipe| recipe.1).collect();
    let found = RECIPES.iter().find(|recipe| recipe.1 == name);
    let (recipe, _) = found.ok_or_else(|| format!("KIND is one of {}", names.join(", ")))?;
    println!("{}", hex(&make_page(*recipe, number_of(seed)?)));
    Ok(())
}

fn command(arguments: &[&str]) -> Result<(), String> {
    match arguments {
        ["run"] => write_output(text_of(&run(&read_input()?)).as_bytes()),
        ["cross", program, count, seed] => cross(program, number_of(count)?, number_of(seed)?),
        ["make", name, seed] => make(name, seed),
        ["bytes"] => write_output(&unhex(&String::from_utf8_lossy(&read_input()?))),
        ["self"] => self_check(),
        _ => Err(USAGE.into()),
    }
}

fn main() -> ExitCode {
    let arguments: Vec<String> = env::args().skip(1).collect();
    let arguments: Vec<&str> = arguments.iter().map(String::as_str).collect();
    match command(&arguments) {
        Ok(()) => ExitCode::SUCCESS,
        Err(trouble) => {
            eprintln!("{trouble}");
            ExitCode::FAILURE
        }
    }
}
