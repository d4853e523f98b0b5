//! The change book as a plain Rust program: what `bookrun` is measured against.
//!
//! It does the same in nearly the same steps, so that what is measured is the toolchain and not
//! another algorithm: a condition is a signed pair of sets behind the same functions, the
//! lines stand in a fixed array that is scanned from end to end, an update counts before
//! it writes, and a vote looks at all choices at once in 64-bit verdicts. With
//! `--slow-vote` it tries choice after choice instead.

use std::env;
use std::io::{self, Read, Write};
use std::process::ExitCode;

const MEMORY: usize = 256;
const MOST_PENDING: usize = 6;
const FIRST_NUMBER: u32 = 1;
const PAGE_BYTES: u64 = 65_536;

const SCRIPT: u8 = 1;
const MUSIC: u8 = 2;

type Row = [u32; 4];

#[derive(Clone, Copy)]
enum Refusal {
    GarbledWord = 1,
    NotPending = 2,
    NoSuchTable = 3,
    BadFilter = 4,
    BadChange = 5,
    BadChoice = 6,
    TooManyPending = 9,
    NumbersSpent = 10,
    NoRoom = 11,
    CutShort = 12,
    UnknownKind = 13,
}

enum Answer {
    Number(u32),
    Yes,
    No(u32),
}

// ---------------------------------------------------------------- conditions

/// The choices in which the transaction at each position commits.
const COMMITS_AT: [u64; MOST_PENDING] = [
    0xAAAA_AAAA_AAAA_AAAA,
    0xCCCC_CCCC_CCCC_CCCC,
    0xF0F0_F0F0_F0F0_F0F0,
    0xFF00_FF00_FF00_FF00,
    0xFFFF_0000_FFFF_0000,
    0xFFFF_FFFF_0000_0000,
];

/// The positions that must commit and those that must abort.
#[derive(Clone, Copy, Default)]
struct SignedPair {
    commits: u8,
    aborts: u8,
}

impl SignedPair {
    fn narrowed(self, position: usize, commits: bool) -> SignedPair {
        let own = 1 << position;
        if commits {
            return SignedPair {
                commits: self.commits | own,
                aborts: self.aborts,
            };
        }
        SignedPair {
            commits: self.commits,
            aborts: self.aborts | own,
        }
    }

    fn decided(self, position: usize, commits: bool) -> SignedPair {
        let contrary = if commits { self.aborts } else { self.commits };
        if contrary >> position & 1 == 1 {
            return SignedPair {
                commits: 1,
                aborts: 1,
            };
        }
        let step = 1u8 << position;
        let close = |set: u8| set % step + set / (step * 2) * step;
        SignedPair {
            commits: close(self.commits),
            aborts: close(self.aborts),
        }
    }

    fn impossible(self) -> bool {
        self.commits & self.aborts != 0
    }

    fn holds(self, choice: u8) -> bool {
        choice & self.commits == self.commits && choice & self.aborts == 0
    }

    fn verdicts(self) -> u64 {
        let mut verdicts = u64::MAX;
        for (position, commits) in COMMITS_AT.iter().enumerate() {
            if self.commits >> position & 1 == 1 {
                verdicts &= commits;
            }
            if self.aborts >> position & 1 == 1 {
                verdicts &= !commits;
            }
        }
        verdicts
    }
}

// ---------------------------------------------------------------- filters and changes

#[derive(Clone, Copy)]
enum Filter {
    Every,
    Between { field: usize, low: u32, high: u32 },
}

impl Filter {
    fn read(body: &[u8]) -> Result<Filter, Refusal> {
        let (low, high) = (number_at(body, 1), number_at(body, 5));
        match body[0] {
            0 => Ok(Filter::Every),
            field @ 1..=4 if low <= high => Ok(Filter::Between {
                field: usize::from(field - 1),
                low,
                high,
            }),
            _ => Err(Refusal::BadFilter),
        }
    }

    #[inline]
    fn passes(self, row: &Row) -> bool {
        match self {
            Filter::Every => true,
            Filter::Between { field, low, high } => (low..=high).contains(&row[field]),
        }
    }
}

#[derive(Clone, Copy)]
enum Operation {
    Set,
    Later,
    Earlier,
}

#[derive(Clone, Copy)]
struct Change {
    field: usize,
    operation: Operation,
    amount: u32,
}

impl Change {
    fn read(body: &[u8]) -> Result<Change, Refusal> {
        let field = match body[0] {
            field @ 1..=4 => usize::from(field - 1),
            _ => return Err(Refusal::BadChange),
        };
        let operation = match body[1] {
            0 => Operation::Set,
            1 => Operation::Later,
            2 => Operation::Earlier,
            _ => return Err(Refusal::BadChange),
        };
        Ok(Change {
            field,
            operation,
            amount: number_at(body, 2),
        })
    }

    #[inline]
    fn change(self, row: &mut Row) {
        let field = &mut row[self.field];
        *field = match self.operation {
            Operation::Set => self.amount,
            Operation::Later => field.saturating_add(self.amount),
            Operation::Earlier => field.saturating_sub(self.amount),
        };
    }
}

// ---------------------------------------------------------------- the book

#[derive(Clone, Copy, Default)]
struct Line {
    row: Row,
    table: u8,
    condition: SignedPair,
}

#[derive(Clone, Copy)]
enum VoteWay {
    AllAtOnce,
    ChoiceByChoice,
}

struct Book {
    lines: [Line; MEMORY],
    used: usize,
    pending: [u32; MOST_PENDING],
    pending_used: usize,
    next: Option<u32>,
    vote_way: VoteWay,
}

impl Book {
    fn new(vote_way: VoteWay) -> Book {
        Book {
            lines: [Line::default(); MEMORY],
            used: 0,
            pending: [0; MOST_PENDING],
            pending_used: 0,
            next: Some(FIRST_NUMBER),
            vote_way,
        }
    }

    fn in_use(&self) -> &[Line] {
        &self.lines[..self.used]
    }

    fn lines_answer(&self) -> Answer {
        Answer::Number(self.used as u32)
    }

    fn position(&self, number: u32) -> Result<usize, Refusal> {
        let pending = &self.pending[..self.pending_used];
        pending
            .iter()
            .position(|&other| other == number)
            .ok_or(Refusal::NotPending)
    }

    /// Keeps what becomes of each line, unless it is impossible, in the first places.
    fn compact(&mut self, becomes: impl Fn(Line) -> Line) -> Answer {
        let mut left = 0;
        for at in 0..self.used {
            let line = becomes(self.lines[at]);
            if !line.condition.impossible() {
                self.lines[left] = line;
                left += 1;
            }
        }
        self.used = left;
        self.lines_answer()
    }

    fn open(&mut self) -> Result<Answer, Refusal> {
        if self.pending_used == MOST_PENDING {
            return Err(Refusal::TooManyPending);
        }
        let number = self.next.ok_or(Refusal::NumbersSpent)?;
        self.next = number.checked_add(1);
        self.pending[self.pending_used] = number;
        self.pending_used += 1;
        Ok(Answer::Number(number))
    }

    fn insert(&mut self, number: u32, table: u8, row: Row) -> Result<Answer, Refusal> {
        let position = self.position(number)?;
        let table = good_table(table)?;
        if self.used == MEMORY {
            return Err(Refusal::NoRoom);
        }
        self.lines[self.used] = Line {
            row,
            table,
            condition: SignedPair::default().narrowed(position, true),
        };
        self.used += 1;
        Ok(self.lines_answer())
    }

    fn delete(&mut self, number: u32, table: u8, filter: &[u8]) -> Result<Answer, Refusal> {
        let position = self.position(number)?;
        let table = good_table(table)?;
        let filter = Filter::read(filter)?;
        Ok(self.compact(|mut line| {
            if line.table == table && filter.passes(&line.row) {
                line.condition = line.condition.narrowed(position, false);
            }
            line
        }))
    }

    fn update(
        &mut self,
        number: u32,
        table: u8,
        filter: &[u8],
        change: &[u8],
    ) -> Result<Answer, Refusal> {
        let position = self.position(number)?;
        let table = good_table(table)?;
        let filter = Filter::read(filter)?;
        let change = Change::read(change)?;
        let passes = |line: &Line| line.table == table && filter.passes(&line.row);
        let half = |line: &Line, commits| line.condition.narrowed(position, commits);
        let forks = |line: &Line| {
            passes(line) && !half(line, false).impossible() && !half(line, true).impossible()
        };
        let possible = |line: &&Line| !line.condition.impossible();
        let left = self.in_use().iter().filter(possible).count();
        let room = MEMORY - left;
        // It adds no more than are left: those that it adds are counted only where they might not fit.
        if left > room && self.in_use().iter().filter(|line| forks(line)).count() > room {
            return Err(Refusal::NoRoom);
        }
        if left < self.used {
            self.compact(|line| line);
        }
        for at in 0..left {
            let line = self.lines[at];
            if !passes(&line) {
                continue;
            }
            let mut copy = line;
            change.change(&mut copy.row);
            copy.condition = half(&line, true);
            let original = half(&line, false);
            if original.impossible() {
                self.lines[at] = copy;
                continue;
            }
            self.lines[at].condition = original;
            if !copy.condition.impossible() {
                self.lines[self.used] = copy;
                self.used += 1;
            }
        }
        Ok(self.lines_answer())
    }

    fn decide(&mut self, number: u32, word: u8) -> Result<Answer, Refusal> {
        let commits = match word {
            0 => false,
            1 => true,
            _ => return Err(Refusal::GarbledWord),
        };
        let position = self.position(number)?;
        let answer = self.compact(|mut line| {
            line.condition = line.condition.decided(position, commits);
            line
        });
        self.pending
            .copy_within(position + 1..self.pending_used, position);
        self.pending_used -= 1;
        Ok(answer)
    }

    fn vote(&self, number: u32) -> Result<Answer, Refusal> {
        let position = self.position(number)?;
        let lowest = match self.vote_way {
            VoteWay::AllAtOnce => self.lowest_orphaned(position),
            VoteWay::ChoiceByChoice => self.first_orphaned(position),
        };
        Ok(lowest.map_or(Answer::Yes, Answer::No))
    }

    /// A shot matters only where it holds and no other orphan was found.
    fn lowest_orphaned(&self, position: usize) -> Option<u32> {
        let below = u64::MAX >> (64 - (1u32 << self.pending_used));
        let choices = COMMITS_AT[position] & below;
        let mut found = 0;
        for shot in self.in_use().iter().filter(|line| line.table == SCRIPT) {
            let open = choices & !found & shot.condition.verdicts();
            if open != 0 {
                found |= self.uncued(shot.row[0], open);
            }
        }
        (found != 0).then(|| found.trailing_zeros())
    }

    /// Those of the choices in which the music lacks the cue.
    fn uncued(&self, cue: u32, choices: u64) -> u64 {
        let mut left = choices;
        for line in self.in_use() {
            if line.row[0] == cue && line.table == MUSIC {
                left &= !line.condition.verdicts();
                if left == 0 {
                    break;
                }
            }
        }
        left
    }

    /// The slow way: choice after choice, until one has an orphan.
    fn first_orphaned(&self, position: usize) -> Option<u32> {
        let choices = 0..1u8 << self.pending_used;
        let mut asked = choices.filter(|choice| choice >> position & 1 == 1);
        asked.find(|&choice| self.has_orphan(choice)).map(u32::from)
    }

    fn has_orphan(&self, choice: u8) -> bool {
        let stands = |line: &Line, table| line.table == table && line.condition.holds(choice);
        let cued = |cue| {
            let mut lines = self.in_use().iter();
            lines.any(|line| line.row[0] == cue && stands(line, MUSIC))
        };
        let mut shots = self.in_use().iter().filter(|line| stands(line, SCRIPT));
        shots.any(|shot| !cued(shot.row[0]))
    }

    /// A row counts at its last line.
    fn count(&self, table: u8, choice: u8) -> Result<Answer, Refusal> {
        let table = good_table(table)?;
        if u32::from(choice) >= 1 << self.pending_used {
            return Err(Refusal::BadChoice);
        }
        let stands = |line: &Line| line.table == table && line.condition.holds(choice);
        let mut left = self.in_use();
        let mut different = 0;
        while let Some((line, rest)) = left.split_first() {
            let repeated = || rest.iter().any(|other| stands(other) && other.row == line.row);
            if stands(line) && !repeated() {
                different += 1;
            }
            left = rest;
        }
        Ok(Answer::Number(different))
    }
}

fn good_table(table: u8) -> Result<u8, Refusal> {
    (1..=4)
        .contains(&table)
        .then_some(table)
        .ok_or(Refusal::NoSuchTable)
}

// ---------------------------------------------------------------- pages

#[derive(Clone, Copy)]
enum Kind {
    Open,
    Insert,
    Delete,
    Update,
    Decide,
    Vote,
    Count,
}

impl Kind {
    fn read(byte: u8) -> Option<Kind> {
        Some(match byte {
            1 => Kind::Open,
            2 => Kind::Insert,
            3 => Kind::Delete,
            4 => Kind::Update,
            5 => Kind::Decide,
            6 => Kind::Vote,
            7 => Kind::Count,
            _ => return None,
        })
    }

    fn body_bytes(self) -> usize {
        match self {
            Kind::Open => 0,
            Kind::Insert => 21,
            Kind::Delete => 14,
            Kind::Update => 20,
            Kind::Decide => 5,
            Kind::Vote => 4,
            Kind::Count => 2,
        }
    }
}

fn number_at(body: &[u8], at: usize) -> u32 {
    u32::from_be_bytes([body[at], body[at + 1], body[at + 2], body[at + 3]])
}

fn row_at(body: &[u8], at: usize) -> Row {
    [0, 4, 8, 12].map(|field| number_at(body, at + field))
}

fn call(book: &mut Book, kind: Kind, body: &[u8]) -> Result<Answer, Refusal> {
    match kind {
        Kind::Open => book.open(),
        Kind::Insert => book.insert(number_at(body, 0), body[4], row_at(body, 5)),
        Kind::Delete => book.delete(number_at(body, 0), body[4], &body[5..14]),
        Kind::Update => book.update(number_at(body, 0), body[4], &body[5..14], &body[14..20]),
        Kind::Decide => book.decide(number_at(body, 0), body[4]),
        Kind::Vote => book.vote(number_at(body, 0)),
        Kind::Count => book.count(body[0], body[1]),
    }
}

fn read_record(bytes: &[u8]) -> Result<(Kind, &[u8]), Refusal> {
    let kind = Kind::read(bytes[0]).ok_or(Refusal::UnknownKind)?;
    let body = bytes[1..]
        .get(..kind.body_bytes())
        .ok_or(Refusal::CutShort)?;
    Ok((kind, body))
}

fn run(page: &[u8], vote_way: VoteWay) -> String {
    let mut book = Book::new(vote_way);
    let mut out = String::with_capacity(page.len() * 4);
    let mut place = 0;
    while place < page.len() {
        push_number(&mut out, place as u32);
        out.push(' ');
        push_number(&mut out, page[place].into());
        match read_record(&page[place..]) {
            Ok((kind, body)) => {
                push_result(&mut out, call(&mut book, kind, body));
                place += 1 + body.len();
            }
            Err(refusal) => {
                push_result(&mut out, Err(refusal));
                break;
            }
        }
    }
    out
}

fn push_result(out: &mut String, result: Result<Answer, Refusal>) {
    match result {
        Ok(Answer::Number(number)) => {
            out.push_str(" ok ");
            push_number(out, number);
        }
        Ok(Answer::Yes) => out.push_str(" ok yes"),
        Ok(Answer::No(choice)) => {
            out.push_str(" ok no ");
            push_number(out, choice);
        }
        Err(refusal) => {
            out.push_str(" refused ");
            push_number(out, refusal as u32);
        }
    }
    out.push('\n');
}

/// Writes decimal digits without the cost of `format!`.
fn push_number(out: &mut String, number: u32) {
    if number >= 10 {
        push_number(out, number / 10);
    }
    out.push(char::from(b'0' + (number % 10) as u8));
}

fn main() -> ExitCode {
    let slow = env::args().any(|argument| argument == "--slow-vote");
    let vote_way = if slow {
        VoteWay::ChoiceByChoice
    } else {
        VoteWay::AllAtOnce
    };
    let mut page = Vec::with_capacity(PAGE_BYTES as usize);
    let read = io::stdin().lock().take(PAGE_BYTES).read_to_end(&mut page);
    let text = run(&page, vote_way);
    let written = io::stdout().lock().write_all(text.as_bytes());
    if read.is_ok() && written.is_ok() {
        ExitCode::SUCCESS
    } else {
        ExitCode::FAILURE
    }
}
