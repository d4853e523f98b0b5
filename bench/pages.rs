//! Writes the pages of the benchmark into a folder: `empty`, `hot`, `votes` and `mixed`.
//!
//! Every page is the same on every machine.

use std::env;
use std::fs;
use std::path::Path;
use std::process::ExitCode;

const PAGE_BYTES: usize = 65_536;
const PENDING: usize = 6;

const SCRIPT: u8 = 1;
const MUSIC: u8 = 2;

/// The first byte of a record.
#[derive(Clone, Copy)]
enum Kind {
    Open = 1,
    Insert = 2,
    Delete = 3,
    Update = 4,
    Decide = 5,
    Vote = 6,
    Count = 7,
}

/// A filter that passes the rows whose field 1 lies between two cues.
#[derive(Clone, Copy)]
struct Cues(u32, u32);

/// A page in the making. It keeps the list of pending numbers as the book does.
struct Page {
    bytes: Vec<u8>,
    pending: Vec<u32>,
    next: u32,
}

impl Page {
    fn new() -> Page {
        Page {
            bytes: Vec::new(),
            pending: Vec::new(),
            next: 1,
        }
    }

    /// Whether records of so many bytes still fit.
    fn has_room(&self, bytes: usize) -> bool {
        self.bytes.len() + bytes <= PAGE_BYTES
    }

    fn numbers(&mut self, numbers: &[u32]) {
        for number in numbers {
            self.bytes.extend(number.to_be_bytes());
        }
    }

    fn head(&mut self, kind: Kind, number: u32) {
        self.bytes.push(kind as u8);
        self.numbers(&[number]);
    }

    fn open(&mut self) -> u32 {
        self.bytes.push(Kind::Open as u8);
        self.pending.push(self.next);
        self.next += 1;
        self.next - 1
    }

    fn insert(&mut self, number: u32, table: u8, row: [u32; 4]) {
        self.head(Kind::Insert, number);
        self.bytes.push(table);
        self.numbers(&row);
    }

    fn filter(&mut self, table: u8, cues: Cues) {
        self.bytes.extend([table, 1]);
        self.numbers(&[cues.0, cues.1]);
    }

    fn delete(&mut self, number: u32, table: u8, cues: Cues) {
        self.head(Kind::Delete, number);
        self.filter(table, cues);
    }

    /// Moves the milliseconds (field 2) later.
    fn later(&mut self, number: u32, table: u8, cues: Cues, amount: u32) {
        self.head(Kind::Update, number);
        self.filter(table, cues);
        self.bytes.extend([2, 1]);
        self.numbers(&[amount]);
    }

    fn decide(&mut self, number: u32, commits: bool) {
        self.head(Kind::Decide, number);
        self.bytes.push(u8::from(commits));
        self.pending.retain(|&other| other != number);
    }

    fn vote(&mut self, number: u32) {
        self.head(Kind::Vote, number);
    }

    fn count(&mut self, table: u8, choice: u8) {
        self.bytes.extend([Kind::Count as u8, table, choice]);
    }
}

/// A small generator of Lehmer's kind; the mixed page needs no better one.
struct Dice(u64);

impl Dice {
    fn below(&mut self, end: u32) -> u32 {
        self.0 = self.0 * 48_271 % 0x7FFF_FFFF;
        (self.0 % u64::from(end)) as u32
    }
}

/// One row, which six pending transactions move again and again: 64 lines in one place.
fn hot_page() -> Page {
    let mut page = Page::new();
    let first = page.open();
    page.insert(first, SCRIPT, [7, 60_000, 5, 1]);
    page.decide(first, true);
    for round in 0.. {
        while page.pending.len() < PENDING {
            page.open();
        }
        for turn in 0..PENDING * 3 {
            if !page.has_room(40) {
                return page;
            }
            let number = page.pending[turn % PENDING];
            page.later(number, SCRIPT, Cues(7, 7), 1 + turn as u32);
        }
        page.decide(page.pending[round % PENDING], round % 3 != 0);
    }
    page
}

/// A show of 192 committed lines, the script before the music, and six pending changes
/// that each move a shot and its cue and add a shot. No shot is without its cue, so a
/// vote that tries choice after choice has to try them all.
fn build_votes(page: &mut Page) {
    let cues = 96;
    let first = page.open();
    for cue in 0..cues {
        page.insert(first, SCRIPT, [cue, cue * 1_000 + 40, cue % 6, cue]);
    }
    for cue in 0..cues {
        page.insert(first, MUSIC, [cue, cue * 1_000, cue / 4, 0]);
    }
    page.decide(first, true);
    for at in 0..PENDING as u32 {
        let number = page.open();
        let moved = Cues(at * 16, at * 16);
        page.later(number, MUSIC, moved, 250);
        page.later(number, SCRIPT, moved, 250);
        page.insert(number, SCRIPT, [at * 15, 500, 9, at]);
    }
}

fn votes_page() -> Page {
    let mut page = Page::new();
    build_votes(&mut page);
    for turn in 0.. {
        if !page.has_room(PENDING * 5 + 3) {
            break;
        }
        for number in page.pending.clone() {
            page.vote(number);
        }
        page.count(
            if turn % 2 == 0 { SCRIPT } else { MUSIC },
            (turn % 64) as u8,
        );
    }
    page
}

fn mixed_call(page: &mut Page, dice: &mut Dice) {
    let number = page.pending[dice.below(page.pending.len() as u32) as usize];
    let table = 1 + dice.below(2) as u8;
    let cue = dice.below(48);
    match dice.below(100) {
        0..=29 => page.insert(number, table, [cue, dice.below(9) * 500, dice.below(6), 0]),
        30..=41 => page.delete(number, table, Cues(cue, cue + dice.below(3))),
        42..=63 => page.later(number, table, Cues(cue, cue), 10),
        64..=71 => page.decide(number, dice.below(3) > 0),
        72..=84 => page.vote(number),
        _ => page.count(table, dice.below(1 << page.pending.len()) as u8),
    }
}

fn mixed_page() -> Page {
    let mut page = Page::new();
    let mut dice = Dice(2_026);
    // 23 bytes: the longest record and an Open.
    while page.has_room(23) {
        if page.pending.len() < PENDING - 1 || page.pending.len() < PENDING && dice.below(2) == 0 {
            page.open();
        }
        mixed_call(&mut page, &mut dice);
    }
    page
}

fn write_pages(folder: &Path) -> std::io::Result<()> {
    let pages = [
        ("empty", Page::new()),
        ("hot", hot_page()),
        ("votes", votes_page()),
        ("mixed", mixed_page()),
    ];
    for (name, page) in pages {
        assert!(page.bytes.len() <= PAGE_BYTES, "{name} is too long");
        fs::write(folder.join(name), page.bytes)?;
    }
    Ok(())
}

fn main() -> ExitCode {
    let Some(folder) = env::args().nth(1) else {
        eprintln!("pages FOLDER");
        return ExitCode::FAILURE;
    };
    match write_pages(Path::new(&folder)) {
        Ok(()) => ExitCode::SUCCESS,
        Err(error) => {
            eprintln!("{error}");
            ExitCode::FAILURE
        }
    }
}
