//! The report of a run, printed in threads: each prints the next piece of it to an empty page, which is put once the
//! pieces before it are.
use crate::atoms::{EMPTY, NAMES, STATE, TYPE, WALL};
use crate::page::{Line, Page};
use crate::tile::{Log, Record};
use crate::world::World;
use std::collections::BTreeMap;
use std::io::{self, Write};
use std::ops::Range;
use std::sync::atomic::{AtomicUsize, Ordering};
use std::sync::{Condvar, Mutex, MutexGuard};
use std::thread;

/// About how many sites and records are in a piece, and how many times the records of a piece are sorted, a part at a
/// time: so few that a processor's nearest cache has room for them.
const SITES: usize = 1 << 14;
const RECORDS: usize = 1 << 13;
const SORTS: usize = 8;

/// A part of a report.
enum Piece {
    /// A word and a count.
    Title(&'static [u8], usize),
    /// The atoms of some sites.
    Atoms(Range<usize>),
    /// The records with some stamps.
    Journal(Range<u32>),
    /// The abandoned attempts of a tile.
    Abandoned(usize),
}

/// Where the pieces go, in order.
struct Output {
    shelf: Mutex<Shelf>,
    changed: Condvar,
}

/// Pages of pieces that are printed before it is their turn, and empty pages.
struct Shelf {
    /// The piece that is put next.
    turn: usize,
    printed: BTreeMap<usize, Page>,
    empty: Vec<Page>,
    /// What became of the puts so far; after a fault nothing is put any more.
    outcome: io::Result<()>,
}

impl Shelf {
    fn put(&mut self, page: &mut Page) {
        if self.outcome.is_ok() {
            self.outcome = io::stdout().write_all(page.text());
        }
        page.clear();
    }

    /// Puts all pieces whose turn it is.
    fn put_ready(&mut self) {
        while let Some(mut page) = self.printed.remove(&self.turn) {
            self.put(&mut page);
            self.empty.push(page);
            self.turn += 1;
        }
    }
}

impl Output {
    /// With so many empty pages.
    fn new(pages: usize) -> Self {
        let empty = (0..pages).map(|_| Page::new()).collect();
        let shelf = Shelf { turn: 0, printed: BTreeMap::new(), empty, outcome: Ok(()) };
        Output { shelf: Mutex::new(shelf), changed: Condvar::new() }
    }

    fn wait_until(&self, is_ready: impl Fn(&Shelf) -> bool) -> MutexGuard<'_, Shelf> {
        let shelf = self.shelf.lock().expect("no thread ends at the shelf");
        self.changed.wait_while(shelf, |shelf| !is_ready(shelf)).expect("no thread ends at the shelf")
    }

    /// Waits for an empty page.
    fn empty_page(&self) -> Page {
        self.wait_until(|shelf| !shelf.empty.is_empty()).empty.pop().expect("an empty page")
    }

    /// Puts a part of a piece that is longer than its page, in its turn.
    fn put_part(&self, piece: usize, page: &mut Page) {
        self.wait_until(|shelf| shelf.turn == piece).put(page);
    }

    /// A piece is printed: puts it, and those after it that are printed, or leaves it to whoever prints those before.
    fn finish(&self, piece: usize, page: Page) {
        let mut shelf = self.wait_until(|_| true);
        shelf.printed.insert(piece, page);
        shelf.put_ready();
        self.changed.notify_all();
    }
}

/// A report that is printed.
struct Report<'a> {
    world: &'a World,
    logs: &'a [Log],
    pieces: Vec<Piece>,
    /// The next piece that no thread prints yet.
    next: AtomicUsize,
    output: Output,
}

impl Report<'_> {
    /// Prints pieces as long as there are any.
    fn print(&self) {
        let (mut places, mut order) = (Vec::new(), Vec::new());
        loop {
            let page = self.output.empty_page();
            let number = self.next.fetch_add(1, Ordering::Relaxed);
            let Some(piece) = self.pieces.get(number) else { return };
            let mut printer = Printer { report: self, number, page, places, order };
            printer.print(piece);
            self.output.finish(number, printer.page);
            (places, order) = (printer.places, printer.order);
        }
    }
}

/// A part of a tile's records: those that are sorted now, and those after them.
struct Part<'a> {
    tile: u32,
    now: &'a [Record],
    rest: &'a [Record],
}

impl<'a> Part<'a> {
    /// The records from a stamp on.
    fn new(tile: u32, log: &'a Log, first: u32) -> Self {
        Part { tile, now: &[], rest: &log.records[log.records.partition_point(|record| record.stamp < first)..] }
    }

    /// Goes on to the next records, those below a stamp.
    fn advance(&mut self, end: u32) {
        let count = self.rest.iter().take_while(|record| record.stamp < end).count();
        (self.now, self.rest) = self.rest.split_at(count);
    }
}

/// What prints a piece.
struct Printer<'a> {
    report: &'a Report<'a>,
    number: usize,
    page: Page,
    /// For each of some stamps the place of its next record.
    places: Vec<u32>,
    /// The records with these stamps and their tiles, in order.
    order: Vec<(u32, &'a Record)>,
}

impl<'a> Printer<'a> {
    /// Writes a line, and puts the page if that fills it.
    fn line(&mut self, write: impl FnOnce(&mut Line<'_>)) {
        let mut line = self.page.line();
        write(&mut line);
        line.end();
        if self.page.is_full() {
            self.report.output.put_part(self.number, &mut self.page);
        }
    }

    fn print(&mut self, piece: &Piece) {
        match piece {
            Piece::Title(word, count) => self.line(|line| {
                line.text(word);
                line.number(*count as u32);
            }),
            Piece::Atoms(sites) => self.print_atoms(sites.clone()),
            Piece::Journal(stamps) => self.print_journal(stamps),
            Piece::Abandoned(tile) => self.print_abandoned(*tile),
        }
    }

    fn print_atoms(&mut self, sites: Range<usize>) {
        let world = self.report.world;
        let (mut x, mut y) = (sites.start % world.width(), sites.start / world.width());
        for &atom in &world.grid[sites] {
            if atom != EMPTY && atom != WALL {
                self.line(|line| {
                    line.short(x as u32);
                    line.short(y as u32);
                    line.text(NAMES[(atom >> TYPE) as usize - 1]);
                    line.text(b" ");
                    line.hexadecimal_byte(((atom & STATE) >> 64) as u32);
                    line.hexadecimal(atom as u64);
                    line.text(b" ");
                });
            }
            x += 1;
            if x == world.width() {
                (x, y) = (0, y + 1);
            }
        }
    }

    /// Prints the records with some stamps, by stamp and then by tile.
    fn print_journal(&mut self, stamps: &Range<u32>) {
        let logs = &self.report.logs;
        let mut parts: Vec<_> = (0..).zip(*logs).map(|(tile, log)| Part::new(tile, log, stamps.start)).collect();
        if let [part] = &mut parts[..] {
            part.advance(stamps.end);
            return part.now.iter().for_each(|record| self.print_record(0, record));
        }
        let step = stamps.len().div_ceil(SORTS);
        for first in stamps.clone().step_by(step) {
            let end = stamps.end.min(first + step as u32);
            parts.iter_mut().for_each(|part| part.advance(end));
            self.sort(&parts, first..end);
            let order = std::mem::take(&mut self.order);
            order.iter().for_each(|(tile, record)| self.print_record(*tile, record));
            self.order = order;
        }
    }

    /// Puts the records of all tiles with some stamps in order. Each tile has them by stamp, so they are sorted by
    /// counting how many have each stamp.
    fn sort(&mut self, parts: &[Part<'a>], stamps: Range<u32>) {
        let place = |record: &Record| (record.stamp - stamps.start) as usize;
        self.places.clear();
        self.places.resize(stamps.len() + 1, 0);
        for part in parts {
            part.now.iter().for_each(|record| self.places[place(record) + 1] += 1);
        }
        for stamp in 1..self.places.len() {
            self.places[stamp] += self.places[stamp - 1];
        }
        let Some(some) = parts.iter().find_map(|part| part.now.first()) else { return self.order.clear() };
        self.order.resize(self.places[stamps.len()] as usize, (0, some));
        for part in parts {
            for record in part.now {
                let next = &mut self.places[place(record)];
                self.order[*next as usize] = (part.tile, record);
                *next += 1;
            }
        }
    }

    fn print_record(&mut self, tile: u32, record: &Record) {
        self.line(|line| {
            line.number(record.stamp);
            line.short(tile);
            line.number(record.number);
            line.short(u32::from(record.x));
            line.short(u32::from(record.y));
            line.hexadecimal(record.seed);
            line.text(b" ");
        });
    }

    fn print_abandoned(&mut self, tile: usize) {
        for lost in &self.report.logs[tile].abandoned {
            self.line(|line| {
                line.short(tile as u32);
                line.number(lost.number);
                line.short(u32::from(lost.x));
                line.short(u32::from(lost.y));
                line.short(lost.edge);
                line.short(lost.holder);
                line.number(lost.holder_attempt);
            });
        }
    }
}

/// The parts of a report, in order.
fn pieces(world: &World, logs: &[Log]) -> Vec<Piece> {
    let atoms = world.grid.iter().filter(|atom| **atom != EMPTY && **atom != WALL).count();
    let mut pieces = vec![Piece::Title(b"feast ", 1), Piece::Title(b"atoms ", atoms)];
    let sites = world.grid.len();
    pieces.extend((0..sites).step_by(SITES).map(|first| Piece::Atoms(first..(first + SITES).min(sites))));
    let records: usize = logs.iter().map(|log| log.records.len()).sum();
    pieces.push(Piece::Title(b"journal ", records));
    let end = logs.iter().filter_map(|log| Some(log.records.last()?.stamp + 1)).max().unwrap_or(1);
    let stamps = (end as usize * RECORDS / records.max(1)).max(1);
    pieces.extend((1..end).step_by(stamps).map(|first| Piece::Journal(first..end.min(first + stamps as u32))));
    pieces.push(Piece::Title(b"abandoned ", logs.iter().map(|log| log.abandoned.len()).sum()));
    pieces.extend((0..logs.len()).map(Piece::Abandoned));
    pieces
}

/// Puts the report of a run to standard output.
pub fn put(world: &World, logs: &[Log]) -> io::Result<()> {
    let pieces = pieces(world, logs);
    let threads = thread::available_parallelism().map_or(1, usize::from).min(pieces.len());
    let output = Output::new(2 * threads);
    let report = Report { world, logs, pieces, next: AtomicUsize::new(0), output };
    thread::scope(|scope| {
        let start = |_| thread::Builder::new().spawn_scoped(scope, || report.print()).ok();
        let _started: Vec<_> = (1..threads).map_while(start).collect();
        report.print();
    });
    report.output.shelf.into_inner().expect("no thread ends at the shelf").outcome
}
