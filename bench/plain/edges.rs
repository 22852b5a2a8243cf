//! Edges: what two tiles share.
use crate::atoms::{Atom, Cells, EMPTY};
use crate::shape::Place;
use std::cell::UnsafeCell;
use std::sync::atomic::{AtomicU32, Ordering};

/// The registers of an edge.
pub struct Registers {
    pub clock: u32,
    atoms: Vec<Atom>,
    stamps: Vec<u32>,
    /// For each end a word for each row, with a bit for each column: at most 72.
    news: [Vec<u128>; 2],
}

impl Registers {
    /// Brings a tile's copy up to date in a window: looks at the cells alone that the other end wrote.
    pub fn refresh(&self, end: usize, place: &Place, cells: &mut Cells) {
        for run in place.runs() {
            let mut news = (self.news[end][run.row as usize] >> run.column) as u32 & ((1 << run.length) - 1);
            while news != 0 {
                let step = news.trailing_zeros() as usize;
                news &= news - 1;
                self.take(run.shared as usize + step, run.own as usize + step, cells);
            }
        }
    }

    /// Takes a cell into a copy if it is newer there.
    pub fn take(&self, shared: usize, own: usize, cells: &mut Cells) {
        if self.stamps[shared] > cells.stamps[own] {
            cells.stamps[own] = self.stamps[shared];
            cells.atoms[own] = self.atoms[shared];
        }
    }

    /// Writes the cells of a window, which an event has stamped, and tells the other end.
    pub fn publish(&mut self, end: usize, place: &Place, cells: &Cells, stamp: u32) {
        self.clock = stamp;
        for run in place.runs() {
            let (own, shared, length) = (run.own as usize, run.shared as usize, run.length as usize);
            self.atoms[shared..shared + length].copy_from_slice(&cells.atoms[own..own + length]);
            self.stamps[shared..shared + length].fill(stamp);
            let written = ((1u128 << length) - 1) << run.column;
            self.news[end][run.row as usize] &= !written;
            self.news[1 - end][run.row as usize] |= written;
        }
    }
}

/// What two tiles share. Edges lie apart in memory, and so do tiles: no two of them are in one line of a processor's
/// cache, where threads that change one of them each would wait for each other.
#[repr(align(128))]
pub struct Edge {
    pub tiles: (u32, u32),
    /// 0 while nobody has the edge, else `1 + 2 * attempt + end`.
    lock: AtomicU32,
    registers: UnsafeCell<Registers>,
}

// SAFETY: the registers are reached through a `Hold` alone, and there is at most one at a time.
unsafe impl Sync for Edge {}

impl Edge {
    pub fn new(tiles: (u32, u32), columns: usize, rows: usize) -> Self {
        let sites = columns * rows;
        let news = [vec![0; rows], vec![0; rows]];
        let registers = Registers { clock: 0, atoms: vec![EMPTY; sites], stamps: vec![0; sites], news };
        Edge { tiles, lock: AtomicU32::new(0), registers: UnsafeCell::new(registers) }
    }

    /// Takes the edge for an attempt of one end, or answers the attempt of the other end that has it.
    ///
    /// Taking acquires what the last holder released. A lost exchange takes nothing over but the number in the lock.
    pub fn try_take(&self, end: usize, attempt: u32) -> Result<Hold<'_>, u32> {
        let word = 1 + 2 * attempt + end as u32;
        match self.lock.compare_exchange(0, word, Ordering::Acquire, Ordering::Relaxed) {
            Ok(_) => Ok(Hold(self)),
            Err(holder) => Err((holder - 1) / 2),
        }
    }
}

/// An edge as long as one end has it; dropped, it is free again.
pub struct Hold<'a>(&'a Edge);

impl Hold<'_> {
    pub fn registers(&mut self) -> &mut Registers {
        // SAFETY: the exchange that made this hold found the edge free, and it is free again only once this is dropped.
        unsafe { &mut *self.0.registers.get() }
    }
}

impl Drop for Hold<'_> {
    fn drop(&mut self) {
        self.0.lock.store(0, Ordering::Release);
    }
}

/// A tile's end of an edge.
pub struct Link<'a> {
    pub edge: &'a Edge,
    pub number: u32,
    pub end: usize,
    pub neighbour: u32,
}
