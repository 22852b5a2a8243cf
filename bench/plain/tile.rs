//! Tiles, and what they did.
use crate::atoms::Cells;
use crate::draws::{Divisor, Xoshiro};
use crate::edges::{Hold, Link};
use crate::shape::{Place, Shape};
use crate::steps::Phase;

/// The attempts of a tile, each a centre and a seed, drawn or written out.
pub enum Attempts {
    Drawn { stream: Xoshiro, sites: Divisor, left: u32 },
    Listed(std::vec::IntoIter<(u32, u64)>),
}

impl Attempts {
    pub fn left(&self) -> usize {
        match self {
            Attempts::Drawn { left, .. } => *left as usize,
            Attempts::Listed(list) => list.len(),
        }
    }

    fn next(&mut self) -> (u32, u64) {
        match self {
            Attempts::Drawn { stream, sites, left } => {
                *left -= 1;
                let centre = sites.remainder(stream.next());
                (centre as u32, stream.next())
            }
            Attempts::Listed(list) => list.next().expect("an attempt is left"),
        }
    }
}

/// An attempt that a tile has in hand.
#[derive(Default)]
pub struct Attempt {
    number: u32,
    /// Its centre's place in the tile's copy, and on the plane.
    cell: u32,
    x: u16,
    y: u16,
    seed: u64,
    stamp: u32,
}

/// An event, in 20 bytes, since fresh memory is what a log costs most.
#[derive(Clone, Copy, Default)]
#[repr(packed(4))]
pub struct Record {
    pub seed: u64,
    pub stamp: u32,
    pub number: u32,
    pub x: u16,
    pub y: u16,
}

/// An attempt that was given up, and why.
pub struct Abandoned {
    pub number: u32,
    pub x: u16,
    pub y: u16,
    pub edge: u32,
    pub holder: u32,
    pub holder_attempt: u32,
}

/// What a tile did: its events by rising stamp, and the attempts that it gave up.
pub struct Log {
    pub records: Vec<Record>,
    pub abandoned: Vec<Abandoned>,
}

/// A needed edge, and where the window lies on it.
pub struct Need<'a> {
    link: &'a Link<'a>,
    place: &'a Place,
}

/// A tile, with one method for each step of an attempt.
#[repr(align(128))]
pub struct Tile<'a> {
    pub shape: &'a Shape,
    pub number: u32,
    /// The first column and row of its own sites.
    pub corner: (usize, usize),
    pub links: &'a [Option<Link<'a>>; 8],
    pub attempts: Attempts,
    pub drawn: u32,
    /// The last event's stamp.
    pub clock: u32,
    pub cells: Cells,
    pub log: Log,
    /// What a stepped run does next.
    pub phase: Phase,
    pub in_hand: Attempt,
    pub needs: Vec<Need<'a>>,
    /// The holds on the first of the needed edges.
    pub holds: Vec<Hold<'a>>,
}

impl<'a> Tile<'a> {
    /// Draws the next attempt and finds the edges that it needs.
    pub fn draw(&mut self) {
        let (centre, seed) = self.attempts.next();
        let shape = self.shape;
        let centre = &shape.centres[centre as usize];
        self.in_hand = Attempt {
            number: self.drawn,
            cell: u32::from(centre.cell),
            x: (self.corner.0 + centre.x as usize) as u16,
            y: (self.corner.1 + centre.y as usize) as u16,
            seed,
            stamp: 0,
        };
        self.drawn += 1;
        let places = &shape.places[centre.places.start as usize..centre.places.end as usize];
        let links = self.links;
        self.needs.clear();
        self.needs.extend(places.iter().filter_map(|place| {
            let link = links[place.direction as usize].as_ref()?;
            Some(Need { link, place })
        }));
    }

    /// Tries the next needed edge; if the other end has it, the attempt is noted as abandoned.
    pub fn lock(&mut self) -> bool {
        let link = self.needs[self.holds.len()].link;
        match link.edge.try_take(link.end, self.in_hand.number) {
            Ok(hold) => {
                self.holds.push(hold);
                true
            }
            Err(holder_attempt) => {
                let Attempt { number, x, y, .. } = self.in_hand;
                let (edge, holder) = (link.number, link.neighbour);
                self.log.abandoned.push(Abandoned { number, x, y, edge, holder, holder_attempt });
                false
            }
        }
    }

    /// Brings the window up to date from the needed edges, and takes the stamp from their clocks.
    pub fn refresh(&mut self) {
        let mut clock = self.clock;
        for (need, hold) in self.needs.iter().zip(&mut self.holds) {
            let registers = hold.registers();
            clock = clock.max(registers.clock);
            registers.refresh(need.link.end, need.place, &mut self.cells);
        }
        self.in_hand.stamp = clock + 1;
    }

    /// Makes the event on the copy, which no other tile sees.
    pub fn behave(&mut self) {
        self.cells.act(self.in_hand.cell as usize, self.in_hand.seed);
    }

    /// Stamps the window and publishes it on the needed edges, and notes the event. A window that needs no edge has no
    /// site that another tile holds, so its stamps are never looked at.
    pub fn write(&mut self) {
        let Attempt { number, cell, x, y, seed, stamp } = self.in_hand;
        self.clock = stamp;
        if !self.needs.is_empty() {
            self.cells.stamp(cell as usize, stamp);
        }
        for (need, hold) in self.needs.iter().zip(&mut self.holds) {
            hold.registers().publish(need.link.end, need.place, &self.cells, stamp);
        }
        self.log.records.push(Record { seed, stamp, number, x, y });
    }

    /// Makes a whole attempt, and says whether it became an event.
    pub fn attempt(&mut self) -> bool {
        self.draw();
        let won = (0..self.needs.len()).all(|_| self.lock());
        if won {
            self.refresh();
            self.behave();
            self.write();
        }
        self.holds.clear();
        won
    }

    /// Brings the whole copy up to date, once all tiles are done.
    pub fn settle(&mut self) {
        let pitch = self.shape.pitch();
        for (direction, link) in self.links.iter().enumerate() {
            let Some(link) = link else { continue };
            let mut hold = link.edge.try_take(link.end, self.drawn).ok().expect("all edges are free at the end");
            let (columns, rows) = self.shape.shared(direction);
            let sites = rows.flat_map(|row| columns.clone().map(move |column| row * pitch + column));
            for (shared, own) in sites.enumerate() {
                hold.registers().take(shared, own, &mut self.cells);
            }
        }
    }
}
