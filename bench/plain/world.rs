//! Worlds: what is on a plane, and what it is to do.
use crate::atoms::{Atom, Cells, EMPTY, NAMES, TYPE, WALL};
use crate::draws::{Divisor, Xoshiro};
use crate::edges::{Edge, Link};
use crate::pace::Pace;
use crate::runs::{run_tiles, step_drawn, step_to_end};
use crate::shape::{DIRECTIONS, REACH, Shape};
use crate::steps::Phase;
use crate::tile::{Attempt, Attempts, Log, Tile};
use std::ops::Range;

/// A plane of tiles, what is on it, and what it is to do.
#[derive(Default)]
pub struct World {
    tiles: (usize, usize),
    size: (usize, usize),
    on: Vec<bool>,
    /// What the attempts are drawn from, and how many each tile draws.
    seed: u64,
    count: u32,
    /// For each tile the attempts that are written out.
    tries: Vec<Vec<(u32, u64)>>,
    /// What the order of a stepped run is drawn from; else it is this list.
    order_seed: Option<u64>,
    order: Vec<usize>,
    /// The atom of each site of the plane, row by row; `WALL` on a tile that is off.
    pub grid: Vec<Atom>,
}

/// The fields of a line that are still to be read, with a space between two of them.
struct Fields<'a>(&'a [u8]);

impl<'a> Fields<'a> {
    /// The next field as it is.
    fn word(&mut self) -> &'a [u8] {
        let length = self.0.iter().position(|&b| b == b' ').unwrap_or(self.0.len());
        let (word, rest) = self.0.split_at(length);
        self.0 = rest;
        self.pass_space();
        word
    }

    fn pass_space(&mut self) {
        self.0 = self.0.strip_prefix(b" ").unwrap_or(self.0);
    }

    /// The next field as a decimal number.
    fn number(&mut self) -> u64 {
        let mut n = 0;
        while let [digit @ b'0'..=b'9', rest @ ..] = self.0 {
            n = n * 10 + u64::from(digit - b'0');
            self.0 = rest;
        }
        self.pass_space();
        n
    }

    /// The next two fields as decimal numbers.
    fn two(&mut self) -> (usize, usize) {
        (self.number() as usize, self.number() as usize)
    }

    /// The next field as a hexadecimal number; 0 if there is none.
    fn hexadecimal(&mut self) -> u128 {
        let digit = |b: u8| u128::from(if b <= b'9' { b - b'0' } else { b - b'a' + 10 });
        self.word().iter().fold(0, |n, &b| n << 4 | digit(b))
    }
}

impl World {
    pub fn read(bytes: &[u8]) -> Self {
        let mut world = World::default();
        for line in bytes.split(|&b| b == b'\n') {
            world.read_line(Fields(line));
        }
        world
    }

    fn read_line(&mut self, mut fields: Fields<'_>) {
        match fields.word() {
            b"atom" => self.read_atom(fields),
            b"try" => {
                let tile = fields.number() as usize;
                let (x, y) = fields.two();
                let centre = y % self.size.1 * self.size.0 + x % self.size.0;
                self.tries[tile].push((centre as u32, fields.hexadecimal() as u64));
            }
            b"tiles" => self.tiles = fields.two(),
            b"size" => {
                self.size = fields.two();
                self.make_tiles();
            }
            b"off" => {
                let tile = fields.number() as usize;
                self.on[tile] = false;
                self.rows(tile).for_each(|row| self.grid[row].fill(WALL));
            }
            b"seed" => self.seed = fields.number(),
            b"attempts" => self.count = fields.number() as u32,
            b"order" => self.read_order(fields),
            _ => {}
        }
    }

    fn read_atom(&mut self, mut fields: Fields<'_>) {
        let (x, y) = fields.two();
        let name = fields.word();
        let kind = NAMES.iter().position(|n| *n == name).expect("Wander, Stone, Number or Sorter") + 1;
        let site = y * self.width() + x;
        self.grid[site] = (kind as Atom) << TYPE | fields.hexadecimal();
    }

    fn read_order(&mut self, mut fields: Fields<'_>) {
        if let Some(seed) = fields.0.strip_prefix(b"seed ") {
            self.order_seed = Some(Fields(seed).number());
        }
        while let [b'0'..=b'9', ..] = fields.0 {
            self.order.push(fields.number() as usize);
        }
    }

    /// Makes all tiles of the plane, empty and without attempts.
    fn make_tiles(&mut self) {
        let tiles = self.tiles.0 * self.tiles.1;
        self.on = vec![true; tiles];
        self.tries = vec![Vec::new(); tiles];
        self.grid = vec![EMPTY; tiles * self.size.0 * self.size.1];
    }

    /// The columns of the plane.
    pub fn width(&self) -> usize {
        self.tiles.0 * self.size.0
    }

    /// The first column and row of a tile.
    fn corner(&self, tile: usize) -> (usize, usize) {
        (tile % self.tiles.0 * self.size.0, tile / self.tiles.0 * self.size.1)
    }

    /// The sites of a tile in the grid, row by row.
    fn rows(&self, tile: usize) -> impl Iterator<Item = Range<usize>> + use<> {
        let (width, (x, y)) = (self.width(), self.corner(tile));
        let columns = self.size.0;
        (y..y + self.size.1).map(move |row| row * width + x..row * width + x + columns)
    }

    /// The neighbour of a tile in a direction, if it is on.
    fn neighbour(&self, tile: usize, direction: usize) -> Option<usize> {
        let (dx, dy) = DIRECTIONS[direction];
        let x = (tile % self.tiles.0).checked_add_signed(dx).filter(|&x| x < self.tiles.0)?;
        let y = (tile / self.tiles.0).checked_add_signed(dy).filter(|&y| y < self.tiles.1)?;
        let neighbour = y * self.tiles.0 + x;
        (self.on[tile] && self.on[neighbour]).then_some(neighbour)
    }

    /// The edges by rising number: by their lower tile, then by their higher.
    fn edges(&self, shape: &Shape) -> Vec<Edge> {
        let mut edges = Vec::new();
        for (tile, direction) in (0..self.on.len()).flat_map(|tile| (4..8).map(move |direction| (tile, direction))) {
            if let Some(higher) = self.neighbour(tile, direction) {
                let (columns, rows) = shape.shared(direction);
                edges.push(Edge::new((tile as u32, higher as u32), columns.len(), rows.len()));
            }
        }
        edges
    }

    /// A tile's ends of its edges, by direction.
    fn links<'a>(&self, tile: usize, edges: &'a [Edge]) -> [Option<Link<'a>>; 8] {
        std::array::from_fn(|direction| {
            let neighbour = self.neighbour(tile, direction)?;
            let tiles = (tile.min(neighbour) as u32, tile.max(neighbour) as u32);
            let number = edges.binary_search_by_key(&tiles, |edge| edge.tiles).expect("an edge of neighbours");
            let end = usize::from(neighbour < tile);
            Some(Link { edge: &edges[number], number: number as u32, end, neighbour: neighbour as u32 })
        })
    }

    /// The cells that a tile holds at the start.
    fn cells(&self, tile: usize, shape: &Shape) -> Cells {
        let (x, y) = self.corner(tile);
        let pitch = shape.pitch();
        let sites = pitch * (shape.height + 2 * REACH);
        let mut atoms = vec![WALL; sites];
        let first = x.saturating_sub(REACH);
        let columns = first..(x + self.size.0 + REACH).min(self.width());
        for row in y.saturating_sub(REACH)..(y + self.size.1 + REACH).min(self.tiles.1 * self.size.1) {
            let to = (row + REACH - y) * pitch + first + REACH - x;
            let from = row * self.width();
            atoms[to..to + columns.len()].copy_from_slice(&self.grid[from + columns.start..from + columns.end]);
        }
        Cells { pitch, atoms, stamps: vec![0; sites] }
    }

    fn attempts(&mut self, tile: usize) -> Attempts {
        if self.count == 0 {
            return Attempts::Listed(std::mem::take(&mut self.tries[tile]).into_iter());
        }
        Attempts::Drawn {
            stream: Xoshiro::new(self.seed.wrapping_add(tile as u64)),
            sites: Divisor::new((self.size.0 * self.size.1) as u64),
            left: if self.on[tile] { self.count } else { 0 },
        }
    }

    fn tile<'a>(&mut self, number: usize, shape: &'a Shape, links: &'a [Option<Link<'a>>; 8]) -> Tile<'a> {
        let attempts = self.attempts(number);
        Tile {
            shape,
            number: number as u32,
            corner: self.corner(number),
            links,
            log: Log { records: Vec::with_capacity(attempts.left()), abandoned: Vec::new() },
            attempts,
            drawn: 0,
            clock: 0,
            cells: self.cells(number, shape),
            phase: Phase::Draw,
            in_hand: Attempt::default(),
            needs: Vec::with_capacity(8),
            holds: Vec::with_capacity(8),
        }
    }

    /// How many sites the first tile reaches: its own, and those of its neighbours that it holds.
    fn sites_in_reach(&self) -> usize {
        let reach = |tiles: usize, side: usize| (side + REACH).min(tiles * side);
        reach(self.tiles.0, self.size.0) * reach(self.tiles.1, self.size.1)
    }

    /// Steps the tiles in the world's order, and then each in turn until it is finished.
    fn step(&self, tiles: &mut [Tile<'_>]) {
        if let Some(seed) = self.order_seed {
            step_drawn(tiles, seed);
        }
        self.order.iter().for_each(|&tile| tiles[tile].step());
        step_to_end(tiles);
    }

    /// Runs all tiles, puts what they leave on the grid, and answers their logs.
    pub fn run(&mut self, stepped: bool) -> Vec<Log> {
        let shape = Shape::new(self.size.0, self.size.1);
        let edges = self.edges(&shape);
        let links: Vec<_> = (0..self.on.len()).map(|tile| self.links(tile, &edges)).collect();
        let mut tiles: Vec<_> = links.iter().enumerate().map(|(n, links)| self.tile(n, &shape, links)).collect();
        if stepped {
            self.step(&mut tiles);
        } else {
            run_tiles(&mut tiles, &Pace::new(self.on.len(), self.sites_in_reach()));
        }
        for tile in &mut tiles {
            tile.settle();
            for (row, to) in self.rows(tile.number as usize).enumerate() {
                let from = (row + REACH) * shape.pitch() + REACH;
                self.grid[to].copy_from_slice(&tile.cells.atoms[from..from + shape.width]);
            }
        }
        tiles.into_iter().map(|tile| tile.log).collect()
    }
}
