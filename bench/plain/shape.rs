//! What tiles of one size have in common.
use std::ops::Range;

/// How far a window reaches, and how many columns and rows beyond its own a tile holds.
pub const REACH: usize = 4;

/// The eight neighbours of a tile, by rising number; that opposite to `d` is `7 - d`.
pub const DIRECTIONS: [(isize, isize); 8] = [(-1, -1), (0, -1), (1, -1), (-1, 0), (1, 0), (-1, 1), (0, 1), (1, 1)];

/// A part of a window's row that two tiles share.
#[derive(Clone, Copy, Default)]
pub struct Run {
    /// Its first site in the tile's copy, and on the edge.
    pub own: u16,
    pub shared: u16,
    /// Its row on the edge, its first column there, and its length.
    pub row: u8,
    pub column: u8,
    pub length: u8,
}

/// Where a window lies on the edge in one direction.
pub struct Place {
    pub direction: u8,
    pub count: u8,
    pub runs: [Run; 2 * REACH + 1],
}

impl Place {
    pub fn runs(&self) -> &[Run] {
        &self.runs[..self.count as usize]
    }
}

/// What is known of a centre beforehand: its column and row in its tile, its place in the copy, and its places on the
/// edges of a tile that has all of them.
pub struct Centre {
    pub x: u8,
    pub y: u8,
    pub cell: u16,
    pub places: Range<u16>,
}

/// What the tiles of a plane have in common, made once.
pub struct Shape {
    pub width: usize,
    pub height: usize,
    pub centres: Vec<Centre>,
    pub places: Vec<Place>,
}

impl Shape {
    pub fn new(width: usize, height: usize) -> Self {
        let mut shape = Shape { width, height, centres: Vec::new(), places: Vec::new() };
        for (y, x) in (0..height).flat_map(|y| (0..width).map(move |x| (y, x))) {
            let first = shape.places.len() as u16;
            for direction in 0..8 {
                let place = shape.place(direction, x + REACH, y + REACH);
                shape.places.extend(place);
            }
            let cell = ((y + REACH) * shape.pitch() + x + REACH) as u16;
            let places = first..shape.places.len() as u16;
            shape.centres.push(Centre { x: x as u8, y: y as u8, cell, places });
        }
        shape
    }

    /// The columns of a tile's copy.
    pub fn pitch(&self) -> usize {
        self.width + 2 * REACH
    }

    /// The columns and the rows of a copy that the neighbour in a direction holds too. Seen from either tile they are
    /// as many, so both number the sites of their edge alike.
    pub fn shared(&self, direction: usize) -> (Range<usize>, Range<usize>) {
        let span = |step: isize, side: usize| match step {
            -1 => 0..2 * REACH,
            0 => 0..side + 2 * REACH,
            _ => side..side + 2 * REACH,
        };
        let (dx, dy) = DIRECTIONS[direction];
        (span(dx, self.width), span(dy, self.height))
    }

    /// Where the window of a centre, at a place of the copy, lies on the edge in a direction; none if it doesn't. The
    /// nearest site of the neighbour's is in the centre's own tile and so live: the event needs the edge.
    fn place(&self, direction: usize, x: usize, y: usize) -> Option<Place> {
        let (columns, rows) = self.shared(direction);
        let mut place = Place { direction: direction as u8, count: 0, runs: Default::default() };
        for row in (y - REACH).max(rows.start)..(y + REACH + 1).min(rows.end) {
            let half = REACH - row.abs_diff(y);
            let first = (x - half).max(columns.start);
            let end = (x + half + 1).min(columns.end);
            if first < end {
                let (r, c) = (row - rows.start, first - columns.start);
                place.runs[place.count as usize] = Run {
                    own: (row * self.pitch() + first) as u16,
                    shared: (r * columns.len() + c) as u16,
                    row: r as u8,
                    column: c as u8,
                    length: (end - first) as u8,
                };
                place.count += 1;
            }
        }
        (place.count > 0).then_some(place)
    }
}
