//! Runs: tiles side by side, and tiles that take turns in one thread.
use crate::draws::{Divisor, Xoshiro};
use crate::pace::{Pace, Pauses, Stride};
use crate::steps::Phase;
use crate::tile::Tile;
use std::sync::Mutex;
use std::thread;

/// After so many steps in a drawn order it is asked whether all tiles are finished.
const STEPS: usize = 4_096;

/// Steps the tiles in an order that is drawn from a seed, until they are finished or have made 16 steps an attempt.
pub fn step_drawn(tiles: &mut [Tile<'_>], seed: u64) {
    let attempts: usize = tiles.iter().map(|tile| tile.attempts.left()).sum();
    let count = Divisor::new(tiles.len() as u64);
    let mut stream = Xoshiro::new(seed);
    let mut left = 16 * attempts;
    while left > 0 && !tiles.iter().all(|tile| tile.phase == Phase::Finished) {
        let steps = left.min(STEPS);
        (0..steps).for_each(|_| tiles[count.remainder(stream.next()) as usize].step());
        left -= steps;
    }
}

/// Steps each tile in turn until it is finished.
pub fn step_to_end(tiles: &mut [Tile<'_>]) {
    for tile in tiles {
        while tile.phase != Phase::Finished {
            tile.step();
        }
    }
}

/// Makes all attempts of a tile, with pauses and in pace with the others.
fn work(tile: &mut Tile<'_>, pace: &Pace) {
    let mut stride = Stride::new(pace, tile.number as usize);
    let mut pauses = Pauses::new(tile.number);
    while tile.attempts.left() > 0 {
        stride.keep(tile.drawn);
        let won = tile.attempt();
        pauses.after_attempt(won);
    }
    stride.end();
}

/// Runs the tiles side by side, each in a thread of its own as far as threads can be started: a thread takes the next
/// tile as long as there is one, and so does this one.
pub fn run_tiles(tiles: &mut [Tile<'_>], pace: &Pace) {
    if let [tile] = tiles {
        while tile.attempts.left() > 0 {
            tile.attempt();
        }
        return;
    }
    let threads = tiles.len() - 1;
    let waiting = Mutex::new(tiles.iter_mut());
    let next = || waiting.lock().expect("no thread ends while it takes a tile").next();
    let work_on = || {
        while let Some(tile) = next() {
            work(tile, pace);
        }
    };
    thread::scope(|scope| {
        let start = |_| thread::Builder::new().spawn_scoped(scope, work_on).ok();
        let _started: Vec<_> = (0..threads).map_while(start).collect();
        work_on();
    });
}
