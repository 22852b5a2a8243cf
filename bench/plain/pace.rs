//! How workers keep pace with each other, and pause, as those of the crate `tile_threads` do and with its numbers.
use crate::draws::SplitMix;
use std::sync::atomic::{AtomicU32, AtomicU64, Ordering::Relaxed};
use std::time::{Duration, Instant};

/// How many attempts a worker may be ahead of the slowest, as long as that costs little, and at most.
const NEAR: u32 = 384;
const FAR: u32 = 2_048;
/// How many turns a wait may take.
const PATIENCE: u32 = 250;
/// After so many attempts a worker tells how far it is.
const STRETCH: u32 = 64;
/// How often a wait begins with a yield, in place of a rest.
const YIELDS: u32 = 20;
/// The first rest of a wait, and how many times it is doubled at most.
const FIRST_REST: Duration = Duration::from_micros(50);
const DOUBLINGS: u32 = 3;
/// How long a part of a wait is for which a worker asks what the plane has made meanwhile.
const LONG: Duration = Duration::from_millis(1);

/// What all workers know of the pace.
pub struct Pace {
    /// How many attempts each tile has drawn, as far as its worker has told; `u32::MAX` once it is done.
    counts: Vec<AtomicU32>,
    /// How many attempts all workers have told of.
    made: AtomicU64,
    /// How many attempts a worker may be ahead of the slowest, and how many at most on this plane.
    distance: AtomicU32,
    most: u32,
    /// How many turns the next wait may take.
    patience: AtomicU32,
}

impl Pace {
    /// The pace of so many tiles, a corner tile of which reaches so many sites.
    pub fn new(tiles: usize, sites: usize) -> Self {
        Pace {
            counts: (0..tiles).map(|_| AtomicU32::new(0)).collect(),
            made: AtomicU64::new(0),
            distance: AtomicU32::new(NEAR),
            most: (sites as u32).clamp(NEAR, FAR),
            patience: AtomicU32::new(PATIENCE),
        }
    }

    /// The plane stood still while a worker waited at this distance: doubles it, unless another worker has changed it.
    fn widen(&self, distance: u32) {
        let wider = (2 * distance).min(self.most);
        // a lost exchange is no fault: then another worker has changed the distance
        let _ = self.distance.compare_exchange(distance, wider, Relaxed, Relaxed);
    }

    /// The plane went on while a worker waited: takes a sixteenth from the distance.
    fn narrow(&self) {
        let distance = self.distance.load(Relaxed);
        if distance > NEAR {
            self.distance.store((distance - distance / 16).max(NEAR), Relaxed);
        }
    }
}

/// A moment of a wait: when it was, how many attempts all workers had told of, and how far ahead a worker could be.
struct Moment {
    time: Instant,
    made: u64,
    distance: u32,
}

/// What one worker knows of the pace.
pub struct Stride<'a> {
    pace: &'a Pace,
    tile: usize,
    /// The count at which it tells next how far it is.
    next: u32,
    /// The count up to which it may go without another look at the others.
    limit: u32,
    /// The tile that was too far behind when it looked last.
    slow: usize,
    /// When it began the stretch that it is in.
    begun: Instant,
    /// How long a stretch takes where nothing holds it up: the least of late, which grows by an eighth with each.
    took: Duration,
}

impl<'a> Stride<'a> {
    /// That of the worker of a tile, which has drawn no attempt.
    pub fn new(pace: &'a Pace, tile: usize) -> Self {
        Stride { pace, tile, next: STRETCH, limit: 0, slow: 0, begun: Instant::now(), took: Duration::MAX }
    }

    /// The worker has drawn so many attempts, and is about to draw the next. It waits as long as some tile is too far
    /// behind, and as patience lasts.
    pub fn keep(&mut self, count: u32) {
        if count < self.next {
            return;
        }
        let now = Instant::now();
        self.took = (now - self.begun).min(self.took.saturating_add(self.took / 8));
        self.begun = now;
        self.pace.counts[self.tile].store(count, Relaxed);
        self.pace.made.fetch_add(u64::from(STRETCH), Relaxed);
        self.next = count + STRETCH;
        if count >= self.limit && !self.may_go(count) {
            self.wait(count);
            self.begun = Instant::now();
        }
    }

    /// The worker is done, so that nobody waits for it.
    pub fn end(&self) {
        self.pace.counts[self.tile].store(u32::MAX, Relaxed);
    }

    /// Whether no tile is too far behind a worker with this count. Looks first at the one that was so before.
    fn may_go(&mut self, count: u32) -> bool {
        let distance = self.pace.distance.load(Relaxed);
        let reach = |told: &AtomicU32| told.load(Relaxed).saturating_add(distance);
        let counts = &self.pace.counts;
        if reach(&counts[self.slow]) <= count {
            return false;
        }
        if let Some(slow) = counts.iter().position(|told| reach(told) <= count) {
            self.slow = slow;
            return false;
        }
        self.limit = counts.iter().map(reach).min().unwrap_or(u32::MAX);
        true
    }

    /// Waits until no tile is too far behind. If patience ends before that, the worker may go on as far again.
    fn wait(&mut self, count: u32) {
        let patience = self.pace.patience.load(Relaxed);
        let mut since = self.moment();
        for turn in 0..patience {
            match turn.checked_sub(YIELDS) {
                None => std::thread::yield_now(),
                Some(rests) => std::thread::sleep(FIRST_REST * (1 << rests.min(DOUBLINGS))),
            }
            let now = self.moment();
            let is_long = now.time - since.time >= LONG;
            if is_long {
                self.adapt(&since, &now);
                since = self.moment();
            }
            if self.may_go(count) {
                if !is_long {
                    self.pace.narrow();
                }
                if patience < PATIENCE {
                    self.pace.patience.store(PATIENCE, Relaxed);
                }
                return;
            }
        }
        self.limit = count.saturating_add(self.pace.distance.load(Relaxed));
        self.pace.patience.store((patience / 4).max(1), Relaxed);
    }

    fn moment(&self) -> Moment {
        let (made, distance) = (self.pace.made.load(Relaxed), self.pace.distance.load(Relaxed));
        Moment { time: Instant::now(), made, distance }
    }

    /// A long part of a wait is over. The plane stood still meanwhile if all workers made less than half of what this
    /// one alone makes in such a time.
    fn adapt(&self, since: &Moment, now: &Moment) {
        let waited = (now.time - since.time).as_nanos();
        let made = u128::from(now.made - since.made);
        if made * self.took.as_nanos() < waited * u128::from(STRETCH) / 2 {
            self.pace.widen(since.distance);
        } else {
            self.pace.narrow();
        }
    }
}

/// The pauses of a worker after abandoned attempts: a random number of rounds below a bound that doubles with each
/// further one, and then the processor is yielded.
pub struct Pauses {
    draws: SplitMix,
    losses: u32,
}

impl Pauses {
    const ROUNDS: u64 = 400;
    const DOUBLINGS: u32 = 8;

    /// Those of the worker of a tile.
    pub fn new(tile: u32) -> Self {
        Pauses { draws: SplitMix(u64::from(tile)), losses: 0 }
    }

    pub fn after_attempt(&mut self, won: bool) {
        if won {
            self.losses = 0;
            return;
        }
        let rounds = self.draws.next() % (Self::ROUNDS << self.losses.min(Self::DOUBLINGS));
        self.losses += 1;
        for _ in 0..rounds {
            std::hint::spin_loop();
        }
        std::thread::yield_now();
    }
}
