//! The steps of a tile in a stepped run.
use crate::tile::Tile;

/// What the next step of a tile does.
#[derive(Clone, Copy, PartialEq)]
pub enum Phase {
    Draw,
    Lock,
    Refresh,
    Behave,
    Write,
    Free,
    Finished,
}

impl Tile<'_> {
    /// Makes one step; a tile that is finished makes none.
    pub fn step(&mut self) {
        match self.phase {
            Phase::Draw if self.attempts.left() == 0 => self.phase = Phase::Finished,
            Phase::Draw => {
                self.draw();
                self.phase = self.lock_or_refresh();
            }
            Phase::Lock => self.phase = if self.lock() { self.lock_or_refresh() } else { self.free_or_draw() },
            Phase::Refresh => {
                self.refresh();
                self.phase = Phase::Behave;
            }
            Phase::Behave => {
                self.behave();
                self.phase = Phase::Write;
            }
            Phase::Write => {
                self.write();
                self.phase = self.free_or_draw();
            }
            Phase::Free => {
                self.holds.remove(0);
                self.phase = self.free_or_draw();
            }
            Phase::Finished => {}
        }
    }

    fn lock_or_refresh(&self) -> Phase {
        if self.holds.len() < self.needs.len() { Phase::Lock } else { Phase::Refresh }
    }

    fn free_or_draw(&self) -> Phase {
        if self.holds.is_empty() { Phase::Draw } else { Phase::Free }
    }
}
