//! Atoms, what they do, and the copy of a plane's sites in which they do it.
use crate::draws::SplitMix;

/// An atom: its type from bit 80, its state in the low 71 bits.
pub type Atom = u128;

pub const TYPE: u32 = 80;
pub const STATE: Atom = (1 << 71) - 1;

pub const EMPTY: Atom = 0;
/// What stands where no live site is. An event finds it taken and leaves it alone, which comes to the same as a site
/// that reads as empty and can't be written.
pub const WALL: Atom = Atom::MAX;
const WANDER: Atom = 1;
const NUMBER: Atom = 3;
const SORTER: Atom = 4;
/// The elements in order of their type numbers, from 1. These numbers stay within the program, so elements of several
/// files can have them side by side.
pub const NAMES: [&[u8]; 4] = [b"Wander", b"Stone", b"Number", b"Sorter"];

/// Where the first seven bits of a state lie: the value of a Number, and the last value of a Sorter.
const VALUE: u32 = 64;
const VALUE_BITS: Atom = 127 << VALUE;

fn value(atom: Atom) -> Atom {
    atom & VALUE_BITS
}

/// A tile's copy of the sites that it holds, row by row: their atoms, and the stamps of the events that left them.
pub struct Cells {
    pub pitch: usize,
    pub atoms: Vec<Atom>,
    pub stamps: Vec<u32>,
}

impl Cells {
    /// Makes the event of a centre. A Stone and a Number stay, as do empty sites.
    pub fn act(&mut self, centre: usize, seed: u64) {
        match self.atoms[centre] >> TYPE {
            WANDER => self.wander(centre, &mut SplitMix(seed)),
            SORTER => self.sort(centre, &mut SplitMix(seed)),
            _ => {}
        }
    }

    /// Goes to one of the four sites beside the centre if that is empty.
    fn wander(&mut self, centre: usize, draws: &mut SplitMix) {
        let other = match draws.next() % 4 {
            0 => centre - 1,
            1 => centre - self.pitch,
            2 => centre + self.pitch,
            _ => centre + 1,
        };
        if self.atoms[other] == EMPTY {
            self.atoms.swap(centre, other);
        }
    }

    /// Carries a Number from one of three sites to the east two columns to the west of the centre, if that site is
    /// empty: northwards if it is below the last one, else southwards. Without a Number there the sorter wanders.
    fn sort(&mut self, centre: usize, draws: &mut SplitMix) {
        let from = match draws.next() % 3 {
            0 => centre + 1,
            1 => centre + 1 - self.pitch,
            _ => centre + 1 + self.pitch,
        };
        let found = self.atoms[from];
        if found >> TYPE != NUMBER {
            return self.wander(centre, draws);
        }
        let own = self.atoms[centre];
        let to = if value(found) < value(own) { centre - 2 - self.pitch } else { centre - 2 + self.pitch };
        if self.atoms[to] == EMPTY {
            self.atoms[centre] = own & !VALUE_BITS | value(found);
            self.atoms.swap(from, to);
        }
    }

    /// Gives all sites of a window a stamp. The rows have fixed lengths, so that each takes few stores.
    pub fn stamp(&mut self, centre: usize, stamp: u32) {
        fn row<const LENGTH: usize>(stamps: &mut [u32], middle: usize, stamp: u32) {
            let first = middle - LENGTH / 2;
            stamps[first..first + LENGTH].copy_from_slice(&[stamp; LENGTH]);
        }
        let (stamps, pitch) = (&mut self.stamps[..], self.pitch);
        row::<1>(stamps, centre - 4 * pitch, stamp);
        row::<3>(stamps, centre - 3 * pitch, stamp);
        row::<5>(stamps, centre - 2 * pitch, stamp);
        row::<7>(stamps, centre - pitch, stamp);
        row::<9>(stamps, centre, stamp);
        row::<7>(stamps, centre + pitch, stamp);
        row::<5>(stamps, centre + 2 * pitch, stamp);
        row::<3>(stamps, centre + 3 * pitch, stamp);
        row::<1>(stamps, centre + 4 * pitch, stamp);
    }
}
