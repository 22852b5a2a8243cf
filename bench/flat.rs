//! The plain program that a user could write in an afternoon, as a mark for speed: one tile, one flat grid, the three
//! elements Walker, Wander and Stone written out by hand, nothing checked and nothing proved.
//!
//!     rustc -O -C target-cpu=x86-64-v2 flat.rs -o flat
//!     ./flat WORLD > REPORT
//!     ./flat WORLD time              (how long its events take, by the least of parts of 20,000)
//!     ./flat WORLD read              (reads the world, and no more)
//!
//! (WORLD: tiles 1 1, `try` lines or `seed` and `attempts`, `atom` lines.)
//!
//! Its report is that of `feast run WORLD FILE`, byte for byte, where FILE defines these elements in the order that
//! `names` gives: for Walker alone `Walker`, else `Wander Stone`.
use std::io::Write;
use std::time::Instant;

fn split_mix(state: &mut u64) -> u64 {
    *state = state.wrapping_add(0x9E37_79B9_7F4A_7C15);
    let mut z = *state;
    z = (z ^ (z >> 30)).wrapping_mul(0xBF58_476D_1CE4_E5B9);
    z = (z ^ (z >> 27)).wrapping_mul(0x94D0_49BB_1331_11EB);
    z ^ (z >> 31)
}

struct Xoshiro([u64; 4]);

impl Xoshiro {
    fn next(&mut self) -> u64 {
        let s = &mut self.0;
        let out = s[0].wrapping_add(s[3]).rotate_left(23).wrapping_add(s[0]);
        let t = s[1] << 17;
        s[2] ^= s[0];
        s[3] ^= s[1];
        s[1] ^= s[2];
        s[0] ^= s[3];
        s[2] ^= t;
        s[3] = s[3].rotate_left(45);
        out
    }
}

fn number(text: &[u8]) -> u64 {
    text.iter().fold(0, |n, b| n * 10 + u64::from(b - b'0'))
}

fn hexadecimal(text: &[u8]) -> u64 {
    text.iter().fold(0, |n, &b| n << 4 | u64::from(if b <= b'9' { b - b'0' } else { b - b'a' + 10 }))
}

fn push_number(out: &mut Vec<u8>, mut n: u64) {
    let mut digits = [0u8; 20];
    let mut at = 20;
    loop {
        at -= 1;
        digits[at] = b'0' + (n % 10) as u8;
        n /= 10;
        if n == 0 {
            break;
        }
    }
    out.extend_from_slice(&digits[at..]);
}

fn push_hexadecimal(out: &mut Vec<u8>, n: u128, width: u32) {
    for i in (0..width).rev() {
        out.push(b"0123456789abcdef"[(n >> (4 * i) & 15) as usize]);
    }
}

const STATE: u128 = (1 << 71) - 1;

/// Makes the events of the attempts.
#[inline(never)]
fn make(grid: &mut [u128], width: usize, height: usize, attempts: &[(u32, u32, u64)], walkers: bool) {
    let near = [(0i32, 0i32), (-1, 0), (0, -1), (0, 1), (1, 0)];
    for &(x, y, word) in attempts {
        let at = y as usize * width + x as usize;
        let kind = grid[at] >> 80;
        if kind != 1 {
            continue;
        }
        let n = if walkers {
            4
        } else {
            let mut state = word;
            (split_mix(&mut state) % 4 + 1) as usize
        };
        let (u, v) = (x as i32 + near[n].0, y as i32 + near[n].1);
        if u < 0 || v < 0 || u as usize >= width || v as usize >= height {
            continue;
        }
        let other = v as usize * width + u as usize;
        if walkers || grid[other] == 0 {
            grid.swap(at, other);
        }
    }
}

struct World<'a> {
    width: usize,
    height: usize,
    attempts: Vec<(u32, u32, u64)>,
    grid: Vec<u128>,
    names: Vec<&'a [u8]>,
}

/// What the text of a world says.
#[inline(never)]
fn read(bytes: &[u8]) -> World<'_> {
    let (mut width, mut height) = (0usize, 0usize);
    let (mut seed, mut drawn) = (0u64, None);
    let mut attempts: Vec<(u32, u32, u64)> = Vec::new();
    let mut grid: Vec<u128> = Vec::new();
    let mut names: Vec<&[u8]> = Vec::new();
    for line in bytes.split(|&b| b == b'\n') {
        let mut fields = line.split(|&b| b == b' ');
        match fields.next() {
            Some(b"size") => {
                width = number(fields.next().unwrap()) as usize;
                height = number(fields.next().unwrap()) as usize;
                grid = vec![0; width * height];
            }
            Some(b"seed") => seed = number(fields.next().unwrap()),
            Some(b"attempts") => drawn = Some(number(fields.next().unwrap())),
            Some(b"try") => {
                fields.next();
                let x = number(fields.next().unwrap()) as u32;
                let y = number(fields.next().unwrap()) as u32;
                attempts.push((x, y, hexadecimal(fields.next().unwrap())));
            }
            Some(b"atom") => {
                let x = number(fields.next().unwrap()) as usize;
                let y = number(fields.next().unwrap()) as usize;
                let name = fields.next().unwrap();
                if names.is_empty() {
                    names = if name == b"Walker" { vec![b"Walker"] } else { vec![b"Wander", b"Stone"] };
                }
                let kind = names.iter().position(|n| *n == name).expect("Walker, Wander or Stone") + 1;
                grid[y * width + x] = (kind as u128) << 80;
            }
            _ => {}
        }
    }
    if let Some(count) = drawn {
        let mut from = seed;
        let mut stream = Xoshiro(std::array::from_fn(|_| split_mix(&mut from)));
        for _ in 0..count {
            let centre = stream.next() % (width * height) as u64;
            attempts.push((centre as u32 % width as u32, centre as u32 / width as u32, stream.next()));
        }
    }
    World { width, height, attempts, grid, names }
}

/// The report of a world whose events are made.
#[inline(never)]
fn report(world: &World) -> Vec<u8> {
    let World { width, attempts, grid, names, .. } = world;
    let mut out = Vec::with_capacity(64 * attempts.len() + 64 * grid.len());
    out.extend_from_slice(b"feast 1\natoms ");
    push_number(&mut out, grid.iter().filter(|&&a| a != 0).count() as u64);
    out.push(b'\n');
    for (at, &atom) in grid.iter().enumerate().filter(|(_, a)| **a != 0) {
        push_number(&mut out, (at % width) as u64);
        out.push(b' ');
        push_number(&mut out, (at / width) as u64);
        out.push(b' ');
        out.extend_from_slice(names[(atom >> 80) as usize - 1]);
        out.push(b' ');
        push_hexadecimal(&mut out, atom & STATE, 18);
        out.push(b'\n');
    }
    out.extend_from_slice(b"journal ");
    push_number(&mut out, attempts.len() as u64);
    out.push(b'\n');
    for (i, &(x, y, word)) in attempts.iter().enumerate() {
        push_number(&mut out, i as u64 + 1);
        out.extend_from_slice(b" 0 ");
        push_number(&mut out, i as u64);
        for n in [x, y] {
            out.push(b' ');
            push_number(&mut out, u64::from(n));
        }
        out.push(b' ');
        push_hexadecimal(&mut out, u128::from(word), 16);
        out.push(b'\n');
    }
    out.extend_from_slice(b"abandoned 0\n");
    out
}

fn main() {
    let path = std::env::args().nth(1).expect("WORLD");
    let word = std::env::args().nth(2);
    let bytes = std::fs::read(path).expect("a world that can be read");
    let mut world = std::hint::black_box(read(&bytes));
    if word.as_deref() == Some("read") {
        return;
    }
    let walkers = world.names.first().is_some_and(|n| *n == b"Walker");
    make(&mut world.grid, world.width, world.height, &world.attempts, walkers);
    match word.as_deref() {
        None => std::io::stdout().lock().write_all(&report(&world)).expect("standard output"),
        Some(_) => {
            let World { width, height, ref attempts, ref mut grid, .. } = world;
            let least = attempts.chunks_exact(20_000).map(|part| {
                let begin = Instant::now();
                make(grid, width, height, part, walkers);
                begin.elapsed().as_nanos()
            });
            println!("{} picoseconds an event", least.min().expect("20,000 attempts") / 20);
        }
    }
}
