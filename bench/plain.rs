//! The plain program with tiles, as a mark for speed: the machine of docs/machine.md, as fast as we can write it as Rust
//! programmers who prove nothing. It does the same work as `feast`: a thread for each tile, copies of held sites, edges
//! with locks, stamps and news bits, the same pauses after abandoned attempts, the same pace, and the same report. It has
//! no contracts and no proofs, and its four elements are written out by hand: Wander and Stone, and Number and Sorter of
//! the examples.
//!
//!     rustc --edition 2021 -O -C target-cpu=x86-64-v2 plain.rs -o plain
//!     ./plain run WORLD > REPORT     (a thread for each tile)
//!     ./plain step WORLD > REPORT    (one thread, in the world's order)
//!
//! WORLD is a world that `feast` accepts, with atoms of these elements alone; it is not checked. Words after it, such as
//! the names of element files, are passed over. The report of `step`, and of `run` with one tile, is that of `feast` byte
//! for byte with the elements of worlds.py. A report of threads is one of many; `feast audit` judges it.
//!
//! Pauses and pace have the numbers of the crate `tile_threads`. Where threads can't be started, the tiles that have none
//! wait for those that are running. The report streams: as many threads as there are processors print parts of it, each
//! to a page that is used again, and put them in order, so no more of its text is in memory than some pages. `feast`
//! prints its report in one thread.
//!
//! What makes it fast: tables of what a centre needs; locks of one exchange, and plain memory under them; windows that no
//! edge needs get no stamps; remainders by multiplication; a record in 20 bytes; digits eight at a time, in one word; tiles'
//! records sorted by counting, as many at a time as a near cache has room for.
#[path = "plain/atoms.rs"]
mod atoms;
#[path = "plain/draws.rs"]
mod draws;
#[path = "plain/edges.rs"]
mod edges;
#[path = "plain/pace.rs"]
mod pace;
#[path = "plain/page.rs"]
mod page;
#[path = "plain/report.rs"]
mod report;
#[path = "plain/runs.rs"]
mod runs;
#[path = "plain/shape.rs"]
mod shape;
#[path = "plain/steps.rs"]
mod steps;
#[path = "plain/tile.rs"]
mod tile;
#[path = "plain/world.rs"]
mod world;

const USAGE: &str = "the words are: run|step WORLD";

fn main() {
    let words: Vec<String> = std::env::args().skip(1).collect();
    let [form, path, ..] = &words[..] else { panic!("{USAGE}") };
    let is_stepped = match form.as_str() {
        "run" => false,
        "step" => true,
        _ => panic!("{USAGE}"),
    };
    let mut world = world::World::read(&std::fs::read(path).expect("a world that can be read"));
    let logs = world.run(is_stepped);
    report::put(&world, &logs).expect("standard output");
}
