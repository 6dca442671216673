//! The first path in Rust: a level is opened, a crate put across its room, and the way round it asked for.
//!
//!     cargo run --example first -- examples/detour.nav       cost 180, 5 links, 2 turns: (144, 64) (144, 96)
use navd::{place, Block, Level};

fn main() -> Result<(), Box<dyn std::error::Error>> {
    let text = std::fs::read(std::env::args().nth(1).ok_or("no name of a level")?)?;
    let mut level = Level::open(&text)?;
    level.add_block(&Block { x0: 1, x1: 8, y0: 0, y1: 100, z0: 4, z1: 5 }, 0)?;
    level.settle()?;
    let path = level.find_path(place(40, 40, 10), place(40, 120, 10))?.map_err(|why| format!("{why:?}"))?;
    let turns: String = path.turns.iter().map(|turn| format!(" ({}, {})", turn.at.x, turn.at.z)).collect();
    println!("cost {}, {} links, {} turns:{turns}", path.cost, path.links.len(), path.turns.len());
    Ok(())
}
