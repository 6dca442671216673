//! The question for a shortest line, asked of a view.

use crate::{done, no_way, sys, Error, Link, NoWay, Place, Polygon, Turn, View};

/// A line between two places. It is not longer than `upper`, and no line over the links of the mesh is shorter than `lower`, both in 65536ths of a cell.
#[derive(Clone, Debug, PartialEq, Eq)]
pub struct Line {
    /// The polygons in which it begins and ends.
    pub first: Polygon,
    pub last: Polygon,
    pub links: Vec<Link>,
    pub turns: Vec<Turn>,
    pub upper: u64,
    pub lower: u64,
    /// Whether no line is shorter by more than a 256th of a cell, or by more than one part in 16384.
    pub is_shortest: bool,
}

impl View {
    /// A line between two places by its length, whatever areas cost, or why there is none. The search ends after `most` records, of about 100 bytes each; `quick`: it
    /// passes over ends of portals that the mesh surrounds, which makes it several times as fast.
    pub fn shortest(&mut self, from: Place, to: Place, most: u32, quick: bool) -> Result<Result<Line, NoWay>, Error> {
        let way = sys::Way { from: from.at, from_y: from.y, to: to.at, to_y: to.y };
        let (mut links, mut turns) = (vec![Link::default(); 64], vec![Turn::default(); 64]);
        loop {
            let mut line = sys::Line { way, most, quick: quick.into(), ..sys::Line::default() };
            // SAFETY: the handle is this view's, and the arrays are those of vectors.
            let status = unsafe {
                sys::navd_view_shortest(&mut self.handle, &mut line, links.as_mut_ptr(), links.len(), turns.as_mut_ptr(), turns.len())
            };
            if let Some(no_way) = no_way(status) {
                return Ok(Err(no_way));
            }
            let is_shortest = status != sys::ABOUT;
            done((if is_shortest { status } else { sys::OK }, 0))?;
            let fits = line.links <= links.len() && line.turns <= turns.len();
            links.resize(line.links, Link::default());
            turns.resize(line.turns, Turn::default());
            if fits {
                let (first, last, upper, lower) = (line.first, line.last, line.upper, line.lower);
                return Ok(Ok(Line { first, last, links, turns, upper, lower, is_shortest }));
            }
        }
    }
}
