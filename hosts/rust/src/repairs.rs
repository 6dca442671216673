//! Paths that are mended, asked of a view.

use crate::{done, no_way, sys, Error, Filter, Link, NoWay, Path, Place, Turn, View};

/// How a path is mended: at most so many of the first links are used, the way comes back to the last ones or leads straight to the goal, and the search
/// ends after so many polygons.
#[derive(Clone, Copy, Debug, PartialEq, Eq)]
pub struct Repair {
    pub keep: usize,
    pub join: bool,
    pub polygons: usize,
}

impl Default for Repair {
    /// All that leads on is used, the way comes back to what is left, and no limit ends the search.
    fn default() -> Self {
        Repair { keep: usize::MAX, join: true, polygons: usize::MAX }
    }
}

/// What mending a path came to.
#[derive(Clone, Debug, PartialEq, Eq)]
pub enum Repaired {
    /// A path to the goal: `kept` links of those that were, then `bridge` new ones, and the last ones that were.
    Whole { path: Path, kept: usize, bridge: usize },
    /// A limit ended the search: each walk that mends the path costs at least this.
    Limit(u64),
}

impl View {
    /// A path made whole in what the view shows: from `from`, where its walker is now, `path.first`, the polygon in which it was last, and the links from
    /// there on.
    pub fn repair(&mut self, path: &Path, from: Place, to: Place, filter: Filter, repair: Repair) -> Result<Result<Repaired, NoWay>, Error> {
        let way = sys::Way { from: from.at, from_y: from.y, to: to.at, to_y: to.y };
        let (mut links_room, mut turns_room) = (path.links.len().max(64), 64);
        loop {
            let (mut links, mut turns) = (path.links.clone(), vec![Turn::default(); turns_room]);
            links.resize(links_room, Link::default());
            let (join, count, keep, most_polygons) = (repair.join as u32, path.links.len(), repair.keep, repair.polygons);
            let mut told = sys::Repair { way, first: path.first, join, count, keep, most_polygons, areas: filter.areas, ..Default::default() };
            // SAFETY: the handle is this view's, and the arrays are those of slices and vectors.
            let status = unsafe {
                let costs = filter.costs;
                sys::navd_view_repair_path(
                    &mut self.handle, &mut told, costs.as_ptr(), costs.len(), links.as_mut_ptr(), links_room, turns.as_mut_ptr(), turns_room,
                )
            };
            if let Some(no_way) = no_way(status) {
                return Ok(Err(no_way));
            }
            if status == sys::LIMIT {
                return Ok(Ok(Repaired::Limit(told.seen)));
            }
            if status == sys::NO_ROOM {
                (links_room, turns_room) = (links_room.max(told.links), turns_room.max(told.turns));
                continue;
            }
            done((status, 0))?;
            links.truncate(told.links);
            turns.truncate(told.turns);
            let path = Path { cost: told.cost, first: told.first, links, turns };
            return Ok(Ok(Repaired::Whole { path, kept: told.kept, bridge: told.bridge }));
        }
    }
}
