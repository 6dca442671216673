//! Further questions about ways, asked of a view through a filter.

use crate::{done, no_way, sys, Error, Link, MeshPlace, NoWay, Path, Place, Reached, Turn, View};

/// The areas that may be entered, bit a for area a, and costs by area for one question, or none for those of the view.
#[derive(Clone, Copy, Debug, PartialEq, Eq)]
pub struct Filter<'a> {
    pub areas: u64,
    pub costs: &'a [u32],
}

impl Default for Filter<'_> {
    /// All areas, at the costs of the view.
    fn default() -> Self {
        Filter { areas: u64::MAX, costs: &[] }
    }
}

/// What ends a search.
#[derive(Clone, Copy, Debug, PartialEq, Eq)]
pub struct Limits {
    pub cost: u64,
    pub polygons: usize,
}

impl Default for Limits {
    /// Nothing does.
    fn default() -> Self {
        Limits { cost: u64::MAX, polygons: usize::MAX }
    }
}

/// What a search for a way found.
#[derive(Clone, Debug, PartialEq, Eq)]
pub enum Planned {
    Whole(Path),
    /// A way to the nearest place, `end`, on its polygon's least floor: no place is nearer to which a way leads that costs, with the straight rest, less
    /// than `seen`, and a way to the goal, if there is one, costs at least that.
    Nearest { path: Path, end: MeshPlace, seen: u64 },
    /// A limit ended the search: a way there, if there is one, costs at least this.
    Limit(u64),
}

/// How far a kept path leads on.
#[derive(Clone, Debug, PartialEq, Eq)]
pub enum Checked {
    /// To the goal.
    Whole(Path),
    /// As many links as this path has, which has no turns; where those are all, the goal has left the last polygon.
    Cut(Path),
}

impl View {
    /// A cheapest way through a filter with a taut line, or why there is none.
    pub fn plan(&mut self, from: Place, to: Place, filter: Filter, limits: Limits) -> Result<Result<Planned, NoWay>, Error> {
        self.asked(from, to, filter, limits, None)
    }

    /// The same, and where none is found, the way to the nearest place by the distance in the plane and `rise` sixteenths of a cell, 0 to 1024, for each
    /// unit of height.
    pub fn plan_partial(&mut self, from: Place, to: Place, filter: Filter, limits: Limits, rise: u32) -> Result<Result<Planned, NoWay>, Error> {
        self.asked(from, to, filter, limits, Some(rise))
    }

    fn asked(&mut self, from: Place, to: Place, filter: Filter, limits: Limits, rise: Option<u32>) -> Result<Result<Planned, NoWay>, Error> {
        let way = sys::Way { from: from.at, from_y: from.y, to: to.at, to_y: to.y };
        let (partial, rise) = (rise.is_some() as u32, rise.unwrap_or(0));
        let (mut links, mut turns) = (vec![Link::default(); 64], vec![Turn::default(); 64]);
        loop {
            let (areas, most_cost, most_polygons) = (filter.areas, limits.cost, limits.polygons);
            let mut plan = sys::Plan { way, areas, most_cost, most_polygons, partial, rise, ..Default::default() };
            // SAFETY: here and below, the handle is this view's, and the arrays are those of slices and vectors.
            let status = unsafe {
                let (costs, links_room, turns_room) = (filter.costs, links.len(), turns.len());
                sys::navd_view_plan(
                    &mut self.handle, &mut plan, costs.as_ptr(), costs.len(), links.as_mut_ptr(), links_room, turns.as_mut_ptr(), turns_room,
                )
            };
            if let Some(no_way) = no_way(status) {
                return Ok(Err(no_way));
            }
            if status == sys::LIMIT {
                return Ok(Ok(Planned::Limit(plan.seen)));
            }
            if status != sys::PARTIAL {
                done((status, 0))?;
            }
            let fits = plan.links <= links.len() && plan.turns <= turns.len();
            links.resize(plan.links, Link::default());
            turns.resize(plan.turns, Turn::default());
            if fits {
                let path = Path { cost: plan.cost, first: plan.first, links, turns };
                let end = MeshPlace { polygon: plan.last, at: Place { at: plan.end, y: plan.end_y } };
                return Ok(Ok(if status == sys::PARTIAL { Planned::Nearest { path, end, seen: plan.seen } } else { Planned::Whole(path) }));
            }
        }
    }

    /// How far a path leads on in what the view shows: from `from`, where its walker is now, `path.first`, the polygon in which it was last, and the
    /// links from there on.
    pub fn check(&mut self, path: &Path, from: Place, to: Place, filter: Filter) -> Result<Result<Checked, NoWay>, Error> {
        let way = sys::Way { from: from.at, from_y: from.y, to: to.at, to_y: to.y };
        let mut turns = vec![Turn::default(); 64];
        loop {
            let mut links = path.links.clone();
            let mut kept = sys::Kept { way, first: path.first, areas: filter.areas, cost: 0, links: 0, turns: 0 };
            // SAFETY: here and below, the handle is this view's, and the arrays are those of slices and vectors.
            let status = unsafe {
                let (costs, room) = (filter.costs, turns.len());
                sys::navd_view_check_path(
                    &mut self.handle, &mut kept, costs.as_ptr(), costs.len(), links.as_mut_ptr(), links.len(), turns.as_mut_ptr(), room,
                )
            };
            if let Some(no_way) = no_way(status) {
                return Ok(Err(no_way));
            }
            if status != sys::CUT {
                done((status, 0))?;
            }
            let fits = kept.turns <= turns.len();
            turns.resize(kept.turns, Turn::default());
            if fits {
                links.resize(kept.links, Link::default());
                let path = Path { cost: kept.cost, first: kept.first, links, turns };
                return Ok(Ok(if status == sys::CUT { Checked::Cut(path) } else { Checked::Whole(path) }));
            }
        }
    }

    /// The polygons within a cost of a place, by rising costs, or that no polygon holds the place.
    pub fn flood(&mut self, from: Place, most_cost: u64, filter: Filter) -> Result<Result<Vec<Reached>, NoWay>, Error> {
        self.flooded(from, 0, most_cost, filter)
    }

    /// The same with the polygons from which a way leads to the place.
    pub fn flood_back(&mut self, to: Place, most_cost: u64, filter: Filter) -> Result<Result<Vec<Reached>, NoWay>, Error> {
        self.flooded(to, 1, most_cost, filter)
    }

    fn flooded(&mut self, place: Place, back: u32, most_cost: u64, filter: Filter) -> Result<Result<Vec<Reached>, NoWay>, Error> {
        let mut reached = vec![Reached::default(); 64];
        loop {
            let mut flood = sys::Flood { at: place.at, y: place.y, back, areas: filter.areas, most_cost, polygons: 0 };
            let status = unsafe {
                let (costs, room) = (filter.costs, reached.len());
                sys::navd_view_flood(&mut self.handle, &mut flood, costs.as_ptr(), costs.len(), reached.as_mut_ptr(), room)
            };
            if let Some(no_way) = no_way(status) {
                return Ok(Err(no_way));
            }
            done((status, 0))?;
            let fits = flood.polygons <= reached.len();
            reached.resize(flood.polygons, Reached::default());
            if fits {
                return Ok(Ok(reached));
            }
        }
    }
}
