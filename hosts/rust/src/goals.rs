//! The nearest of many goals, and where a walker on a kept path is, asked of a view.

use crate::{done, no_way, sys, Error, Filter, Link, MeshPlace, NoWay, Path, Place, Point, Polygon, View};

/// The nearest of many goals: its place among them, what the way there costs, and that way's first and last polygon and links.
#[derive(Clone, Debug, PartialEq, Eq)]
pub struct Nearest {
    pub which: usize,
    pub cost: u64,
    pub first: Polygon,
    pub last: Polygon,
    pub links: Vec<Link>,
}

/// What a search for the nearest of many goals found.
#[derive(Clone, Debug, PartialEq, Eq)]
pub enum Found {
    Goal(Nearest),
    /// Each way to a goal costs at least this, which is more than it may.
    Limit(u64),
}

/// Where a walker on a kept path is.
#[derive(Clone, Copy, Debug, PartialEq, Eq)]
pub enum Followed {
    /// There, on the polygon's least floor, with so many links behind it.
    At { place: MeshPlace, link: usize },
    /// The link at this place leads on no more; where it is the number of all, the goal has left the last polygon.
    Cut { link: usize },
    /// The mesh no longer holds it.
    Lost,
}

/// A walker on a path: where the path's line begins and ends, how far along that it has gone, in sixteenths of a cell along the longer axis of each
/// leg, how many links are behind it, and how many from there on are looked at beside those that it uses.
#[derive(Clone, Copy, Debug, PartialEq, Eq)]
pub struct Follower {
    pub from: Point,
    pub goal: Point,
    pub far: u32,
    pub link: usize,
    pub ahead: u32,
}

impl View {
    /// The nearest of many goals through a filter, by a way that costs at most `most_cost`, or why there is none.
    pub fn nearest_goal(&mut self, from: Place, goals: &[Place], most_cost: u64, filter: Filter) -> Result<Result<Found, NoWay>, Error> {
        let goals: Vec<sys::Goal> = goals.iter().map(|goal| sys::Goal { at: goal.at, y: goal.y }).collect();
        let mut links = vec![Link::default(); 64];
        loop {
            let mut told = sys::Nearest { at: from.at, y: from.y, areas: filter.areas, most_cost, ..Default::default() };
            // SAFETY: here and below, the handle is this view's, and the arrays are those of slices and vectors.
            let status = unsafe {
                let (costs, room) = (filter.costs, links.len());
                sys::navd_view_nearest_goal(
                    &mut self.handle, &mut told, costs.as_ptr(), costs.len(), goals.as_ptr(), goals.len(), links.as_mut_ptr(), room,
                )
            };
            if let Some(no_way) = no_way(status) {
                return Ok(Err(no_way));
            }
            if status == sys::LIMIT {
                return Ok(Ok(Found::Limit(told.seen)));
            }
            done((status, 0))?;
            let fits = told.links <= links.len();
            links.resize(told.links, Link::default());
            if fits {
                let sys::Nearest { which, cost, first, last, .. } = told;
                return Ok(Ok(Found::Goal(Nearest { which, cost, first, last, links })));
            }
        }
    }

    /// Where a walker on a path is in what the view shows.
    pub fn follow(&mut self, path: &Path, follower: Follower) -> Result<Followed, Error> {
        let Follower { from, goal, far, link, ahead } = follower;
        let mut told = sys::Follower { first: path.first, from, goal, far, ahead, link, ..Default::default() };
        let (links, turns) = (&path.links, &path.turns);
        let status = unsafe {
            sys::navd_view_follow_path(&mut self.handle, &mut told, links.as_ptr(), links.len(), turns.as_ptr(), turns.len())
        };
        match status {
            sys::CUT => return Ok(Followed::Cut { link: told.link }),
            sys::NO_START => return Ok(Followed::Lost),
            _ => done((status, 0))?,
        };
        let place = MeshPlace { polygon: told.polygon, at: Place { at: told.at, y: told.y } };
        Ok(Followed::At { place, link: told.link })
    }
}
