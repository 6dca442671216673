//! Walks over links and jumps, and walkers.

use crate::{done, no_way, sys, Error, Jump, Level, Link, NoWay, Place, Polygon, Turn, View};

/// A step: over a link, or by the jump with a number, from 0, into a polygon.
#[derive(Clone, Copy, Debug, PartialEq, Eq)]
pub enum Step {
    Link(Link),
    Jump { number: u32, to: Polygon },
}

/// A walk over links and jumps.
#[derive(Clone, Debug, PartialEq, Eq)]
pub struct Hop {
    pub cost: u64,
    pub first: Polygon,
    pub steps: Vec<Step>,
    pub turns: Vec<Turn>,
}

/// An agent on its way: where it stands, its goal, what the way that is left costs, and the links of that way.
#[derive(Clone, Debug, PartialEq, Eq)]
pub struct Walker {
    pub polygon: Polygon,
    pub at: Place,
    pub goal: Place,
    pub cost: u64,
    pub links: Vec<Link>,
}

type HopCall = unsafe extern "C" fn(*mut sys::Handle, *mut sys::Hop, *const Jump, usize, *mut sys::Step, usize, *mut Turn, usize) -> u32;
type SendCall = unsafe extern "C" fn(*mut sys::Handle, *const sys::Way, *mut Link, usize, *mut sys::Walker) -> u32;
type MarchCall = unsafe extern "C" fn(*mut sys::Handle, *mut sys::Walker, u32, *mut Link, usize) -> u32;

fn way_of(from: Place, to: Place) -> sys::Way {
    sys::Way { from: from.at, from_y: from.y, to: to.at, to_y: to.y }
}

fn hop_by(call: HopCall, handle: &mut sys::Handle, from: Place, to: Place, jumps: &[Jump]) -> Result<Result<Hop, NoWay>, Error> {
    let (mut steps, mut turns) = (vec![sys::Step::default(); 64], vec![Turn::default(); 64]);
    loop {
        let mut hop = sys::Hop { way: way_of(from, to), cost: 0, first: Polygon::default(), steps: 0, turns: 0 };
        // SAFETY: the handle is borrowed here alone, and the rooms are those of vectors.
        let status = unsafe {
            call(handle, &mut hop, jumps.as_ptr(), jumps.len(), steps.as_mut_ptr(), steps.len(), turns.as_mut_ptr(), turns.len())
        };
        if let Some(no_way) = no_way(status) {
            return Ok(Err(no_way));
        }
        done((status, 0))?;
        let fits = hop.steps <= steps.len() && hop.turns <= turns.len();
        steps.resize(hop.steps, sys::Step::default());
        turns.resize(hop.turns, Turn::default());
        if fits {
            let of = |it: &sys::Step| if it.kind == 0 { Step::Link(it.link) } else { Step::Jump { number: it.jump, to: it.link.to } };
            return Ok(Ok(Hop { cost: hop.cost, first: hop.first, steps: steps.iter().map(of).collect(), turns }));
        }
    }
}

/// Places or moves a walker, once more from where it was where its links had too little room.
fn walk_by(start: sys::Walker, mut call: impl FnMut(*mut sys::Walker, *mut Link, usize) -> u32) -> Result<Result<Walker, NoWay>, Error> {
    let mut links = vec![Link::default(); 64];
    loop {
        let mut now = start;
        let status = call(&mut now, links.as_mut_ptr(), links.len());
        if let Some(no_way) = no_way(status) {
            return Ok(Err(no_way));
        }
        done((status, 0))?;
        let fits = now.links <= links.len();
        links.resize(now.links, Link::default());
        if fits {
            let (at, goal) = (Place { at: now.at, y: now.y }, Place { at: now.goal, y: now.goal_y });
            return Ok(Ok(Walker { polygon: now.polygon, at, goal, cost: now.cost, links }));
        }
    }
}

fn send_by(call: SendCall, handle: &mut sys::Handle, from: Place, to: Place) -> Result<Result<Walker, NoWay>, Error> {
    let way = way_of(from, to);
    // SAFETY: the handle is borrowed here alone.
    walk_by(sys::Walker::default(), |walker, links, room| unsafe { call(handle, &way, links, room, walker) })
}

fn march_by(call: MarchCall, handle: &mut sys::Handle, walker: &Walker, length: u32) -> Result<Result<Walker, NoWay>, Error> {
    let start = sys::Walker { at: walker.at.at, y: walker.at.y, goal: walker.goal.at, goal_y: walker.goal.y, ..sys::Walker::default() };
    // SAFETY: the handle is borrowed here alone.
    walk_by(start, |walker, links, room| unsafe { call(handle, walker, length, links, room) })
}

impl Level {
    /// A cheapest walk over links and these jumps, or why there is none.
    pub fn find_hop(&mut self, from: Place, to: Place, jumps: &[Jump]) -> Result<Result<Hop, NoWay>, Error> {
        hop_by(sys::navd_find_hop, &mut self.handle, from, to, jumps)
    }

    /// A walker at a place, on its way to another, or why it has no way.
    pub fn send(&mut self, from: Place, to: Place) -> Result<Result<Walker, NoWay>, Error> {
        send_by(sys::navd_send, &mut self.handle, from, to)
    }

    /// The walker once it went on for a length, in sixteenths of a cell, or why it has no way.
    pub fn march(&mut self, walker: &Walker, length: u32) -> Result<Result<Walker, NoWay>, Error> {
        march_by(sys::navd_march, &mut self.handle, walker, length)
    }
}

impl View {
    /// A cheapest walk over links and these jumps, or why there is none.
    pub fn find_hop(&mut self, from: Place, to: Place, jumps: &[Jump]) -> Result<Result<Hop, NoWay>, Error> {
        hop_by(sys::navd_view_find_hop, &mut self.handle, from, to, jumps)
    }

    /// A walker at a place, on its way to another, or why it has no way.
    pub fn send(&mut self, from: Place, to: Place) -> Result<Result<Walker, NoWay>, Error> {
        send_by(sys::navd_view_send, &mut self.handle, from, to)
    }

    /// The walker once it went on for a length, in sixteenths of a cell, or why it has no way.
    pub fn march(&mut self, walker: &Walker, length: u32) -> Result<Result<Walker, NoWay>, Error> {
        march_by(sys::navd_view_march, &mut self.handle, walker, length)
    }
}
