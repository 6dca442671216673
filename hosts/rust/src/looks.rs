//! What there is, to draw it: polygons, links and obstacles; and which tiles changed.

use crate::{done, sys, Block, Cylinder, Error, Face, Level, Link, Shown, View};

/// An obstacle with its number, and the area that it gives, or 0 where it stops agents.
#[derive(Clone, Copy)]
pub struct Obstacle {
    pub number: u32,
    pub area: u32,
    pub shape: Shape,
}

/// What an obstacle is. Of prisms and discs no numbers are told.
#[derive(Clone, Copy)]
pub enum Shape {
    Block(Block),
    Cylinder(Cylinder),
    Prism,
    Disc,
}

impl Shape {
    fn of(it: &sys::Obstacle) -> Shape {
        match it.kind {
            0 => Shape::Block(it.block),
            1 => Shape::Cylinder(it.cylinder),
            2 => Shape::Prism,
            _ => Shape::Disc,
        }
    }
}

/// All that a call lays into a room, and tells the count of.
fn all<T: Clone>(empty: T, mut call: impl FnMut(*mut T, usize, *mut usize) -> u32) -> Result<Vec<T>, Error> {
    let mut room = vec![empty.clone(); 64];
    loop {
        let mut count = 0;
        done((call(room.as_mut_ptr(), room.len(), &mut count), 0))?;
        let fits = count <= room.len();
        room.resize(count, empty.clone());
        if fits {
            return Ok(room);
        }
    }
}

impl Level {
    /// The polygons of a tile.
    pub fn polygons(&mut self, tile: u32) -> Result<Vec<Face>, Error> {
        // SAFETY: here and below, the handle is this one's, and the room is a vector's.
        all(Face::default(), |faces, room, count| unsafe { sys::navd_polygons(&mut self.handle, tile, faces, room, count) })
    }

    /// The links between polygons of a tile.
    pub fn inner_links(&mut self, tile: u32) -> Result<Vec<Link>, Error> {
        all(Link::default(), |links, room, count| unsafe { sys::navd_inner_links(&mut self.handle, tile, links, room, count) })
    }

    /// The links that lead from a tile to others.
    pub fn border_links(&mut self, tile: u32) -> Result<Vec<Link>, Error> {
        all(Link::default(), |links, room, count| unsafe { sys::navd_border_links(&mut self.handle, tile, links, room, count) })
    }

    /// The tiles that may differ between a length of the history, of those published, and what is published now.
    pub fn changed_tiles(&mut self, since: u32) -> Result<Vec<u32>, Error> {
        all(0, |tiles, room, count| unsafe { sys::navd_changed_tiles(&mut self.handle, since, tiles, room, count) })
    }

    /// The obstacles that are alive after the whole history.
    pub fn obstacles(&mut self) -> Result<Vec<Obstacle>, Error> {
        let block = Block { x0: 0, x1: 0, y0: 0, y1: 0, z0: 0, z1: 0 };
        let cylinder = Cylinder { cx: 0, cz: 0, r: 0, y0: 0, y1: 0 };
        let empty = sys::Obstacle { number: 0, area: 0, kind: 0, block, cylinder };
        let told = all(empty, |obstacles, room, count| unsafe { sys::navd_obstacles(&mut self.handle, obstacles, room, count) })?;
        let of = |it: sys::Obstacle| Obstacle { number: it.number, area: it.area, shape: Shape::of(&it) };
        Ok(told.into_iter().map(of).collect())
    }
}

impl View {
    /// The polygons of a tile.
    pub fn polygons(&mut self, tile: u32) -> Result<Vec<Face>, Error> {
        all(Face::default(), |faces, room, count| unsafe { sys::navd_view_polygons(&mut self.handle, tile, faces, room, count) })
    }

    /// The links between polygons of a tile.
    pub fn inner_links(&mut self, tile: u32) -> Result<Vec<Link>, Error> {
        all(Link::default(), |links, room, count| unsafe { sys::navd_view_inner_links(&mut self.handle, tile, links, room, count) })
    }

    /// The links that lead from a tile to others.
    pub fn border_links(&mut self, tile: u32) -> Result<Vec<Link>, Error> {
        all(Link::default(), |links, room, count| unsafe { sys::navd_view_border_links(&mut self.handle, tile, links, room, count) })
    }

    /// What it shows.
    pub fn shown(&mut self) -> Result<Shown, Error> {
        let mut shown = Shown::default();
        done((unsafe { sys::navd_view_count(&mut self.handle, &mut shown) }, 0)).map(|_| shown)
    }

    /// Has it answer with costs of its own, by area, from now on.
    pub fn set_costs(&mut self, costs: &[u32; 64]) -> Result<(), Error> {
        done((unsafe { sys::navd_view_set_costs(&mut self.handle, costs.as_ptr(), costs.len()) }, 0)).map(|_| ())
    }
}
