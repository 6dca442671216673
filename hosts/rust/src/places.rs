//! Questions about places on the mesh, asked of a view.

use crate::{done, sys, Error, Place, Polygon, View};

/// A place on the mesh: a polygon, and a point that it holds, with the floor there.
#[derive(Clone, Copy, Debug, PartialEq, Eq)]
pub struct MeshPlace {
    pub polygon: Polygon,
    pub at: Place,
}

/// How near a place is looked for: how far in the plane, in sixteenths of a cell, and down and up, in height units; what a height unit beyond the
/// agent's climb counts, in sixteenths; and of which areas, bit a for area a.
#[derive(Clone, Copy, Debug, PartialEq, Eq)]
pub struct Near {
    pub reach: u32,
    pub down: u32,
    pub up: u32,
    pub weight: u32,
    pub areas: u64,
}

impl Default for Near {
    /// Four cells around, of all areas.
    fn default() -> Self {
        Near { reach: 64, down: 28, up: 28, weight: 4, areas: u64::MAX }
    }
}

/// What a number draws.
#[derive(Clone, Copy, Debug, PartialEq, Eq)]
pub enum Drawn {
    Place(MeshPlace),
    /// No polygon holds the middle of the cell that was drawn; another number is to be drawn.
    Cut,
    /// No cell has one of the areas.
    Nowhere,
}

pub(crate) fn told(place: sys::Place) -> MeshPlace {
    MeshPlace { polygon: place.polygon, at: Place { at: place.at, y: place.y } }
}

pub(crate) fn given(place: MeshPlace) -> sys::Place {
    sys::Place { polygon: place.polygon, at: place.at.at, y: place.at.y }
}

/// What is looked for near a place.
pub(crate) fn asked(to: Place, near: Near) -> sys::Near {
    let Near { reach, down, up, weight, areas } = near;
    sys::Near { areas, at: to.at, y: to.y, reach, down, up, weight }
}

/// Whether a call ended with a place.
fn is_there(status: u32) -> Result<bool, Error> {
    if status == sys::NO_PLACE {
        return Ok(false);
    }
    done((status, 0))?;
    Ok(true)
}

impl View {
    /// The nearest place, if one is in reach.
    pub fn nearest(&mut self, to: Place, near: Near) -> Result<Option<MeshPlace>, Error> {
        let mut place = sys::Place::default();
        // SAFETY: here and below, the handle is this view's, and the places are those of variables.
        let status = unsafe { sys::navd_view_nearest(&mut self.handle, &asked(to, near), &mut place) };
        Ok(is_there(status)?.then(|| told(place)))
    }

    /// The place at a point of a polygon, on its highest floor there, if the polygon holds the point.
    pub fn height(&mut self, place: MeshPlace) -> Result<Option<MeshPlace>, Error> {
        let mut place = given(place);
        let status = unsafe { sys::navd_view_height(&mut self.handle, &mut place) };
        Ok(is_there(status)?.then(|| told(place)))
    }

    /// Whether a place is one of the mesh that the view shows.
    pub fn is_place(&mut self, place: MeshPlace) -> Result<bool, Error> {
        is_there(unsafe { sys::navd_view_is_place(&mut self.handle, &given(place)) })
    }

    /// The place that a number draws of the cells of some areas, bit a for area a: uniform, where the numbers are.
    pub fn random_place(&mut self, areas: u64, draw: u64) -> Result<Drawn, Error> {
        let mut place = sys::Place::default();
        let status = unsafe { sys::navd_view_random_place(&mut self.handle, areas, draw, &mut place) };
        if status == sys::CUT {
            return Ok(Drawn::Cut);
        }
        Ok(if is_there(status)? { Drawn::Place(told(place)) } else { Drawn::Nowhere })
    }
}
