//! Questions about ways, straight walks, slides and walls from places on the mesh, asked of a view.

use crate::places::{asked, given, told};
use crate::{done, no_way, ray_told, sys, Error, Filter, Limits, Link, MeshPlace, Near, NoWay, Place, Point, Ray, View, Wall};

/// A way between two places, which are the first of its corners and the last.
#[derive(Clone, Debug, PartialEq, Eq)]
pub struct PlaceWay {
    pub cost: u64,
    pub links: Vec<Link>,
    pub corners: Vec<MeshPlace>,
}

/// What a search for a way between places found.
#[derive(Clone, Debug, PartialEq, Eq)]
pub enum FoundWay {
    Whole(PlaceWay),
    /// A limit ended the search: a way there, if there is one, costs at least this.
    Limit(u64),
}

/// Asks for a way between places until there is room for all of it.
fn way_by(mut call: impl FnMut(&mut [Link], &mut [sys::Place]) -> (u32, sys::FoundWay)) -> Result<Result<FoundWay, NoWay>, Error> {
    let (mut links, mut corners) = (vec![Link::default(); 64], vec![sys::Place::default(); 64]);
    loop {
        let (status, found) = call(&mut links, &mut corners);
        if let Some(no_way) = no_way(status) {
            return Ok(Err(no_way));
        }
        if status == sys::LIMIT {
            return Ok(Ok(FoundWay::Limit(found.seen)));
        }
        done((status, 0))?;
        let fits = found.links <= links.len() && found.corners <= corners.len();
        links.resize(found.links, Link::default());
        corners.resize(found.corners, sys::Place::default());
        if fits {
            let corners = corners.into_iter().map(told).collect();
            return Ok(Ok(FoundWay::Whole(PlaceWay { cost: found.cost, links, corners })));
        }
    }
}

impl View {
    /// A cheapest way between two places through a filter, or why there is none: where a place is none of the mesh, there is no start or no goal.
    pub fn find_way(&mut self, from: MeshPlace, to: MeshPlace, filter: Filter, limits: Limits) -> Result<Result<FoundWay, NoWay>, Error> {
        let (areas, most_cost, most_polygons, costs) = (filter.areas, limits.cost, limits.polygons, filter.costs);
        let (from, to, found) = (given(from), given(to), sys::FoundWay::default());
        way_by(|links, corners| {
            let mut way = sys::PlaceWay { from, to, areas, most_cost, most_polygons, found };
            let (links_room, corners_room) = (links.len(), corners.len());
            // SAFETY: here and below, the handle is this view's, and the arrays are those of slices and vectors.
            let status = unsafe {
                sys::navd_view_find_way(
                    &mut self.handle, &mut way, costs.as_ptr(), costs.len(), links.as_mut_ptr(), links_room, corners.as_mut_ptr(), corners_room,
                )
            };
            (status, way.found)
        })
    }

    /// The same between the places nearest to two others; there is no start or no goal also where none is in reach.
    pub fn find_way_near(&mut self, from: Place, to: Place, near: Near, filter: Filter, limits: Limits) -> Result<Result<FoundWay, NoWay>, Error> {
        let (areas, most_cost, most_polygons, costs) = (filter.areas, limits.cost, limits.polygons, filter.costs);
        let (from, to, found) = (asked(from, near), asked(to, near), sys::FoundWay::default());
        way_by(|links, corners| {
            let mut way = sys::NearWay { from, to, areas, most_cost, most_polygons, found };
            let (links_room, corners_room) = (links.len(), corners.len());
            let status = unsafe {
                sys::navd_view_find_way_near(
                    &mut self.handle, &mut way, costs.as_ptr(), costs.len(), links.as_mut_ptr(), links_room, corners.as_mut_ptr(), corners_room,
                )
            };
            (status, way.found)
        })
    }

    /// The straight walk from a place toward a point, or that it is none of the mesh.
    pub fn cast_ray_from(&mut self, from: MeshPlace, to: Point) -> Result<Result<Ray, NoWay>, Error> {
        let mut ray = sys::Ray::default();
        let status = unsafe { sys::navd_view_cast_ray_from(&mut self.handle, &given(from), &to, &mut ray) };
        ray_told(status, ray)
    }

    /// Where a slide from a place toward a point ends, along walls, which enters polygons of some areas, bit a for area a; or that it is none of the mesh.
    /// It is for steps of a cell or so, in whole sixteenths: who moves less than one a step keeps the rest.
    pub fn slide(&mut self, from: MeshPlace, to: Point, areas: u64) -> Result<Result<MeshPlace, NoWay>, Error> {
        let mut end = sys::Place::default();
        let status = unsafe { sys::navd_view_slide(&mut self.handle, &given(from), &to, areas, &mut end) };
        match no_way(status) {
            Some(no_way) => Ok(Err(no_way)),
            None => done((status, 0)).map(|_| Ok(told(end))),
        }
    }

    /// The wall nearest to a place, within a reach in sixteenths and over polygons of some areas, if there is one; or that the place is none of the mesh.
    pub fn nearest_wall(&mut self, from: MeshPlace, reach: u32, areas: u64) -> Result<Result<Option<Wall>, NoWay>, Error> {
        let (around, mut wall) = (sys::Around { from: given(from), reach, areas }, Wall::default());
        let status = unsafe { sys::navd_view_nearest_wall(&mut self.handle, &around, &mut wall) };
        match no_way(status) {
            Some(no_way) => Ok(Err(no_way)),
            None if status == sys::NO_PLACE => Ok(Ok(None)),
            None => done((status, 0)).map(|_| Ok(Some(wall))),
        }
    }

    /// All walls within a reach of a place, by tile, polygon, edge and along the edge; or that the place is none of the mesh.
    pub fn walls(&mut self, from: MeshPlace, reach: u32, areas: u64) -> Result<Result<Vec<Wall>, NoWay>, Error> {
        let around = sys::Around { from: given(from), reach, areas };
        let mut walls = vec![Wall::default(); 64];
        loop {
            let (room, mut count) = (walls.len(), 0);
            let status = unsafe { sys::navd_view_walls(&mut self.handle, &around, walls.as_mut_ptr(), room, &mut count) };
            if let Some(no_way) = no_way(status) {
                return Ok(Err(no_way));
            }
            done((status, 0))?;
            walls.resize(count, Wall::default());
            if count <= room {
                return Ok(Ok(walls));
            }
        }
    }
}
