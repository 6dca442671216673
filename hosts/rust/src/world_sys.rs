//! The declarations of include/navd_world.h, name for name.
#![allow(dead_code)]

use crate::sys::{Handle, Mesh, Row};
use std::os::raw::c_char;

pub const BAD_STRUCT: u32 = 23;
pub const BOTH_SIDES: u32 = 1;
pub const STRIPS: u32 = 2;
pub const NO_CLEARANCE: u32 = 4;
pub const BOX: u32 = 0;
pub const CYLINDER: u32 = 1;
pub const PRISM: u32 = 2;

/// A world, a snapshot and a route behind their addresses.
#[repr(C)]
pub struct World {
    _private: [u8; 0],
}

#[repr(C)]
pub struct Snapshot {
    _private: [u8; 0],
}

#[repr(C)]
pub struct Route {
    _private: [u8; 0],
}

/// A point of a game; y points up.
#[repr(C)]
#[derive(Clone, Copy, Default, Debug, PartialEq)]
pub struct Vec3 {
    pub x: f32,
    pub y: f32,
    pub z: f32,
}

#[repr(C)]
pub struct WorldDef {
    pub size: u32,
    pub cell_size: f32,
    pub cell_height: f32,
    pub agent_radius: f32,
    pub agent_height: f32,
    pub agent_climb: f32,
    pub max_slope: u32,
    pub max_error: f32,
    pub tile_cells: u32,
    pub max_obstacles: u32,
    pub flags: u32,
    pub min: Vec3,
    pub max: Vec3,
    pub area_costs: *const f32,
}

#[repr(C)]
pub struct TriangleMesh {
    pub size: u32,
    pub vertices: *const f32,
    pub vertex_count: usize,
    pub indices: *const u32,
    pub triangle_count: usize,
    pub areas: *const u8,
}

#[repr(C)]
pub struct Problem {
    pub size: u32,
    pub triangle: usize,
    pub text: [u8; 160],
}

#[repr(C)]
pub struct Shape {
    pub size: u32,
    pub kind: u32,
    pub area: u32,
    pub center: Vec3,
    pub half: Vec3,
    pub yaw: f32,
    pub corners: *const f32,
    pub corner_count: u32,
    pub min_y: f32,
    pub max_y: f32,
}

#[repr(C)]
#[derive(Default)]
pub struct Progress {
    pub size: u32,
    pub tiles_built: u32,
    pub published: u32,
    pub pending: u32,
    pub version: u64,
}

#[repr(C)]
pub struct Filter {
    pub size: u32,
    pub partial: u32,
    pub areas: u64,
    pub area_costs: *const f32,
    pub max_cost: f64,
    pub max_polygons: usize,
}

#[repr(C)]
#[derive(Default)]
pub struct Hit {
    pub size: u32,
    pub hit: u32,
    pub fraction: f32,
    pub at: Vec3,
    pub wall_from: Vec3,
    pub wall_to: Vec3,
}

/// A corner of a route: where it is, and 1 for the first one, 2 for the last one, or 0.
#[repr(C)]
#[derive(Clone, Copy, Default, Debug, PartialEq)]
pub struct RouteCorner {
    pub at: Vec3,
    pub flags: u32,
}

extern "C" {
    pub fn navd_status_text(status: u32) -> *const c_char;
    pub fn navd_status_name(status: u32) -> *const c_char;
    pub fn navd_world_create(def: *const WorldDef, mesh: *const TriangleMesh, world: *mut *mut World, problem: *mut Problem) -> u32;
    pub fn navd_world_destroy(world: *mut World);
    pub fn navd_world_mesh(world: *const World) -> *const Mesh;
    pub fn navd_world_registry(world: *mut World) -> *mut Handle;
    pub fn navd_world_add(world: *mut World, shape: *const Shape, user: u64, id: *mut u64) -> u32;
    pub fn navd_world_move(world: *mut World, id: u64, shape: *const Shape) -> u32;
    pub fn navd_world_set_enabled(world: *mut World, id: u64, enabled: i32) -> u32;
    pub fn navd_world_set_user(world: *mut World, id: u64, user: u64) -> u32;
    pub fn navd_world_remove(world: *mut World, id: u64) -> u32;
    pub fn navd_world_obstacles(world: *mut World, rows: *mut Row, room: usize, count: *mut usize) -> u32;
    pub fn navd_world_save(world: *mut World, bytes: *mut u8, room: usize, length: *mut usize) -> u32;
    pub fn navd_world_restore(world: *mut World, bytes: *const u8, length: usize) -> u32;
    pub fn navd_world_update(world: *mut World, max_tiles: u32, progress: *mut Progress) -> u32;
    pub fn navd_snapshot_create(world: *mut World, agent: u32, snapshot: *mut *mut Snapshot) -> u32;
    pub fn navd_snapshot_refresh(snapshot: *mut Snapshot, world: *mut World) -> u32;
    pub fn navd_snapshot_version(snapshot: *const Snapshot) -> u64;
    pub fn navd_snapshot_view(snapshot: *mut Snapshot) -> *mut Handle;
    pub fn navd_snapshot_destroy(snapshot: *mut Snapshot);
    pub fn navd_snapshot_nearest(
        snapshot: *mut Snapshot,
        filter: *const Filter,
        at: *const Vec3,
        reach: f32,
        height: f32,
        place: *mut Vec3,
    ) -> u32;
    pub fn navd_snapshot_height(snapshot: *mut Snapshot, at: *const Vec3, y: *mut f32) -> u32;
    pub fn navd_snapshot_raycast(snapshot: *mut Snapshot, from: *const Vec3, to: *const Vec3, hit: *mut Hit) -> u32;
    pub fn navd_route_create(route: *mut *mut Route) -> u32;
    pub fn navd_route_destroy(route: *mut Route);
    pub fn navd_snapshot_find_path(
        snapshot: *mut Snapshot,
        filter: *const Filter,
        from: *const Vec3,
        to: *const Vec3,
        route: *mut Route,
    ) -> u32;
    pub fn navd_route_corners(route: *const Route, corners: *mut *const RouteCorner) -> usize;
    pub fn navd_route_cost(route: *const Route) -> f64;
    pub fn navd_route_version(route: *const Route) -> u64;
}

#[cfg(test)]
mod tests {
    use super::*;
    use std::fmt::Write;
    use std::mem::{size_of, MaybeUninit};
    use std::ptr::addr_of;

    fn size_at<T>(_: *const T) -> usize {
        size_of::<T>()
    }

    macro_rules! tell {
        ($told:ident, $name:literal, $kind:ty, $($field:ident)*) => {{
            let place = MaybeUninit::<$kind>::uninit();
            let at = place.as_ptr();
            write!($told, "{} {}:", $name, size_of::<$kind>()).unwrap();
            $({
                // SAFETY: the address of a field is taken, and nothing is read.
                let field = unsafe { addr_of!((*at).$field) };
                write!($told, " {} {} {}", stringify!($field), field as usize - at as usize, size_at(field)).unwrap();
            })*
            $told.push('\n');
        }};
    }

    /// Compares them with what hosts/world/layouts.c wrote into the file that NAVD_LAYOUTS names, where it names one.
    #[test]
    fn structs_lie_as_in_the_header() {
        let mut told = String::new();
        tell!(told, "navd_filter", Filter, size partial areas area_costs max_cost max_polygons);
        tell!(told, "navd_hit", Hit, size hit fraction at wall_from wall_to);
        tell!(told, "navd_problem", Problem, size triangle text);
        tell!(told, "navd_progress", Progress, size tiles_built published pending version);
        tell!(told, "navd_route_corner", RouteCorner, at flags);
        tell!(told, "navd_shape", Shape, size kind area center half yaw corners corner_count min_y max_y);
        tell!(told, "navd_triangle_mesh", TriangleMesh, size vertices vertex_count indices triangle_count areas);
        tell!(told, "navd_vec3", Vec3, x y z);
        tell!(
            told,
            "navd_world_def",
            WorldDef,
            size cell_size cell_height agent_radius agent_height agent_climb max_slope max_error tile_cells max_obstacles flags min max area_costs
        );
        if let Ok(name) = std::env::var("NAVD_LAYOUTS") {
            assert_eq!(told, std::fs::read_to_string(name).unwrap());
        }
    }
}
