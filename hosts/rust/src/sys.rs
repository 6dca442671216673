//! The declarations of include/navd.h, name for name.
#![allow(dead_code, missing_docs)]

use std::ffi::c_void;

pub const VERSION: u32 = 100;

pub const OK: u32 = 0;
pub const NO_MEMORY: u32 = 1;
pub const EMPTY: u32 = 2;
pub const FAULTY: u32 = 3;
pub const OUT_OF_RANGE: u32 = 4;
pub const TOO_MANY: u32 = 5;
pub const DEAD: u32 = 6;
pub const HISTORY_FULL: u32 = 7;
pub const NOT_YET: u32 = 8;
pub const SAME: u32 = 9;
pub const NO_START: u32 = 10;
pub const NO_GOAL: u32 = 11;
pub const NO_PATH: u32 = 12;
pub const WALL: u32 = 13;
pub const NO_ROOM: u32 = 14;
pub const STALE: u32 = 15;
pub const FOREIGN: u32 = 16;
pub const BUSY: u32 = 17;
pub const TOO_MANY_SPANS: u32 = 18;
pub const PARTIAL: u32 = 19;
pub const LIMIT: u32 = 20;
pub const CUT: u32 = 21;
pub const NO_PLACE: u32 = 22;
pub const ABOUT: u32 = 26;
pub const OVERLAPS: u32 = 27;
pub const NO_OBSTACLE: u32 = 24;
pub const NOT_SAVED: u32 = 25;

#[repr(C)]
pub struct Handle {
    pub at: *mut c_void,
    pub full: u32,
}

#[repr(C)]
#[derive(Clone, Copy, Default, Debug, PartialEq, Eq)]
pub struct Point {
    pub x: i32,
    pub z: i32,
}

#[repr(C)]
#[derive(Clone, Copy, Default, Debug, PartialEq, Eq)]
pub struct Block {
    pub x0: u32,
    pub x1: u32,
    pub y0: u32,
    pub y1: u32,
    pub z0: u32,
    pub z1: u32,
}

#[repr(C)]
#[derive(Clone, Copy, Default, Debug, PartialEq, Eq)]
pub struct Cylinder {
    pub cx: u32,
    pub cz: u32,
    pub r: u32,
    pub y0: u32,
    pub y1: u32,
}

/// How many corners a base has, these counterclockwise, in sixteenths of a cell, and heights.
#[repr(C)]
#[derive(Clone, Copy, Default, Debug, PartialEq, Eq)]
pub struct Prism {
    pub corners: u32,
    pub point: [Point; 6],
    pub y0: u32,
    pub y1: u32,
}

/// A centre and a radius in sixteenths of a cell, and heights.
#[repr(C)]
#[derive(Clone, Copy, Default, Debug, PartialEq, Eq)]
pub struct Disc {
    pub x: i32,
    pub z: i32,
    pub r: u32,
    pub y0: u32,
    pub y1: u32,
}

/// A kind of agent, in height units and cells, and the side of its tiles; with `clear` not 0 it keeps its radius from obstacles too.
#[repr(C)]
#[derive(Clone, Copy, Default, Debug, PartialEq, Eq)]
pub struct Kind {
    pub height: u32,
    pub climb: u32,
    pub radius: u32,
    pub clear: u32,
    pub tile: u32,
}

/// What kinds share: columns, the error of outlines, strips (0) or contours, and how many obstacles may be alive.
#[repr(C)]
#[derive(Clone, Copy, Default, Debug, PartialEq, Eq)]
pub struct Ground {
    pub width: u32,
    pub depth: u32,
    pub error: u32,
    pub contours: u32,
    pub limit: u32,
}

/// A solid piece of a column, with the area of its top.
#[repr(C)]
#[derive(Clone, Copy, Default, Debug, PartialEq, Eq)]
pub struct Span {
    pub x: u32,
    pub z: u32,
    pub bottom: u32,
    pub top: u32,
    pub area: u32,
}

/// A rectangle of columns: x0 to x1 and z0 to z1.
#[repr(C)]
#[derive(Clone, Copy, Default, Debug, PartialEq, Eq)]
pub struct Columns {
    pub x0: u32,
    pub x1: u32,
    pub z0: u32,
    pub z1: u32,
}

/// An obstacle of a registry: its kind, the area that it gives or 0, and its numbers; those of what it is not are not read.
#[repr(C)]
#[derive(Clone, Copy, Default)]
pub struct Solid {
    pub kind: u32,
    pub area: u32,
    pub block: Block,
    pub cylinder: Cylinder,
    pub prism: Prism,
    pub disc: Disc,
}

#[repr(C)]
#[derive(Clone, Copy, Default)]
pub struct Row {
    pub id: u64,
    pub user: u64,
    pub enabled: u32,
    pub solid: Solid,
}

#[repr(C)]
#[derive(Clone, Copy, Default)]
pub struct Updated {
    pub built: u32,
    pub published: u32,
    pub pending: u32,
    pub version: u64,
}

#[repr(C)]
#[derive(Clone, Copy, Default)]
pub struct Way {
    pub from: Point,
    pub from_y: u32,
    pub to: Point,
    pub to_y: u32,
}

#[repr(C)]
#[derive(Clone, Copy, Default, Debug, PartialEq, Eq)]
pub struct Polygon {
    pub tile: u32,
    pub index: u32,
}

/// A point of a game; y points up.
#[repr(C)]
#[derive(Clone, Copy, Default, Debug, PartialEq)]
pub struct WorldPoint {
    pub x: f32,
    pub y: f32,
    pub z: f32,
}

/// A place in a frame: x and z in sixteenths of a cell from its corner, y in height units.
#[repr(C)]
#[derive(Clone, Copy, Default, Debug, PartialEq, Eq)]
pub struct FramePlace {
    pub x: i32,
    pub y: i32,
    pub z: i32,
}

/// The sizes of a cell and a height unit, and the corner of a field, in cells and height units from 0 of the game's numbers.
#[repr(C)]
#[derive(Clone, Copy, Default, Debug, PartialEq)]
pub struct Frame {
    pub cell_size: f32,
    pub cell_height: f32,
    pub x: i32,
    pub y: i32,
    pub z: i32,
}

#[repr(C)]
#[derive(Clone, Copy, Default, Debug, PartialEq)]
pub struct FramedField {
    pub frame: Frame,
    pub width: u32,
    pub depth: u32,
}

/// Height units over sixteenths of a cell; with a run of 0 nothing is too steep.
#[repr(C)]
#[derive(Clone, Copy, Default, Debug, PartialEq, Eq)]
pub struct Slope {
    pub rise: u32,
    pub run: u32,
    pub both_sides: u32,
}

#[repr(C)]
#[derive(Clone, Copy, Default, Debug, PartialEq, Eq)]
pub struct Setting {
    pub width: u32,
    pub depth: u32,
    pub tile: u32,
    pub height: u32,
    pub climb: u32,
    pub radius: u32,
    pub error: u32,
    pub contours: u32,
    pub limit: u32,
    pub clear: u32,
}

#[repr(C)]
#[derive(Clone, Copy, Default, Debug, PartialEq)]
pub struct Mesh {
    pub frame: Frame,
    pub slope: Slope,
    pub setting: Setting,
}

/// A triangle that fails. 1: no such vertex; 2: a number is none; 3: outside; 4: an area above 63.
#[repr(C)]
#[derive(Clone, Copy, Default, Debug, PartialEq, Eq)]
pub struct MeshFault {
    pub place: usize,
    pub kind: u32,
}

#[repr(C)]
#[derive(Clone, Copy, Default, Debug, PartialEq, Eq)]
pub struct Link {
    pub from: Polygon,
    pub edge: u32,
    pub to: Polygon,
    pub left: Point,
    pub right: Point,
}

#[repr(C)]
#[derive(Clone, Copy, Default, Debug, PartialEq, Eq)]
pub struct Turn {
    pub at: Point,
    pub side: u32,
    pub link: u32,
}

#[repr(C)]
#[derive(Clone, Copy, Default, Debug, PartialEq, Eq)]
pub struct Floor {
    pub y: u32,
    pub area: u32,
}

#[repr(C)]
#[derive(Clone, Copy, Default)]
pub struct Path {
    pub cost: u64,
    pub first: Polygon,
    pub links: usize,
    pub turns: usize,
}

#[repr(C)]
#[derive(Clone, Copy, Default)]
pub struct Ray {
    pub last: Polygon,
    pub a: Point,
    pub b: Point,
    pub num: i64,
    pub den: i64,
}

/// A corner of a polygon, in whole cells.
#[repr(C)]
#[derive(Clone, Copy, Default, Debug, PartialEq, Eq)]
pub struct Corner {
    pub x: i32,
    pub z: i32,
}

/// A polygon as it is drawn: of its corners the first `corners` count.
#[repr(C)]
#[derive(Clone, Copy, Default, Debug, PartialEq, Eq)]
pub struct Face {
    pub corners: u32,
    pub corner: [Corner; 6],
    pub area: u32,
    pub low: u32,
    pub high: u32,
}

#[repr(C)]
#[derive(Clone, Copy)]
pub struct Obstacle {
    pub number: u32,
    pub area: u32,
    pub kind: u32,
    pub block: Block,
    pub cylinder: Cylinder,
}

/// A one-way jump and what it costs.
#[repr(C)]
#[derive(Clone, Copy, Debug, PartialEq, Eq)]
pub struct Jump {
    pub from: Point,
    pub from_y: u32,
    pub to: Point,
    pub to_y: u32,
    pub cost: u32,
}

#[repr(C)]
#[derive(Clone, Copy, Default)]
pub struct Step {
    pub kind: u32,
    pub jump: u32,
    pub link: Link,
}

#[repr(C)]
#[derive(Clone, Copy)]
pub struct Hop {
    pub way: Way,
    pub cost: u64,
    pub first: Polygon,
    pub steps: usize,
    pub turns: usize,
}

#[repr(C)]
#[derive(Clone, Copy, Default)]
pub struct Walker {
    pub polygon: Polygon,
    pub at: Point,
    pub y: u32,
    pub goal: Point,
    pub goal_y: u32,
    pub cost: u64,
    pub links: usize,
}

/// How many entries a view shows, and how many tiles there are.
#[repr(C)]
#[derive(Clone, Copy, Default, Debug, PartialEq, Eq)]
pub struct Shown {
    pub published: u32,
    pub tiles: u32,
}

#[repr(C)]
#[derive(Clone, Copy, Default)]
pub struct Plan {
    pub way: Way,
    pub areas: u64,
    pub most_cost: u64,
    pub most_polygons: usize,
    pub partial: u32,
    pub rise: u32,
    pub cost: u64,
    pub seen: u64,
    pub first: Polygon,
    pub last: Polygon,
    pub end: Point,
    pub end_y: u32,
    pub links: usize,
    pub turns: usize,
}

#[repr(C)]
#[derive(Clone, Copy)]
pub struct Kept {
    pub way: Way,
    pub first: Polygon,
    pub areas: u64,
    pub cost: u64,
    pub links: usize,
    pub turns: usize,
}

#[repr(C)]
#[derive(Clone, Copy, Default)]
pub struct Repair {
    pub way: Way,
    pub first: Polygon,
    pub join: u32,
    pub count: usize,
    pub keep: usize,
    pub most_polygons: usize,
    pub areas: u64,
    pub cost: u64,
    pub seen: u64,
    pub kept: usize,
    pub bridge: usize,
    pub links: usize,
    pub turns: usize,
}

#[repr(C)]
#[derive(Clone, Copy)]
pub struct Flood {
    pub at: Point,
    pub y: u32,
    pub back: u32,
    pub areas: u64,
    pub most_cost: u64,
    pub polygons: usize,
}

/// A polygon of a flood, what a cheapest walk to it costs, and the place in the list of the polygon before it on such a walk; of a flood back what
/// one from it costs, and the polygon behind it.
#[repr(C)]
#[derive(Clone, Copy, Default, Debug, PartialEq, Eq)]
pub struct Reached {
    pub polygon: Polygon,
    pub cost: u64,
    pub via: usize,
}

#[repr(C)]
#[derive(Clone, Copy)]
pub struct Goal {
    pub at: Point,
    pub y: u32,
}

#[repr(C)]
#[derive(Clone, Copy, Default)]
pub struct Nearest {
    pub at: Point,
    pub y: u32,
    pub areas: u64,
    pub most_cost: u64,
    pub which: usize,
    pub cost: u64,
    pub seen: u64,
    pub first: Polygon,
    pub last: Polygon,
    pub links: usize,
}

#[repr(C)]
#[derive(Clone, Copy, Default)]
pub struct Follower {
    pub first: Polygon,
    pub from: Point,
    pub goal: Point,
    pub far: u32,
    pub ahead: u32,
    pub link: usize,
    pub polygon: Polygon,
    pub at: Point,
    pub y: u32,
}

#[repr(C)]
#[derive(Clone, Copy, Default)]
pub struct Place {
    pub polygon: Polygon,
    pub at: Point,
    pub y: u32,
}

#[repr(C)]
#[derive(Clone, Copy)]
pub struct Near {
    pub areas: u64,
    pub at: Point,
    pub y: u32,
    pub reach: u32,
    pub down: u32,
    pub up: u32,
    pub weight: u32,
}

#[repr(C)]
#[derive(Clone, Copy)]
pub struct Around {
    pub from: Place,
    pub reach: u32,
    pub areas: u64,
}

#[repr(C)]
#[derive(Clone, Copy, Default)]
pub struct Line {
    pub way: Way,
    pub most: u32,
    pub quick: u32,
    pub upper: u64,
    pub lower: u64,
    pub first: Polygon,
    pub last: Polygon,
    pub links: usize,
    pub turns: usize,
}

/// A point of the plane, or a vector, in 1/256 of a cell: sixteen to a unit of a [`Point`].
#[repr(C)]
#[derive(Clone, Copy, Default, Debug, PartialEq, Eq)]
pub struct Fine {
    pub x: i32,
    pub z: i32,
}

/// An agent of a crowd, a disc. Where it is, the calls tell: the polygon that holds its middle, that polygon's floors, and whether none is known (1).
#[repr(C)]
#[derive(Clone, Copy, Default, Debug, PartialEq, Eq)]
pub struct Agent {
    pub polygon: Polygon,
    pub at: Fine,
    pub low: u32,
    pub high: u32,
    pub stranded: u32,
    /// 1: it makes room for all others.
    pub idle: u32,
    /// Bit a: area a may be entered.
    pub areas: u64,
    /// How far its goal is.
    pub left: u64,
    /// 1 to `full`, in 1/256 of a cell.
    pub radius: u32,
    /// At most 8191.
    pub full: u32,
    /// How far it may go in a step, at most 8191.
    pub speed: u32,
    pub unused: u32,
    /// By which vector it would like to go.
    pub wish: Fine,
    pub last: Fine,
    pub meant: Fine,
    pub waited: u32,
    pub tired: u32,
}

/// How far the agents of a crowd see, at most 16384 in 1/256 of a cell, how many steps it makes a second, 1 to 1000, and in how many rounds moves are
/// granted, 1 to 64.
#[repr(C)]
#[derive(Clone, Copy, Default, Debug, PartialEq, Eq)]
pub struct Crowd {
    pub sight: u32,
    pub hz: u32,
    pub rounds: u32,
}

/// A wall on an edge of a polygon, which lies to its left; num / den is the square of how far it is, in sixteenths of a cell.
#[repr(C)]
#[derive(Clone, Copy, Default, Debug, PartialEq, Eq)]
pub struct Wall {
    pub polygon: Polygon,
    pub begin: Point,
    pub end: Point,
    pub num: u64,
    pub den: u64,
    pub edge: u32,
}

#[repr(C)]
#[derive(Clone, Copy, Default)]
pub struct FoundWay {
    pub cost: u64,
    pub seen: u64,
    pub links: usize,
    pub corners: usize,
}

#[repr(C)]
#[derive(Clone, Copy)]
pub struct PlaceWay {
    pub from: Place,
    pub to: Place,
    pub areas: u64,
    pub most_cost: u64,
    pub most_polygons: usize,
    pub found: FoundWay,
}

#[repr(C)]
#[derive(Clone, Copy)]
pub struct NearWay {
    pub from: Near,
    pub to: Near,
    pub areas: u64,
    pub most_cost: u64,
    pub most_polygons: usize,
    pub found: FoundWay,
}

#[repr(C)]
#[derive(Clone, Copy, Default)]
pub struct Fault {
    pub line: u32,
    pub kind: u32,
}

#[repr(C)]
#[derive(Clone, Copy, Default, Debug, PartialEq, Eq)]
pub struct Counts {
    pub history: u32,
    pub target: u32,
    pub published: u32,
    pub tiles: u32,
    pub polygons: u32,
    pub links: u32,
}

extern "C" {
    pub fn navd_version() -> u32;
    pub fn navd_open(level: *mut Handle, text: *const u8, length: usize, fault: *mut Fault) -> u32;
    pub fn navd_close(level: *mut Handle);
    pub fn navd_add_block(level: *mut Handle, block: *const Block, area: u32, entry: *mut u32) -> u32;
    pub fn navd_add_cylinder(level: *mut Handle, cylinder: *const Cylinder, area: u32, entry: *mut u32) -> u32;
    pub fn navd_add_prism(level: *mut Handle, prism: *const Prism, area: u32, entry: *mut u32) -> u32;
    pub fn navd_add_disc(level: *mut Handle, disc: *const Disc, area: u32, entry: *mut u32) -> u32;
    pub fn navd_remove(level: *mut Handle, number: u32, entry: *mut u32) -> u32;
    pub fn navd_settle(level: *mut Handle, published: *mut u32) -> u32;
    pub fn navd_aim(level: *mut Handle, target: *mut u32) -> u32;
    pub fn navd_prepare(level: *mut Handle) -> u32;
    pub fn navd_step(level: *mut Handle, tile: *mut u32) -> u32;
    pub fn navd_publish(level: *mut Handle, number: *mut u32) -> u32;
    pub fn navd_renew(level: *mut Handle, numbers: *mut u32, room: usize, count: *mut usize) -> u32;
    pub fn navd_floors(level: *mut Handle, x: u32, z: u32, floors: *mut Floor, room: usize, count: *mut usize) -> u32;
    pub fn navd_find_path(
        level: *mut Handle,
        way: *const Way,
        links: *mut Link,
        links_room: usize,
        turns: *mut Turn,
        turns_room: usize,
        path: *mut Path,
    ) -> u32;
    pub fn navd_cast_ray(level: *mut Handle, way: *const Way, ray: *mut Ray) -> u32;
    pub fn navd_count(level: *mut Handle, counts: *mut Counts) -> u32;
    pub fn navd_frame_of(sizes: *const Frame, low: *const WorldPoint, high: *const WorldPoint, field: *mut FramedField) -> u32;
    pub fn navd_quantize(
        frame: *const Frame,
        points: *const WorldPoint,
        how_many: usize,
        places: *mut FramePlace,
        room: usize,
        count: *mut usize,
    ) -> u32;
    pub fn navd_dequantize(
        frame: *const Frame,
        places: *const FramePlace,
        how_many: usize,
        points: *mut WorldPoint,
        room: usize,
        count: *mut usize,
    ) -> u32;
    pub fn navd_open_mesh(
        level: *mut Handle,
        mesh: *const Mesh,
        vertices: *const f32,
        numbers: usize,
        corners: *const u32,
        count: usize,
        areas: *const u8,
        area_count: usize,
        fault: *mut MeshFault,
    ) -> u32;
    pub fn navd_open_triangles(level: *mut Handle, text: *const u8, length: usize, fault: *mut Fault) -> u32;
    pub fn navd_find_hop(
        level: *mut Handle,
        hop: *mut Hop,
        jumps: *const Jump,
        count: usize,
        steps: *mut Step,
        steps_room: usize,
        turns: *mut Turn,
        turns_room: usize,
    ) -> u32;
    pub fn navd_send(level: *mut Handle, way: *const Way, links: *mut Link, room: usize, walker: *mut Walker) -> u32;
    pub fn navd_march(level: *mut Handle, walker: *mut Walker, length: u32, links: *mut Link, room: usize) -> u32;
    pub fn navd_polygons(level: *mut Handle, tile: u32, polygons: *mut Face, room: usize, count: *mut usize) -> u32;
    pub fn navd_inner_links(level: *mut Handle, tile: u32, links: *mut Link, room: usize, count: *mut usize) -> u32;
    pub fn navd_border_links(level: *mut Handle, tile: u32, links: *mut Link, room: usize, count: *mut usize) -> u32;
    pub fn navd_changed_tiles(level: *mut Handle, since: u32, tiles: *mut u32, room: usize, count: *mut usize) -> u32;
    pub fn navd_obstacles(level: *mut Handle, obstacles: *mut Obstacle, room: usize, count: *mut usize) -> u32;
    pub fn navd_claim(level: *mut Handle, job: *mut Handle, tile: *mut u32) -> u32;
    pub fn navd_build(job: *mut Handle) -> u32;
    pub fn navd_submit(level: *mut Handle, job: *mut Handle) -> u32;
    pub fn navd_put_back(level: *mut Handle, job: *mut Handle) -> u32;
    pub fn navd_put_back_all(level: *mut Handle) -> u32;
    pub fn navd_job_close(job: *mut Handle);
    pub fn navd_registry_begin(registry: *mut Handle, level: *mut Handle) -> u32;
    pub fn navd_registry_close(registry: *mut Handle);
    pub fn navd_registry_add(registry: *mut Handle, solid: *const Solid, user: u64, id: *mut u64) -> u32;
    pub fn navd_registry_move(registry: *mut Handle, id: u64, solid: *const Solid) -> u32;
    pub fn navd_registry_enable(registry: *mut Handle, id: u64, enabled: u32) -> u32;
    pub fn navd_registry_mark(registry: *mut Handle, id: u64, user: u64) -> u32;
    pub fn navd_registry_remove(registry: *mut Handle, id: u64) -> u32;
    pub fn navd_registry_rows(registry: *mut Handle, rows: *mut Row, room: usize, count: *mut usize) -> u32;
    pub fn navd_registry_update(registry: *mut Handle, most: u32, updated: *mut Updated) -> u32;
    pub fn navd_registry_claim(registry: *mut Handle, job: *mut Handle, tile: *mut u32) -> u32;
    pub fn navd_registry_submit(registry: *mut Handle, job: *mut Handle) -> u32;
    pub fn navd_registry_put_back(registry: *mut Handle, job: *mut Handle) -> u32;
    pub fn navd_registry_put_back_all(registry: *mut Handle) -> u32;
    pub fn navd_registry_look(view: *mut Handle, registry: *mut Handle, version: *mut u64) -> u32;
    pub fn navd_registry_save(registry: *mut Handle, bytes: *mut u8, room: usize, length: *mut usize) -> u32;
    pub fn navd_registry_restore(registry: *mut Handle, bytes: *const u8, length: usize) -> u32;
    pub fn navd_kinds_open(
        kinds: *mut Handle,
        ground: *const Ground,
        kind: *const Kind,
        count: usize,
        costs: *const u32,
        costs_count: usize,
        spans: *const Span,
        spans_count: usize,
    ) -> u32;
    pub fn navd_kinds_close(kinds: *mut Handle);
    pub fn navd_kinds_add_block(kinds: *mut Handle, block: *const Block, area: u32, entry: *mut u32) -> u32;
    pub fn navd_kinds_add_cylinder(kinds: *mut Handle, cylinder: *const Cylinder, area: u32, entry: *mut u32) -> u32;
    pub fn navd_kinds_add_prism(kinds: *mut Handle, prism: *const Prism, area: u32, entry: *mut u32) -> u32;
    pub fn navd_kinds_add_disc(kinds: *mut Handle, disc: *const Disc, area: u32, entry: *mut u32) -> u32;
    pub fn navd_kinds_remove(kinds: *mut Handle, number: u32, entry: *mut u32) -> u32;
    pub fn navd_kinds_settle(kinds: *mut Handle, published: *mut u32) -> u32;
    pub fn navd_kinds_aim(kinds: *mut Handle, target: *mut u32) -> u32;
    pub fn navd_kinds_renew(kinds: *mut Handle, numbers: *mut u32, room: usize, count: *mut usize) -> u32;
    pub fn navd_kinds_change_ground(kinds: *mut Handle, columns: *const Columns, spans: *const Span, count: usize) -> u32;
    pub fn navd_kinds_claim(kinds: *mut Handle, job: *mut Handle, kind: *mut u32, tile: *mut u32) -> u32;
    pub fn navd_kinds_submit(kinds: *mut Handle, kind: u32, job: *mut Handle) -> u32;
    pub fn navd_kinds_put_back(kinds: *mut Handle, kind: u32, job: *mut Handle) -> u32;
    pub fn navd_kinds_put_back_all(kinds: *mut Handle) -> u32;
    pub fn navd_kinds_step(kinds: *mut Handle, kind: *mut u32, tile: *mut u32) -> u32;
    pub fn navd_kinds_publish(kinds: *mut Handle, kind: *mut u32, number: *mut u32) -> u32;
    pub fn navd_kinds_count(kinds: *mut Handle, kind: u32, counts: *mut Counts) -> u32;
    pub fn navd_kinds_look(view: *mut Handle, kinds: *mut Handle, kind: u32, published: *mut u32) -> u32;
    pub fn navd_view_set_costs(view: *mut Handle, costs: *const u32, count: usize) -> u32;
    pub fn navd_view_count(view: *mut Handle, shown: *mut Shown) -> u32;
    pub fn navd_view_find_hop(
        view: *mut Handle,
        hop: *mut Hop,
        jumps: *const Jump,
        count: usize,
        steps: *mut Step,
        steps_room: usize,
        turns: *mut Turn,
        turns_room: usize,
    ) -> u32;
    pub fn navd_view_send(view: *mut Handle, way: *const Way, links: *mut Link, room: usize, walker: *mut Walker) -> u32;
    pub fn navd_view_march(view: *mut Handle, walker: *mut Walker, length: u32, links: *mut Link, room: usize) -> u32;
    pub fn navd_view_polygons(view: *mut Handle, tile: u32, polygons: *mut Face, room: usize, count: *mut usize) -> u32;
    pub fn navd_view_inner_links(view: *mut Handle, tile: u32, links: *mut Link, room: usize, count: *mut usize) -> u32;
    pub fn navd_view_border_links(view: *mut Handle, tile: u32, links: *mut Link, room: usize, count: *mut usize) -> u32;
    pub fn navd_look(view: *mut Handle, level: *mut Handle, published: *mut u32) -> u32;
    pub fn navd_view_close(view: *mut Handle);
    pub fn navd_view_copy(to: *mut Handle, from: *mut Handle) -> u32;
    pub fn navd_view_floors(view: *mut Handle, x: u32, z: u32, floors: *mut Floor, room: usize, count: *mut usize) -> u32;
    pub fn navd_view_find_path(
        view: *mut Handle,
        way: *const Way,
        links: *mut Link,
        links_room: usize,
        turns: *mut Turn,
        turns_room: usize,
        path: *mut Path,
    ) -> u32;
    pub fn navd_view_shortest(
        view: *mut Handle,
        line: *mut Line,
        links: *mut Link,
        links_room: usize,
        turns: *mut Turn,
        turns_room: usize,
    ) -> u32;
    pub fn navd_view_cast_ray(view: *mut Handle, way: *const Way, ray: *mut Ray) -> u32;
    pub fn navd_view_check_path(
        view: *mut Handle,
        kept: *mut Kept,
        costs: *const u32,
        costs_count: usize,
        links: *mut Link,
        count: usize,
        turns: *mut Turn,
        turns_room: usize,
    ) -> u32;
    pub fn navd_view_repair_path(
        view: *mut Handle,
        repair: *mut Repair,
        costs: *const u32,
        costs_count: usize,
        links: *mut Link,
        links_room: usize,
        turns: *mut Turn,
        turns_room: usize,
    ) -> u32;
    pub fn navd_view_flood(
        view: *mut Handle,
        flood: *mut Flood,
        costs: *const u32,
        costs_count: usize,
        reached: *mut Reached,
        room: usize,
    ) -> u32;
    pub fn navd_view_plan(
        view: *mut Handle,
        plan: *mut Plan,
        costs: *const u32,
        costs_count: usize,
        links: *mut Link,
        links_room: usize,
        turns: *mut Turn,
        turns_room: usize,
    ) -> u32;
    pub fn navd_view_nearest_goal(
        view: *mut Handle,
        nearest: *mut Nearest,
        costs: *const u32,
        costs_count: usize,
        goals: *const Goal,
        count: usize,
        links: *mut Link,
        room: usize,
    ) -> u32;
    pub fn navd_view_follow_path(
        view: *mut Handle,
        follower: *mut Follower,
        links: *const Link,
        count: usize,
        turns: *const Turn,
        turns_count: usize,
    ) -> u32;
    pub fn navd_view_nearest(view: *mut Handle, near: *const Near, place: *mut Place) -> u32;
    pub fn navd_view_height(view: *mut Handle, place: *mut Place) -> u32;
    pub fn navd_view_is_place(view: *mut Handle, place: *const Place) -> u32;
    pub fn navd_view_random_place(view: *mut Handle, areas: u64, draw: u64, place: *mut Place) -> u32;
    pub fn navd_view_find_way(
        view: *mut Handle,
        way: *mut PlaceWay,
        costs: *const u32,
        costs_count: usize,
        links: *mut Link,
        links_room: usize,
        corners: *mut Place,
        corners_room: usize,
    ) -> u32;
    pub fn navd_view_find_way_near(
        view: *mut Handle,
        way: *mut NearWay,
        costs: *const u32,
        costs_count: usize,
        links: *mut Link,
        links_room: usize,
        corners: *mut Place,
        corners_room: usize,
    ) -> u32;
    pub fn navd_view_cast_ray_from(view: *mut Handle, from: *const Place, to: *const Point, ray: *mut Ray) -> u32;
    pub fn navd_view_slide(view: *mut Handle, from: *const Place, to: *const Point, areas: u64, end: *mut Place) -> u32;
    pub fn navd_view_nearest_wall(view: *mut Handle, around: *const Around, wall: *mut Wall) -> u32;
    pub fn navd_view_walls(view: *mut Handle, around: *const Around, walls: *mut Wall, room: usize, count: *mut usize) -> u32;
    pub fn navd_view_crowd_step(view: *mut Handle, rules: *const Crowd, agents: *mut Agent, count: usize) -> u32;
    pub fn navd_view_crowd_slim(view: *mut Handle, rules: *const Crowd, agents: *mut Agent, count: usize) -> u32;
    pub fn navd_view_crowd_grant(
        view: *mut Handle,
        rules: *const Crowd,
        agents: *mut Agent,
        count: usize,
        order: *const u32,
        order_count: usize,
        first: *const usize,
        first_count: usize,
        moves: *const Fine,
        moves_count: usize,
    ) -> u32;
    pub fn navd_view_crowd_enter(view: *mut Handle, agents: *const Agent, count: usize, agent: *mut Agent, y: u32) -> u32;
    pub fn navd_view_lead(view: *mut Handle, agent: *mut Agent, goal: *const Point, links: *const Link, count: usize, link: *mut usize) -> u32;
}
