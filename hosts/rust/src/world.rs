//! Worlds in a game's own numbers. `include/navd_world.h` says what each call means, its units and limits: lengths are the game's, y is up, angles are in
//! radians.
//!
//! ```no_run
//! # fn main() -> Result<(), Box<dyn std::error::Error>> {
//! # let (vertices, triangles) = (vec![[0.0; 3]], vec![[0; 3]]);
//! use navd::world::{vec3, Filter, Found, Route, Shape, World, WorldDef};
//! let mut world = World::create(&WorldDef { cell_size: 0.25, ..WorldDef::default() }, &vertices, &triangles, None)?;
//! let watcher = world.watcher(); // goes to other threads, each of which has a snapshot
//! let door = Shape::Box { center: vec3(12.0, 1.5, 3.0), half: vec3(0.1, 1.5, 1.0), yaw: 0.3 };
//! let id = world.add(&door, 0, 0)?; // it stays
//! world.update(4)?; // once a frame: builds up to four tiles
//! let (mut snapshot, mut route) = (watcher.snapshot()?, Route::new()?);
//! match snapshot.find_path(vec3(2.0, 0.0, 3.0), vec3(22.0, 2.0, 9.0), &Filter::default(), &mut route)? {
//!     Found::Whole => println!("{:?}", route.corners()),
//!     other => println!("{}", other),
//! }
//! # Ok(())
//! # }
//! ```
use crate::world_sys as sys;
use crate::{done, error_of, Error, Registry, Row, View};
use std::ffi::CStr;
use std::fmt;
use std::mem::size_of;
use std::ptr::{null, null_mut, NonNull};
use std::sync::Arc;

pub use crate::sys::{Frame, Mesh, Setting, Slope};
pub use crate::world_sys::{RouteCorner, Vec3};

/// As many tiles as there are to build.
pub const ALL_TILES: u32 = u32::MAX;

/// The point at x, y and z.
pub fn vec3(x: f32, y: f32, z: f32) -> Vec3 {
    Vec3 { x, y, z }
}

/// A status of the headers as a sentence.
fn text_of(status: u32) -> &'static str {
    // SAFETY: the library gives a sentence of its own for each number.
    unsafe { CStr::from_ptr(sys::navd_status_text(status)) }.to_str().unwrap_or("")
}

fn costs_of(costs: Option<&[f32; 64]>) -> *const f32 {
    costs.map_or(null(), |costs| costs.as_ptr())
}

/// What a world is made with: lengths in the game's unit, the slope in degrees, the error and the tile in cells. The default is Recast's usual.
#[derive(Clone, Copy, Debug)]
pub struct WorldDef<'a> {
    pub cell_size: f32,
    pub cell_height: f32,
    pub agent_radius: f32,
    pub agent_height: f32,
    pub agent_climb: f32,
    pub max_slope: u32,
    pub max_error: f32,
    pub tile_cells: u32,
    pub max_obstacles: u32,
    /// A triangle may be walked on whichever side of it is up.
    pub both_sides: bool,
    /// Polygons are strips of cells: quickly built, and many.
    pub strips: bool,
    /// Agents keep their radius from the ground's edges and walls, and not from obstacles.
    pub no_clearance: bool,
    /// What the world reaches over; where both are 0 just as far as its triangles.
    pub min: Vec3,
    pub max: Vec3,
    /// What a length costs on each area; without them 1 each.
    pub area_costs: Option<&'a [f32; 64]>,
}

impl Default for WorldDef<'_> {
    fn default() -> Self {
        WorldDef {
            cell_size: 0.3,
            cell_height: 0.2,
            agent_radius: 0.6,
            agent_height: 2.0,
            agent_climb: 0.9,
            max_slope: 45,
            max_error: 0.7,
            tile_cells: 48,
            max_obstacles: 1024,
            both_sides: false,
            strips: false,
            no_clearance: false,
            min: Vec3::default(),
            max: Vec3::default(),
            area_costs: None,
        }
    }
}

impl WorldDef<'_> {
    fn told(&self) -> sys::WorldDef {
        let flag = |is_set: bool, flag: u32| if is_set { flag } else { 0 };
        sys::WorldDef {
            size: size_of::<sys::WorldDef>() as u32,
            cell_size: self.cell_size,
            cell_height: self.cell_height,
            agent_radius: self.agent_radius,
            agent_height: self.agent_height,
            agent_climb: self.agent_climb,
            max_slope: self.max_slope,
            max_error: self.max_error,
            tile_cells: self.tile_cells,
            max_obstacles: self.max_obstacles,
            flags: flag(self.both_sides, sys::BOTH_SIDES) | flag(self.strips, sys::STRIPS) | flag(self.no_clearance, sys::NO_CLEARANCE),
            min: self.min,
            max: self.max,
            area_costs: costs_of(self.area_costs),
        }
    }
}

/// Why a world was not made.
#[derive(Clone, Debug, PartialEq, Eq)]
pub enum Problem {
    NoMemory,
    TooManySpans,
    /// A number of what it is made with, as a sentence says.
    OutOfRange(String),
    /// A triangle, by its place, and what is wrong with it, as a sentence.
    Faulty { triangle: usize, text: String },
}

impl fmt::Display for Problem {
    fn fmt(&self, f: &mut fmt::Formatter<'_>) -> fmt::Result {
        match self {
            Problem::NoMemory => f.write_str(text_of(crate::sys::NO_MEMORY)),
            Problem::TooManySpans => f.write_str(text_of(crate::sys::TOO_MANY_SPANS)),
            Problem::OutOfRange(text) | Problem::Faulty { text, .. } => f.write_str(text),
        }
    }
}

impl std::error::Error for Problem {}

impl Problem {
    fn of(status: u32, told: &sys::Problem) -> Problem {
        let length = told.text.iter().position(|byte| *byte == 0).unwrap_or(told.text.len());
        let text = String::from_utf8_lossy(&told.text[..length]).into_owned();
        match status {
            crate::sys::NO_MEMORY => Problem::NoMemory,
            crate::sys::TOO_MANY_SPANS => Problem::TooManySpans,
            crate::sys::FAULTY => Problem::Faulty { triangle: told.triangle, text },
            _ => Problem::OutOfRange(text),
        }
    }
}

/// What an obstacle is. A box has half its sides, and a yaw from x to z; a prism has x and z of 3 to 6 corners, convex, one way round or the other.
#[derive(Clone, Copy, Debug, PartialEq)]
pub enum Shape<'a> {
    Box { center: Vec3, half: Vec3, yaw: f32 },
    Cylinder { center: Vec3, radius: f32, half_height: f32 },
    Prism { corners: &'a [[f32; 2]], min_y: f32, max_y: f32 },
}

impl Shape<'_> {
    fn told(&self, area: u32) -> sys::Shape {
        let mut told = sys::Shape {
            size: size_of::<sys::Shape>() as u32,
            kind: sys::BOX,
            area,
            center: Vec3::default(),
            half: Vec3::default(),
            yaw: 0.0,
            corners: null(),
            corner_count: 0,
            min_y: 0.0,
            max_y: 0.0,
        };
        match *self {
            Shape::Box { center, half, yaw } => {
                told.center = center;
                told.half = half;
                told.yaw = yaw;
            }
            Shape::Cylinder { center, radius, half_height } => {
                told.kind = sys::CYLINDER;
                told.center = center;
                told.half = vec3(radius, half_height, radius);
            }
            Shape::Prism { corners, min_y, max_y } => {
                told.kind = sys::PRISM;
                told.corners = corners.as_ptr().cast();
                told.corner_count = corners.len().min(7) as u32; // 7 are refused
                told.min_y = min_y;
                told.max_y = max_y;
            }
        }
        told
    }
}

/// What an update did.
#[derive(Clone, Copy, Debug, PartialEq, Eq)]
pub struct Progress {
    pub tiles_built: u32,
    /// Whether something new is shown.
    pub published: bool,
    /// Whether something that was asked for is not shown yet.
    pub pending: bool,
    /// It never falls.
    pub version: u64,
}

/// A world behind its address, which the last of its owners destroys.
struct Held(NonNull<sys::World>);

// SAFETY: what changes a world is called by its one World, in one call at a time; beside that any thread may make and refresh snapshots.
unsafe impl Send for Held {}
unsafe impl Sync for Held {}

impl Drop for Held {
    fn drop(&mut self) {
        // SAFETY: nobody else has it any more.
        unsafe { sys::navd_world_destroy(self.0.as_ptr()) }
    }
}

/// A world of triangles, with obstacles by ids that stay. What is shown changes in `update` alone. One thread at a time changes it:
///
/// ```compile_fail
/// fn both(world: &navd::world::World) {
///     world.update(1); // a shared world is not changed
/// }
/// ```
pub struct World {
    held: Arc<Held>,
}

impl World {
    /// A world without obstacles, all of it built: vertices, three of them for each triangle, and an area for each triangle, or none at all.
    pub fn create(def: &WorldDef, vertices: &[[f32; 3]], triangles: &[[u32; 3]], areas: Option<&[u8]>) -> Result<World, Problem> {
        if areas.map_or(false, |areas| areas.len() != triangles.len()) {
            return Err(Problem::OutOfRange("vertices and indices come in threes, and areas one for each triangle".into()));
        }
        let mesh = sys::TriangleMesh {
            size: size_of::<sys::TriangleMesh>() as u32,
            vertices: vertices.as_ptr().cast(),
            vertex_count: vertices.len(),
            indices: triangles.as_ptr().cast(),
            triangle_count: triangles.len(),
            areas: areas.map_or(null(), |areas| areas.as_ptr()),
        };
        let mut problem = sys::Problem { size: size_of::<sys::Problem>() as u32, triangle: 0, text: [0; 160] };
        let mut made = null_mut();
        // SAFETY: all are references to what lives on, and the arrays have as many numbers as they are said to have.
        let status = unsafe { sys::navd_world_create(&def.told(), &mesh, &mut made, &mut problem) };
        NonNull::new(made).map(|made| World { held: Arc::new(Held(made)) }).ok_or_else(|| Problem::of(status, &problem))
    }

    fn at(&mut self) -> *mut sys::World {
        self.held.0.as_ptr()
    }

    /// What other threads have of the world.
    pub fn watcher(&self) -> Watcher {
        Watcher { held: Arc::clone(&self.held) }
    }

    /// What the numbers became, in cells and height units.
    pub fn mesh(&self) -> Mesh {
        // SAFETY: it stays as it is until the world is destroyed.
        unsafe { *sys::navd_world_mesh(self.held.0.as_ptr()) }
    }

    /// Its registry, for jobs, which any thread builds, and what else it has.
    pub fn registry(&mut self) -> &mut Registry {
        // SAFETY: a registry is its handle, which this world has, and which is borrowed with it; no snapshot touches it.
        unsafe { &mut *sys::navd_world_registry(self.at()).cast() }
    }

    /// Adds an obstacle, which is on, with a number of the host's own; its id. With the area 0 it stops agents, with 1 to 63 it gives that area.
    pub fn add(&mut self, shape: &Shape, area: u32, user: u64) -> Result<u64, Error> {
        let mut id = 0;
        // SAFETY: here and below, the world is this one's alone but for snapshots, and all else are references.
        done((unsafe { sys::navd_world_add(self.at(), &shape.told(area), user, &mut id) }, 0)).map(|_| id)
    }

    /// Gives an obstacle another shape.
    pub fn move_to(&mut self, id: u64, shape: &Shape, area: u32) -> Result<(), Error> {
        done((unsafe { sys::navd_world_move(self.at(), id, &shape.told(area)) }, 0)).map(drop)
    }

    /// Switches an obstacle on or off; whether it was not so before.
    pub fn set_enabled(&mut self, id: u64, enabled: bool) -> Result<bool, Error> {
        match unsafe { sys::navd_world_set_enabled(self.at(), id, enabled.into()) } {
            crate::sys::SAME => Ok(false),
            status => done((status, 0)).map(|_| true),
        }
    }

    /// Gives an obstacle another number of the host's own.
    pub fn set_user(&mut self, id: u64, user: u64) -> Result<(), Error> {
        done((unsafe { sys::navd_world_set_user(self.at(), id, user) }, 0)).map(drop)
    }

    /// Removes an obstacle.
    pub fn remove(&mut self, id: u64) -> Result<(), Error> {
        done((unsafe { sys::navd_world_remove(self.at(), id) }, 0)).map(drop)
    }

    /// The obstacles by rising ids, in sixteenths of a cell and height units.
    pub fn obstacles(&mut self) -> Result<Vec<Row>, Error> {
        let world = self.at();
        crate::registry::rows_by(|rows, room, count| unsafe { sys::navd_world_obstacles(world, rows, room, count) })
    }

    /// The obstacles as bytes: their ids, numbers and shapes, which are on, the last id and the version.
    pub fn save(&mut self) -> Result<Vec<u8>, Error> {
        let world = self.at();
        crate::registry::bytes_by(|bytes, room, length| unsafe { sys::navd_world_save(world, bytes, room, length) })
    }

    /// Puts the obstacles that were saved, of a world of the same cells, in the place of all others; what is shown stays until an update.
    pub fn restore(&mut self, saved: &[u8]) -> Result<(), Error> {
        done((unsafe { sys::navd_world_restore(self.at(), saved.as_ptr(), saved.len()) }, 0)).map(drop)
    }

    /// Builds at most so many tiles of what was asked for, and shows it once all of it is built.
    pub fn update(&mut self, max_tiles: u32) -> Result<Progress, Error> {
        let mut told = sys::Progress { size: size_of::<sys::Progress>() as u32, ..sys::Progress::default() };
        done((unsafe { sys::navd_world_update(self.at(), max_tiles, &mut told) }, 0)).map(|_| Progress {
            tiles_built: told.tiles_built,
            published: told.published != 0,
            pending: told.pending != 0,
            version: told.version,
        })
    }
}

/// A world as other threads have it: they make snapshots of it, at any time. While there is one the world lives on, though nobody changes it.
#[derive(Clone)]
pub struct Watcher {
    held: Arc<Held>,
}

impl Watcher {
    /// A snapshot of what the world shows.
    pub fn snapshot(&self) -> Result<Snapshot, Error> {
        let mut made = null_mut();
        // SAFETY: it may be called of a world at any time and in any thread.
        let status = unsafe { sys::navd_snapshot_create(self.held.0.as_ptr(), 0, &mut made) };
        NonNull::new(made).map(|at| Snapshot { at, held: Arc::clone(&self.held) }).ok_or_else(|| error_of(status))
    }
}

/// What a question goes by.
#[derive(Clone, Copy, Debug)]
pub struct Filter<'a> {
    /// The areas that may be entered, bit a for area a.
    pub areas: u64,
    /// What a length costs on each area, for this question; without them as in the world.
    pub area_costs: Option<&'a [f32; 64]>,
    /// No way is looked at that costs more, nor more polygons than this; 0: no limit.
    pub max_cost: f64,
    pub max_polygons: usize,
    /// Where no way leads to the goal, the way to the nearest place is told.
    pub partial: bool,
}

impl Default for Filter<'_> {
    fn default() -> Self {
        Filter { areas: u64::MAX, area_costs: None, max_cost: 0.0, max_polygons: 0, partial: false }
    }
}

impl Filter<'_> {
    fn told(&self) -> sys::Filter {
        sys::Filter {
            size: size_of::<sys::Filter>() as u32,
            partial: self.partial.into(),
            areas: self.areas,
            area_costs: costs_of(self.area_costs),
            max_cost: self.max_cost,
            max_polygons: self.max_polygons,
        }
    }
}

/// How a search for a way ended.
#[derive(Clone, Copy, Debug, PartialEq, Eq)]
pub enum Found {
    /// The route leads to the goal.
    Whole,
    /// The filter asks for it, and the route leads to the nearest place to which a way leads within the filter's limits.
    Partial,
    /// No floor is where the way begins, or ends, up or down as far as the agent climbs.
    NoStart,
    NoGoal,
    /// No way leads there.
    NoPath,
    /// None does within the filter's limits.
    Limit,
}

impl fmt::Display for Found {
    fn fmt(&self, f: &mut fmt::Formatter<'_>) -> fmt::Result {
        use crate::sys::{LIMIT, NO_GOAL, NO_PATH, NO_START, OK, PARTIAL};
        f.write_str(text_of(match self {
            Found::Whole => OK,
            Found::Partial => PARTIAL,
            Found::NoStart => NO_START,
            Found::NoGoal => NO_GOAL,
            Found::NoPath => NO_PATH,
            Found::Limit => LIMIT,
        }))
    }
}

/// Where a straight walk ends: whether at a wall, the fraction of the way up to there, the place, and the ends of the wall, which else are the place.
#[derive(Clone, Copy, Debug, PartialEq)]
pub struct Hit {
    pub hit: bool,
    pub fraction: f32,
    pub at: Vec3,
    pub wall_from: Vec3,
    pub wall_to: Vec3,
}

/// A path that was found. One that is used again keeps its memory. Its corners are good until its next search:
///
/// ```compile_fail
/// use navd::world::{vec3, Filter, Route, Snapshot};
/// fn kept(snapshot: &mut Snapshot, route: &mut Route) {
///     let corners = route.corners();
///     snapshot.find_path(vec3(0.0, 0.0, 0.0), vec3(1.0, 0.0, 0.0), &Filter::default(), route);
///     println!("{}", corners.len());
/// }
/// ```
pub struct Route {
    at: NonNull<sys::Route>,
}

// SAFETY: a route may go from thread to thread, and is changed by the search that borrows it alone.
unsafe impl Send for Route {}
unsafe impl Sync for Route {}

impl Route {
    pub fn new() -> Result<Route, Error> {
        let mut made = null_mut();
        // SAFETY: the address of the new route is written.
        let status = unsafe { sys::navd_route_create(&mut made) };
        NonNull::new(made).map(|at| Route { at }).ok_or_else(|| error_of(status))
    }

    /// Its corners, from the first to the last; none where none was found.
    pub fn corners(&self) -> &[RouteCorner] {
        let mut at = null();
        // SAFETY: they stay as they are until the next search, which borrows the route; without corners no address is read.
        unsafe {
            let count = sys::navd_route_corners(self.at.as_ptr(), &mut at);
            if count == 0 {
                &[]
            } else {
                std::slice::from_raw_parts(at, count)
            }
        }
    }

    /// What the way costs, in the game's unit times the costs of its areas.
    pub fn cost(&self) -> f64 {
        // SAFETY: here and below, a number is read.
        unsafe { sys::navd_route_cost(self.at.as_ptr()) }
    }

    /// The version of the snapshot in which it was found.
    pub fn version(&self) -> u64 {
        unsafe { sys::navd_route_version(self.at.as_ptr()) }
    }
}

impl Drop for Route {
    fn drop(&mut self) {
        // SAFETY: the route is this one's.
        unsafe { sys::navd_route_destroy(self.at.as_ptr()) }
    }
}

/// What a world showed when the snapshot was last refreshed; one for each thread that asks.
pub struct Snapshot {
    at: NonNull<sys::Snapshot>,
    held: Arc<Held>,
}

// SAFETY: a snapshot may go from thread to thread, and the borrows keep it in one call at a time.
unsafe impl Send for Snapshot {}

impl Snapshot {
    /// Takes what the world shows now; whether that is something new.
    pub fn refresh(&mut self) -> Result<bool, Error> {
        // SAFETY: the snapshot is of this world, of which it may be called at any time and in any thread.
        match unsafe { sys::navd_snapshot_refresh(self.at.as_ptr(), self.held.0.as_ptr()) } {
            crate::sys::SAME => Ok(false),
            status => done((status, 0)).map(|_| true),
        }
    }

    pub fn version(&self) -> u64 {
        // SAFETY: a number is read.
        unsafe { sys::navd_snapshot_version(self.at.as_ptr()) }
    }

    /// Its view, for all other questions, in sixteenths of a cell and height units.
    pub fn view(&mut self) -> &mut View {
        // SAFETY: a view is its handle, which this snapshot has, and which is borrowed with it.
        unsafe { &mut *sys::navd_snapshot_view(self.at.as_ptr()).cast() }
    }

    /// A cheapest way between two places, left at `route`.
    pub fn find_path(&mut self, from: Vec3, to: Vec3, filter: &Filter, route: &mut Route) -> Result<Found, Error> {
        // SAFETY: here and below, the snapshot and the route are borrowed here alone, and all else are references.
        match unsafe { sys::navd_snapshot_find_path(self.at.as_ptr(), &filter.told(), &from, &to, route.at.as_ptr()) } {
            crate::sys::PARTIAL => Ok(Found::Partial),
            crate::sys::NO_START => Ok(Found::NoStart),
            crate::sys::NO_GOAL => Ok(Found::NoGoal),
            crate::sys::NO_PATH => Ok(Found::NoPath),
            crate::sys::LIMIT => Ok(Found::Limit),
            status => done((status, 0)).map(|_| Found::Whole),
        }
    }

    /// The nearest place to a point, at most `reach` away in the plane and `height` up or down, if there is one.
    pub fn nearest(&mut self, at: Vec3, reach: f32, height: f32, filter: &Filter) -> Result<Option<Vec3>, Error> {
        let mut place = Vec3::default();
        match unsafe { sys::navd_snapshot_nearest(self.at.as_ptr(), &filter.told(), &at, reach, height, &mut place) } {
            crate::sys::NO_PLACE => Ok(None),
            status => done((status, 0)).map(|_| Some(place)),
        }
    }

    /// The height of the floor above or below a point that is nearest to it, if there is one.
    pub fn height(&mut self, at: Vec3) -> Result<Option<f32>, Error> {
        let mut y = 0.0;
        match unsafe { sys::navd_snapshot_height(self.at.as_ptr(), &at, &mut y) } {
            crate::sys::NO_PLACE => Ok(None),
            status => done((status, 0)).map(|_| Some(y)),
        }
    }

    /// Where a straight walk from a point toward another one ends; nothing where no floor is where it begins.
    pub fn raycast(&mut self, from: Vec3, to: Vec3) -> Result<Option<Hit>, Error> {
        let mut told = sys::Hit { size: size_of::<sys::Hit>() as u32, ..sys::Hit::default() };
        match unsafe { sys::navd_snapshot_raycast(self.at.as_ptr(), &from, &to, &mut told) } {
            crate::sys::NO_START => Ok(None),
            status => done((status, 0)).map(|_| {
                Some(Hit { hit: told.hit != 0, fraction: told.fraction, at: told.at, wall_from: told.wall_from, wall_to: told.wall_to })
            }),
        }
    }
}

impl Drop for Snapshot {
    fn drop(&mut self) {
        // SAFETY: the snapshot is this one's.
        unsafe { sys::navd_snapshot_destroy(self.at.as_ptr()) }
    }
}
