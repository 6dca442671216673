//! A level of navd: obstacles that come and go, and the ways through it. `include/navd.h` says what each call means, its units and limits.
//!
//! ```no_run
//! # fn main() -> Result<(), navd::Error> {
//! let mut level = navd::Level::open(&std::fs::read("examples/detour.nav").unwrap())?;
//! let crate_ = level.add_block(&navd::Block { x0: 1, x1: 8, y0: 0, y1: 100, z0: 4, z1: 5 }, 0)?;
//! level.settle()?;
//! if let Ok(path) = level.find_path(navd::place(40, 40, 10), navd::place(40, 120, 10))? {
//!     println!("{} by {} links, {} turns", path.cost, path.links.len(), path.turns.len());
//! }
//! level.remove(crate_)?;
//! # Ok(())
//! # }
//! ```
mod crowds;
mod goals;
mod heap;
mod jobs;
mod kinds;
mod lines;
mod looks;
mod place_ways;
mod places;
mod registry;
mod repairs;
mod sys;
mod walks;
mod ways;
pub mod world;
mod world_sys;

use std::fmt;
use std::ptr::null_mut;
pub use crowds::Entered;
pub use goals::{Followed, Follower, Found, Nearest};
pub use jobs::Job;
pub use kinds::{Kinds, Publish};
pub use lines::Line;
pub use looks::{Obstacle, Shape};
pub use place_ways::{FoundWay, PlaceWay};
pub use places::{Drawn, MeshPlace, Near};
pub use registry::{Registry, Row, Solid, Updated};
pub use repairs::{Repair, Repaired};
pub use sys::{
    Agent, Block, Columns, Corner, Counts, Crowd, Cylinder, Disc, Face, Fine, Floor, Ground, Jump, Kind, Link, Point, Polygon, Prism, Reached, Shown,
    Span, Turn, Wall,
};
pub use walks::{Hop, Step, Walker};
pub use ways::{Checked, Filter, Limits, Planned};

/// The version of the library, as major * 10000 + minor * 100 + patch.
pub fn version() -> u32 {
    // SAFETY: it takes nothing.
    unsafe { sys::navd_version() }
}

/// The version of the library that this crate was written for.
pub const VERSION: u32 = sys::VERSION;

/// Why a call was refused.
#[derive(Clone, Copy, Debug, PartialEq, Eq)]
pub enum Error {
    NoMemory,
    /// The first line of the text that fails, from 1, and the kind of its fault.
    Fault { line: u32, kind: u32 },
    OutOfRange,
    TooManyObstacles,
    NoSuchObstacle,
    HistoryFull,
    /// This tile is still awaited.
    NotYet { tile: u32 },
    /// Not all of the history is published.
    NotPublished,
    /// The job is not built.
    NotBuilt,
    /// The job, or what was saved, is of another ground.
    Foreign,
    TooManySpans,
    /// Obstacles of the level are alive.
    HasObstacles,
    /// No save wrote these bytes.
    NotSaved,
}

impl fmt::Display for Error {
    fn fmt(&self, f: &mut fmt::Formatter<'_>) -> fmt::Result {
        match self {
            Error::NoMemory => write!(f, "no memory"),
            Error::Fault { line, kind } => write!(f, "fault of kind {kind} in line {line}"),
            Error::OutOfRange => write!(f, "a number is out of its limits"),
            Error::TooManyObstacles => write!(f, "as many obstacles are alive as may be"),
            Error::NoSuchObstacle => write!(f, "there is no such obstacle"),
            Error::HistoryFull => write!(f, "the history is full"),
            Error::NotYet { tile } => write!(f, "tile {tile} is still awaited"),
            Error::NotPublished => write!(f, "not all of the history is published"),
            Error::NotBuilt => write!(f, "the job is not built"),
            Error::Foreign => write!(f, "it is of another ground"),
            Error::TooManySpans => write!(f, "the triangles give too many spans"),
            Error::HasObstacles => write!(f, "obstacles of the level are alive"),
            Error::NotSaved => write!(f, "no save wrote these bytes"),
        }
    }
}

impl std::error::Error for Error {}

fn error_of(status: u32) -> Error {
    match status {
        sys::NO_MEMORY => Error::NoMemory,
        sys::OUT_OF_RANGE => Error::OutOfRange,
        sys::TOO_MANY => Error::TooManyObstacles,
        sys::DEAD | sys::NO_OBSTACLE => Error::NoSuchObstacle,
        sys::HISTORY_FULL => Error::HistoryFull,
        sys::FOREIGN => Error::Foreign,
        sys::TOO_MANY_SPANS => Error::TooManySpans,
        sys::NOT_SAVED => Error::NotSaved,
        sys::EMPTY => unreachable!("a level's handle is never empty"),
        other => unreachable!("a call that does not end with {other}"),
    }
}

/// A point in sixteenths of a cell, and a height that says in which storey.
#[derive(Clone, Copy, Debug, PartialEq, Eq)]
pub struct Place {
    pub at: Point,
    pub y: u32,
}

/// The place at x and z with a height.
pub fn place(x: i32, z: i32, y: u32) -> Place {
    Place { at: Point { x, z }, y }
}

/// A path: a cheapest corridor, and where the taut line through it turns.
#[derive(Clone, Debug, PartialEq, Eq)]
pub struct Path {
    pub cost: u64,
    pub first: Polygon,
    pub links: Vec<Link>,
    pub turns: Vec<Turn>,
}

/// Why there is no path, or no ray.
#[derive(Clone, Copy, Debug, PartialEq, Eq)]
pub enum NoWay {
    NoStart,
    NoGoal,
    NoPath,
}

/// Where a ray ends.
#[derive(Clone, Copy, Debug, PartialEq, Eq)]
pub enum Ray {
    Reached(Polygon),
    /// At this edge, num / den of the way along.
    Wall { a: Point, b: Point, num: i64, den: i64 },
}

/// A level. It is used by one thread at a time.
pub struct Level {
    handle: sys::Handle,
}

impl Level {
    /// The level of the field text with which the bytes begin, with no obstacles.
    pub fn open(text: &[u8]) -> Result<Level, Error> {
        Level::open_by(sys::navd_open, text)
    }

    /// The level of a triangle text, with no obstacles.
    pub fn of_triangles(text: &[u8]) -> Result<Level, Error> {
        Level::open_by(sys::navd_open_triangles, text)
    }

    fn open_by(
        call: unsafe extern "C" fn(*mut sys::Handle, *const u8, usize, *mut sys::Fault) -> u32,
        text: &[u8],
    ) -> Result<Level, Error> {
        let mut level = Level { handle: sys::Handle { at: null_mut(), full: 0 } };
        let mut fault = sys::Fault::default();
        // SAFETY: the handle is zeroed, and the bytes are those of a slice, which has an address also where it is empty.
        match unsafe { call(&mut level.handle, text.as_ptr(), text.len(), &mut fault) } {
            sys::OK => Ok(level),
            sys::FAULTY => Err(Error::Fault { line: fault.line, kind: fault.kind }),
            status => Err(error_of(status)),
        }
    }

    fn number(&mut self, call: impl FnOnce(*mut sys::Handle, *mut u32) -> u32) -> (u32, u32) {
        let mut number = 0;
        let status = call(&mut self.handle, &mut number);
        (status, number)
    }

    /// Adds a block, which stops agents where the area is 0 and else sets that area; the obstacle's number.
    pub fn add_block(&mut self, block: &Block, area: u32) -> Result<u32, Error> {
        // SAFETY: here and below, the handle is this level's, which the borrow keeps from other calls, and all else are references.
        done(self.number(|level, entry| unsafe { sys::navd_add_block(level, block, area, entry) }))
    }

    /// Adds a cylinder, likewise.
    pub fn add_cylinder(&mut self, cylinder: &Cylinder, area: u32) -> Result<u32, Error> {
        done(self.number(|level, entry| unsafe { sys::navd_add_cylinder(level, cylinder, area, entry) }))
    }

    /// Adds a prism, likewise.
    pub fn add_prism(&mut self, prism: &Prism, area: u32) -> Result<u32, Error> {
        done(self.number(|level, entry| unsafe { sys::navd_add_prism(level, prism, area, entry) }))
    }

    /// Adds a disc, likewise.
    pub fn add_disc(&mut self, disc: &Disc, area: u32) -> Result<u32, Error> {
        done(self.number(|level, entry| unsafe { sys::navd_add_disc(level, disc, area, entry) }))
    }

    /// Removes the obstacle with a number; the number of the entry.
    pub fn remove(&mut self, number: u32) -> Result<u32, Error> {
        done(self.number(|level, entry| unsafe { sys::navd_remove(level, number, entry) }))
    }

    /// Builds and publishes all that the history asks for; how many entries are published.
    pub fn settle(&mut self) -> Result<u32, Error> {
        done(self.number(|level, number| unsafe { sys::navd_settle(level, number) }))
    }

    /// Makes the whole history the target; its length.
    pub fn aim(&mut self) -> Result<u32, Error> {
        done(self.number(|level, number| unsafe { sys::navd_aim(level, number) }))
    }

    /// Builds the least tile that is awaited, if there is one.
    pub fn step(&mut self) -> Result<Option<u32>, Error> {
        match self.number(|level, number| unsafe { sys::navd_step(level, number) }) {
            (sys::SAME, _) => Ok(None),
            ended => done(ended).map(Some),
        }
    }

    /// Publishes the target; how many entries are published.
    pub fn publish(&mut self) -> Result<u32, Error> {
        match self.number(|level, number| unsafe { sys::navd_publish(level, number) }) {
            (sys::SAME, number) => Ok(number),
            (sys::NOT_YET, tile) => Err(Error::NotYet { tile }),
            ended => done(ended),
        }
    }

    /// Makes landmarks of what is published, by which paths are found sooner.
    pub fn prepare(&mut self) -> Result<(), Error> {
        done((unsafe { sys::navd_prepare(&mut self.handle) }, 0)).map(drop)
    }

    /// Begins the history again, where all of it is published: the numbers that the obstacles had, of which the n-th has the number n from then on.
    pub fn renew(&mut self) -> Result<Vec<u32>, Error> {
        let mut numbers = vec![0; 1024];
        let mut count = 0;
        match unsafe { sys::navd_renew(&mut self.handle, numbers.as_mut_ptr(), numbers.len(), &mut count) } {
            sys::NOT_YET => Err(Error::NotPublished),
            status => {
                done((status, 0))?;
                numbers.truncate(count);
                Ok(numbers)
            }
        }
    }

    /// The floors of a column, from the bottom up.
    pub fn floors(&mut self, x: u32, z: u32) -> Result<Vec<Floor>, Error> {
        floors_by(|floors, room, count| unsafe { sys::navd_floors(&mut self.handle, x, z, floors, room, count) })
    }

    /// A cheapest corridor with a taut path, or why there is none.
    pub fn find_path(&mut self, from: Place, to: Place) -> Result<Result<Path, NoWay>, Error> {
        path_by(from, to, |way, links, links_room, turns, turns_room, path| unsafe {
            sys::navd_find_path(&mut self.handle, way, links, links_room, turns, turns_room, path)
        })
    }

    /// The straight walk from a place toward a point, or that no polygon holds the place.
    pub fn cast_ray(&mut self, from: Place, to: Point) -> Result<Result<Ray, NoWay>, Error> {
        ray_by(from, to, |way, ray| unsafe { sys::navd_cast_ray(&mut self.handle, way, ray) })
    }

    /// The counts of the level.
    pub fn counts(&mut self) -> Result<Counts, Error> {
        let mut counts = Counts::default();
        done((unsafe { sys::navd_count(&mut self.handle, &mut counts) }, 0)).map(|_| counts)
    }
}

impl Drop for Level {
    fn drop(&mut self) {
        // SAFETY: the handle is this level's; an empty one may be closed.
        unsafe { sys::navd_close(&mut self.handle) }
    }
}

// SAFETY: the library's handles may go from thread to thread, which is proved of them; the borrows keep each in one call at a time.
unsafe impl Send for Level {}
unsafe impl Send for View {}

/// What one thread asks while another changes the level: the mesh as it was published at the last look. It outlives its level.
#[repr(transparent)]
pub struct View {
    handle: sys::Handle,
}

impl View {
    /// A view of what a level has published.
    pub fn of(level: &mut Level) -> Result<View, Error> {
        let mut view = View { handle: sys::Handle { at: null_mut(), full: 0 } };
        view.look(level).map(|_| view)
    }

    /// A further view of what this one shows, with its costs, for another thread.
    pub fn duplicate(&mut self) -> Result<View, Error> {
        let mut view = View { handle: sys::Handle { at: null_mut(), full: 0 } };
        // SAFETY: the new handle is zeroed, and this one is borrowed here alone.
        done((unsafe { sys::navd_view_copy(&mut view.handle, &mut self.handle) }, 0)).map(|_| view)
    }

    /// Shows what the level has published now; how many entries that are.
    pub fn look(&mut self, level: &mut Level) -> Result<u32, Error> {
        let mut published = 0;
        // SAFETY: here and below, the handle is this view's, which the borrow keeps from other calls, and all else are references.
        done((unsafe { sys::navd_look(&mut self.handle, &mut level.handle, &mut published) }, 0)).map(|_| published)
    }

    /// The floors of a column, from the bottom up.
    pub fn floors(&mut self, x: u32, z: u32) -> Result<Vec<Floor>, Error> {
        floors_by(|floors, room, count| unsafe { sys::navd_view_floors(&mut self.handle, x, z, floors, room, count) })
    }

    /// A cheapest corridor with a taut path, or why there is none.
    pub fn find_path(&mut self, from: Place, to: Place) -> Result<Result<Path, NoWay>, Error> {
        path_by(from, to, |way, links, links_room, turns, turns_room, path| unsafe {
            sys::navd_view_find_path(&mut self.handle, way, links, links_room, turns, turns_room, path)
        })
    }

    /// The straight walk from a place toward a point, or that no polygon holds the place.
    pub fn cast_ray(&mut self, from: Place, to: Point) -> Result<Result<Ray, NoWay>, Error> {
        ray_by(from, to, |way, ray| unsafe { sys::navd_view_cast_ray(&mut self.handle, way, ray) })
    }
}

impl Drop for View {
    fn drop(&mut self) {
        // SAFETY: the handle is this view's.
        unsafe { sys::navd_view_close(&mut self.handle) }
    }
}

/// Asks for floors until there is room for all of them.
fn floors_by(mut call: impl FnMut(*mut Floor, usize, *mut usize) -> u32) -> Result<Vec<Floor>, Error> {
    let mut floors = vec![Floor::default(); 8];
    loop {
        let mut count = 0;
        done((call(floors.as_mut_ptr(), floors.len(), &mut count), 0))?;
        let fits = count <= floors.len();
        floors.resize(count, Floor::default());
        if fits {
            return Ok(floors);
        }
    }
}

/// Asks for a path until there is room for all of it.
fn path_by(
    from: Place,
    to: Place,
    mut call: impl FnMut(*const sys::Way, *mut Link, usize, *mut Turn, usize, *mut sys::Path) -> u32,
) -> Result<Result<Path, NoWay>, Error> {
    let way = sys::Way { from: from.at, from_y: from.y, to: to.at, to_y: to.y };
    let (mut links, mut turns) = (vec![Link::default(); 64], vec![Turn::default(); 64]);
    loop {
        let mut path = sys::Path::default();
        let status = call(&way, links.as_mut_ptr(), links.len(), turns.as_mut_ptr(), turns.len(), &mut path);
        if let Some(no_way) = no_way(status) {
            return Ok(Err(no_way));
        }
        done((status, 0))?;
        let fits = path.links <= links.len() && path.turns <= turns.len();
        links.resize(path.links, Link::default());
        turns.resize(path.turns, Turn::default());
        if fits {
            return Ok(Ok(Path { cost: path.cost, first: path.first, links, turns }));
        }
    }
}

fn ray_by(from: Place, to: Point, call: impl FnOnce(*const sys::Way, *mut sys::Ray) -> u32) -> Result<Result<Ray, NoWay>, Error> {
    let way = sys::Way { from: from.at, from_y: from.y, to, to_y: 0 };
    let mut ray = sys::Ray::default();
    ray_told(call(&way, &mut ray), ray)
}

fn ray_told(status: u32, ray: sys::Ray) -> Result<Result<Ray, NoWay>, Error> {
    match (status, no_way(status)) {
        (_, Some(no_way)) => Ok(Err(no_way)),
        (sys::WALL, _) => Ok(Ok(Ray::Wall { a: ray.a, b: ray.b, num: ray.num, den: ray.den })),
        _ => done((status, 0)).map(|_| Ok(Ray::Reached(ray.last))),
    }
}

fn done((status, number): (u32, u32)) -> Result<u32, Error> {
    if status == sys::OK {
        Ok(number)
    } else {
        Err(error_of(status))
    }
}

fn no_way(status: u32) -> Option<NoWay> {
    match status {
        sys::NO_START => Some(NoWay::NoStart),
        sys::NO_GOAL => Some(NoWay::NoGoal),
        sys::NO_PATH => Some(NoWay::NoPath),
        _ => None,
    }
}
