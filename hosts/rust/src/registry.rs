//! A registry: obstacles by ids that stay.

use crate::{done, error_of, sys, Block, Cylinder, Disc, Error, Level, Prism, View};
use std::ptr::null_mut;

/// What an obstacle is.
#[derive(Clone, Copy, Debug, PartialEq, Eq)]
pub enum Solid {
    Block(Block),
    Cylinder(Cylinder),
    Prism(Prism),
    Disc(Disc),
}

/// An obstacle by its id, with the number of the host's own.
#[derive(Clone, Copy, Debug, PartialEq, Eq)]
pub struct Row {
    pub id: u64,
    pub user: u64,
    pub enabled: bool,
    /// The area that it gives, or 0 where it stops agents.
    pub area: u32,
    pub solid: Solid,
}

/// What an update did.
#[derive(Clone, Copy, Debug, PartialEq, Eq)]
pub struct Updated {
    /// How many tiles it built.
    pub built: u32,
    /// Whether something new is shown.
    pub published: bool,
    /// Whether some of what was asked for is not shown yet.
    pub pending: bool,
    /// How often something new was shown.
    pub version: u64,
}

/// A level with a row for each of its obstacles. What is shown changes in `update` alone.
#[repr(transparent)]
pub struct Registry {
    pub(crate) handle: sys::Handle,
}

// SAFETY: the library's handles may go from thread to thread, which is proved of them; the borrows keep each in one call at a time.
unsafe impl Send for Registry {}

impl Solid {
    fn told(&self, area: u32) -> sys::Solid {
        let told = sys::Solid { area, ..sys::Solid::default() };
        match *self {
            Solid::Block(block) => sys::Solid { kind: 0, block, ..told },
            Solid::Cylinder(cylinder) => sys::Solid { kind: 1, cylinder, ..told },
            Solid::Prism(prism) => sys::Solid { kind: 2, prism, ..told },
            Solid::Disc(disc) => sys::Solid { kind: 3, disc, ..told },
        }
    }

    fn of(told: &sys::Solid) -> Solid {
        match told.kind {
            0 => Solid::Block(told.block),
            1 => Solid::Cylinder(told.cylinder),
            2 => Solid::Prism(told.prism),
            _ => Solid::Disc(told.disc),
        }
    }
}

impl Registry {
    /// The registry of a level without obstacles. A level that has some, or that finds no memory, comes back.
    pub fn of(mut level: Level) -> Result<Registry, (Error, Level)> {
        let mut registry = Registry { handle: sys::Handle { at: null_mut(), full: 0 } };
        // SAFETY: both handles are owned here, and the registry's is zeroed.
        match unsafe { sys::navd_registry_begin(&mut registry.handle, &mut level.handle) } {
            sys::OK => Ok(registry),
            sys::BUSY => Err((Error::HasObstacles, level)),
            status => Err((error_of(status), level)),
        }
    }

    /// Adds an obstacle, which is on; its id. With the area 0 it stops agents.
    pub fn add(&mut self, solid: &Solid, area: u32, user: u64) -> Result<u64, Error> {
        let mut id = 0;
        // SAFETY: here and below, the handle is this registry's, which the borrow keeps from other calls, and all else are references.
        done((unsafe { sys::navd_registry_add(&mut self.handle, &solid.told(area), user, &mut id) }, 0)).map(|_| id)
    }

    /// Gives an obstacle another shape.
    pub fn move_to(&mut self, id: u64, solid: &Solid, area: u32) -> Result<(), Error> {
        done((unsafe { sys::navd_registry_move(&mut self.handle, id, &solid.told(area)) }, 0)).map(|_| ())
    }

    /// Switches an obstacle on or off; whether it was not so before.
    pub fn enable(&mut self, id: u64, enabled: bool) -> Result<bool, Error> {
        match unsafe { sys::navd_registry_enable(&mut self.handle, id, enabled.into()) } {
            sys::SAME => Ok(false),
            status => done((status, 0)).map(|_| true),
        }
    }

    /// Gives an obstacle another number of the host's own.
    pub fn mark(&mut self, id: u64, user: u64) -> Result<(), Error> {
        done((unsafe { sys::navd_registry_mark(&mut self.handle, id, user) }, 0)).map(|_| ())
    }

    /// Removes an obstacle.
    pub fn remove(&mut self, id: u64) -> Result<(), Error> {
        done((unsafe { sys::navd_registry_remove(&mut self.handle, id) }, 0)).map(|_| ())
    }

    /// The obstacles, by rising ids.
    pub fn rows(&mut self) -> Result<Vec<Row>, Error> {
        rows_by(|rows, room, count| unsafe { sys::navd_registry_rows(&mut self.handle, rows, room, count) })
    }

    /// Builds at most so many tiles of what was asked for, and shows it once all of it is built.
    pub fn update(&mut self, most: u32) -> Result<Updated, Error> {
        let mut told = sys::Updated::default();
        done((unsafe { sys::navd_registry_update(&mut self.handle, most, &mut told) }, 0)).map(|_| Updated {
            built: told.built,
            published: told.published != 0,
            pending: told.pending != 0,
            version: told.version,
        })
    }
}

impl Registry {
    /// The obstacles as bytes: their ids, numbers and shapes, which are on, the last id and the version.
    pub fn save(&mut self) -> Result<Vec<u8>, Error> {
        // SAFETY: as above.
        bytes_by(|bytes, room, length| unsafe { sys::navd_registry_save(&mut self.handle, bytes, room, length) })
    }

    /// Puts the obstacles that were saved in the place of all others; what is shown stays until an update.
    pub fn restore(&mut self, saved: &[u8]) -> Result<(), Error> {
        done((unsafe { sys::navd_registry_restore(&mut self.handle, saved.as_ptr(), saved.len()) }, 0)).map(|_| ())
    }
}

/// Asks for bytes until there is room for all of them.
pub(crate) fn bytes_by(mut call: impl FnMut(*mut u8, usize, *mut usize) -> u32) -> Result<Vec<u8>, Error> {
    let mut bytes = vec![0; 1024];
    loop {
        let mut length = 0;
        let status = call(bytes.as_mut_ptr(), bytes.len(), &mut length);
        bytes.resize(length, 0);
        if status != sys::NO_ROOM {
            return done((status, 0)).map(|_| bytes);
        }
    }
}

/// Asks for rows until there is room for all of them.
pub(crate) fn rows_by(mut call: impl FnMut(*mut sys::Row, usize, *mut usize) -> u32) -> Result<Vec<Row>, Error> {
    let mut rows = vec![sys::Row::default(); 16];
    loop {
        let mut count = 0;
        done((call(rows.as_mut_ptr(), rows.len(), &mut count), 0))?;
        if count <= rows.len() {
            let told = rows[..count].iter();
            return Ok(told
                .map(|it| Row { id: it.id, user: it.user, enabled: it.enabled != 0, area: it.solid.area, solid: Solid::of(&it.solid) })
                .collect());
        }
        rows.resize(count, sys::Row::default());
    }
}

impl View {
    /// A view of what a registry shows.
    pub fn of_registry(registry: &mut Registry) -> Result<View, Error> {
        let mut view = View { handle: sys::Handle { at: null_mut(), full: 0 } };
        view.look_at(registry).map(|_| view)
    }

    /// Shows what the registry shows now; its version.
    pub fn look_at(&mut self, registry: &mut Registry) -> Result<u64, Error> {
        let mut version = 0;
        // SAFETY: both handles are borrowed here alone.
        done((unsafe { sys::navd_registry_look(&mut self.handle, &mut registry.handle, &mut version) }, 0)).map(|_| version)
    }
}

impl Drop for Registry {
    fn drop(&mut self) {
        // SAFETY: the handle is this registry's; an empty one may be closed.
        unsafe { sys::navd_registry_close(&mut self.handle) }
    }
}
