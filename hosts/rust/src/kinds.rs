//! Kinds: levels of several kinds of agents over one ground, with one history.

use crate::{done, error_of, sys, Block, Columns, Counts, Cylinder, Disc, Error, Ground, Kind, Prism, Span, View};
use std::ptr::null_mut;

/// Levels of several kinds of agents, by their numbers from 0. A request is one entry of all of them, and what is published is shown in all or in none.
pub struct Kinds {
    pub(crate) handle: sys::Handle,
}

/// What a publish did.
#[derive(Clone, Copy, Debug, PartialEq, Eq)]
pub enum Publish {
    /// So many entries are published in all kinds.
    Done { entries: u32 },
    /// This tile of the least kind that has one is still awaited; nothing was done in any kind.
    NotYet { kind: u32, tile: u32 },
}

// SAFETY: the library's handles may go from thread to thread, which is proved of them; the borrows keep each in one call at a time.
unsafe impl Send for Kinds {}

impl Kinds {
    /// Opens kinds over spans, by z, then x, then from the bottom up. `costs` are 64 numbers by area, or none: each area costs 1.
    pub fn open(ground: &Ground, kinds: &[Kind], costs: &[u32], spans: &[Span]) -> Result<Kinds, Error> {
        let mut made = Kinds { handle: sys::Handle { at: null_mut(), full: 0 } };
        // SAFETY: the handle is zeroed and owned here, and all else are references and slices.
        let status = unsafe {
            sys::navd_kinds_open(
                &mut made.handle,
                ground,
                kinds.as_ptr(),
                kinds.len(),
                costs.as_ptr(),
                costs.len(),
                spans.as_ptr(),
                spans.len(),
            )
        };
        done((status, 0)).map(|_| made)
    }

    /// The status of a call, and the number that it told.
    fn number(&mut self, call: impl FnOnce(*mut sys::Handle, *mut u32) -> u32) -> (u32, u32) {
        let mut number = 0;
        (call(&mut self.handle, &mut number), number)
    }

    /// Adds an obstacle to all kinds; its number. With the area 0 it stops agents.
    pub fn add_block(&mut self, block: &Block, area: u32) -> Result<u32, Error> {
        // SAFETY: here and below, the handle is that of these kinds, which the borrow keeps from other calls, and all else are references.
        done(self.number(|kinds, entry| unsafe { sys::navd_kinds_add_block(kinds, block, area, entry) }))
    }

    /// Adds an obstacle to all kinds; its number.
    pub fn add_cylinder(&mut self, cylinder: &Cylinder, area: u32) -> Result<u32, Error> {
        done(self.number(|kinds, entry| unsafe { sys::navd_kinds_add_cylinder(kinds, cylinder, area, entry) }))
    }

    /// Adds an obstacle to all kinds; its number.
    pub fn add_prism(&mut self, prism: &Prism, area: u32) -> Result<u32, Error> {
        done(self.number(|kinds, entry| unsafe { sys::navd_kinds_add_prism(kinds, prism, area, entry) }))
    }

    /// Adds an obstacle to all kinds; its number.
    pub fn add_disc(&mut self, disc: &Disc, area: u32) -> Result<u32, Error> {
        done(self.number(|kinds, entry| unsafe { sys::navd_kinds_add_disc(kinds, disc, area, entry) }))
    }

    /// Removes an obstacle from all kinds; the number of the entry.
    pub fn remove(&mut self, number: u32) -> Result<u32, Error> {
        done(self.number(|kinds, entry| unsafe { sys::navd_kinds_remove(kinds, number, entry) }))
    }

    /// Builds and publishes all in all kinds; how many entries are published.
    pub fn settle(&mut self) -> Result<u32, Error> {
        done(self.number(|kinds, published| unsafe { sys::navd_kinds_settle(kinds, published) }))
    }

    /// How many entries the tiles of all kinds are built for from now on.
    pub fn aim(&mut self) -> Result<u32, Error> {
        done(self.number(|kinds, target| unsafe { sys::navd_kinds_aim(kinds, target) }))
    }

    /// The kind and the tile that was built, if one was awaited.
    pub fn step(&mut self) -> Result<Option<(u32, u32)>, Error> {
        let (mut kind, mut tile) = (0, 0);
        match unsafe { sys::navd_kinds_step(&mut self.handle, &mut kind, &mut tile) } {
            sys::SAME => Ok(None),
            status => done((status, 0)).map(|_| Some((kind, tile))),
        }
    }

    /// Publishes what was aimed at in all kinds, once no tile is awaited in any.
    pub fn publish(&mut self) -> Result<Publish, Error> {
        let (mut kind, mut number) = (0, 0);
        match unsafe { sys::navd_kinds_publish(&mut self.handle, &mut kind, &mut number) } {
            sys::OK | sys::SAME => Ok(Publish::Done { entries: number }),
            sys::NOT_YET => Ok(Publish::NotYet { kind, tile: number }),
            status => Err(error_of(status)),
        }
    }

    /// Begins the history again in all kinds: the numbers that the obstacles had, of which the n-th has the number n from then on.
    pub fn renew(&mut self) -> Result<Vec<u32>, Error> {
        let (mut numbers, mut count) = (vec![0; 1024], 0);
        match unsafe { sys::navd_kinds_renew(&mut self.handle, numbers.as_mut_ptr(), numbers.len(), &mut count) } {
            sys::NOT_YET => Err(Error::NotPublished),
            status => done((status, 0)).map(|_| {
                numbers.truncate(count);
                numbers
            }),
        }
    }

    /// Other spans stand in the columns of a rectangle, in the order of `open`, or none.
    pub fn change_ground(&mut self, columns: &Columns, spans: &[Span]) -> Result<(), Error> {
        match unsafe { sys::navd_kinds_change_ground(&mut self.handle, columns, spans.as_ptr(), spans.len()) } {
            sys::NOT_YET => Err(Error::NotPublished),
            status => done((status, 0)).map(|_| ()),
        }
    }

    /// The counts of a kind.
    pub fn counts(&mut self, kind: u32) -> Result<Counts, Error> {
        let mut counts = Counts::default();
        done((unsafe { sys::navd_kinds_count(&mut self.handle, kind, &mut counts) }, 0)).map(|_| counts)
    }
}

impl View {
    /// A view of what a kind shows.
    pub fn of_kind(kinds: &mut Kinds, kind: u32) -> Result<View, Error> {
        let mut view = View { handle: sys::Handle { at: null_mut(), full: 0 } };
        view.look_at_kind(kinds, kind).map(|_| view)
    }

    /// Shows what a kind shows now; how many entries that are.
    pub fn look_at_kind(&mut self, kinds: &mut Kinds, kind: u32) -> Result<u32, Error> {
        let mut published = 0;
        // SAFETY: both handles are borrowed here alone.
        done((unsafe { sys::navd_kinds_look(&mut self.handle, &mut kinds.handle, kind, &mut published) }, 0)).map(|_| published)
    }
}

impl Drop for Kinds {
    fn drop(&mut self) {
        // SAFETY: the handle is that of these kinds; an empty one may be closed.
        unsafe { sys::navd_kinds_close(&mut self.handle) }
    }
}
