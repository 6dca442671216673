//! Jobs: tiles that any thread builds beside whoever changes the level, the registry that the level went over into, or kinds.

use crate::{done, error_of, sys, Error, Kinds, Level, Registry};
use std::ptr::null_mut;

/// A tile that was claimed of a level, a registry or kinds. A job that is dropped leaves its tile claimed, until a level is settled or all claims are ended.
pub struct Job {
    handle: sys::Handle,
    tile: u32,
}

// SAFETY: the library's handles may go from thread to thread, which is proved of them.
unsafe impl Send for Job {}

impl Level {
    /// Claims the least tile that is awaited and not claimed, if there is one.
    pub fn claim(&mut self) -> Result<Option<Job>, Error> {
        // SAFETY: here and below, the level's handle is borrowed here alone.
        claim_by(|job, tile| unsafe { sys::navd_claim(&mut self.handle, job, tile) })
    }

    /// Hands a job in that is built: whether it was still wanted. A job that cannot be handed in comes back.
    pub fn submit(&mut self, job: Job) -> Result<bool, (Error, Job)> {
        submit_by(job, |job| unsafe { sys::navd_submit(&mut self.handle, job) })
    }

    /// Puts a job back, built or not. A job of another ground comes back.
    pub fn put_back(&mut self, job: Job) -> Result<(), (Error, Job)> {
        put_back_by(job, |job| unsafe { sys::navd_put_back(&mut self.handle, job) })
    }

    /// Ends all claims.
    pub fn put_back_all(&mut self) {
        unsafe { sys::navd_put_back_all(&mut self.handle) };
    }
}

/// As those of a level; what is handed in is shown by an update.
impl Registry {
    pub fn claim(&mut self) -> Result<Option<Job>, Error> {
        // SAFETY: here and below, the registry's handle is borrowed here alone.
        claim_by(|job, tile| unsafe { sys::navd_registry_claim(&mut self.handle, job, tile) })
    }

    pub fn submit(&mut self, job: Job) -> Result<bool, (Error, Job)> {
        submit_by(job, |job| unsafe { sys::navd_registry_submit(&mut self.handle, job) })
    }

    pub fn put_back(&mut self, job: Job) -> Result<(), (Error, Job)> {
        put_back_by(job, |job| unsafe { sys::navd_registry_put_back(&mut self.handle, job) })
    }

    pub fn put_back_all(&mut self) {
        unsafe { sys::navd_registry_put_back_all(&mut self.handle) };
    }
}

/// As those of a level, with the kind.
impl Kinds {
    /// The kind, and the job that is handed in or put back to it.
    pub fn claim(&mut self) -> Result<Option<(u32, Job)>, Error> {
        let mut kind = 0;
        // SAFETY: here and below, the handle of the kinds is borrowed here alone.
        let claimed = claim_by(|job, tile| unsafe { sys::navd_kinds_claim(&mut self.handle, job, &mut kind, tile) })?;
        Ok(claimed.map(|job| (kind, job)))
    }

    pub fn submit(&mut self, kind: u32, job: Job) -> Result<bool, (Error, Job)> {
        submit_by(job, |job| unsafe { sys::navd_kinds_submit(&mut self.handle, kind, job) })
    }

    pub fn put_back(&mut self, kind: u32, job: Job) -> Result<(), (Error, Job)> {
        put_back_by(job, |job| unsafe { sys::navd_kinds_put_back(&mut self.handle, kind, job) })
    }

    pub fn put_back_all(&mut self) {
        unsafe { sys::navd_kinds_put_back_all(&mut self.handle) };
    }
}

fn claim_by(call: impl FnOnce(*mut sys::Handle, *mut u32) -> u32) -> Result<Option<Job>, Error> {
    let mut job = Job { handle: sys::Handle { at: null_mut(), full: 0 }, tile: 0 };
    match call(&mut job.handle, &mut job.tile) {
        sys::SAME => Ok(None),
        status => done((status, 0)).map(|_| Some(job)),
    }
}

fn submit_by(mut job: Job, call: impl FnOnce(*mut sys::Handle) -> u32) -> Result<bool, (Error, Job)> {
    match call(&mut job.handle) {
        sys::OK => Ok(true),
        sys::STALE => Ok(false),
        sys::NOT_YET => Err((Error::NotBuilt, job)),
        status => Err((error_of(status), job)),
    }
}

fn put_back_by(mut job: Job, call: impl FnOnce(*mut sys::Handle) -> u32) -> Result<(), (Error, Job)> {
    match call(&mut job.handle) {
        sys::OK => Ok(()),
        status => Err((error_of(status), job)),
    }
}

impl Job {
    /// The tile.
    pub fn tile(&self) -> u32 {
        self.tile
    }

    /// Builds the tile, if it is not built.
    pub fn build(&mut self) -> Result<(), Error> {
        // SAFETY: the handle is this job's, which the borrow keeps from other calls.
        match unsafe { sys::navd_build(&mut self.handle) } {
            sys::SAME => Ok(()),
            status => done((status, 0)).map(|_| ()),
        }
    }
}

impl Drop for Job {
    fn drop(&mut self) {
        // SAFETY: the handle is this job's; an empty one may be closed.
        unsafe { sys::navd_job_close(&mut self.handle) }
    }
}
