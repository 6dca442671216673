//! Crowds of agents, on what a view shows.

use crate::{done, sys, Agent, Crowd, Error, Fine, Link, Point, View};

/// Where an agent that enters a crowd stands.
#[derive(Clone, Copy, Debug, PartialEq, Eq)]
pub enum Entered {
    /// It overlaps none of the others.
    Free,
    /// It overlaps one of them. It may enter all the same, and then comes no nearer to that one.
    Overlaps,
    /// No polygon holds it.
    NoStart,
}

impl View {
    /// One step of a crowd, each agent by its `wish`; who has less `left` goes before others.
    pub fn crowd_step(&mut self, rules: Crowd, agents: &mut [Agent]) -> Result<(), Error> {
        // SAFETY: here and below, the handle is this view's, and the arrays are those of slices.
        let status = unsafe { sys::navd_view_crowd_step(&mut self.handle, &rules, agents.as_mut_ptr(), agents.len()) };
        done((status, 0)).map(|_| ())
    }

    /// Lets agents that waited for 3 seconds be slim, with a quarter of their full radius, and those that go and have room of their full size.
    pub fn crowd_slim(&mut self, rules: Crowd, agents: &mut [Agent]) -> Result<(), Error> {
        let status = unsafe { sys::navd_view_crowd_slim(&mut self.handle, &rules, agents.as_mut_ptr(), agents.len()) };
        done((status, 0)).map(|_| ())
    }

    /// One step of a crowd with wishes of the host's own: agent i is granted the first of the moves from `first[i]` to before `first[i + 1]` that is free;
    /// who stands earlier in `order` goes before others. `first` has one number more than there are agents.
    pub fn crowd_grant(&mut self, rules: Crowd, agents: &mut [Agent], order: &[u32], first: &[usize], moves: &[Fine]) -> Result<(), Error> {
        let status = unsafe {
            sys::navd_view_crowd_grant(
                &mut self.handle, &rules, agents.as_mut_ptr(), agents.len(), order.as_ptr(), order.len(), first.as_ptr(), first.len(), moves.as_ptr(),
                moves.len(),
            )
        };
        done((status, 0)).map(|_| ())
    }

    /// Whether an agent with its middle at `agent.at`, at a height, overlaps none of some others; where it stands is told in the agent.
    pub fn crowd_enter(&mut self, agents: &[Agent], agent: &mut Agent, y: u32) -> Result<Entered, Error> {
        let status = unsafe { sys::navd_view_crowd_enter(&mut self.handle, agents.as_ptr(), agents.len(), agent, y) };
        match status {
            sys::OVERLAPS => Ok(Entered::Overlaps),
            sys::NO_START => Ok(Entered::NoStart),
            _ => done((status, 0)).map(|_| Entered::Free),
        }
    }

    /// Where a kept path leads an agent: its `wish` and how much is `left`; so many links as `link` says are then behind it. False: its polygon is none of
    /// those near on the path, and a way is to be looked for anew.
    pub fn lead(&mut self, agent: &mut Agent, goal: Point, links: &[Link], link: &mut usize) -> Result<bool, Error> {
        let status = unsafe { sys::navd_view_lead(&mut self.handle, agent, &goal, links.as_ptr(), links.len(), link) };
        match status {
            sys::CUT => Ok(false),
            _ => done((status, 0)).map(|_| true),
        }
    }
}
