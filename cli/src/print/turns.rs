//! When transitions were learned, where that is asked for.
use ropeclover::listing::Transition;
use ropeclover::Workspace;

/// The turns that a workspace's memory holds, or none to be shown.
#[derive(Clone, Copy)]
pub struct Turns<'a>(Option<&'a Workspace>);

impl<'a> Turns<'a> {
    pub fn new(memory: &'a Workspace, shown: bool) -> Turns<'a> {
        Turns(shown.then_some(memory))
    }

    /// The turn of a transition, where turns are shown.
    pub fn of(self, transition: Transition) -> Option<u16> {
        self.0.map(|memory| memory.turn(transition))
    }

    /// What stands behind a transition's text: a separator and its turn, or nothing.
    pub fn after(self, separator: char, transition: Transition) -> String {
        self.of(transition).map_or_else(String::new, |turn| format!("{separator}turn {turn}"))
    }
}
