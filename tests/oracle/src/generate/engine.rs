//! What runs the lines of a script while it is made: the Rust, which keeps the script on the ground that it
//! shares with document 01, or the reading of document 01, which knows the whole ground.

use apfs::nx::Container;

use crate::compare::without_number;
use crate::reading::Reading;
use crate::session::Session;

#[derive(Clone)]
pub enum Engine {
    Rust(Session),
    Reading(Reading),
}

impl Engine {
    pub fn new(whole_ground: bool) -> Self {
        if whole_ground {
            return Engine::Reading(Reading::new());
        }
        let mut session = Session::new();
        session.watch = true;
        Engine::Rust(session)
    }

    /// The answer, its refusal without number.
    pub fn run(&mut self, line: &str) -> String {
        match self {
            Engine::Rust(s) => s.run(line).unwrap_or_default(),
            Engine::Reading(r) => without_number(&r.run(line).unwrap_or_default()),
        }
    }

    /// Why the last line lies off the common ground.
    pub fn parted(&self) -> Option<&'static str> {
        match self {
            Engine::Rust(s) => s.parted,
            Engine::Reading(_) => None,
        }
    }

    /// Takes back the last accepted lookup or edit.
    pub fn undo(&mut self) {
        if let Engine::Rust(s) = self {
            s.undo();
        }
    }

    pub fn disk(&self) -> Option<&Container> {
        match self {
            Engine::Rust(s) => s.disk.as_ref(),
            Engine::Reading(r) => r.ground.disk.as_ref(),
        }
    }

    pub fn map(&self) -> Option<u64> {
        match self {
            Engine::Rust(s) => s.map,
            Engine::Reading(r) => r.ground.map,
        }
    }

    /// Addresses that the last accepted flush wrote.
    pub fn written(&self) -> Vec<u64> {
        match self {
            Engine::Rust(s) => s.written.clone(),
            Engine::Reading(r) => r.written.clone(),
        }
    }
}
