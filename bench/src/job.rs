//! What is measured: a job that each side, or all but fitsrs, can do.

/// Who does a job.
#[derive(Clone, Copy, PartialEq, Debug)]
pub enum Side {
    Ours,
    Fitsrs,
    Cfitsio,
}

pub const SIDES: [Side; 3] = [Side::Ours, Side::Fitsrs, Side::Cfitsio];

impl Side {
    pub fn name(self) -> &'static str {
        match self {
            Side::Ours => "ours",
            Side::Fitsrs => "fitsrs",
            Side::Cfitsio => "cfitsio",
        }
    }

    pub fn named(name: &str) -> Option<Side> {
        SIDES.into_iter().find(|side| side.name() == name)
    }
}

/// A job, with its inputs made.
pub trait Job {
    /// The pixels, cards or calls of one run.
    fn units(&self) -> usize;

    /// The sides that can do it.
    fn sides(&self) -> &'static [Side] {
        &SIDES
    }

    /// Does the job once, and keeps what it came to.
    fn run(&mut self, side: Side);

    /// Holds what the sides came to, all of which have run, to each other; stops the program where they differ.
    fn check(&mut self);
}

/// How a job is made, and under which names it is told.
pub struct Spec {
    pub group: &'static str,
    pub name: String,
    /// What a unit is.
    pub unit: &'static str,
    pub make: Box<dyn Fn() -> Box<dyn Job>>,
}
