//! The commands of a bench file, and how long each is.

pub const LONGEST_FILE: usize = 65_536;

pub const GROUP: u8 = 1;
pub const VALUE: u8 = 2;
pub const CHECKS: u8 = 3;
pub const OWN: u8 = 4;
pub const END: u8 = 15;

/// What the last group command says. It need not be allowed: the lengths follow from it all the same.
#[derive(Clone, Copy)]
pub struct Settings {
    pub n: usize,
    pub t: usize,
    pub w: usize,
}

impl Settings {
    pub fn new(operand: &[u8]) -> Settings {
        let [n, t, w] = [0, 1, 2].map(|i| usize::from(operand[i]));
        Settings { n, t, w }
    }

    pub fn check_count(self) -> usize {
        2 * self.t
    }

    /// Whether there is a code for them.
    pub fn are_allowed(self) -> bool {
        (1..=32).contains(&self.n) && self.n > 3 * self.t && (1..=8).contains(&self.w)
    }
}

/// The whole length of a command. Before the first group only group and end have one.
pub fn length(command: u8, settings: Option<Settings>) -> Option<usize> {
    match (command, settings) {
        (GROUP, _) => Some(4),
        (END, _) => Some(1),
        (OWN, Some(settings)) => Some(2 + settings.w),
        (VALUE, Some(settings)) => Some(3 + settings.w),
        (CHECKS, Some(settings)) => Some(4 + settings.check_count() * settings.w),
        _ => None,
    }
}
