//! The worked files with their answers, and the sides that are asked.

pub mod case;
#[cfg(feature = "before")]
pub mod copies;
#[cfg(feature = "proved")]
mod linked;
pub mod machine;
pub mod random;
pub mod report;
#[cfg(feature = "machine")]
pub mod rooms;
#[cfg(all(feature = "machine", target_arch = "x86_64", target_os = "linux"))]
pub mod stack;
#[cfg(feature = "proved")]
pub mod starts;
pub mod worked;

#[cfg(feature = "proved")]
linked::linked! {
    /// The library of this tree.
    proved, ""
}

#[cfg(feature = "before")]
linked::linked! {
    /// The library of an earlier release.
    before, "before_"
}

/// What a check answers: none if the file is accepted.
pub type Answer = Option<reference::Refusal>;

/// A check under test.
#[derive(Clone, Copy)]
pub struct Side {
    pub name: &'static str,
    pub check: fn(&[u8]) -> Answer,
}

/// The words after the image that a test lends.
pub const TAIL: usize = 100;

/// Words that an earlier run might have left: none is zero, so that they are no image.
pub fn used(length: usize) -> Vec<u32> {
    (0..length as u32).map(|i| i.wrapping_mul(2_654_435_761) | 1).collect()
}

/// How many times as many random cases are drawn as in the gate: the whole number that PANELRUE_SCALE says, else 1.
pub fn scale() -> u64 {
    let asked = std::env::var("PANELRUE_SCALE").ok().and_then(|n| n.parse().ok());
    asked.unwrap_or(1).max(1)
}

/// The checks under test: the reference, the fast one, and the proved one where it is linked.
pub fn sides() -> Vec<Side> {
    vec![
        Side { name: "reference", check: reference::check },
        Side { name: "fast", check: reference::fast::check },
        #[cfg(feature = "proved")]
        Side { name: "proved", check: proved::check },
    ]
}
