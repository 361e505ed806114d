//! Both releases in four copies each: a step's time also depends on where the linker puts the code, so that one copy alone tells little.

use crate::linked::linked;
use crate::machine::Entries;
use crate::{before, proved};

linked! {
    /// The second copy of the library of this tree.
    second, "second_"
}
linked! {
    /// The third copy of the library of this tree.
    third, "third_"
}
linked! {
    /// The fourth copy of the library of this tree.
    fourth, "fourth_"
}
linked! {
    /// The second copy of the earlier release.
    before_second, "before_second_"
}
linked! {
    /// The third copy of the earlier release.
    before_third, "before_third_"
}
linked! {
    /// The fourth copy of the earlier release.
    before_fourth, "before_fourth_"
}

/// The copies of the earlier release.
pub const BEFORE: [Entries; 4] =
    [before::ENTRIES, before_second::ENTRIES, before_third::ENTRIES, before_fourth::ENTRIES];

/// The copies of the library of this tree.
pub const NOW: [Entries; 4] = [proved::ENTRIES, second::ENTRIES, third::ENTRIES, fourth::ENTRIES];
