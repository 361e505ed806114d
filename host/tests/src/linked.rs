//! A linked library's entry points behind their C interface: one text for every release, whose C functions begin with a prefix of its own.

#[cfg(feature = "machine")]
pub(crate) mod logs;
#[cfg(feature = "machine")]
pub(crate) mod machine;

use crate::Answer;

/// The answer of a number: 0 for an accepted call, else question + 256 × item + 65,536 × place.
pub(crate) fn answer(number: u64) -> Answer {
    match number {
        0 => None,
        n => Some((n as u8, (n >> 16) as u32, (n >> 8) as u32 & 0xFF)),
    }
}

/// A module of the entry points of the library whose C functions begin with this prefix.
macro_rules! linked {
    ($(#[$about:meta])* $module:ident, $prefix:literal) => {
        $(#[$about])*
        pub mod $module {
            use crate::linked::answer;
            use crate::Answer;

            extern "C" {
                /// 0 for an accepted file, else the packed refusal.
                #[link_name = concat!($prefix, "panelrue_check")]
                pub fn panelrue_check(file: *const u8, len: usize) -> u64;
                /// The same of a start, which writes the memory where it answers 0.
                #[link_name = concat!($prefix, "panelrue_start")]
                pub fn panelrue_start(
                    file: *const u8,
                    len: usize,
                    memory: *mut u32,
                    words: usize,
                ) -> u64;
            }

            /// The check's answer.
            pub fn check(file: &[u8]) -> Answer {
                // The pointer and the length are those of a slice that lives through the call.
                answer(unsafe { panelrue_check(file.as_ptr(), file.len()) })
            }

            /// The start's answer.
            pub fn start(file: &[u8], memory: &mut [u32]) -> Answer {
                // The pointers and lengths are those of slices that live through the call, and the memory is lent to it alone.
                answer(unsafe {
                    panelrue_start(file.as_ptr(), file.len(), memory.as_mut_ptr(), memory.len())
                })
            }

            #[cfg(feature = "machine")]
            crate::linked::machine::linked_machine!($module, $prefix);
            #[cfg(feature = "machine")]
            crate::linked::logs::linked_logs!($prefix);
        }
    };
}
pub(crate) use linked;
