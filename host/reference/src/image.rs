//! The image of a state in 16,384 words.

mod decode;
mod encode;

pub use decode::decode;
pub use encode::{encode, encode_into};

/// The words of an image.
pub const WORDS: usize = 16_384;

/// The first word of the activations, and the words of each.
pub const ACTIVATIONS: usize = 128;
pub const ACTIVATION: usize = 136;

/// The words of an activation before its variables.
pub const ACTIVATION_HEAD: usize = 8;

/// The first word of the frames, and the words of each.
pub const FRAMES: usize = 4_480;
pub const FRAME: usize = 20;

/// The words of a frame before its slots.
pub const FRAME_HEAD: usize = 4;

/// The room for activations, frames, a frame's slots and an activation's variables.
pub const MOST_ACTIVATIONS: usize = 32;
pub const MOST_FRAMES: usize = 512;
pub const MOST_SLOTS: usize = 7;
pub const MOST_VARIABLES: usize = 64;
