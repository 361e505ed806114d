//! Generators of procedure files: built from trees, drawn at random, and spoilt.

pub mod aimed;
mod aimed_reads;
pub mod calls;
pub mod depth;
mod draw;
mod draw_stmt;
mod editions;
pub mod endless;
pub mod late;
pub mod lively;
mod lively_expr;
mod lively_stmt;
pub mod nested;
pub mod noise;
mod plan;
pub mod record;
pub mod rng;
pub mod shapes;
pub mod tree;
pub mod valid;

pub use plan::Names;
pub use record::File;
pub use tree::{file, Function};
