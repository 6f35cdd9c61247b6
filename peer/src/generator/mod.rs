//! Seeded runs of calls for the vector files and for comparing two
//! implementations. Nothing here is used by the entry points.

pub mod broken_calls;
pub mod coverage;
pub mod driver;
pub mod encode;
pub mod lane;
pub mod mounts;
pub mod old_images;
pub mod padding;
pub mod places;
pub mod random;
pub mod random_runs;
pub mod recorder;
pub mod rules;
pub mod scripts;
pub mod searches;
pub mod vector_file;
pub mod view;
