//! Names of the 2D tracker, which is not among the published files: `tracker/mod.rs` gives them on.

pub struct BBox2DTracker;
pub struct BBox2DTrackerConfig;
pub struct Track2DSnapshot;
