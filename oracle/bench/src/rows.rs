//! The list of rows. A row whose archive is not linked is not in it.

#[cfg(feature = "pikowhanu")]
mod assignment;
#[cfg(feature = "probe")]
mod filter;
#[cfg(feature = "pikowhanu")]
mod root;
#[cfg(feature = "tracker")]
mod tracker;

use crate::measure::{measure, Measured, Row};

/// A row as the table uses it.
pub struct Entry {
    pub name: &'static str,
    pub theirs: &'static str,
    pub measure: fn() -> Measured,
}

pub const ROWS: &[Entry] = &[
    #[cfg(feature = "pikowhanu")]
    entry::<root::Throughput>(),
    #[cfg(feature = "pikowhanu")]
    entry::<root::Latency>(),
    #[cfg(feature = "pikowhanu")]
    entry::<root::AnySize>(),
    #[cfg(feature = "probe")]
    entry::<filter::Distance>(),
    #[cfg(feature = "probe")]
    entry::<filter::Pairs>(),
    #[cfg(feature = "probe")]
    entry::<filter::Predict>(),
    #[cfg(feature = "probe")]
    entry::<filter::UpdatePosition>(),
    #[cfg(feature = "probe")]
    entry::<filter::UpdateVelocity>(),
    #[cfg(feature = "pikowhanu")]
    entry::<assignment::Tables<assignment::Dense8>>(),
    #[cfg(feature = "pikowhanu")]
    entry::<assignment::Tables<assignment::Dense32>>(),
    #[cfg(feature = "pikowhanu")]
    entry::<assignment::Tables<assignment::Dense64>>(),
    #[cfg(feature = "pikowhanu")]
    entry::<assignment::Tables<assignment::Fours8>>(),
    #[cfg(feature = "pikowhanu")]
    entry::<assignment::Tables<assignment::Fours32>>(),
    #[cfg(feature = "pikowhanu")]
    entry::<assignment::Tables<assignment::Fours64>>(),
    #[cfg(feature = "pikowhanu")]
    entry::<assignment::Tables<assignment::Crowd8>>(),
    #[cfg(feature = "pikowhanu")]
    entry::<assignment::Tables<assignment::Crowd32>>(),
    #[cfg(feature = "pikowhanu")]
    entry::<assignment::Tables<assignment::Crowd64>>(),
    #[cfg(feature = "pikowhanu")]
    entry::<assignment::Tables<assignment::Products8>>(),
    #[cfg(feature = "pikowhanu")]
    entry::<assignment::Tables<assignment::Products32>>(),
    #[cfg(feature = "pikowhanu")]
    entry::<assignment::Tables<assignment::Products64>>(),
    #[cfg(feature = "tracker")]
    entry::<tracker::Batches<tracker::Spread5>>(),
    #[cfg(feature = "tracker")]
    entry::<tracker::Batches<tracker::Spread10>>(),
    #[cfg(feature = "tracker")]
    entry::<tracker::Batches<tracker::Spread20>>(),
    #[cfg(feature = "tracker")]
    entry::<tracker::Batches<tracker::Spread64>>(),
    #[cfg(feature = "tracker")]
    entry::<tracker::Batches<tracker::Grid64>>(),
    #[cfg(feature = "tracker")]
    entry::<tracker::Batches<tracker::Cascade10>>(),
    #[cfg(feature = "tracker")]
    entry::<tracker::Batches<tracker::Cascade64>>(),
    #[cfg(feature = "tracker")]
    entry::<tracker::Batches<tracker::Births10>>(),
    #[cfg(feature = "tracker")]
    entry::<tracker::Batches<tracker::Births64>>(),
    #[cfg(feature = "tracker")]
    entry::<tracker::Batches<tracker::Velocity10>>(),
    #[cfg(feature = "tracker")]
    entry::<tracker::Batches<tracker::Velocity64>>(),
    #[cfg(feature = "tracker")]
    entry::<tracker::Batches<tracker::All10>>(),
    #[cfg(feature = "tracker")]
    entry::<tracker::Batches<tracker::All64>>(),
    #[cfg(feature = "tracker")]
    entry::<tracker::Batches<tracker::AllGrid64>>(),
    #[cfg(feature = "tracker")]
    entry::<tracker::Steps<tracker::Predict10>>(),
    #[cfg(feature = "tracker")]
    entry::<tracker::Steps<tracker::Predict64>>(),
    #[cfg(feature = "tracker")]
    entry::<tracker::Steps<tracker::Prior10>>(),
    #[cfg(feature = "tracker")]
    entry::<tracker::Steps<tracker::Prior64>>(),
    #[cfg(feature = "tracker")]
    entry::<tracker::Steps<tracker::Snapshots10>>(),
    #[cfg(feature = "tracker")]
    entry::<tracker::Steps<tracker::Snapshots64>>(),
];

/// What a reader must know of the rows.
pub const NOTES: &str = "\
root: of normal numbers from 2^-20 to 2^20, as the tracker has them; of any size: every exponent, 1 in 16 subnormal,
on which the machine is slower too. Ours is called through C, as any caller has it; the machine's is one scalar
instruction, inlined, as compiled Rust has it. Throughput takes each root on its own; latency makes each input wait
for the root before it.
filter: 64 random tracks with correlated covariances, each with a position and a velocity measured of it; ours through C, from filters lent
as two arrays, the Rust's on its own types, with F, Q and the velocity's H and R made for each call as its tracker makes them. The filter is
copied before each prediction and update. Distance per pair: every track with every position; ours does once for each track what is the
track's own and takes the position's covariance as checked, as a batch does, where the Rust does all for each pair.
assignment: 16 random tables of each side, ours through C, the Rust's linear_assignment over rows as it takes them. Dense: every
pair is within the gate; fours: each row has two or three finite costs, in groups of at most four; crowd: as many, anywhere; i x j: entry i times j.
tracker: a batch every tenth of a second on a floor where people walk about, 3 m apart or on a 1 m grid, each seen in each batch, all batches
accepted; ours through C from filled records, the Rust's process_batch_reported on its own types (it gives snapshots as well). Cascade: a window of
three batches; births: a second box beside one person, and one who is seen once, in each batch, six of the tracks being such ones; velocity: taken
with deviation 0.5. Tracks are read in place, where the Rust makes snapshots.";

const fn entry<R: Row>() -> Entry {
    Entry {
        name: R::NAME,
        theirs: R::THEIRS,
        measure: measure::<R>,
    }
}
