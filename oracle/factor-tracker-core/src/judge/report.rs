//! The report of a batch, over plain numbers. A cost is given by its bits.

use crate::tracker::{BatchReport3D, ObservationAssociation, ObservationOutcome};
use crate::types::TrackId;

#[derive(Clone, Debug, PartialEq, Eq)]
pub struct Report {
    pub timestamp: i64,
    pub sensor: u32,
    /// One for each detection, in order.
    pub associations: Vec<Association>,
    pub unmatched_track_ids: Vec<u64>,
}

#[derive(Clone, Debug, PartialEq, Eq)]
pub struct Association {
    pub outcome: ObservationOutcome,
    pub track_id: Option<u64>,
    pub cost: Option<u64>,
}

impl Report {
    pub(super) fn of(report: &BatchReport3D) -> Self {
        let unmatched = report.unmatched_track_ids.iter();
        Report {
            timestamp: report.timestamp.as_nanos(),
            sensor: report.sensor_id.value(),
            associations: report.associations.iter().map(Association::of).collect(),
            unmatched_track_ids: unmatched.map(|id| id.value()).collect(),
        }
    }
}

impl Association {
    /// The Rust leaves the sign of a zero distance open; the specification makes it +0, and so the cost.
    fn of(association: &ObservationAssociation) -> Self {
        let plain = |cost: f64| if cost == 0.0 { 0.0 } else { cost };
        Association {
            outcome: association.outcome,
            track_id: association.track_id.map(TrackId::value),
            cost: association.cost.map(|cost| plain(cost).to_bits()),
        }
    }
}
