//! The specification's number for each error of the Rust.

use crate::error::{InputError, NumericError, TrackerError};

pub fn of(error: &TrackerError) -> u32 {
    match error {
        TrackerError::Input(error) => of_input(error),
        TrackerError::Numeric(error) => of_numeric(error),
    }
}

fn of_input(error: &InputError) -> u32 {
    match error {
        InputError::InvalidConfig { .. } => 1,
        InputError::FrameMismatch { .. } => 2,
        InputError::TimestampWentBackwards { .. } => 3,
        InputError::DuplicateBatch { .. } => 4,
        InputError::NonFiniteValue { .. } => 5,
        InputError::InvalidCovariance { .. } => 6,
        InputError::TimestampOverflow => 8,
        InputError::InvalidBBox { .. }
        | InputError::InvalidRotation { .. }
        | InputError::InconsistentObservation { .. }
        | InputError::InvalidScore { .. } => panic!("the 3D tracker does not give {error}"),
    }
}

pub fn of_numeric(error: &NumericError) -> u32 {
    match error {
        NumericError::NotPositiveDefinite { .. } => 7,
        NumericError::NonFiniteResult { .. } => 9,
        NumericError::AssignmentFailed => 10,
        NumericError::SolveFailed { .. } => panic!("the 3D tracker does not give {error}"),
    }
}

/// Where the Rust stopped, in its own words where it has some.
pub fn place(error: &TrackerError) -> &'static str {
    match error {
        TrackerError::Input(
            InputError::NonFiniteValue { context } | InputError::InvalidCovariance { context, .. },
        )
        | TrackerError::Numeric(
            NumericError::NotPositiveDefinite { context }
            | NumericError::NonFiniteResult { context },
        ) => context,
        TrackerError::Input(InputError::FrameMismatch { .. }) => "frame",
        TrackerError::Input(InputError::TimestampWentBackwards { .. }) => "time",
        TrackerError::Input(InputError::DuplicateBatch { .. }) => "sequence",
        TrackerError::Input(InputError::TimestampOverflow) => "time difference",
        TrackerError::Numeric(NumericError::AssignmentFailed) => "assignment",
        _ => panic!("the 3D tracker does not give {error}"),
    }
}
