//! The error types over the stand-in derive: texts, conversions and the `Error` trait.

use factor_tracker_core::error::{InputError, NumericError, TrackerError};
use factor_tracker_core::types::SensorId;

#[test]
fn texts_name_their_fields() {
    let duplicate = InputError::DuplicateBatch {
        sensor: SensorId::new(3),
        received: 4,
        last_seen: 5,
    };
    let text = "duplicate or out-of-order batch for sensor 3: received sequence 4, last seen 5";
    assert_eq!(duplicate.to_string(), text);
    assert_eq!(
        InputError::TimestampOverflow.to_string(),
        "timestamp difference overflowed i64 nanoseconds"
    );
}

#[test]
fn conversions_keep_the_kind() {
    let context = "a test";
    let input = TrackerError::from(InputError::NonFiniteValue { context });
    let numeric = TrackerError::from(NumericError::NonFiniteResult { context });
    assert!(input.is_input_error() && !input.is_numeric_error());
    assert!(numeric.is_numeric_error() && !numeric.is_input_error());
    let shown: &dyn std::error::Error = &input;
    assert_eq!(shown.to_string(), "non-finite value in a test");
}
