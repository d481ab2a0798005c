//! The filter's calls, as the crate `probe` exports them for measuring.

extern "C" {
    fn probe_predict(state: *mut f64, covariance: *mut f64, dt: f64, q: f64) -> u32;

    fn probe_update_position(
        state: *mut f64,
        covariance: *mut f64,
        z: *const f64,
        noise: *const f64,
    ) -> u32;

    fn probe_update_velocity(
        state: *mut f64,
        covariance: *mut f64,
        v: *const f64,
        std: f64,
    ) -> u32;

    fn probe_squared_mahalanobis(
        state: *const f64,
        covariance: *const f64,
        z: *const f64,
        noise: *const f64,
        out: *mut f64,
    ) -> u32;

    fn probe_expected_position(
        state: *const f64,
        covariance: *const f64,
        position: *mut f64,
        spread: *mut f64,
    );

    fn probe_distance_from(
        position: *const f64,
        spread: *const f64,
        z: *const f64,
        noise: *const f64,
        out: *mut f64,
    ) -> u32;
}

/// A state and its covariance, row after row.
#[derive(Clone)]
pub struct Filter {
    pub state: [f64; 6],
    pub covariance: [f64; 36],
}

/// A measured position and its covariance, row after row.
pub struct Position {
    pub z: [f64; 3],
    pub noise: [f64; 9],
}

/// Where a filter expects a position.
pub struct Expected {
    position: [f64; 3],
    spread: [f64; 9],
}

/// The answer of a call: 0, or the refusal's number.
fn answer<T>(number: u32, given: T) -> Result<T, u32> {
    match number {
        0 => Ok(given),
        _ => Err(number),
    }
}

impl Filter {
    #[inline]
    pub fn predict(&mut self, dt: f64, q: f64) -> Result<(), u32> {
        let Filter { state, covariance } = self;
        let number = unsafe { probe_predict(state.as_mut_ptr(), covariance.as_mut_ptr(), dt, q) };
        answer(number, ())
    }

    #[inline]
    pub fn update_position(&mut self, measured: &Position) -> Result<(), u32> {
        let Filter { state, covariance } = self;
        let number = unsafe {
            probe_update_position(
                state.as_mut_ptr(),
                covariance.as_mut_ptr(),
                measured.z.as_ptr(),
                measured.noise.as_ptr(),
            )
        };
        answer(number, ())
    }

    #[inline]
    pub fn update_velocity(&mut self, v: &[f64; 2], std: f64) -> Result<(), u32> {
        let Filter { state, covariance } = self;
        let number = unsafe {
            probe_update_velocity(state.as_mut_ptr(), covariance.as_mut_ptr(), v.as_ptr(), std)
        };
        answer(number, ())
    }

    #[inline]
    pub fn squared_mahalanobis(&self, measured: &Position) -> Result<f64, u32> {
        let mut distance = 0.0;
        let number = unsafe {
            probe_squared_mahalanobis(
                self.state.as_ptr(),
                self.covariance.as_ptr(),
                measured.z.as_ptr(),
                measured.noise.as_ptr(),
                &mut distance,
            )
        };
        answer(number, distance)
    }

    #[inline]
    pub fn expected_position(&self) -> Expected {
        let mut expected = Expected {
            position: [0.0; 3],
            spread: [0.0; 9],
        };
        unsafe {
            probe_expected_position(
                self.state.as_ptr(),
                self.covariance.as_ptr(),
                expected.position.as_mut_ptr(),
                expected.spread.as_mut_ptr(),
            )
        };
        expected
    }
}

impl Expected {
    /// For a measurement that passed its checks.
    #[inline]
    pub fn distance(&self, measured: &Position) -> Result<f64, u32> {
        let mut distance = 0.0;
        let number = unsafe {
            probe_distance_from(
                self.position.as_ptr(),
                self.spread.as_ptr(),
                measured.z.as_ptr(),
                measured.noise.as_ptr(),
                &mut distance,
            )
        };
        answer(number, distance)
    }
}
