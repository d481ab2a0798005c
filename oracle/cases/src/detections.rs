//! Detections beside one track: the check of each, the rule for its pair with the track, and what births ask of it.

use factor_tracker_core::judge::detections::{self, Detection, Prior, Rule, Verdict};
use factor_tracker_core::judge::filter::Filter;
use inputs::Random;
use trials::Case;

use crate::covariances::{covariance, Rows};
use crate::floats;
use crate::words::{self, Words};

/// Labels that calls of our program can carry.
pub const LABELS: u64 = (1 << 21) - 1;

#[derive(Clone, Debug)]
pub struct DetectionsCase {
    pub state: [f64; 6],
    pub covariance: Rows<6>,
    pub class: Option<u32>,
    pub prior: Option<Prior>,
    pub rule: Rule,
    pub threshold: f64,
    pub radius: f64,
    pub detections: Vec<Detection>,
}

/// What is answered for one detection.
#[derive(Clone, Copy, Debug, PartialEq)]
pub struct DetectionReply {
    /// 0, or the number of the check's refusal.
    pub check: u32,
    /// A detection that is refused is paired with nothing.
    pub verdict: Option<Verdict>,
    pub below: bool,
    /// From the track's position, by its bits, one NaN for all.
    pub distance: u64,
    pub nearer: bool,
}

impl DetectionsCase {
    /// A track with the variance 3 on each axis, at the origin, under the default gate.
    fn plain(detections: Vec<Detection>) -> Self {
        let mut covariance = [[0.0; 6]; 6];
        for (i, row) in covariance.iter_mut().enumerate() {
            row[i] = 3.0;
        }
        DetectionsCase {
            state: [0.0; 6],
            covariance,
            class: None,
            prior: None,
            rule: Rule {
                gate: 16.266,
                penalty: 8.0,
            },
            threshold: 0.3,
            radius: 0.5,
            detections,
        }
    }

    fn reply(&self, filter: &Filter, detection: &Detection) -> DetectionReply {
        let check = detections::check(detection);
        let verdict = || {
            let (class, prior) = (self.class, self.prior);
            detections::verdict(filter, class, prior, detection, self.rule)
        };
        let [x, y, z, ..] = self.state;
        let distance = detections::distance([x, y, z], detection.position);
        DetectionReply {
            check,
            verdict: (check == 0).then(verdict),
            below: detections::is_below(detection.score, self.threshold),
            distance: match distance.is_nan() {
                true => 0x7FF8_0000_0000_0000,
                false => distance.to_bits(),
            },
            nearer: distance < self.radius,
        }
    }
}

/// A detection with the variance 1 on each axis.
fn at(x: f64, y: f64, z: f64) -> Detection {
    Detection {
        position: [x, y, z],
        covariance: [[1.0, 0.0, 0.0], [0.0, 1.0, 0.0], [0.0, 0.0, 1.0]],
        velocity: None,
        class: None,
        score: None,
    }
}

/// A number that is not finite in each place in turn, and covariances that fail each check.
fn checks() -> Vec<DetectionsCase> {
    let mut found = Vec::new();
    for bad in [f64::NAN, f64::INFINITY, f64::NEG_INFINITY] {
        let mut spoilt = Vec::new();
        for i in 0..14 {
            let mut detection = at(1.0, 2.0, 3.0);
            let mut velocity = [0.5, -0.5];
            match i {
                0..=2 => detection.position[i] = bad,
                3 | 4 => velocity[i - 3] = bad,
                _ => detection.covariance[(i - 5) / 3][(i - 5) % 3] = bad,
            }
            detection.velocity = Some(velocity);
            spoilt.push(detection);
        }
        found.push(DetectionsCase::plain(spoilt));
    }
    let entries = [
        (0, 1, 1e-9),
        (1, 0, 2e-9),
        (2, 1, 0.5),
        (1, 1, 0.0),
        (2, 2, -0.0),
        (0, 0, -1.0),
        (0, 2, -0.0),
        (0, 0, f64::MAX),
    ];
    let with = |(i, j, x): (usize, usize, f64)| {
        let mut detection = at(-0.0, 0.0, -0.0);
        detection.covariance[i][j] = x;
        detection
    };
    let mut both = with((2, 1, 0.5));
    both.velocity = Some([f64::NAN, 0.0]);
    let last = entries.into_iter().map(with).chain([both]);
    found.push(DetectionsCase::plain(last.collect()));
    found
}

/// Every way in which a track's class, its prior and a detection's class are absent, agree or differ.
fn classes() -> Vec<DetectionsCase> {
    let labels = [None, Some(0), Some(1), Some(LABELS as u32 - 1)];
    let seen = labels.map(|class| Detection {
        class,
        ..at(1.0, 0.0, 0.0)
    });
    let mut found = Vec::new();
    for class in labels {
        for label in labels {
            let confidence = 0.25;
            found.push(DetectionsCase {
                class,
                prior: label.map(|label| Prior { label, confidence }),
                ..DetectionsCase::plain(seen.to_vec())
            });
        }
    }
    found
}

/// With P 3 and R 1 the innovation 2 gives the squared distance 1: at most the gate, and past one that is a double less. Then costs that the penalty
/// makes infinite, and distances that are refused.
fn edges() -> Vec<DetectionsCase> {
    let with = |gate: f64, penalty: f64, detections: Vec<Detection>| DetectionsCase {
        rule: Rule { gate, penalty },
        prior: Some(Prior {
            label: 1,
            confidence: 1.0,
        }),
        ..DetectionsCase::plain(detections)
    };
    let known = |x: f64, class: u32| Detection {
        class: Some(class),
        ..at(x, 0.0, 0.0)
    };
    let met = vec![at(2.0, 0.0, 0.0), at(0.0, 2.0, 0.0), at(0.0, 0.0, -2.0)];
    let large = vec![
        known(2e150, 2),
        known(2e150, 1),
        known(2.0, 2),
        known(1e200, 1),
    ];
    vec![
        with(1.0, 8.0, met.clone()),
        with(1.0_f64.next_down(), 8.0, met),
        with(f64::MAX, f64::MAX, large),
        infinite_sum(),
    ]
}

/// A track and a detection whose covariances are good and whose sum overflows off the diagonal.
fn infinite_sum() -> DetectionsCase {
    let mut case = DetectionsCase::plain(vec![at(1.0, 0.0, 0.0)]);
    for (i, j) in [(0, 1), (1, 0)] {
        case.covariance[i][j] = 0.95e308;
        case.detections[0].covariance[i][j] = 0.95e308;
    }
    for i in 0..2 {
        case.covariance[i][i] = 1.2e308;
        case.detections[0].covariance[i][i] = 1.2e308;
    }
    case
}

fn label(random: &mut Random) -> u32 {
    match random.below(16) {
        0 => random.below(LABELS) as u32,
        _ => random.below(3) as u32,
    }
}

fn optional<T>(random: &mut Random, item: impl Fn(&mut Random) -> T) -> Option<T> {
    (random.below(3) > 0).then(|| item(random))
}

fn place(random: &mut Random) -> f64 {
    match random.below(64) {
        0 => floats::edge(random),
        1 => floats::within(random, 1e300),
        _ => floats::within(random, 4.0),
    }
}

fn detection(random: &mut Random) -> Detection {
    Detection {
        position: std::array::from_fn(|_| place(random)),
        covariance: covariance(random),
        velocity: optional(random, |random| [place(random), place(random)]),
        class: optional(random, label),
        score: optional(random, unit_or_edge),
    }
}

fn unit_or_edge(random: &mut Random) -> f64 {
    match random.below(8) {
        0 => floats::edge(random),
        _ => floats::unit(random),
    }
}

/// A gate that settings accept: often a distance itself, or a double beside it.
fn gate(random: &mut Random, distance: Option<f64>) -> f64 {
    let near = |distance: f64, draw: u64| match draw {
        0 => distance,
        1 => distance.next_down(),
        _ => distance.next_up(),
    };
    let beside = distance.map(|distance| near(distance, random.below(3)));
    match random.below(4) {
        0 => floats::positive(random, 4),
        1 => 16.266,
        _ => beside
            .filter(|gate| *gate > 0.0 && gate.is_finite())
            .unwrap_or(f64::MAX),
    }
}

fn prior(random: &mut Random) -> Prior {
    Prior {
        label: label(random),
        confidence: floats::unit(random),
    }
}

fn parse_label(words: &mut Words) -> Option<u32> {
    words.whole().filter(|label| u64::from(*label) < LABELS)
}

fn print_detection(detection: &Detection) -> String {
    let numbers = [&detection.position[..], detection.covariance.as_flattened()].concat();
    format!(
        " {} {} {} {}",
        words::floats(&numbers),
        words::optional(detection.velocity, |velocity| words::floats(&velocity)),
        words::optional(detection.class, |label| label.to_string()),
        words::optional(detection.score, words::float),
    )
}

fn parse_detection(words: &mut Words) -> Option<Detection> {
    Some(Detection {
        position: words.floats()?,
        covariance: words.rows()?,
        velocity: words.optional(Words::floats)?,
        class: words.optional(parse_label)?,
        score: words.optional(Words::float)?,
    })
}

fn parse_prior(words: &mut Words) -> Option<Prior> {
    Some(Prior {
        label: parse_label(words)?,
        confidence: words.float()?,
    })
}

impl Case for DetectionsCase {
    /// The number of the refusal where the track's filter can't be.
    type Reply = Result<Vec<DetectionReply>, u32>;

    fn fixed() -> Vec<Self> {
        let all = [checks(), classes(), edges()];
        all.into_iter().flatten().collect()
    }

    fn random(random: &mut Random) -> Self {
        let count = 1 + random.below(6);
        let mut case = DetectionsCase {
            state: std::array::from_fn(|_| place(random)),
            covariance: covariance(random),
            class: optional(random, label),
            prior: optional(random, prior),
            detections: (0..count).map(|_| detection(random)).collect(),
            threshold: unit_or_edge(random),
            radius: floats::positive(random, 4),
            ..DetectionsCase::plain(Vec::new())
        };
        let first = &case.detections[0];
        let distance = Filter::new(case.state, case.covariance)
            .and_then(|filter| filter.squared_distance(first.position, first.covariance));
        case.rule = Rule {
            gate: gate(random, distance.ok()),
            penalty: [0.0, 8.0, floats::positive(random, 4), f64::MAX][random.below(4) as usize],
        };
        case
    }

    fn judged(&self) -> Self::Reply {
        let filter = Filter::new(self.state, self.covariance)?;
        let reply = |detection| self.reply(&filter, detection);
        Ok(self.detections.iter().map(reply).collect())
    }

    fn smaller(&self) -> impl Iterator<Item = Self> {
        let with = |detections| DetectionsCase {
            detections,
            ..self.clone()
        };
        let shorter = words::shorter(&self.detections).map(with);
        shorter.chain(words::with_smaller_numbers(self))
    }

    fn print(&self) -> String {
        let numbers = [&self.state[..], self.covariance.as_flattened()].concat();
        let prior = |prior: Prior| format!("{} {}", prior.label, words::float(prior.confidence));
        let Rule { gate, penalty } = self.rule;
        format!(
            "{} {} {} {}{}",
            words::floats(&numbers),
            words::optional(self.class, |label| label.to_string()),
            words::optional(self.prior, prior),
            words::floats(&[gate, penalty, self.threshold, self.radius]),
            self.detections
                .iter()
                .map(print_detection)
                .collect::<String>(),
        )
    }

    fn parse(words: &[String]) -> Option<Self> {
        let mut words = Words::new(words);
        let (state, covariance) = (words.floats()?, words.rows()?);
        let class = words.optional(parse_label)?;
        let prior = words.optional(parse_prior)?;
        let [gate, penalty, threshold, radius] = words.floats()?;
        Some(DetectionsCase {
            state,
            covariance,
            class,
            prior,
            rule: Rule { gate, penalty },
            threshold,
            radius,
            detections: words.all(parse_detection)?,
        })
    }

    fn told_apart(ours: &Self::Reply, theirs: &Self::Reply) -> String {
        match (ours, theirs) {
            (Ok(ours), Ok(theirs)) => words::first_difference(ours, theirs),
            _ => format!("ours   {ours:?}\noracle {theirs:?}"),
        }
    }
}
