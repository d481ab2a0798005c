//! Filters: the calls of a case, and its replies from the lines that answer them.

use cases::filter::{FilterCase, Step, StepReply};

use crate::Line;

/// Where a position and its covariance stand among the numbers that calls take.
const POSITION: usize = 42;

/// The numbers of a filter, and how many lines show them.
const NUMBERS: usize = 42;
const LINES: usize = 11;

/// How many lines answer a new filter.
pub const CREATED: usize = 1 + LINES;

/// The new filter, then the steps.
pub fn calls(case: &FilterCase) -> Vec<Line> {
    let mut calls = creation(&case.state, &case.covariance);
    calls.extend(case.steps.iter().flat_map(step));
    calls
}

/// The state and covariance, and a filter of them.
pub fn creation(state: &[f64; 6], covariance: &[[f64; 6]; 6]) -> Vec<Line> {
    let mut calls = loads(0, &[&state[..], covariance.as_flattened()].concat());
    calls.push(Line::of('K', 0));
    calls
}

/// A position and its covariance, for the calls after it.
pub fn measurement(z: &[f64; 3], r: &[[f64; 3]; 3]) -> Vec<Line> {
    loads(POSITION, &[&z[..], r.as_flattened()].concat())
}

fn step(step: &Step) -> Vec<Line> {
    let with_position = |letter, z: &[f64; 3], r: &[[f64; 3]; 3]| {
        let mut calls = measurement(z, r);
        calls.push(Line::of(letter, 0));
        calls
    };
    match step {
        Step::Predict { dt, q } => vec![Line::new('P', [dt.to_bits(), q.to_bits(), 0, 0])],
        Step::Velocity { z, std } => {
            let [x, y] = z.map(f64::to_bits);
            vec![Line::new('W', [x, y, std.to_bits(), 0])]
        }
        Step::Position { z, r } => with_position('U', z, r),
        Step::Distance { z, r } => with_position('D', z, r),
    }
}

/// Numbers into the places from the first on, three to a line.
pub fn loads(first: usize, numbers: &[f64]) -> Vec<Line> {
    let load = |(k, three): (usize, &[f64])| {
        let [a, b, c] = [0, 1, 2].map(|i| three[i].to_bits());
        Line::new('V', [(first + 3 * k) as u64, a, b, c])
    };
    numbers.chunks(3).enumerate().map(load).collect()
}

/// How many lines answer the calls.
pub fn answer_lines(case: &FilterCase) -> usize {
    let of_step = |step: &Step| match step {
        Step::Distance { .. } => 1,
        _ => 1 + LINES,
    };
    CREATED + case.steps.iter().map(of_step).sum::<usize>()
}

/// The replies, the new filter's first. A filter that is refused ends them.
pub fn replies(case: &FilterCase, lines: &[Line]) -> Vec<StepReply> {
    let (first, mut rest) = lines.split_at(CREATED);
    let new = after(first);
    if new.number != 0 {
        return vec![StepReply::none(new.number)];
    }
    let mut replies = vec![new];
    for step in &case.steps {
        let last = replies.last().expect("the new filter's reply").clone();
        let reply = match step {
            Step::Distance { .. } => {
                let (line, later) = rest.split_at(1);
                rest = later;
                distance(&line[0], last)
            }
            _ => {
                let (shown, later) = rest.split_at(1 + LINES);
                rest = later;
                after(shown)
            }
        };
        replies.push(reply);
    }
    replies
}

/// What a step answers and leaves.
fn after(lines: &[Line]) -> StepReply {
    let numbers: Vec<u64> = lines[1..].iter().flat_map(|line| line.numbers).collect();
    StepReply {
        number: lines[0].numbers[0] as u32,
        distance: None,
        state: numbers[..6].to_vec(),
        covariance: numbers[6..NUMBERS].to_vec(),
    }
}

/// A distance, which leaves the filter as it was.
fn distance(line: &Line, last: StepReply) -> StepReply {
    let [number, bits, ..] = line.numbers;
    StepReply {
        number: number as u32,
        distance: (number == 0).then_some(bits),
        ..last
    }
}

/// The lines that answer the oracle's replies. A filter that is refused is given back as it came, one NaN for all.
pub fn lines(case: &FilterCase, replies: &[StepReply]) -> Vec<Line> {
    if replies[0].number != 0 {
        return created(replies[0].number, &case.state, &case.covariance);
    }
    let steps = case.steps.iter().zip(&replies[1..]);
    let step = |(step, reply): (&Step, &StepReply)| match step {
        Step::Distance { .. } => {
            let bits = reply.distance.unwrap_or(0);
            vec![Line::new('E', [u64::from(reply.number), bits, 0, 0])]
        }
        _ => shown_reply(reply),
    };
    let first = shown_reply(&replies[0]);
    first.into_iter().chain(steps.flat_map(step)).collect()
}

/// The lines that answer a new filter, refused or not: it is shown as it came.
pub fn created(number: u32, state: &[f64; 6], covariance: &[[f64; 6]; 6]) -> Vec<Line> {
    let start = [&state[..], covariance.as_flattened()].concat();
    let bits: Vec<u64> = start.into_iter().map(bits_of).collect();
    shown(number, &bits)
}

fn bits_of(x: f64) -> u64 {
    match x.is_nan() {
        true => 0x7FF8_0000_0000_0000,
        false => x.to_bits(),
    }
}

fn shown_reply(reply: &StepReply) -> Vec<Line> {
    shown(
        reply.number,
        &[&reply.state[..], &reply.covariance[..]].concat(),
    )
}

fn shown(number: u32, bits: &[u64]) -> Vec<Line> {
    let at = |place: usize| bits.get(place).copied().unwrap_or(0);
    let line = |line: usize| Line::new('V', [0, 1, 2, 3].map(|place| at(4 * line + place)));
    let first = Line::of('F', u64::from(number));
    std::iter::once(first).chain((0..LINES).map(line)).collect()
}
