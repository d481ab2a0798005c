//! What holds of every kind of case, and how far the random ones reach.

use std::collections::BTreeSet;

use factor_tracker_core::judge::detections::{self, Verdict};
use inputs::Random;
use trials::Case;

use crate::assignment::AssignmentCase;
use crate::calls::{Answer, CallsCase};
use crate::detections::DetectionsCase;
use crate::far::FarCase;
use crate::filter::FilterCase;
use crate::least::LeastCase;
use crate::lifecycle::LifecycleCase;
use crate::line::LineCase;
use crate::root::Root;
use crate::settings::SettingsCase;

fn some<C: Case>(count: usize) -> Vec<C> {
    let mut random = Random::new(1);
    let fixed = C::fixed().into_iter().take(count);
    fixed
        .chain((0..count).map(|_| C::random(&mut random)))
        .collect()
}

fn words(text: &str) -> Vec<String> {
    text.split_whitespace().map(str::to_string).collect()
}

/// A case read back from its words is the same case, and every chain of smaller ones ends.
fn sound<C: Case>() {
    for case in some::<C>(60) {
        let read = C::parse(&words(&case.print())).expect("a printed case is read");
        assert_eq!(read.print(), case.print());
        assert!(read.judged() == case.judged());
        ends(case);
    }
}

/// Follows the boldest of the smaller cases to the end.
fn ends<C: Case>(mut case: C) {
    for _ in 0..100_000 {
        let next = case.smaller().next();
        match next {
            Some(smaller) => case = smaller,
            None => return,
        }
    }
    panic!("{} can be made smaller for ever", case.print());
}

#[test]
fn cases_are_read_back_and_shrink() {
    sound::<Root>();
    sound::<LifecycleCase>();
    sound::<SettingsCase>();
    sound::<AssignmentCase>();
    sound::<LeastCase>();
    sound::<FilterCase>();
    sound::<DetectionsCase>();
    sound::<LineCase>();
}

#[test]
fn calls_are_read_back_and_shrink() {
    sound::<CallsCase>();
    sound::<FarCase<false>>();
}

/// Asserts that each of the wanted numbers was met.
fn met(found: BTreeSet<u32>, wanted: impl IntoIterator<Item = u32>) {
    let missing: Vec<u32> = wanted
        .into_iter()
        .filter(|number| !found.contains(number))
        .collect();
    assert!(missing.is_empty(), "never met: {missing:?}");
}

#[test]
fn settings_meet_every_field() {
    let replies = some::<SettingsCase>(20_000)
        .into_iter()
        .map(|case| case.judged());
    met(replies.map(|field| field.unwrap_or(0)).collect(), 0..=17);
}

#[test]
fn tables_meet_every_refusal() {
    let replies = some::<AssignmentCase>(5_000)
        .into_iter()
        .map(|case| case.judged());
    met(
        replies
            .map(|reply| reply.given.err().unwrap_or(0))
            .collect(),
        [0, 9, 10, 11],
    );
}

/// Outside the range that is proved, the Rust may give a forbidden pair.
#[test]
fn tables_meet_a_forbidden_pair_given() {
    let given = |case: &AssignmentCase| {
        let given = case.judged().given;
        let pairs = given.map(|given| given.pairs).unwrap_or_default();
        let cost = |(i, j): (usize, usize)| case.0.costs[i * case.0.columns + j];
        pairs.into_iter().any(|pair| !cost(pair).is_finite())
    };
    assert!(some::<AssignmentCase>(5_000).iter().any(given));
}

#[test]
fn filters_meet_every_refusal() {
    let replies = some::<FilterCase>(20_000)
        .into_iter()
        .flat_map(|case| case.judged());
    met(replies.map(|reply| reply.number).collect(), [0, 5, 6, 7, 9]);
}

#[test]
fn detections_meet_every_check_and_rule() {
    let replies: Vec<_> = some::<DetectionsCase>(20_000)
        .into_iter()
        .filter_map(|case| case.judged().ok())
        .flatten()
        .collect();
    met(
        replies.iter().map(|reply| reply.check).collect(),
        [0, 5, 6, 7],
    );
    let number = |verdict: Verdict| match verdict {
        Verdict::Allowed(_) => 0,
        Verdict::ClassesForbid => 1,
        Verdict::GateForbids => 2,
        Verdict::CostForbids => 3,
        Verdict::Refused(number) => number,
    };
    let verdicts = replies.iter().filter_map(|reply| reply.verdict);
    met(verdicts.map(number).collect(), [0, 1, 2, 3, 7, 9]);
}

/// The rule that the judge writes out is the one inside the Rust's batch call: a pair is made at its cost where that is at most the gate, which is what a row
/// alone costs, and else no track is updated.
#[test]
fn a_batch_keeps_the_rule_for_a_pair() {
    let mut made = 0;
    for case in some::<DetectionsCase>(20_000) {
        let [first, second, ..] = case.detections[..] else {
            continue;
        };
        let Ok(mut filter) = detections::begun(&first) else {
            continue;
        };
        if detections::check(&first) != 0 || detections::check(&second) != 0 {
            continue;
        }
        let verdict = detections::verdict(&filter, first.class, case.prior, &second, case.rule);
        let expected = match verdict {
            Verdict::Refused(number) => Err(number),
            Verdict::Allowed(cost) if cost <= case.rule.gate => filter
                .update_position(second.position, second.covariance)
                .map(|()| Some(cost)),
            _ => Ok(None),
        };
        let by_batch = detections::by_batch(&first, case.prior, &second, case.rule);
        assert_eq!(by_batch, expected, "{}", case.print());
        made += usize::from(matches!(expected, Ok(Some(_))));
    }
    assert!(made > 1_000, "only {made} pairs were made");
}

#[test]
fn the_gate_is_met_at_its_edge() {
    let verdicts = |gate: f64| {
        let at_gate = |case: &DetectionsCase| case.rule.gate == gate;
        let case = DetectionsCase::fixed().into_iter().find(at_gate);
        let replies = case.expect("a worked case").judged().expect("a track");
        let verdicts = replies.into_iter().map(|reply| reply.verdict);
        verdicts.collect::<Vec<_>>()
    };
    assert_eq!(verdicts(1.0), [Some(Verdict::Allowed(1.0)); 3]);
    let below = 1.0_f64.next_down();
    assert_eq!(verdicts(below), [Some(Verdict::GateForbids); 3]);
}

#[test]
fn lines_meet_every_refusal() {
    let refusal = |case: LineCase| {
        let text = String::from_utf8(case.judged()).expect("text");
        let number = text
            .strip_prefix("(refused ")
            .and_then(|rest| rest.strip_suffix(")\n"));
        number.map_or(0, |number| number.parse().expect("a number"))
    };
    met(
        some::<LineCase>(5_000).into_iter().map(refusal).collect(),
        [0, 10, 11, 13],
    );
}

#[test]
fn worked_lines() {
    let answer = |line: &str| String::from_utf8(LineCase(line.into()).judged()).expect("text");
    let worked = "(answer (pairs (0 0) (1 1)) (rows) (columns))\n";
    assert_eq!(answer("(assign 2 2 10 ((1 2) (- 4)))\n"), worked);
    assert_eq!(
        answer("(assign 0 3 10 ())\n"),
        "(answer (pairs) (rows) (columns 0 1 2))\n"
    );
    assert_eq!(
        answer("(assign 1 1 10 ((11)))\n"),
        "(answer (pairs) (rows 0) (columns 0))\n"
    );
    for bad in [
        "(assign 1 1 1 ((1)))",
        "(assign 1 1 1 ((1)))\n\n",
        "(assign 1 1 -0 ((1)))\n",
        "(assign 1 1 - ((1)))\n",
    ] {
        assert_eq!(answer(bad), "(refused 13)\n", "{bad}");
    }
    assert_eq!(answer("(assign 1000001 0 1 ())\n"), "(refused 13)\n");
    assert_eq!(answer("(assign 65 0 1 ())\n"), "(refused 11)\n");
    assert_eq!(answer("(assign 1 1 1 ((1 1)))\n"), "(refused 10)\n");
    assert_eq!(answer("(assign 1 1 1 ((1)  (1)))\n"), "(refused 13)\n");
}

#[test]
fn the_longest_line() {
    let answers = |length: usize| {
        let long = LineCase::fixed()
            .into_iter()
            .filter(move |case| case.0.len() == length);
        let answers = long.map(|case| String::from_utf8(case.judged()).expect("text"));
        answers.collect::<Vec<_>>()
    };
    let [answered, refused] = &answers(16_384)[..] else {
        panic!("two lines are as long as a line may be");
    };
    assert!(answered.starts_with("(answer (pairs (0 "));
    assert_eq!(refused, "(refused 10)\n");
    assert_eq!(answers(16_385), ["(refused 13)\n"; 3]);
    assert_eq!(answers(216_384), ["(refused 13)\n"]);
}

#[test]
fn calls_meet_every_refusal() {
    let number = |answer: Answer| match answer {
        Answer::BadField(_) => 1,
        Answer::Refused(number) => number,
        Answer::Done | Answer::Reported(_) => 0,
    };
    let replies = some::<CallsCase>(6_000)
        .into_iter()
        .flat_map(|case| case.judged());
    met(replies.map(|reply| number(reply.answer)).collect(), 0..=12);
}

/// Wide tables, whose least total is found by flows, are among them.
#[test]
fn the_rusts_pairings_are_least() {
    assert!(some::<LeastCase>(3_000)
        .iter()
        .any(|case| case.0.columns == 64));
    for case in some::<LeastCase>(3_000) {
        let given = AssignmentCase(case.0.clone())
            .judged()
            .given
            .expect("a whole table is taken");
        assert_eq!(case.total_of(&given), case.judged());
    }
}

#[test]
fn replies_to_calls_are_told_apart() {
    let case = some::<CallsCase>(200)
        .into_iter()
        .find(|case| case.judged().len() > 3);
    let theirs = case.expect("a long case").judged();
    let mut ours = theirs.clone();
    let state = ours[2].state.as_mut().expect("a state");
    state.next_track_id += 1;
    let told = CallsCase::told_apart(&ours, &theirs);
    assert!(told.starts_with("after call 2\nnext number"), "{told}");
    let mut touched = theirs.clone();
    touched[2].kept = false;
    let told = CallsCase::told_apart(&touched, &theirs);
    assert_eq!(
        told,
        "after call 2\nwhat the call may not touch was touched"
    );
    ours[1].answer = Answer::Refused(99);
    let told = CallsCase::told_apart(&ours, &theirs);
    assert!(
        told.contains("after call 1\nanswers\nours   Refused(99)"),
        "{told}"
    );
    ours.truncate(1);
    assert!(CallsCase::told_apart(&ours, &theirs).contains("no reply"));
}

/// The specification's: a distance equal to the gate pairs, and one a double above it doesn't.
#[test]
fn the_gate_of_one() {
    let paired = |case: &CallsCase| match &case.judged()[2].answer {
        Answer::Reported(report) => report.associations[0].cost,
        _ => None,
    };
    let fixed = CallsCase::fixed();
    let found: Vec<_> = fixed[1..].iter().map(paired).collect();
    let one = Some(1.0_f64.to_bits());
    assert_eq!(found, [one, one, None]);
}
