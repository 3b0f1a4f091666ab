//! Every refusal by its number, and that nothing has changed then.
#![allow(clippy::unwrap_used)]
mod common;
use common::{faulty, job, known_lens, Dice};
use lensbench::causes::{causes, causes_of_evaluation};
use lensbench::*;

fn good() -> Job {
    Job::new(known_lens()).vary(Variable::new(Quantity::Curvature, 0)).want(Operand::new(Aim::FocalLength { slot: 0 }, 60.0))
}

/// The number with which a changed job is refused on an empty place.
fn number(change: impl Fn(&mut Job)) -> u32 {
    let mut job = good();
    change(&mut job);
    let mut bench = Bench::new();
    let before = bench.saved();
    let refusal = bench.admit(Place(0), &job).unwrap_err();
    assert_eq!(bench.saved(), before);
    refusal.number()
}

#[test]
fn by_input() {
    assert!(Bench::new().admit(Place(0), &good()).is_ok());
    assert_eq!(number(|j| j.lens.indices[0].clear()), 1);
    assert_eq!(number(|j| j.lens.slots = 5), 1);
    assert_eq!(number(|j| j.variables = vec![j.variables[0]; 9]), 1);
    assert_eq!(number(|j| j.operands = vec![j.operands[0]; 13]), 1);
    assert_eq!(number(|j| (0..15).for_each(|_| j.lens.push(Surface::flat(1.0, 1.0), &[1.0]))), 1);
    assert_eq!(number(|j| j.lens.pupil_mm = 0.0), 3);
    assert_eq!(number(|j| j.lens.surfaces[1].thickness_mm = 2e9), 3);
    assert_eq!(number(|j| j.variables[0].surface = 2), 4);
    assert_eq!(number(|j| j.variables[0] = j.variables[0].same_at(2)), 17);
    assert_eq!(number(|j| j.variables[0] = Variable::new(Quantity::Thickness, 0).opposite_at(1)), 17);
    assert_eq!(number(|j| j.variables[0] = Variable { enabled: false, ..Variable::new(Quantity::SemiDiameter, 0).opposite_at(0) }), 17);
    assert_eq!(number(|j| j.operands[0].weight = -1.0), 5);
    assert_eq!(number(|j| j.run = Run::Damped(Damped { max_iterations: Some(1001), ..Damped::default() })), 6);
    assert_eq!(number(|j| j.variables[0].enabled = false), 7);
    assert_eq!(number(|j| j.operands.clear()), 8);
    assert_eq!(Bench::new().admit(Place(4), &good()), Err(Refusal::NoSuchPlace));
}

/// 17 stands behind 4 and before 5, over the whole job.
#[test]
fn a_follower_between_variable_and_operand() {
    let bad = |j: &mut Job| j.variables[0] = j.variables[0].same_at(9);
    let crossed = |j: &mut Job| j.variables.push(Variable::new(Quantity::Conic, 1).between(1.0, 0.0));
    let beside = |other: &dyn Fn(&mut Job)| {
        number(|j| {
            bad(j);
            other(j);
        })
    };
    assert_eq!((beside(&|j| j.lens.pupil_mm = 0.0), beside(&crossed)), (3, 4));
    assert_eq!((beside(&|j| j.operands[0].weight = -1.0), beside(&|j| j.operands.clear())), (17, 17));
    let mut job = good();
    bad(&mut job);
    crossed(&mut job);
    job.operands[0].weight = -1.0;
    assert_eq!(causes(&job).iter().map(|cause| cause.refusal.number()).collect::<Vec<_>>(), [4, 17, 5]);
    assert_eq!(Bench::new().admit(Place(4), &job), Err(Refusal::NoSuchPlace));
    // an evaluation looks at no variable
    assert_eq!(Job { operands: good().operands, ..job }.evaluate().map(|_| ()), Ok(()));
}

#[test]
fn by_state() {
    let (here, nowhere) = (Place(2), Place(4));
    let mut bench = Bench::new();
    assert_eq!(bench.turn(nowhere), Err(Refusal::NoSuchPlace));
    assert_eq!(bench.fetch(nowhere), Err(Refusal::NoSuchPlace));
    assert_eq!(bench.release(nowhere), Err(Refusal::NoSuchPlace));
    assert_eq!(bench.turn(here), Err(Refusal::Empty));
    assert_eq!(bench.fetch(here), Err(Refusal::Empty));
    assert_eq!(bench.release(here), Err(Refusal::Empty));
    bench.admit(here, &good()).unwrap();
    assert_eq!(bench.admit(here, &good()), Err(Refusal::Taken));
    assert_eq!(bench.turn_with(here, &mut [0.0; 127]), Err(Refusal::ShortScratch));
    assert_eq!(bench.fetch(here), Err(Refusal::Unfinished));
    bench.play(here).unwrap();
    assert_eq!(bench.turn(here), Err(Refusal::Finished));
    assert_eq!(bench.finished_places(), [here]);
    bench.release(here).unwrap();
    assert_eq!(bench.release(here), Err(Refusal::Empty));
}

#[test]
fn damage() {
    let mut bench = Bench::new();
    bench.admit(Place(0), &good()).unwrap();
    let mut bytes = bench.saved();
    // a whole place of ones: its job is none that could have been admitted
    bytes[16..16 + 18816 / 4].fill(0xff);
    let mut bench = Bench::restored(&bytes).unwrap();
    assert_eq!(bench.turn(Place(0)), Err(Refusal::Damaged));
    assert_eq!(bench.fetch(Place(0)), Err(Refusal::Damaged));
    assert!(bench.finished_places().is_empty());
    bench.release(Place(0)).unwrap();
    assert_eq!(bench.vacant(), Some(Place(0)));
    assert!(Bench::restored(&bytes[1..]).is_none() && Bench::restored(&bytes[..bytes.len() - 1]).is_none() && Bench::restored(&[]).is_none());
}

#[test]
fn trace_and_evaluate() {
    let lens = known_lens();
    assert_eq!(lens.trace(1), Err(Refusal::Operand));
    let mut three = [Ray { height_mm: 7.0, slope: 7.0 }; 3];
    assert_eq!(lens.trace_into(0, &mut three), Err(Refusal::Counts));
    assert_eq!(three, [Ray { height_mm: 7.0, slope: 7.0 }; 3]);
    let mut bad = known_lens();
    bad.surfaces[0].radius_mm = f64::NAN;
    assert_eq!(bad.trace(0), Err(Refusal::Lens));
    assert_eq!(bad.evaluate(&[]), Err(Refusal::Lens));
    assert_eq!(lens.evaluate(&[Operand::new(Aim::Track, f64::NAN)]), Err(Refusal::Operand));
}

#[test]
fn scratch_is_left_zero_and_the_rest_untouched() {
    let mut bench = Bench::new();
    bench.admit(Place(3), &good()).unwrap();
    let mut scratch = [7.0; 300];
    bench.turn_with(Place(3), &mut scratch).unwrap();
    assert!(scratch[..128].iter().all(|x| x.to_bits() == 0) && scratch[128..].iter().all(|x| *x == 7.0));
}

#[test]
fn numbers_names_and_sentences() {
    let numbers: Vec<u32> = (1..=14).chain([17, 19]).collect();
    assert_eq!(Refusal::listed().len(), numbers.len());
    for (number, refusal) in numbers.into_iter().zip(Refusal::listed()) {
        assert_eq!(refusal.number(), number);
        assert_eq!(Refusal::of_number(number), Some(*refusal));
        assert!(refusal.to_string().starts_with(&format!("refused with {number}: ")));
    }
    assert_eq!((Refusal::of_number(0), Refusal::of_number(15)), (None, Some(Refusal::Unlisted(15))));
}

/// What `causes` finds is what the bench refuses: the first is the same, for every job.
#[test]
fn causes_are_the_benchs() {
    let mut dice = Dice(0x5eed);
    let mut seen = [0usize; 20];
    for i in 0..20_000 {
        let job = if i % 4 == 0 { job(&mut dice) } else { faulty(&mut dice) };
        let number = Bench::new().admit(Place(0), &job).map_or_else(Refusal::number, |()| 0);
        let found = causes(&job).first().map_or(0, |cause| cause.refusal.number());
        assert_eq!(found, number, "{job:?}");
        let evaluated = job.evaluate().map_or_else(Refusal::number, |_| 0);
        assert_eq!(causes_of_evaluation(&job).first().map_or(0, |cause| cause.refusal.number()), evaluated, "{job:?}");
        seen[number as usize] += 1;
    }
    for number in [0, 1, 3, 4, 5, 6, 7, 8, 17] {
        assert!(seen[number] > 100, "number {number} came {} times", seen[number]);
    }
}
