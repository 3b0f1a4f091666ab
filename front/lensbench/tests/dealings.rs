//! Turns dealt fairly (request 8): whom a dealing serves, what it answers, and what it refuses.
#![allow(clippy::unwrap_used)]
mod common;
use common::{job, known_lens, Dice};
use lensbench::*;

/// Where the rows and the next place stand in saved bytes, and how long a row is; its second word is its turns.
const ROWS: usize = 16;
const ROW: usize = 18816 / 4;
const NEXT: usize = ROWS + 4 * ROW;

fn turns_of(bench: &Bench, place: usize) -> u64 {
    let at = ROWS + place * ROW + 8;
    u64::from_le_bytes(bench.saved()[at..at + 8].try_into().unwrap())
}

/// The known lens with its thickness held: 3 turns with the defaults, 13 without a gradient's end, 1 without an iteration.
fn held(run: Damped) -> Job {
    let variable = Variable::new(Quantity::Thickness, 0).between(16.0, 16.0);
    let job = Job::new(known_lens()).vary(variable).want(Operand::new(Aim::FocalLength { slot: 0 }, 60.0).weight(4.0));
    job.run(Run::Damped(run))
}

/// Jobs of 3, 13, 3 and 1 turns.
fn four() -> Bench {
    let long = Damped { gradient_tolerance: Some(0.0), ..Damped::default() };
    let short = Damped { max_iterations: Some(0), ..Damped::default() };
    let mut bench = Bench::new();
    for (place, run) in Place::ALL.into_iter().zip([Damped::default(), long, Damped::default(), short]) {
        bench.admit(place, &held(run)).unwrap();
    }
    bench
}

/// A bench of random jobs, at some of its places.
fn some_jobs(dice: &mut Dice) -> Bench {
    let mut bench = Bench::new();
    for place in Place::ALL {
        if !dice.chance(4) {
            let _ = bench.admit(place, &job(dice));
        }
    }
    bench
}

/// Whether the job at a place, if there is one, has turns left: a copy of the bench tries.
fn is_live(bench: &Bench, place: usize) -> bool {
    Bench::restored(&bench.saved()).unwrap().turn(Place(place)).is_ok()
}

/// The rule by single turns: whom a dealing serves, in order.
fn one_by_one(bench: &mut Bench, turns: usize) -> Vec<usize> {
    let (mut served, mut at, mut missed) = (Vec::new(), bench.next_place().0, 0);
    while served.len() < turns && missed < 4 {
        if bench.turn(Place(at)).is_ok() {
            served.push(at);
            missed = 0;
        } else {
            missed += 1;
        }
        at = (at + 1) % 4;
    }
    served
}

#[test]
fn a_dealing_over_four_jobs() {
    let mut bench = four();
    assert_eq!((bench.deal(0), bench.next_place()), (Ok(0), Place(0)));
    // 0, 1, 2, 3, 0: the last place is finished
    assert_eq!((bench.deal(5), bench.next_place()), (Ok(5), Place(1)));
    assert_eq!(bench.finished_places(), [Place(3)]);
    // 1, 2, 0, 1
    assert_eq!((bench.deal(4), bench.next_place()), (Ok(4), Place(2)));
    assert_eq!(bench.finished_places(), [Place(3), Place(0)]);
    // 2, then place 1 alone, to its end
    assert_eq!((bench.deal(u16::MAX), bench.next_place()), (Ok(11), Place(2)));
    assert_eq!(bench.finished_places(), [Place(3), Place(0), Place(2), Place(1)]);
    assert_eq!((bench.deal(7), bench.next_place()), (Ok(0), Place(2)));
    // no other call moves the next place
    bench.release(Place(2)).unwrap();
    bench.admit(Place(2), &held(Damped::default())).unwrap();
    bench.turn(Place(2)).unwrap();
    bench.fetch(Place(1)).unwrap();
    assert_eq!(bench.next_place(), Place(2));
}

#[test]
fn a_dealing_is_single_turns() {
    let mut dice = Dice(0xdea1);
    for _ in 0..200 {
        let mut bench = some_jobs(&mut dice);
        for _ in 0..dice.below(8) {
            let mut other = Bench::restored(&bench.saved()).unwrap();
            let turns = dice.pick(&[0u16, 1, 2, 3, 4, 5, 7, 50, 400, u16::MAX]);
            let served = one_by_one(&mut other, turns.into());
            let next = served.last().map_or(bench.next_place(), |last| Place((last + 1) % 4));
            assert_eq!(bench.deal(turns), Ok(served.len() as u32));
            assert_eq!(bench.next_place(), next);
            assert_eq!(bench.saved()[..NEXT], other.saved()[..NEXT]);
        }
    }
}

/// Of jobs that are unfinished throughout, and across dealings.
#[test]
fn dealings_are_fair() {
    let mut dice = Dice(0xfa12);
    let mut compared = 0;
    for _ in 0..300 {
        let mut bench = some_jobs(&mut dice);
        bench.deal(dice.below(9) as u16).unwrap();
        let began: Vec<Option<u64>> = (0..4).map(|place| is_live(&bench, place).then(|| turns_of(&bench, place))).collect();
        let mut dealt = 0;
        for _ in 0..1 + dice.below(6) {
            dealt += bench.deal(dice.below(12) as u16).unwrap();
        }
        let had = |place: usize| began[place].filter(|_| is_live(&bench, place)).map(|before| turns_of(&bench, place) - before);
        let had: Vec<u64> = (0..4).filter_map(had).collect();
        if let (Some(least), Some(most)) = (had.iter().min(), had.iter().max()) {
            assert!(most - least <= 1, "{had:?}");
            assert!(*least >= u64::from(dealt / 4), "{had:?} of {dealt}");
            compared += usize::from(had.len() > 1);
        }
    }
    assert!(compared > 100, "{compared}");
}

#[test]
fn an_unfinished_job_is_served_within_four_turns() {
    let mut dice = Dice(0x4444);
    for _ in 0..200 {
        let mut bench = some_jobs(&mut dice);
        bench.deal(dice.below(30) as u16).unwrap();
        let waiting: Vec<(usize, u64)> = (0..4).filter(|&place| is_live(&bench, place)).map(|place| (place, turns_of(&bench, place))).collect();
        let dealt: u32 = (0..4).map(|_| bench.deal(1).unwrap()).sum();
        assert!(dealt == 4 || waiting.iter().all(|&(place, _)| !is_live(&bench, place)));
        assert!(waiting.iter().all(|&(place, before)| turns_of(&bench, place) > before), "{waiting:?}");
    }
}

/// With every number of turns, 0 too, a dealing gives this number, and nothing has changed.
fn refuses(bench: &mut Bench, length: usize, refusal: Refusal) {
    let before = bench.saved();
    for turns in [0, 1, 5, u16::MAX] {
        let mut scratch = vec![7.0; length];
        assert_eq!(bench.deal_with(turns, &mut scratch), Err(refusal));
        assert!(scratch.iter().all(|x| *x == 7.0) && bench.saved() == before);
    }
}

/// Nine comes first.
fn refuses_damage(bench: &mut Bench) {
    refuses(bench, 128, Refusal::Damaged);
    refuses(bench, 127, Refusal::ShortScratch);
    assert_eq!(bench.deal(1), Err(Refusal::Damaged));
}

fn with_word(bench: &Bench, at: usize, word: u64) -> Bench {
    let mut bytes = bench.saved();
    bytes[at..at + 8].copy_from_slice(&word.to_le_bytes());
    Bench::restored(&bytes).unwrap()
}

#[test]
fn refusals() {
    refuses(&mut Bench::new(), 127, Refusal::ShortScratch);
    let mut bench = four();
    refuses(&mut bench, 0, Refusal::ShortScratch);
    for next in [4, 5, u64::MAX] {
        let mut bench = with_word(&bench, NEXT, next);
        assert_eq!(bench.next_place(), Place(next as usize));
        refuses_damage(&mut bench);
        bench.turn(Place(0)).unwrap();
    }
    // a kind that is none, at an unfinished place and at a finished one
    bench.deal(4).unwrap();
    assert_eq!(bench.finished_places(), [Place(3)]);
    for place in [1, 3] {
        let mut bench = with_word(&bench, ROWS + place * ROW, 4);
        refuses_damage(&mut bench);
        bench.release(Place(place)).unwrap();
        assert!(bench.deal(1).is_ok());
    }
}

/// Turns one below the bound: a turn that does not end the job leaves it damaged, and it is skipped from then on.
#[test]
fn a_place_damaged_on_the_way_is_skipped() {
    let bench = four();
    let bound = held(Damped::default()).turn_bound();
    let mut bench = with_word(&bench, ROWS + ROW + 8, bound - 1);
    // 0, 1, 2, 3, then 0 and 2 to their ends
    assert_eq!(bench.deal(100), Ok(8));
    assert_eq!((turns_of(&bench, 1), bench.next_place()), (bound, Place(3)));
    assert_eq!(bench.turn(Place(1)), Err(Refusal::Damaged));
    refuses_damage(&mut bench);
    bench.release(Place(1)).unwrap();
    assert_eq!((bench.deal(100), bench.next_place()), (Ok(0), Place(3)));
}

#[test]
fn scratch_is_touched_where_a_turn_is_dealt() {
    let mut bench = four();
    let mut scratch = [7.0; 300];
    assert_eq!(bench.deal_with(0, &mut scratch), Ok(0));
    assert!(scratch.iter().all(|x| *x == 7.0));
    assert_eq!(bench.deal_with(2, &mut scratch), Ok(2));
    assert!(scratch[..128].iter().all(|x| x.to_bits() == 0) && scratch[128..].iter().all(|x| *x == 7.0));
    scratch.fill(7.0);
    assert_eq!(Bench::new().deal_with(9, &mut scratch[..128]), Ok(0));
    assert!(scratch.iter().all(|x| *x == 7.0));
}

/// A bench that is brought back deals on where it was; one that was stored by the layout before, without a next place, is not taken.
#[test]
fn the_next_place_is_stored() {
    let mut bench = four();
    bench.deal(3).unwrap();
    let mut back = Bench::restored(&bench.saved()).unwrap();
    assert_eq!(back.next_place(), Place(3));
    assert_eq!((back.deal(2), bench.deal(2)), (Ok(2), Ok(2)));
    assert_eq!(back.saved(), bench.saved());
    let mut old = bench.saved();
    old.truncate(NEXT);
    assert!(Bench::restored(&old).is_none());
    old[4] = 3;
    assert!(Bench::restored(&old).is_none());
}
