//! Four places for jobs.
use crate::ffi::{self, BenchRecord, DealtRecord, ResultRecord, BENCH_WORDS, OPERANDS, PLACES, SCRATCH, SURFACES};
use crate::job::Job;
use crate::outcome::Outcome;
use crate::record::request;
use crate::refusal::Refusal;
use std::cell::Cell;
use std::fmt;
use std::marker::PhantomData;

/// A place on a bench, 0 to 3. Any number may be asked for: one above 3 is refused with 2.
#[derive(Clone, Copy, Debug, PartialEq, Eq, PartialOrd, Ord, Hash)]
pub struct Place(pub usize);

impl Place {
    /// The four that there are.
    pub const ALL: [Place; PLACES] = [Place(0), Place(1), Place(2), Place(3)];
}

impl fmt::Display for Place {
    fn fmt(&self, f: &mut fmt::Formatter<'_>) -> fmt::Result {
        write!(f, "place {}", self.0)
    }
}

/// How many surfaces and operands the job at a place has.
#[derive(Clone, Copy, Debug)]
struct Counts {
    surfaces: usize,
    operands: usize,
}

/// A bench of four places. A call that is refused changes nothing, and no call can spoil the others' jobs.
///
/// A bench may be handed to another thread, but two threads cannot have it at once; put it behind a mutex to share it.
///
/// ```compile_fail
/// fn shared(_: impl Sync) {}
/// shared(lensbench::Bench::new());
/// ```
pub struct Bench {
    bench: Box<BenchRecord>,
    scratch: Box<[f64; SCRATCH]>,
    jobs: [Option<Counts>; PLACES],
    /// a Cell may be sent but not shared
    not_shared: PhantomData<Cell<()>>,
}

const _: fn() = || {
    fn sent(_: impl Send) {}
    sent(Bench::new());
};

impl Default for Bench {
    fn default() -> Bench {
        Bench::new()
    }
}

impl fmt::Debug for Bench {
    fn fmt(&self, f: &mut fmt::Formatter<'_>) -> fmt::Result {
        f.debug_struct("Bench").field("jobs", &self.jobs).finish_non_exhaustive()
    }
}

impl Bench {
    /// An empty bench: 19 kB on the heap, and 1 kB of scratch.
    ///
    /// # Panics
    /// Where another version of the library is linked than this crate was written for.
    pub fn new() -> Bench {
        let linked = ffi::abi();
        assert!(linked == ffi::ABI, "liblensbench.a has records of layout {linked}, this crate of layout {}", ffi::ABI);
        Bench::of(BenchRecord { words: [0; BENCH_WORDS], next_place: 0 }, [None; PLACES])
    }

    fn of(bench: BenchRecord, jobs: [Option<Counts>; PLACES]) -> Bench {
        Bench { bench: Box::new(bench), scratch: Box::new([0.0; SCRATCH]), jobs, not_shared: PhantomData }
    }

    /// A job comes to an empty place; nothing is worked out yet. Refuses with 1 to 8, 10 and 17.
    pub fn admit(&mut self, place: Place, job: &Job) -> Result<(), Refusal> {
        let request = request(job)?;
        Refusal::answer(ffi::admit(&mut self.bench, place.0, &request))?;
        self.note(place, Some(Counts { surfaces: job.lens.surfaces.len(), operands: job.operands.len() }));
        Ok(())
    }

    /// Works out one merit of the job at the place. Refuses with 2, 11 and 12, and with 13 at the job's end.
    pub fn turn(&mut self, place: Place) -> Result<(), Refusal> {
        Refusal::answer(ffi::turn(&mut self.bench, place.0, &mut self.scratch[..]))
    }

    /// A turn with a scratch of the caller's, of which the first 128 numbers are used and left +0.0; a shorter one is refused with 9.
    pub fn turn_with(&mut self, place: Place, scratch: &mut [f64]) -> Result<(), Refusal> {
        Refusal::answer(ffi::turn(&mut self.bench, place.0, scratch))
    }

    /// Hands out so many turns, one each, round the places in rising order from [`Bench::next_place`] on, until all are spent or no job is left; empty and
    /// finished places are skipped. Answers how many were dealt. Refuses with 12, also for 0 turns, where any place is damaged.
    ///
    /// In a run of dealings two jobs that are not finished differ by at most one in the turns dealt to them, and each is served within four.
    pub fn deal(&mut self, turns: u16) -> Result<u32, Refusal> {
        dealt(ffi::deal(&mut self.bench, turns, &mut self.scratch[..]))
    }

    /// A dealing with a scratch of the caller's, which is left as by [`Bench::turn_with`], or as it was where nothing is dealt; one shorter than 128 is
    /// refused with 9.
    pub fn deal_with(&mut self, turns: u16, scratch: &mut [f64]) -> Result<u32, Refusal> {
        dealt(ffi::deal(&mut self.bench, turns, scratch))
    }

    /// Where the next dealing begins: the place after the last that a dealing served, place 0 at first.
    pub fn next_place(&self) -> Place {
        Place(self.bench.next_place)
    }

    /// Takes turns until the job is at its end, and answers how many. Refuses with 2, 11 and 12.
    pub fn play(&mut self, place: Place) -> Result<u64, Refusal> {
        let mut turns = 0;
        loop {
            match self.turn(place) {
                Ok(()) => turns += 1,
                Err(Refusal::Finished) => return Ok(turns),
                Err(other) => return Err(other),
            }
        }
    }

    /// The result of a finished job, which stays at its place. Refuses with 2, 11, 12 and 14.
    pub fn fetch(&self, place: Place) -> Result<Outcome, Refusal> {
        let mut record = ResultRecord::default();
        Refusal::answer(ffi::fetch(&self.bench, place.0, &mut record))?;
        let counts = self.jobs.get(place.0).copied().flatten().unwrap_or(Counts { surfaces: 0, operands: 0 });
        Ok(Outcome::of(&record, counts.surfaces, counts.operands))
    }

    /// The place becomes empty, whatever it has. Refuses with 2 and 11.
    pub fn release(&mut self, place: Place) -> Result<(), Refusal> {
        Refusal::answer(ffi::release(&mut self.bench, place.0))?;
        self.note(place, None);
        Ok(())
    }

    /// The places whose jobs are finished: fewest working turns first, equal ones by rising place.
    pub fn finished_places(&self) -> Vec<Place> {
        let finished = ffi::finished_places(&self.bench);
        finished.places.iter().take(finished.count).map(|&place| Place(place)).collect()
    }

    /// An empty place, if there is one.
    pub fn vacant(&self) -> Option<Place> {
        Place::ALL.into_iter().find(|place| self.jobs[place.0].is_none())
    }

    fn note(&mut self, place: Place, job: Option<Counts>) {
        if let Some(entry) = self.jobs.get_mut(place.0) {
            *entry = job;
        }
    }

    /// The bench as bytes, to be stored: a service that is stopped goes on where it was with [`Bench::restored`].
    pub fn saved(&self) -> Vec<u8> {
        let mut bytes = header().to_vec();
        for job in self.jobs {
            bytes.extend(job.map_or([u8::MAX; 2], |counts| [counts.surfaces as u8, counts.operands as u8]));
        }
        bytes.extend(self.bench.words.iter().flat_map(|word| word.to_le_bytes()));
        bytes.extend(self.bench.next_place.to_le_bytes());
        bytes
    }

    /// A bench out of what [`Bench::saved`] gave, or `None` where the bytes are not of its form or of another version of the records.
    /// Bytes that were changed in between can do no harm: the place they belong to is refused with 12, or holds another job; dealings are refused with 12 where
    /// a place is damaged or [`Bench::next_place`] is none of the four.
    pub fn restored(bytes: &[u8]) -> Option<Bench> {
        let bytes = bytes.strip_prefix(&header())?;
        let (counts, bytes) = bytes.split_at_checked(2 * PLACES)?;
        let (words, next_place) = bytes.split_at_checked(8 * BENCH_WORDS)?;
        let mut jobs = [None; PLACES];
        for (job, pair) in jobs.iter_mut().zip(counts.chunks_exact(2)) {
            *job = counts_of(pair)?;
        }
        let mut bench = BenchRecord { words: [0; BENCH_WORDS], next_place: usize::from_le_bytes(next_place.try_into().ok()?) };
        for (word, bytes) in bench.words.iter_mut().zip(words.chunks_exact(8)) {
            *word = u64::from_le_bytes(bytes.try_into().ok()?);
        }
        Some(Bench::of(bench, jobs))
    }
}

fn dealt(record: DealtRecord) -> Result<u32, Refusal> {
    Refusal::answer(record.number)?;
    Ok(record.dealt)
}

/// What saved bytes begin with.
fn header() -> [u8; 8] {
    let [a, b, c, d] = ffi::ABI.to_le_bytes();
    [b'L', b'E', b'N', b'S', a, b, c, d]
}

fn counts_of(pair: &[u8]) -> Option<Option<Counts>> {
    match *pair {
        [u8::MAX, u8::MAX] => Some(None),
        [surfaces, operands] if usize::from(surfaces) <= SURFACES && usize::from(operands) <= OPERANDS => {
            Some(Some(Counts { surfaces: surfaces.into(), operands: operands.into() }))
        }
        _ => None,
    }
}
