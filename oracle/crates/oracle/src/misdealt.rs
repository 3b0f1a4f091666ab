//! The book with one mistake at a time in its dealings (request 8), and how many lists of calls show it; and what the dealings of the lists come to.
use crate::book::{Book, SCRATCH};
use crate::genlists;

#[derive(Clone, Copy, PartialEq)]
enum Mistake {
    None,
    StartsAtZero,
    NextIsFirstLive,
    NextIsZeroWhereNoneServed,
    NextIsLastServed,
    NextNotWrapped,
    NextStays,
    FinishedNotSkipped,
    TwoTurnsEach,
    OneRound,
    FallingOrder,
    ZeroBeforeScratch,
    ReleaseResetsNext,
    TurnMovesNext,
}
use Mistake::*;

const MISTAKES: [(Mistake, &str); 14] = [
    (None, "none"),
    (StartsAtZero, "a dealing starts at place 0"),
    (NextIsFirstLive, "next is the first place with a job"),
    (NextIsZeroWhereNoneServed, "next is 0 where none is served"),
    (NextIsLastServed, "next is the last served"),
    (NextNotWrapped, "next is 4 after 3"),
    (NextStays, "next stays where it was"),
    (FinishedNotSkipped, "finished places are not skipped"),
    (TwoTurnsEach, "two turns a place"),
    (OneRound, "one round alone"),
    (FallingOrder, "places in falling order"),
    (ZeroBeforeScratch, "N of 0 before the scratch is looked at"),
    (ReleaseResetsNext, "release sets next to 0"),
    (TurnMovesNext, "a turn moves next on"),
];

struct Misdealt {
    book: Book,
    mistake: Mistake,
}

impl Misdealt {
    fn answer(&mut self, line: &str) -> Option<String> {
        let words: Vec<&str> = line.split_ascii_whitespace().collect();
        if words[0] == "N" {
            return Some(self.deal(words[1].parse().unwrap(), words[2].parse().unwrap()));
        }
        let answer = self.book.answer(line)?;
        if self.mistake == ReleaseResetsNext && answer == "D 0" {
            self.book.next = 0;
        }
        if self.mistake == TurnMovesNext && answer.starts_with("T 0") {
            self.book.next = (words[1].parse::<usize>().unwrap() + 1) % 4;
        }
        Some(answer)
    }

    fn is_served(&self, place: usize) -> bool {
        self.book.is_live(place) || (self.mistake == FinishedNotSkipped && self.book.entries[place].is_some())
    }

    /// The first place that is served, from one on.
    fn from(&self, at: usize) -> Option<usize> {
        (0..4).map(|k| if self.mistake == FallingOrder { at + 4 - k } else { at + k } % 4).find(|&place| self.is_served(place))
    }

    fn deal(&mut self, turns: usize, length: u64) -> String {
        if length < SCRATCH && !(turns == 0 && self.mistake == ZeroBeforeScratch) {
            return format!("N 9 0 {}", self.book.next);
        }
        let turns = if self.mistake == OneRound { turns.min(4) } else { turns };
        let mut at = if self.mistake == StartsAtZero { 0 } else { self.book.next % 4 };
        let mut served = vec![];
        while let Some(place) = self.from(at).filter(|_| served.len() < turns) {
            if self.book.is_live(place) {
                self.book.entries[place].as_mut().unwrap().count += 1;
            }
            served.push(place);
            at = if self.mistake == TwoTurnsEach && served.len() % 2 == 1 { place } else { place + 1 };
        }
        self.book.next = self.next(&served);
        format!("N 0 {} {}", served.len(), self.book.next)
    }

    fn next(&self, served: &[usize]) -> usize {
        let Some(&last) = served.last() else { return if self.mistake == NextIsZeroWhereNoneServed { 0 } else { self.book.next } };
        match self.mistake {
            NextIsFirstLive => (0..4).find(|&place| self.book.is_live(place)).unwrap_or(0),
            NextIsLastServed => last,
            NextNotWrapped => last + 1,
            NextStays => self.book.next,
            _ => (last + 1) % 4,
        }
    }
}

fn lists(seed: u64, count: u64) -> Vec<Vec<String>> {
    (0..count)
        .map(|list| {
            let mut text = vec![];
            genlists::gen_dealings(seed, list..list + 1, 200, &mut text);
            String::from_utf8(text).unwrap().lines().map(String::from).collect()
        })
        .collect()
}

/// For each mistake, how many of the lists give another answer than the book.
pub fn mistakes(seed: u64, count: u64) {
    let lists = lists(seed, count);
    for (mistake, name) in MISTAKES {
        let seen = |list: &&Vec<String>| {
            let (mut book, mut wrong) = (Book::default(), Misdealt { book: Book::default(), mistake });
            list.iter().any(|line| book.answer(line) != wrong.answer(line))
        };
        let seen = lists.iter().filter(seen).count();
        println!("{seen:6} of {count} {}{name}", if seen == 0 && mistake != None { "UNNOTICED " } else { "" });
    }
    reached(&lists);
}

/// What the dealings come to, by the jobs that they find.
fn reached(lists: &[Vec<String>]) {
    let (mut refused, mut found, mut spent, mut dealt) = (0, [0; 5], [0; 5], 0);
    for list in lists {
        let mut book = Book::default();
        for line in list {
            let live = (0..4).filter(|&place| book.is_live(place)).count();
            let Some(answer) = book.answer(line) else { continue };
            let words: Vec<&str> = answer.split(' ').collect();
            match words[..] {
                ["N", "9", ..] => refused += 1,
                ["N", _, n, _] => {
                    found[live] += 1;
                    spent[live] += (line.split(' ').nth(1) == Some(n)) as u64;
                    dealt += n.parse::<u64>().unwrap();
                }
                _ => {}
            }
        }
    }
    println!("dealings refused {refused}; taken with 0 to 4 jobs {found:?}, of which all turns were spent {spent:?}; turns dealt {dealt}");
}
