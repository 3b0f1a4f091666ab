//! How far the jobs are, on standard error.
use super::play::Player;
use super::source::Source;
use std::io::{IsTerminal, Write};
use std::time::{Duration, Instant};

/// On a terminal one line that changes; elsewhere, where it is asked for, a line every few seconds.
pub struct Progress {
    on: bool,
    terminal: bool,
    last: Instant,
    shown: bool,
}

impl Progress {
    pub fn new(asked: bool, denied: bool) -> Progress {
        let terminal = std::io::stderr().is_terminal();
        Progress { on: !denied && (asked || terminal), terminal, last: Instant::now(), shown: false }
    }

    pub fn show(&mut self, player: &Player, jobs: &[Source], done: usize) {
        let every = if self.terminal { Duration::from_millis(200) } else { Duration::from_secs(2) };
        if !self.on || self.last.elapsed() < every {
            return;
        }
        self.last = Instant::now();
        self.shown = true;
        let line = line(player, jobs, done);
        // what is only shown may fail to be shown
        let _ = if self.terminal { write!(std::io::stderr(), "\r\x1b[K{line}") } else { writeln!(std::io::stderr(), "{line}") };
    }

    /// Takes the changing line away, before something else is written.
    pub fn clear(&mut self) {
        if self.shown && self.terminal {
            let _ = write!(std::io::stderr(), "\r\x1b[K");
        }
        self.shown = false;
    }
}

fn line(player: &Player, jobs: &[Source], done: usize) -> String {
    let places = player.at.iter().flatten().filter_map(|p| {
        let entry = &jobs.get(p.job)?.entry;
        let name: String = entry.name.chars().take(24).collect();
        Some(format!("; {name}: {} of at most {} turns", p.turns, entry.job.turn_bound()))
    });
    format!("{done} of {} jobs{}", jobs.len(), places.collect::<String>())
}
