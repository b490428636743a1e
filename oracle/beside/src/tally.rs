//! How often what came up.

use crate::library::{Reply, BAD_STORE};
use rules::{Answer, Report, Verdict};

#[derive(Debug, Default)]
pub struct Tally {
    pub calls: usize,
    pub skipped: usize,
    pub full: usize,
    pub cycle_found: usize,
    pub incremental: usize,
    pub most_visits: usize,
    pub line_ups: usize,
    pub cycles: usize,
    pub starts: usize,
    pub moves: usize,
    pub blocks: usize,
    /// How often every word of the store was compared.
    pub words: usize,
    pub codes: Codes,
}

/// Calls by code: 0 accepted, 1 to 12 refused.
#[derive(Debug, Default)]
pub struct Codes(pub [usize; BAD_STORE as usize + 1]);

impl Tally {
    pub fn count(&mut self, reply: &Reply) {
        self.calls += 1;
        self.codes.count(reply);
        match reply {
            Ok(Answer::Put(_, report)) => self.count_put(*report),
            Ok(Answer::Verdict(Verdict::LineUp(_))) => self.line_ups += 1,
            Ok(Answer::Verdict(Verdict::Cycle(_))) => self.cycles += 1,
            Ok(Answer::Starts(_)) => self.starts += 1,
            Ok(Answer::Moved(_)) => self.moves += 1,
            Ok(Answer::Blocks(blocks)) => self.blocks += blocks.len(),
            _ => {}
        }
    }

    fn count_put(&mut self, report: Report) {
        self.most_visits = self.most_visits.max(report.visits());
        match report {
            Report::Skipped => self.skipped += 1,
            Report::Full => self.full += 1,
            Report::CycleFound => self.cycle_found += 1,
            Report::Incremental(_) => self.incremental += 1,
        }
    }

    pub fn print(&self) {
        println!(
            "puts: {} skipped, {} full, {} cycle found, {} incremental with at most {} visits",
            self.skipped, self.full, self.cycle_found, self.incremental, self.most_visits
        );
        println!(
            "verdicts: {} line-ups, {} cycles; {} times all starts; {} moves; {} blocks",
            self.line_ups, self.cycles, self.starts, self.moves, self.blocks
        );
        println!("every word of the store compared {} times", self.words);
        self.codes.print();
    }
}

impl Codes {
    pub fn count(&mut self, reply: &Reply) {
        let code = reply.as_ref().err().copied().unwrap_or(0);
        self.0[code as usize] += 1;
    }

    pub fn print(&self) {
        let code = |(code, times): (usize, &usize)| format!("{code}: {times}");
        let codes: Vec<String> = self.0.iter().enumerate().map(code).collect();
        println!("calls by code: {}", codes.join(", "));
    }
}
