//! One history on the rules, on the given Rust and on the model of its deviations.
//!
//! The rules answer. Where the given Rust can be asked the same, it must agree with the model in
//! every part, with the rules from scratch, and with the rules along the history in every part
//! that no deviation has touched.

use crate::model::{Model, Struck};
use given::{Given, KeptParts, Refresh};
use rules::{Answer, Block, Call, Moved, Penalty, Plan, Refusal, Report, Score, Store};
use std::fmt::Debug;

pub type Reply = Result<Answer, Refusal>;

/// A difference that nothing known explains.
#[derive(Debug)]
pub struct Mismatch(pub String);

#[derive(Default)]
pub struct SideBySide {
    rules: Store,
    given: Option<(Given, Model)>,
}

impl SideBySide {
    pub fn rules(&self) -> &Store {
        &self.rules
    }

    pub fn rules_mut(&mut self) -> &mut Store {
        &mut self.rules
    }

    /// Nothing while not loaded.
    pub fn plan(&self) -> Option<&Plan> {
        self.rules.plan()
    }

    /// Which deviations have struck since load.
    pub fn struck(&self) -> Struck {
        let model = self.given.as_ref().map(|(_, model)| model.struck());
        model.unwrap_or_default()
    }

    pub fn call(&mut self, call: &Call) -> Result<Reply, Mismatch> {
        let reply = self.rules.call(call);
        if let Ok(answer) = &reply {
            self.follow(call, answer)?;
        }
        Ok(reply)
    }

    fn follow(&mut self, call: &Call, answer: &Answer) -> Result<(), Mismatch> {
        match (call, answer) {
            (Call::Load(load), Answer::Change(score)) => {
                let (given, loaded) = Given::load(load);
                same("score of load", &loaded, score)?;
                self.given = Some((given, Model::load(load)));
                self.check_state()
            }
            (Call::Reset, _) => {
                self.given = None;
                Ok(())
            }
            (Call::Retract(owner), Answer::Change(change)) => {
                let (given, model) = self.loaded_mut();
                model.retract(*owner);
                same("change of retract", &given.retract(*owner), change)?;
                self.check_state()
            }
            (Call::Put(owner, entries), Answer::Put(change, report)) => {
                self.follow_put(*owner, entries, *change, *report)
            }
            (Call::Blocks { owners, .. }, Answer::Blocks(blocks)) => {
                self.check_blocks(owners, blocks)
            }
            (Call::Move { owner, step, .. }, Answer::Moved(moved)) => {
                let given = self.loaded().0.moved(*owner, step);
                same("move", &given.as_ref(), &Some(moved))?;
                self.check_agreement(*owner, moved)
            }
            // Score, verdict and starts read what was checked when it came about.
            _ => Ok(()),
        }
    }

    fn loaded(&self) -> (&Given, &Model) {
        let (given, model) = self.given.as_ref().expect("loaded");
        (given, model)
    }

    fn loaded_mut(&mut self) -> (&mut Given, &mut Model) {
        let (given, model) = self.given.as_mut().expect("loaded");
        (given, model)
    }

    fn follow_put(
        &mut self,
        owner: u32,
        entries: &[u32],
        change: Score,
        report: Report,
    ) -> Result<(), Mismatch> {
        let before = self.struck();
        let (given, model) = self.loaded_mut();
        let (given_change, refresh) = given.put(owner, entries);
        let (model_change, model_refresh) = model.put(owner, entries);
        same("change of put, by the model", &given_change, &model_change)?;
        same("refresh, by the model", &refresh, &model_refresh)?;
        if before == Struck::default() && self.struck() == Struck::default() {
            same("change of put", &given_change, &change)?;
        }
        // The starts before a put decide its visits, so deviation B must have struck earlier.
        let visits = if before.b {
            report.visits()
        } else {
            visits(refresh)
        };
        same("report", &kind(refresh, visits), &report)?;
        self.check_visit_bound(report)?;
        self.check_state()
    }

    fn check_visit_bound(&self, report: Report) -> Result<(), Mismatch> {
        let jobs = self.plan().expect("loaded").jobs;
        let within = report.visits() <= jobs * (jobs + 1) / 2;
        same("visits within n(n+1)/2", &within, &true)
    }

    fn check_state(&self) -> Result<(), Mismatch> {
        self.check_stored_lists()?;
        self.check_kept()?;
        self.check_fresh()
    }

    fn check_stored_lists(&self) -> Result<(), Mismatch> {
        let plan = self.plan().expect("loaded");
        same(
            "live edges, kept and told anew",
            &plan.lists.live(),
            &plan.live(),
        )?;
        let given = self.loaded().0.kept_successors();
        same("stored order", &given, &plan.lists.successors())
    }

    /// What the given Rust keeps is the model's in every part, and the rules' where none struck.
    fn check_kept(&self) -> Result<(), Mismatch> {
        let (given, model) = self.loaded();
        let parts = given.kept_parts();
        same("kept parts, by the model", &parts, &model.parts())?;
        same(
            "kept starts, by the model",
            &given.kept().starts,
            &model.starts(),
        )?;
        let times = self.plan().expect("loaded").times();
        let penalty = self.plan().expect("loaded").penalty(&times);
        check_parts(&parts, &penalty, model.struck())?;
        if times.cyclic || model.struck().b {
            return Ok(());
        }
        same("kept starts", &given.kept().starts, &signed(&times.starts))
    }

    /// From scratch the given Rust is right everywhere.
    fn check_fresh(&self) -> Result<(), Mismatch> {
        let given = self.loaded().0;
        let scored = self.rules.score().expect("loaded");
        same("evaluate and match count", &given.evaluated(), &scored)?;
        let fresh = given.fresh();
        same("initialize", &(fresh.score, fresh.matches), &scored)?;
        let times = self.plan().expect("loaded").times();
        same("cyclic from scratch", &fresh.cyclic, &times.cyclic)?;
        same("starts from scratch", &fresh.starts, &signed(&times.starts))
    }

    fn check_blocks(&self, owners: &[u32], blocks: &[Block]) -> Result<(), Mismatch> {
        same(
            "blocks",
            &self.loaded().0.blocks(owners).as_slice(),
            &blocks,
        )
    }

    /// The checks agree if the live edges, less the removed unfixed ones, hold no cycle.
    fn check_agreement(&self, owner: u32, moved: &Moved) -> Result<(), Mismatch> {
        let plan = self.plan().expect("loaded");
        let old = plan.routes[owner as usize].jobs();
        let new: Vec<usize> = moved.route.iter().map(|&job| job as usize).collect();
        let kept = plan.kept_in_move(&old, &new);
        if rules::Graph::new(plan.jobs, &kept).cyclic() {
            return Ok(());
        }
        same("agreement of the checks", &moved.quick, &moved.full)
    }
}

fn check_parts(given: &KeptParts, rules: &Penalty, struck: Struck) -> Result<(), Mismatch> {
    same(
        "invalid fixed edges",
        &given.invalid_fixed,
        &rules.invalid_fixed,
    )?;
    same("cycle penalty", &given.cycle, &rules.cycle)?;
    if !struck.a {
        same("assignment penalty", &given.assignment, &rules.assignment)?;
    }
    if !struck.b {
        same("makespan", &given.makespan, &(rules.makespan as i64))?;
    }
    if !struck.c {
        same("invalid entries", &given.invalid, &rules.invalid)?;
        same("violations", &given.violations, &rules.violations)?;
    }
    Ok(())
}

fn visits(refresh: Refresh) -> usize {
    match refresh {
        Refresh::Incremental(visits) => visits,
        _ => 0,
    }
}

/// The given refresh kind in document 01's words: a recovery is a full refresh there.
fn kind(refresh: Refresh, visits: usize) -> Report {
    match refresh {
        Refresh::Skipped => Report::Skipped,
        Refresh::Incremental(_) => Report::Incremental(visits),
        Refresh::CycleDetected => Report::CycleFound,
        Refresh::CycleRecovered | Refresh::Full => Report::Full,
    }
}

fn signed(starts: &[u64]) -> Vec<i64> {
    starts.iter().map(|&start| start as i64).collect()
}

fn same<T: PartialEq + Debug>(what: &str, given: &T, ours: &T) -> Result<(), Mismatch> {
    if given == ours {
        return Ok(());
    }
    Err(Mismatch(format!("{what}: given {given:?}, ours {ours:?}")))
}
