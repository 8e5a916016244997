//! How often each check and each rule of a bad table decided an answer, and each kind of explanation was given.
use crate::compare::Answer;
use crate::model::{self, Check};
use std::collections::BTreeMap;

/// Calls and previews of commands apart: a preview has to come to every check of a command too.
#[derive(Clone, Debug, Default)]
pub struct Coverage {
    calls: BTreeMap<Check, u64>,
    previews: BTreeMap<Check, u64>,
    bad: BTreeMap<&'static str, u64>,
    kinds: BTreeMap<&'static str, u64>,
}

fn add<K: Copy + Ord>(counts: &mut BTreeMap<K, u64>, others: &BTreeMap<K, u64>) {
    for (key, count) in others {
        *counts.entry(*key).or_default() += count;
    }
}

fn of<K: Ord>(counts: &BTreeMap<K, u64>, key: &K) -> u64 {
    counts.get(key).copied().unwrap_or(0)
}

/// Host calls have no preview, nor have fresh, charge, next and explain.
fn has_preview(check: &Check) -> bool {
    !["fresh", "bind", "attach", "detach", "reach", "charge", "next", "explain", "explain MAP", "explain COPY"].contains(&check.call)
}

impl Coverage {
    pub fn count(&mut self, answer: &Answer) {
        let counts = if answer.preview { &mut self.previews } else { &mut self.calls };
        *counts.entry(answer.check).or_default() += 1;
        if let Some(rule) = answer.bad {
            *self.bad.entry(rule).or_default() += 1;
        }
        for kind in &answer.kinds {
            *self.kinds.entry(kind).or_default() += 1;
        }
    }

    pub fn add(&mut self, other: &Coverage) {
        add(&mut self.calls, &other.calls);
        add(&mut self.previews, &other.previews);
        add(&mut self.bad, &other.bad);
        add(&mut self.kinds, &other.kinds);
    }

    /// A line for each check in the paper's order with its calls and previews, then one for each rule of a bad table and each kind of explanation.
    pub fn lines(&self) -> Vec<String> {
        let mut lines = vec![format!("{:>9} {:>9}  check", "calls", "previews")];
        for check in model::checks() {
            let previews = if has_preview(&check) { of(&self.previews, &check).to_string() } else { String::new() };
            lines.push(format!("{:>9} {previews:>9}  {}", of(&self.calls, &check), said(&check)));
        }
        lines.extend(model::bad_rules().iter().map(|rule| format!("{:>9} {:>9}  bad table: {rule}", of(&self.bad, rule), "")));
        lines.extend(model::kinds().iter().map(|kind| format!("{:>9} {:>9}  {kind}", of(&self.kinds, kind), "")));
        lines
    }

    /// What is not as it should be, a line each. A whole set of sequences has to reach everything that the model lists.
    pub fn faults(&self, whole: bool) -> Vec<String> {
        let missing = if whole { self.missing() } else { vec![] };
        let missing = missing.iter().map(|check| format!("NOT REACHED: {check}"));
        let unlisted = self.unlisted();
        missing.chain(unlisted.iter().map(|check| format!("REACHED BUT NOT LISTED: {check}"))).collect()
    }

    /// What the model lists and no call, or no preview, came to.
    pub fn missing(&self) -> Vec<String> {
        let checks = model::checks();
        let calls = checks.iter().filter(|check| !self.calls.contains_key(check)).map(said);
        let previewed = checks.iter().filter(|check| has_preview(check) && !self.previews.contains_key(check));
        let previews = previewed.map(|check| format!("preview of {}", said(check)));
        let rules = model::bad_rules();
        let rules = rules.iter().filter(|rule| !self.bad.contains_key(*rule)).map(|rule| format!("bad table: {rule}"));
        let kinds = model::kinds().into_iter().filter(|kind| !self.kinds.contains_key(kind)).map(str::to_string);
        calls.chain(previews).chain(rules).chain(kinds).collect()
    }

    /// What a call came to and the model does not list.
    pub fn unlisted(&self) -> Vec<String> {
        let (checks, rules) = (model::checks(), model::bad_rules());
        let reached = self.calls.keys().chain(self.previews.keys());
        let unlisted_checks = reached.filter(|check| !checks.contains(check)).map(said);
        let unlisted_rules = self.bad.keys().filter(|rule| !rules.contains(rule)).map(|rule| format!("bad table: {rule}"));
        unlisted_checks.chain(unlisted_rules).collect()
    }
}

/// A check in words.
pub fn said(check: &Check) -> String {
    match check.errno {
        0 => format!("{}: {}", check.call, check.rule),
        errno => format!("{} -{errno}: {}", check.call, check.rule),
    }
}
