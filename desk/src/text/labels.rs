//! Labels: each belongs to the body that it stands in.

use super::body::Body;
use super::declare::Declared;
use super::flow::{Flow, Step};
use crate::nearest::meant;
use crate::report::{Place, Report};
use crate::sheet::MAX_RECORDS;
use std::collections::{HashMap, HashSet};

pub struct Labels<'a> {
    declared: &'a Declared,
    bodies: &'a [Body],
    flows: &'a [Flow],
    /// The first body that has a label.
    first: HashMap<&'a str, usize>,
    /// The places of the labels that something goes to.
    used: HashSet<Place>,
    /// The places where a label is asked for that is not there.
    missed: HashSet<Place>,
}

impl<'a> Labels<'a> {
    pub fn new(declared: &'a Declared, bodies: &'a [Body], flows: &'a [Flow]) -> Labels<'a> {
        let mut first = HashMap::new();
        for (body, flow) in flows.iter().enumerate() {
            for name in flow.labels.keys() {
                first.entry(&name[..]).or_insert(body);
            }
        }
        Labels { declared, bodies, flows, first, used: HashSet::new(), missed: HashSet::new() }
    }

    /// The record that a label of this body stands for.
    fn find(&mut self, body: usize, (name, place): &(String, Place), report: &mut Report) -> u32 {
        if let Some(label) = self.flows[body].labels.get(name) {
            self.used.insert(label.place);
            return label.record;
        }
        if self.missed.insert(*place) {
            let title = &self.bodies[body].title;
            let hint = if report.is_full() { String::new() } else { self.hint(body, name) };
            report.error(*place, format!("no label '{name}' in the body of '{title}'{hint}"));
        }
        0
    }

    /// Where the label stands, what the name is, or which label is near.
    fn hint(&self, body: usize, name: &str) -> String {
        if let Some(other) = self.first.get(name) {
            let line = self.flows[*other].labels[name].place.line;
            return format!("; the one on line {line} belongs to the body of '{}'", self.bodies[*other].title);
        }
        if let Some(named) = self.declared.find(name) {
            return format!("; '{name}' is {}", named.is());
        }
        match &self.flows[body] {
            flow if flow.labels.len() > MAX_RECORDS as usize => String::new(),
            flow => meant(name, in_order(flow).into_iter().map(|(_, name)| name)),
        }
    }

    /// Sets the records that goto and branches go to.
    pub fn resolve(&mut self, steps: &mut [Step], report: &mut Report) {
        for (body, flow) in self.flows.iter().enumerate() {
            for step in &mut steps[flow.steps.clone()] {
                if let Some(label) = &step.goto {
                    step.record.next = self.find(body, label, report);
                }
                if let Some(label) = &step.branch {
                    step.record.y = self.find(body, label, report);
                }
            }
        }
    }

    /// The record where each process begins.
    pub fn starts(&mut self, processes: usize, report: &mut Report) -> Vec<u32> {
        let mut starts = vec![0; processes];
        for (body, flow) in self.flows.iter().enumerate() {
            for owner in &self.bodies[body].owners {
                let from = owner.from.as_ref().map(|label| self.find(body, label, report));
                starts[owner.process as usize - 1] = from.unwrap_or(flow.first);
            }
        }
        starts
    }

    /// Warns of labels that nothing goes to.
    pub fn unused(&self, report: &mut Report) {
        for (place, name) in self.flows.iter().flat_map(in_order).filter(|(place, _)| !self.used.contains(place)) {
            report.warning(place, format!("nothing goes to label '{name}'"));
        }
    }
}

/// The labels of a body by their places.
fn in_order(flow: &Flow) -> Vec<(Place, &str)> {
    let mut labels: Vec<(Place, &str)> = flow.labels.iter().map(|(name, label)| (label.place, &name[..])).collect();
    labels.sort_unstable();
    labels
}
