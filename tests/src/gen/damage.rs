//! Damaged tables, one class for each way to break what document 01 asks of them.

use super::{long_rings, ring_damage as rings};
use crate::rng::Rng;
use crate::sim::model::{Counts, Model, Notice, LIMIT, MAX_HEADS, MAX_PLAIN, MAX_PROCESSES};
use crate::sim::tables::{encode, Tables};

/// Counts and tables that must be refused.
pub struct Damaged {
    pub counts: Counts,
    pub tables: Tables,
}

/// A way to damage the tables of a good model; none where the model lacks what it takes.
pub struct Class {
    pub name: &'static str,
    pub refusal: u32,
    pub make: fn(&mut Rng, Model) -> Option<Damaged>,
}

const fn class(name: &'static str, refusal: u32, make: fn(&mut Rng, Model) -> Option<Damaged>) -> Class {
    Class { name, refusal, make }
}

pub const CLASSES: &[Class] = &[
    class("links of another length", 1, |rng, m| resized(rng, m, 0)),
    class("axis of another length", 1, |rng, m| resized(rng, m, 1)),
    class("times of another length", 1, |rng, m| resized(rng, m, 2)),
    class("marks of another length", 1, |rng, m| resized(rng, m, 3)),
    class("heads outside the limit", 1, |rng, m| recounted(rng, m, 0)),
    class("no process", 1, |_, m| no_process(m)),
    class("processes outside the limit", 1, |rng, m| recounted(rng, m, 1)),
    class("plain links outside the limit", 1, |rng, m| recounted(rng, m, 2)),
    class("counts that wrap", 1, |_, m| wrapped(m)),
    class("a process counted as head", 2, |_, m| shifted(m, 1)),
    class("a head counted as process", 2, |_, m| shifted(m, -1)),
    class("link successor word", 2, |rng, m| rings::link_word(rng, m, 0)),
    class("link predecessor word", 2, |rng, m| rings::link_word(rng, m, 1)),
    class("link place 0", 2, rings::link_place_zero),
    class("axis successor word", 2, |rng, m| rings::axis_word(rng, m, 0)),
    class("axis predecessor word", 2, |rng, m| rings::axis_word(rng, m, 1)),
    class("axis place 0", 2, rings::axis_place_zero),
    class("head word", 2, rings::head_word),
    class("axis head word", 2, rings::axis_head_word),
    class("head with two zeros", 2, rings::zero_head),
    class("empty axis", 2, |_, m| rings::empty_axis(m)),
    class("axis of zeros", 2, |_, m| rings::axis_of_zeros(m)),
    class("two heads on one ring", 2, rings::joined_heads),
    class("a ring that runs into another", 2, rings::crossing),
    class("two links on a ring without head", 2, rings::pair_without_head),
    class("a link on a ring of its own", 2, rings::single_without_head),
    class("two processes on an axis ring without head", 2, rings::axis_pair_without_head),
    class("a process on an axis ring of its own", 2, rings::axis_single_without_head),
    class("successors that fall into a loop", 2, rings::link_loop),
    class("axis successors that fall into a loop", 2, rings::axis_loop),
    class("two predecessors swapped", 2, rings::swapped_predecessors),
    class("a ring longer than 512", 2, long_rings::lengthened),
    class("times place 0", 2, |rng, m| changed(m, |t| t.times[0] = 1 + rng.below(9))),
    class("idle process with a time", 2, idle_time),
    class("time above the limit", 2, late_time),
    class("times falling along the axis", 2, falling),
    class("mark of 2 or more", 2, high_mark),
    class("mark on a live process", 2, live_mark),
    class("mark on main", 2, main_mark),
    class("marks place 0", 2, |rng, m| changed(m, |t| t.marks[0] = rng.pick(&[1, 2, 255]))),
];

/// Some class that fits this model.
pub fn any(rng: &mut Rng, model: &Model) -> (&'static Class, Damaged) {
    loop {
        let class = &CLASSES[rng.index(CLASSES.len())];
        if let Some(damaged) = (class.make)(rng, model.clone()) {
            return (class, damaged);
        }
    }
}

/// A few words anywhere changed at random, each to another word of its table or to a small number.
/// What comes of it may still be well formed.
pub fn scramble(rng: &mut Rng, t: &mut Tables) {
    for _ in 0..rng.between(1, 3) {
        let small = rng.below(6);
        match rng.below(4) {
            0 => replace(rng, &mut t.links, small as u32),
            1 => replace(rng, &mut t.axis, small as u32),
            2 => replace(rng, &mut t.times, small),
            _ => replace(rng, &mut t.marks, small as u8 / 2),
        }
    }
}

fn replace<T: Copy>(rng: &mut Rng, table: &mut [T], small: T) {
    let (at, other) = (rng.index(table.len()), rng.index(table.len()));
    table[at] = if rng.chance(50) { table[other] } else { small };
}

/// The tables of the model with one change made to them.
pub fn changed(model: Model, change: impl FnOnce(&mut Tables)) -> Option<Damaged> {
    let mut tables = encode(&model);
    change(&mut tables);
    Some(Damaged { counts: model.counts, tables })
}

fn resized(rng: &mut Rng, model: Model, table: usize) -> Option<Damaged> {
    let change = rng.below(6);
    let length = |old: usize| match change {
        0 => 0,
        1 => old + 2,
        2 => old - 2,
        3 => old - 1,
        _ => old + 1,
    };
    changed(model, |t| match table {
        0 => t.links.resize(length(t.links.len()), 0),
        1 => t.axis.resize(length(t.axis.len()), 0),
        2 => t.times.resize(length(t.times.len()), 0),
        _ => t.marks.resize(length(t.marks.len()), 0),
    })
}

/// One count above its limit: by one with tables that fit it, or by much.
fn recounted(rng: &mut Rng, model: Model, which: usize) -> Option<Damaged> {
    let mut counts = model.counts;
    let (count, limit) = match which {
        0 => (&mut counts.heads, MAX_HEADS),
        1 => (&mut counts.processes, MAX_PROCESSES),
        _ => (&mut counts.plain, MAX_PLAIN),
    };
    if rng.chance(50) {
        *count = limit + 1;
        let tables = encode(&Model::fresh(counts));
        return Some(Damaged { counts, tables });
    }
    *count = rng.pick(&[limit + 1, limit + 7, 65_536, 1 << 31, u32::MAX]);
    Some(Damaged { counts, tables: encode(&model) })
}

/// P = 0, with tables of the lengths that it would take.
fn no_process(model: Model) -> Option<Damaged> {
    let counts = Counts { processes: 0, ..model.counts };
    let n = counts.total() as usize;
    let tables = Tables { links: vec![0; 2 * (n + 1)], axis: vec![0; 4], times: vec![0], marks: vec![0] };
    Some(Damaged { counts, tables })
}

/// Counts whose 32-bit sum is the right one.
fn wrapped(model: Model) -> Option<Damaged> {
    let mut counts = model.counts;
    counts.heads += 1 << 31;
    counts.plain += 1 << 31;
    Some(Damaged { counts, tables: encode(&model) })
}

/// The border between heads and processes moved by one, all lengths as before.
fn shifted(model: Model, by: i64) -> Option<Damaged> {
    let heads = u32::try_from(i64::from(model.counts.heads) + by).ok()?;
    let plain = u32::try_from(i64::from(model.counts.plain) - by).ok()?;
    let counts = Counts { heads, plain, ..model.counts };
    counts.within_limits().then(|| Damaged { counts, tables: encode(&model) })
}

/// A process without a notice: place p.
pub fn idle_place(rng: &mut Rng, model: &Model) -> Option<usize> {
    let c = model.counts;
    let idle: Vec<u32> = (1..=c.processes).filter(|&p| model.notice_of(c.process(p)).is_none()).collect();
    (!idle.is_empty()).then(|| idle[rng.index(idle.len())] as usize)
}

fn idle_time(rng: &mut Rng, model: Model) -> Option<Damaged> {
    let p = idle_place(rng, &model)?;
    changed(model, |t| t.times[p] = rng.pick(&[1, LIMIT, LIMIT + 1, u64::MAX]))
}

fn late_time(rng: &mut Rng, mut model: Model) -> Option<Damaged> {
    let late = rng.pick(&[LIMIT + 1, LIMIT + 2, 1 << 63, u64::MAX]);
    let from = rng.index(model.notices.len());
    model.notices[from..].iter_mut().for_each(|n| n.time = late);
    changed(model, |_| {})
}

/// Some notice gets a time above that of the next.
fn falling(rng: &mut Rng, mut model: Model) -> Option<Damaged> {
    let pairs = model.notices.len().checked_sub(1).filter(|&pairs| pairs > 0)?;
    let i = rng.index(pairs);
    let next = model.notices[i + 1].time;
    if next < LIMIT {
        model.notices[i].time = if rng.chance(70) { next + 1 } else { LIMIT };
    } else {
        model.notices[i].time = LIMIT;
        model.notices[i + 1].time = LIMIT - 1;
    }
    changed(model, |_| {})
}

fn high_mark(rng: &mut Rng, model: Model) -> Option<Damaged> {
    let p = 1 + rng.index(model.counts.processes as usize);
    changed(model, |t| t.marks[p] = rng.between(2, 255) as u8)
}

fn live_mark(rng: &mut Rng, model: Model) -> Option<Damaged> {
    let others: Vec<&Notice> = model.notices.iter().filter(|n| n.process != model.counts.main()).collect();
    if others.is_empty() {
        return None;
    }
    let p = model.counts.place(others[rng.index(others.len())].process) as usize;
    changed(model, |t| t.marks[p] = 1)
}

/// Main marked, idle unless it has the only notice.
fn main_mark(_: &mut Rng, mut model: Model) -> Option<Damaged> {
    if model.notices.len() > 1 {
        let main = model.counts.main();
        model.notices.retain(|n| n.process != main);
    }
    changed(model, |t| t.marks[1] = 1)
}
