//! Damage to rings: words of links and axis, heads, cycles.

use super::damage::{changed, idle_place, Damaged};
use crate::rng::Rng;
use crate::sim::model::Model;

/// A value other than the one that stands there: in range, just past it, or anything.
fn other(rng: &mut Rng, old: u32, top: u32) -> u32 {
    loop {
        let value = match rng.below(6) {
            0 => 0,
            1 => top + 1,
            2 => rng.pick(&[u32::MAX, 1 << 31, 65_536, 65_535]),
            _ => rng.between(0, top),
        };
        if value != old {
            return value;
        }
    }
}

/// Another value for word `at` of the table.
fn spoil(rng: &mut Rng, table: &mut [u32], at: usize) {
    let top = table.len() as u32 / 2 - 1;
    table[at] = other(rng, table[at], top);
}

/// A word of the successor half (0) or predecessor half (1), heads included.
pub fn link_word(rng: &mut Rng, model: Model, half: usize) -> Option<Damaged> {
    let n = model.counts.total() as usize;
    let at = half * (n + 1) + 1 + rng.index(n);
    changed(model, |t| spoil(rng, &mut t.links, at))
}

pub fn axis_word(rng: &mut Rng, model: Model, half: usize) -> Option<Damaged> {
    let p = model.counts.processes as usize;
    let at = half * (p + 2) + 1 + rng.index(p + 1);
    changed(model, |t| spoil(rng, &mut t.axis, at))
}

/// A word of a head, in either half.
pub fn head_word(rng: &mut Rng, model: Model) -> Option<Damaged> {
    let (heads, half) = (model.sets.len(), model.counts.total() as usize + 1);
    let at = 1 + (heads > 0).then(|| rng.index(heads))? + half * rng.index(2);
    changed(model, |t| spoil(rng, &mut t.links, at))
}

pub fn axis_head_word(rng: &mut Rng, model: Model) -> Option<Damaged> {
    let places = model.counts.processes as usize + 2;
    let at = places - 1 + places * rng.index(2);
    changed(model, |t| spoil(rng, &mut t.axis, at))
}

/// Place 0 of either half, or of both.
fn place_zero(rng: &mut Rng, table: &mut [u32]) {
    let half = table.len() / 2;
    let which = rng.below(3);
    if which != 1 {
        spoil(rng, table, 0);
    }
    if which != 0 {
        spoil(rng, table, half);
    }
}

pub fn link_place_zero(rng: &mut Rng, model: Model) -> Option<Damaged> {
    changed(model, |t| place_zero(rng, &mut t.links))
}

pub fn axis_place_zero(rng: &mut Rng, model: Model) -> Option<Damaged> {
    changed(model, |t| place_zero(rng, &mut t.axis))
}

/// A head of an empty set, written like an unlinked link.
pub fn zero_head(rng: &mut Rng, mut model: Model) -> Option<Damaged> {
    let heads = model.sets.len();
    let h = 1 + (heads > 0).then(|| rng.index(heads))?;
    model.sets[h - 1].clear();
    let n = model.counts.total() as usize;
    changed(model, |t| {
        t.links[h] = 0;
        t.links[n + 1 + h] = 0;
    })
}

pub fn empty_axis(mut model: Model) -> Option<Damaged> {
    model.notices.clear();
    changed(model, |_| {})
}

pub fn axis_of_zeros(mut model: Model) -> Option<Damaged> {
    model.notices.clear();
    changed(model, |t| t.axis.fill(0))
}

/// Writes a ring of these places, in this order.
fn ring(table: &mut [u32], places: &[u32]) {
    let half = table.len() / 2;
    for (i, &from) in places.iter().enumerate() {
        let to = places[(i + 1) % places.len()];
        table[from as usize] = to;
        table[half + to as usize] = from;
    }
}

/// Two different numbers from 1 to n.
fn two(rng: &mut Rng, n: u32) -> Option<(u32, u32)> {
    let first = (n >= 2).then(|| rng.between(1, n))?;
    let second = rng.between(1, n - 1);
    Some((first, if second >= first { second + 1 } else { second }))
}

/// One sound ring through two heads and all their members.
pub fn joined_heads(rng: &mut Rng, model: Model) -> Option<Damaged> {
    let (g, h) = two(rng, model.counts.heads)?;
    let mut places = vec![g];
    places.extend(model.members(g));
    places.push(h);
    places.extend(model.members(h));
    changed(model, |t| ring(&mut t.links, &places))
}

/// The successor of one head is a member of another head's set.
pub fn crossing(rng: &mut Rng, model: Model) -> Option<Damaged> {
    let (g, h) = two(rng, model.counts.heads)?;
    let first = model.first_of(g);
    changed(model, |t| t.links[h as usize] = first).filter(|_| first != 0)
}

pub fn pair_without_head(rng: &mut Rng, mut model: Model) -> Option<Damaged> {
    let c = model.counts;
    let (a, b) = two(rng, c.total() - c.heads)?;
    let places = [c.heads + a, c.heads + b];
    places.iter().for_each(|&x| model.unlink(x));
    changed(model, |t| ring(&mut t.links, &places))
}

pub fn single_without_head(rng: &mut Rng, mut model: Model) -> Option<Damaged> {
    let x = rng.between(model.counts.heads + 1, model.counts.total());
    model.unlink(x);
    changed(model, |t| ring(&mut t.links, &[x]))
}

pub fn axis_pair_without_head(rng: &mut Rng, model: Model) -> Option<Damaged> {
    let a = idle_place(rng, &model)? as u32;
    let b = idle_place(rng, &model)? as u32;
    changed(model, |t| ring(&mut t.axis, &[a, b])).filter(|_| a != b)
}

pub fn axis_single_without_head(rng: &mut Rng, model: Model) -> Option<Damaged> {
    let p = idle_place(rng, &model)? as u32;
    changed(model, |t| ring(&mut t.axis, &[p]))
}

/// The last of these members goes back to one of them instead of to the head.
fn fall_into_loop(rng: &mut Rng, table: &mut [u32], members: &[u32]) {
    let last = members[members.len() - 1];
    table[last as usize] = members[rng.index(members.len())];
}

pub fn link_loop(rng: &mut Rng, model: Model) -> Option<Damaged> {
    let set = model.sets.iter().find(|set| !set.is_empty())?.clone();
    changed(model, |t| fall_into_loop(rng, &mut t.links, &set))
}

pub fn axis_loop(rng: &mut Rng, model: Model) -> Option<Damaged> {
    let c = model.counts;
    let places: Vec<u32> = model.notices.iter().map(|n| c.place(n.process)).collect();
    changed(model, |t| fall_into_loop(rng, &mut t.axis, &places))
}

/// Two members of one set change predecessors.
pub fn swapped_predecessors(rng: &mut Rng, model: Model) -> Option<Damaged> {
    let set = model.sets.iter().find(|set| set.len() > 1)?.clone();
    let (a, b) = two(rng, set.len() as u32)?;
    let half = model.counts.total() as usize + 1;
    let at = |i: u32| half + set[i as usize - 1] as usize;
    changed(model, |t| t.links.swap(at(a), at(b)))
}
