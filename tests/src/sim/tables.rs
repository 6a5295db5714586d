//! The lent tables. A model is read from them by walking every ring into a list; they are well formed
//! exactly if the tables written from those lists are the same, word for word.

use super::model::{require, Counts, Model, Notice, Refusal, LIMIT, MAX_MEMBERS};
use crate::mutations::{on, M};

#[derive(Clone, Debug, Default, PartialEq, Eq)]
pub struct Tables {
    pub links: Vec<u32>,
    pub axis: Vec<u32>,
    pub times: Vec<u64>,
    pub marks: Vec<u8>,
}

/// The counts and the lengths, refusal 1.
pub fn judge_lengths(counts: Counts, t: &Tables) -> Result<(), Refusal> {
    require(counts.within_limits(), 1)?;
    let (n, p) = (counts.total() as usize, counts.processes as usize);
    let fit =
        t.links.len() == 2 * (n + 1) && t.axis.len() == 2 * (p + 2) && t.times.len() == p + 1 && t.marks.len() == p + 1;
    require(fit, 1)
}

/// The model that the tables spell, or refusal 1 or 2.
pub fn decode(counts: Counts, t: &Tables) -> Result<Model, Refusal> {
    let model = decode_any(counts, t)?;
    require(short(&model), if on(M::LongRingTen) { 10 } else { 2 })?;
    Ok(model)
}

/// The same, with rings of any length.
pub fn decode_any(counts: Counts, t: &Tables) -> Result<Model, Refusal> {
    judge_lengths(counts, t)?;
    let model = spell(counts, t).ok_or(2u32)?;
    require(sound(&model) && same(&encode(&model), t, counts), 2)?;
    Ok(model)
}

/// Walks all rings along their successors. None where a walk leaves its ring.
fn spell(counts: Counts, t: &Tables) -> Option<Model> {
    let n = counts.total();
    let mut seen = vec![false; n as usize + 1];
    let mut model = Model::fresh(counts);
    for head in 1..=counts.heads {
        let ring = walk(&t.links, head, &mut seen, |i| counts.is_link(i))?;
        model.sets[head as usize - 1] = ring;
    }
    let axis_head = counts.processes + 1;
    let mut seen = vec![false; axis_head as usize + 1];
    let ring = walk(&t.axis, axis_head, &mut seen, |p| p >= 1 && p <= counts.processes)?;
    let notice = |p: u32| Notice { process: counts.process(p), time: t.times[p as usize] };
    model.notices = ring.into_iter().map(notice).collect();
    model.terminated = t.marks[1..].iter().map(|&mark| mark == 1).collect();
    Some(model)
}

/// The members of the ring of `head`: each a member by kind and met for the first time.
fn walk(suc: &[u32], head: u32, seen: &mut [bool], member: impl Fn(u32) -> bool) -> Option<Vec<u32>> {
    let mut ring = Vec::new();
    let mut at = suc[head as usize];
    while at != head {
        if !member(at) || seen[at as usize] {
            return None;
        }
        seen[at as usize] = true;
        ring.push(at);
        at = suc[at as usize];
    }
    Some(ring)
}

/// What is asked of the lists themselves: a notice, times that never fall and keep the limit, marks.
fn sound(model: &Model) -> bool {
    let falls = model.notices.windows(2).any(|w| w[0].time > w[1].time);
    let late = model.notices.iter().any(|n| n.time > LIMIT);
    let main_marked = model.terminated[0] && !on(M::MainMarkTaken);
    let live_marked = model.notices.iter().any(|n| model.is_terminated(n.process));
    !model.notices.is_empty() && !falls && !late && !main_marked && !live_marked
}

/// No ring has more members than a set may have; the misreadings count otherwise.
fn short(model: &Model) -> bool {
    let most = match MAX_MEMBERS {
        most if on(M::RingOf513Taken) => most + 1,
        most if on(M::RingOf512Refused) => most - 1,
        most => most,
    };
    let mut lengths: Vec<usize> = model.sets.iter().map(Vec::len).collect();
    if on(M::RingsCountedTogether) {
        lengths = vec![lengths.iter().sum()];
    }
    if on(M::LastRingUncounted) {
        lengths.pop();
    }
    if on(M::FirstRingUncounted) {
        lengths.drain(..lengths.len().min(1));
    }
    on(M::AnyRingTaken) || lengths.iter().all(|&length| length <= most)
}

/// Every word the same; the misreadings leave some out.
fn same(written: &Tables, lent: &Tables, counts: Counts) -> bool {
    let axis_head = counts.processes as usize + 1;
    let mut lent = lent.clone();
    if on(M::MarkTwoTaken) {
        lent.marks.iter_mut().filter(|m| **m > 1).for_each(|m| *m = 0);
    }
    if on(M::IdleTimeTaken) {
        let idle: Vec<usize> = (1..axis_head).filter(|&p| lent.axis[p] == 0).collect();
        idle.into_iter().for_each(|p| lent.times[p] = 0);
    }
    if on(M::PredecessorsUnread) {
        let (l, a) = (lent.links.len() / 2, lent.axis.len() / 2);
        lent.links[l..].copy_from_slice(&written.links[l..]);
        lent.axis[a..].copy_from_slice(&written.axis[a..]);
    }
    *written == lent
}

/// The well-formed tables that spell the model.
pub fn encode(model: &Model) -> Tables {
    let counts = model.counts;
    let (n, p) = (counts.total() as usize, counts.processes as usize);
    let mut t = Tables {
        links: vec![0; 2 * (n + 1)],
        axis: vec![0; 2 * (p + 2)],
        times: vec![0; p + 1],
        marks: vec![0; p + 1],
    };
    for head in 1..=counts.heads {
        write_ring(&mut t.links, head, model.members(head));
    }
    let order: Vec<u32> = model.notices.iter().map(|x| counts.place(x.process)).collect();
    write_ring(&mut t.axis, counts.processes + 1, &order);
    for notice in &model.notices {
        t.times[counts.place(notice.process) as usize] = notice.time;
    }
    for (i, &terminated) in model.terminated.iter().enumerate() {
        t.marks[i + 1] = u8::from(terminated);
    }
    t
}

/// Successors in the first half of the table, predecessors in the second.
fn write_ring(table: &mut [u32], head: u32, members: &[u32]) {
    let half = table.len() / 2;
    let mut before = head;
    for &member in members.iter().chain([&head]) {
        table[before as usize] = member;
        table[half + member as usize] = before;
        before = member;
    }
}
