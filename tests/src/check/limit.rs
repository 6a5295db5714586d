//! How the generated calls come to sets at their limit, and which of them are lent rings past it.

use super::limit_ways::{Look, LINKS, WAYS};
use crate::drive::tally::Tally;
use crate::expected::expected;
use crate::gen::limit::in_turn;
use crate::gen::stream::all_calls;
use crate::protocol::Request;
use crate::sim::call::{number as op, Call};
use crate::sim::model::{Model, MAX_MEMBERS};
use crate::sim::run::FULL;
use crate::sim::sheet;
use crate::sim::tables::decode_any;
use std::collections::BTreeMap;

/// The calls that meet sets at their limit, and rings past it.
#[derive(Default)]
pub struct Limit {
    ways: BTreeMap<&'static str, u32>,
    /// By call, members of the set that is entered, where y stands in it, and where x comes from.
    entered: BTreeMap<(u32, usize, &'static str, &'static str), u32>,
    /// By call and the members of the longest ring.
    rings: BTreeMap<(u32, usize), u32>,
}

impl Limit {
    pub fn count(&mut self, tally: &mut Tally, request: &Request, code: u32) {
        let of_sheet = matches!(request.call.number, op::RUN | op::TURN | op::FRESH);
        let counts =
            if of_sheet { sheet::decode(&request.sheet).map(|sheet| sheet.counts) } else { Ok(request.counts) };
        let Some(model) = counts.and_then(|counts| decode_any(counts, &request.lent.tables)).ok() else { return };
        let longest = model.sets.iter().map(Vec::len).max().unwrap_or(0);
        let number = request.call.number;
        let judged = !matches!(number, op::FRESH | op::FRESH_MODEL | op::CHECK);
        let long = judged && longest > MAX_MEMBERS;
        let ends_well = if long { code == 2 } else { matches!(code, 0 | FULL) };
        *self.rings.entry((number, longest)).or_default() += u32::from(ends_well);
        if long {
            tally.check([1, 2].contains(&code), &format!("call {number} on a ring of {longest} came to {code}"));
        } else if !of_sheet {
            self.look(tally, &model, request.call, code);
        }
    }

    /// A call on a good model.
    fn look(&mut self, tally: &mut Tally, model: &Model, call: Call, code: u32) {
        let Call { number, x, y, .. } = call;
        let x = if number == op::WAIT { model.current() } else { x };
        let look = Look { number, x, y, model, code };
        tally.check(
            (code == 10) == look.too_many(),
            &format!("{call:?} came to {code} by the simulator, not by the sizes"),
        );
        WAYS.iter().filter(|(_, met)| met(&look)).for_each(|(name, _)| *self.ways.entry(name).or_default() += 1);
        if look.enters() && look.kinds() && x != y && matches!(code, 0 | 10) {
            let members = look.at().map_or(0, |s| model.sets[s].len());
            *self.entered.entry((number, members, look.place(), look.source())).or_default() += 1;
        }
    }

    pub fn check(&self, tally: &mut Tally) {
        for (case, code) in in_turn(1) {
            let got = expected(&case.request).code;
            tally.check(got == code, &format!("{:?}: wanted {code}, got {got}", case.request.call));
        }
        for (name, _) in WAYS {
            let count = self.ways.get(name).copied().unwrap_or(0);
            println!("at the limit, {name}: {count}");
            tally.check(count > 0, &format!("never met: {name}"));
        }
        let beside_head = ["its head"];
        let beside_any = ["its head", "its first", "one between", "its last"];
        for call in [op::FOLLOW, op::PRECEDE, op::INTO, op::WAIT] {
            let places = if matches!(call, op::INTO | op::WAIT) { &beside_head[..] } else { &beside_any[..] };
            for (members, place) in
                [MAX_MEMBERS - 1, MAX_MEMBERS].into_iter().flat_map(|m| places.iter().map(move |p| (m, *p)))
            {
                for source in ["no set", "another set", "the set itself"] {
                    let met = self.entered.contains_key(&(call, members, place, source));
                    tally.check(
                        met,
                        &format!("never met: call {call} on {members} members, beside {place}, from {source}"),
                    );
                }
            }
        }
        for call in all_calls().into_iter().filter(|&call| call != op::CHECK) {
            for length in [MAX_MEMBERS, MAX_MEMBERS + 1, MAX_MEMBERS + 2, LINKS] {
                let count = self.rings.get(&(call, length)).copied().unwrap_or(0);
                tally.check(count > 0, &format!("never met as it has to end: call {call} on a ring of {length}"));
            }
        }
    }
}
