//! Sheets built by hand whose queues come to the most members that a set may have: some stay there, some are refused with 10.

use super::queue_cases::{add_body, record};
use crate::sim::call::number as op;
use crate::sim::model::{Counts, MAX_HEADS, MAX_MEMBERS, MAX_PLAIN};
use crate::sim::run::Run;
use crate::sim::sheet::{Record, Sheet, CURRENT};

/// A sheet and the last line that it prints.
pub type Told = (Sheet, &'static str);

const FULL: u32 = MAX_MEMBERS as u32;

fn sheet(counts: Counts) -> Sheet {
    Sheet { counts, starts: Vec::new(), records: Vec::new() }
}

/// Main alone does these.
fn by_main(counts: Counts, body: Vec<Record>) -> Sheet {
    let mut sheet = sheet(counts);
    add_body(&mut sheet, body, false);
    sheet.starts.resize(counts.processes as usize, 0);
    sheet
}

/// The plain links with these places, the first being 1, put beside y by this operation.
fn put(counts: Counts, places: std::ops::RangeInclusive<u32>, operation: u32, y: u32) -> Vec<Record> {
    let plain = counts.process(counts.processes);
    places.map(|place| record(operation, plain + place, y, 0)).collect()
}

/// Main puts 513 links into one set, by into, or beside its head or its first member; the last is refused.
fn one_by_one() -> Vec<Told> {
    let (one, two, many) = (Counts::new(1, 1, 513), Counts::new(2, 1, 600), Counts::new(MAX_HEADS, 3, MAX_PLAIN));
    let first = |counts: Counts, head: u32| put(counts, 1..=1, op::INTO, head);
    let told = "refused 10 at record 513 after 512";
    vec![
        (by_main(one, put(one, 1..=513, op::INTO, 1)), told),
        (by_main(two, put(two, 1..=513, op::FOLLOW, 2)), told),
        (by_main(two, put(two, 1..=513, op::PRECEDE, 1)), told),
        (by_main(two, [first(two, 2), put(two, 2..=513, op::FOLLOW, CURRENT + 2)].concat()), told),
        (by_main(many, [first(many, MAX_HEADS), put(many, 2..=513, op::PRECEDE, CURRENT + MAX_HEADS)].concat()), told),
    ]
}

/// Main activates all others and then does these; each of the others does those.
fn all_at_once(counts: Counts, main: Vec<Record>, others: Vec<Record>) -> Sheet {
    let activate = |p: u32| Record { clause: 2, ..record(op::ACTIVATE, counts.process(p), 0, i64::from(p / 4)) };
    let mut sheet = sheet(counts);
    add_body(&mut sheet, (2..=counts.processes).map(activate).chain(main).collect(), false);
    add_body(&mut sheet, others, false);
    let start = sheet.starts[1];
    sheet.starts.resize(counts.processes as usize, start);
    sheet
}

/// Processes that enter by themselves. The last one waits alone on the axis: refused with 10 where the set is full, and with 4 where it
/// is one of the 512.
fn by_themselves() -> Vec<Told> {
    let hold = vec![record(op::HOLD, 0, 0, 1_000)];
    let wait = |head: u32| vec![record(op::WAIT, 0, head, 0)];
    let into = |head: u32| vec![record(op::INTO, CURRENT, head, 0)];
    let precede = vec![record(op::PRECEDE, CURRENT, 1, 0)];
    let all = |heads: u32, processes: u32| Counts::new(heads, processes, 0);
    vec![
        (all_at_once(all(1, 514), hold.clone(), wait(1)), "refused 10 at record 515 after 1026"),
        (all_at_once(all(3, 1_024), hold.clone(), into(2)), "refused 10 at record 1025 after 2048"),
        (all_at_once(all(2, 600), hold.clone(), precede), "refused 10 at record 601 after 1624"),
        (all_at_once(all(1, 513), wait(1), wait(1)), "refused 10 at record 514 after 1024"),
        (all_at_once(all(1, 512), wait(1), [into(1), wait(1)].concat()), "refused 4 at record 514 after 1533"),
        (all_at_once(all(1, 512), hold, wait(1)), "finished 1023"),
    ]
}

/// Main fills the set of a head with so many links, from the first plain one on; then it does these.
fn filled(counts: Counts, head: u32, members: u32, body: Vec<Record>) -> Sheet {
    by_main(counts, [put(counts, 1..=members, op::INTO, head), body].concat())
}

/// Members of a full set move within it, again and again; links that come in are refused, at last.
fn within() -> Vec<Told> {
    let counts = Counts::new(2, 2, 513);
    let (first, last, between) = (CURRENT + 1, counts.process(2) + 512, counts.process(2) + 200);
    let round = [
        record(op::INTO, first, 1, 0),
        record(op::FOLLOW, last, 1, 0),
        record(op::PRECEDE, between, first, 0),
        record(op::FOLLOW, first, last, 0),
        record(op::PRECEDE, first, 1, 0),
        record(op::HOLD, 0, 0, 1),
    ];
    let rounds = [&round[..]; 12].concat();
    let over = |operation: u32, y: u32| [rounds.clone(), vec![record(operation, counts.total(), y, 0)]].concat();
    let few = Counts::new(1, 1, 511);
    let all = put(few, 1..=511, op::INTO, 1).into_iter().chain([record(op::INTO, CURRENT, 1, 0)]);
    let moved = put(few, 1..=400, op::FOLLOW, 1).into_iter().chain(put(few, 1..=400, op::INTO, 1));
    vec![
        (filled(counts, 1, FULL, rounds.clone()), "finished 584"),
        (filled(counts, 1, FULL, over(op::INTO, 1)), "refused 10 at record 585 after 584"),
        (filled(counts, 1, FULL, over(op::FOLLOW, between)), "refused 10 at record 585 after 584"),
        (by_main(few, all.chain(moved).collect()), "finished 1312"),
    ]
}

/// Links leave a set that is full or nearly, each way that there is, and as many enter it; then one more.
fn left_and_entered() -> Vec<Told> {
    let counts = Counts::new(3, 2, 530);
    let (first, free) = (CURRENT + 1, counts.process(2) + FULL + 1); // the links from `free` on are in no set
    let ways = [
        record(op::OUT, first, 0, 0),
        record(op::FOLLOW, first, first, 0),
        record(op::PRECEDE, first, counts.main(), 0),
        record(op::INTO, first, 0, 0),
        record(op::INTO, first, 3, 0),
        record(op::FOLLOW, first, 2, 0),
    ];
    let enter = |operation: u32, x: u32, y: u32| record(operation, x, y, 0);
    let mut one_out_one_in = Vec::new();
    for (i, way) in (0..).zip([ways; 3].concat()) {
        let entering =
            [enter(op::INTO, free + i, 1), enter(op::FOLLOW, free + i, 1), enter(op::PRECEDE, free + i, first)];
        one_out_one_in.extend([way, entering[i as usize % 3]]);
    }
    let down = ways.iter().chain(&ways).copied();
    let up = (0..12).map(|i| enter(op::INTO, free + i, 1));
    let down_and_up: Vec<Record> = down.chain(up).collect();
    let over = |body: &[Record]| [body, &[enter(op::INTO, CURRENT, 1)][..]].concat();
    let again = [record(op::CLEAR, 1, 0, 0)].into_iter().chain(put(counts, 11..=FULL + 10, op::INTO, 1));
    let cleared: Vec<Record> = again.chain([record(op::HOLD, 0, 0, 3)]).collect();
    vec![
        (filled(counts, 1, FULL, over(&one_out_one_in)), "refused 10 at record 549 after 548"),
        (filled(counts, 1, FULL, over(&down_and_up)), "refused 10 at record 537 after 536"),
        (filled(counts, 1, FULL, over(&cleared)), "refused 10 at record 1027 after 1026"),
        (filled(counts, 1, FULL, [down_and_up, one_out_one_in].concat()), "finished 572"),
    ]
}

/// Two full sets, and a third that has room: moves within both and from each into the third; then from one into the other.
fn two_queues() -> Vec<Told> {
    let counts = Counts::new(3, 2, 1_024);
    let (one, two, three) = (CURRENT + 1, CURRENT + 2, CURRENT + 3);
    let fill = [put(counts, 1..=FULL, op::INTO, 1), put(counts, FULL + 1..=2 * FULL, op::INTO, 2)].concat();
    let round = [
        record(op::INTO, one, 1, 0),
        record(op::PRECEDE, two, 2, 0),
        record(op::INTO, one, 3, 0),
        record(op::FOLLOW, two, one, 0),
        record(op::INTO, three, 2, 0),
    ];
    let rounds = [&round[..]; 6].concat();
    let over = |operation: u32, y: u32| record(operation, one, y, 0);
    let with = |more: &[Record]| by_main(counts, [&fill[..], &rounds, more].concat());
    vec![
        (with(&[]), "finished 1054"),
        (with(&[over(op::INTO, 2)]), "refused 10 at record 1055 after 1054"),
        (with(&[over(op::FOLLOW, two)]), "refused 10 at record 1055 after 1054"),
        (with(&[record(op::PRECEDE, two, one, 0)]), "refused 10 at record 1055 after 1054"),
    ]
}

/// Operands of the wrong kind, the other one being a full set; wait by main, which is alone on the axis.
fn wrong_kinds() -> Vec<Told> {
    let counts = Counts::new(2, 2, 513);
    let (first, member, free) = (CURRENT + 1, counts.process(2) + 9, counts.total());
    let wrong = [
        record(op::FOLLOW, 0, 1, 0),
        record(op::PRECEDE, 2, first, 0),
        record(op::INTO, 1, 1, 0),
        record(op::INTO, free, first, 0),
        record(op::INTO, member, member, 0),
        record(op::WAIT, 0, member, 0),
    ];
    wrong.map(|record| (filled(counts, 1, FULL, vec![record]), "refused 3 at record 513 after 512")).to_vec()
}

/// The first member of an empty set is none: into by it is out alone, and wait by it takes current out and passivates, with few links and
/// with many, a full set among them.
fn first_of_an_empty_set() -> Vec<Told> {
    let (few, some, many) = (Counts::new(2, 2, 4), Counts::new(2, 4, 0), Counts::new(2, 2, 513));
    let (empty, member, free) = (CURRENT + 2, many.process(2) + 9, many.total());
    let into = |x: u32, y: u32| record(op::INTO, x, y, 0);
    let wait = record(op::WAIT, 0, empty, 0);
    let out = put(few, 1..=3, op::INTO, 1).into_iter().chain(put(few, 1..=3, op::INTO, empty));
    let by_turns = vec![into(member, empty), into(free, 1), into(free, empty), into(member, 1), into(free, 1)];
    vec![
        (by_main(few, out.chain([into(CURRENT, CURRENT + 1)]).collect()), "finished 7"),
        (all_at_once(some, vec![record(op::HOLD, 0, 0, 1_000)], vec![into(CURRENT, 1), wait]), "finished 10"),
        (filled(many, 1, FULL, by_turns), "refused 10 at record 517 after 516"),
        (filled(many, 1, FULL, vec![wait]), "refused 4 at record 513 after 512"),
    ]
}

/// All of them, with what they come to.
pub fn told() -> Vec<Told> {
    let entering = [one_by_one(), by_themselves(), within(), left_and_entered(), two_queues()];
    entering.into_iter().chain([wrong_kinds(), first_of_an_empty_set()]).flatten().collect()
}

pub fn all() -> Vec<Sheet> {
    told().into_iter().map(|(sheet, _)| sheet).collect()
}

/// Some of them, at least one of each kind.
pub fn some() -> Vec<Sheet> {
    let some =
        [&one_by_one()[..1], &by_themselves()[3..5], &within()[1..2], &left_and_entered()[..1], &two_queues()[1..2]];
    some.concat().into_iter().map(|(sheet, _)| sheet).collect()
}

/// How many steps a run makes until some set has so many members.
pub fn steps_to(sheet: &Sheet, members: usize) -> usize {
    let mut run = Run::fresh(sheet);
    let mut steps = 0;
    while run.model.sets.iter().all(|set| set.len() < members) && run.turn(sheet, usize::MAX).is_ok() {
        steps += 1;
    }
    steps
}
