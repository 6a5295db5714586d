//! Small models in writing, for checks worked out by hand. A scene reads "M0 A5 | A K | B": the axis in
//! order, the members of head 1, the terminated. M is main; A, B, C are processes; K, Q plain links.

use crate::drive::tally::Tally;
use crate::expected::{expected, write_run};
use crate::protocol::{Lent, Request, Response};
use crate::sim::accum::{Accum, MOST};
use crate::sim::call::{number, Call};
use crate::sim::model::{Counts, Model, Notice};
use crate::sim::run::{Run, LINE};
use crate::sim::sheet::{Record, Sheet, CURRENT};
use crate::sim::tables::{decode, encode};

pub const COUNTS: Counts = Counts { heads: 1, processes: 4, plain: 2 };
/// The names of linkages 1 to 7, the head's being H.
const NAMES: &str = "HMABCKQ";

/// The linkage number of a name; - is none.
pub fn linkage(name: &str) -> u32 {
    NAMES.find(name).map_or(0, |at| at as u32 + 1)
}

fn name(linkage: u32) -> &'static str {
    let at = linkage as usize - 1;
    &NAMES[at..=at]
}

/// The model of a scene; parts left out are empty.
pub fn model(scene: &str) -> Model {
    let mut parts = scene.split('|').map(str::split_whitespace);
    let mut model = Model::fresh(COUNTS);
    let notice = |text: &str| Notice { process: linkage(&text[..1]), time: text[1..].parse().unwrap_or(0) };
    model.notices = parts.next().into_iter().flatten().map(notice).collect();
    model.sets[0] = parts.next().into_iter().flatten().map(linkage).collect();
    for gone in parts.next().into_iter().flatten() {
        model.terminated[COUNTS.place(linkage(gone)) as usize - 1] = true;
    }
    model
}

/// The scene of a model, parts that are empty at the end left out.
pub fn text(model: &Model) -> String {
    let axis: Vec<String> = model.notices.iter().map(|n| format!("{}{}", name(n.process), n.time)).collect();
    let set: Vec<&str> = model.sets[0].iter().map(|&x| name(x)).collect();
    let all = (1..=COUNTS.processes).map(|p| COUNTS.process(p));
    let gone: Vec<&str> = all.filter(|&p| model.is_terminated(p)).map(name).collect();
    let scene = format!("{} | {} | {}", axis.join(" "), set.join(" "), gone.join(" "));
    scene.trim_end_matches([' ', '|']).to_string()
}

/// A call in writing: number, then x, y, clause and t as far as wanted.
pub fn call(number: u32, x: &str, y: &str, clause: u32, t: i64) -> Call {
    Call { number, clause, x: linkage(x), y: linkage(y), t }
}

/// What a call on the scene comes to, through the tables: "refused 4", "answer 5" of a query, or the scene after it, of
/// calls that answer a head or a number too with that behind it, "M0 | A : 1".
pub fn outcome(scene: &str, call: Call) -> String {
    let tables = encode(&model(scene));
    let lent = Lent { tables: tables.clone(), ..Lent::default() };
    let response = expected(&Request { call, counts: COUNTS, lent, sheet: Vec::new() });
    let unchanged = response.lent.tables == tables;
    let tells = matches!(call.number, number::OUT..=number::CLEAR | number::WAIT);
    match (response.code, response.answer) {
        (0, 0) => text_after(&response),
        (0, answer) if tells => format!("{} : {answer}", text_after(&response)),
        (0, answer) if unchanged => format!("answer {answer}"),
        (code, 0) if unchanged => format!("refused {code}"),
        _ => "changed by a refused call or a query".to_string(),
    }
}

/// The scene that a call leaves.
fn text_after(response: &Response) -> String {
    decode(COUNTS, &response.lent.tables).map_or("damaged".to_string(), |m| text(&m))
}

/// A record in writing, as a call; F is 65,536 + 1, * is current.
pub fn record(number: u32, x: &str, y: &str, clause: u32, t: i64) -> Record {
    let operand = |name: &str| match name {
        "F" => CURRENT + 1,
        "*" => CURRENT,
        name => linkage(name),
    };
    let (x, y) = (operand(x), operand(y));
    Record { operation: number as u8, clause: clause as u8, x, y, t, ..Record::default() }
}

/// What the step of current comes to in a run where all stand at this record: "refused 4", or the scene after it.
fn stepped(scene: &str, record: Record) -> String {
    let positions = vec![1; COUNTS.processes as usize];
    let sheet = Sheet { counts: COUNTS, starts: positions.clone(), records: vec![record] };
    let mut lent = Lent { trace: vec![0; LINE], ..Lent::default() };
    write_run(&Run { model: model(scene), positions, accums: vec![Accum::default(); MOST] }, &mut lent);
    let request = Request { call: Call::new(number::RUN), counts: COUNTS, lent, sheet: sheet.encode() };
    let response = expected(&request);
    match response.lines {
        1 => text_after(&response),
        0 if response.lent == request.lent => format!("refused {}", response.code),
        _ => "changed by a refused step".to_string(),
    }
}

/// Counts one check of a step.
pub fn step(tally: &mut Tally, name: &str, scene: &str, record: Record, wanted: &str) {
    let got = stepped(scene, record);
    tally.check(got == wanted, &format!("{name}: from {scene}, {record:?}: wanted {wanted}, got {got}"));
}

/// Counts one check of a call.
pub fn row(tally: &mut Tally, name: &str, scene: &str, call: Call, wanted: &str) {
    let got = outcome(scene, call);
    tally.check(got == wanted, &format!("{name}: from {scene}, {call:?}: wanted {wanted}, got {got}"));
}
