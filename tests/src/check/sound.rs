//! Tables, requests and sheets: round trips, and that damage is refused and good ones are accepted.

use crate::drive::tally::Tally;
use crate::gen::{damage, models, sheet_damage, sheets, stream::Stream};
use crate::protocol::{Request, Response};
use crate::rng::Rng;
use crate::sim::model::Counts;
use crate::sim::tables::{decode, encode, Tables};
use crate::sim::{model::Model, sheet};

pub fn check(tally: &mut Tally, seed: u64) {
    let mut rng = Rng::new(seed);
    good_models(tally, &mut rng);
    damaged_tables(tally, &mut rng);
    good_and_damaged_sheets(tally, &mut rng);
    requests(tally, seed);
    every_small_table(tally);
}

fn good_models(tally: &mut Tally, rng: &mut Rng) {
    for _ in 0..2_000 {
        let model = models::grown(rng);
        let back = decode(model.counts, &encode(&model));
        tally.check(back == Ok(model), "a grown model and its tables");
    }
}

/// Each class of damage is met and refused with its number.
fn damaged_tables(tally: &mut Tally, rng: &mut Rng) {
    let mut met = vec![0; damage::CLASSES.len()];
    for _ in 0..400 {
        let model = models::grown(rng);
        for (class, met) in damage::CLASSES.iter().zip(&mut met) {
            if let Some(damaged) = (class.make)(rng, model.clone()) {
                let refused = decode(damaged.counts, &damaged.tables) == Err(class.refusal);
                tally.check(refused, &format!("damage not refused with {}: {}", class.refusal, class.name));
                *met += 1;
            }
        }
    }
    for (class, met) in damage::CLASSES.iter().zip(met) {
        tally.check(met >= 50, &format!("damage met only {met} times: {}", class.name));
    }
    println!("tables: {} classes of damage, each met and refused", damage::CLASSES.len());
}

fn good_and_damaged_sheets(tally: &mut Tally, rng: &mut Rng) {
    for _ in 0..500 {
        let good = sheets::any(rng);
        tally.check(sheet::decode(&good.encode()) == Ok(good), "a good sheet and its bytes");
    }
    for class in sheet_damage::CLASSES {
        for _ in 0..60 {
            let good = sheets::any(rng);
            let bytes = sheet_damage::damage(rng, class, good);
            tally.check(sheet::decode(&bytes) == Err(8), &format!("sheet not refused: {}", class.name));
        }
    }
    println!("sheets: {} classes of damage, each met and refused", sheet_damage::CLASSES.len());
}

/// Requests and responses read back as written.
fn requests(tally: &mut Tally, seed: u64) {
    let mut stream = Stream::new(seed, &[]);
    for _ in 0..500 {
        let request = stream.next().request;
        let mut bytes = Vec::new();
        request.encode(&mut bytes);
        tally.check(Request::decode(&bytes).is_some_and(|(r, rest)| r == request && rest.is_empty()), "a request");
        tally.check(Request::decode(&bytes[..bytes.len() - 1]).is_none(), "a request cut short");
        let response = Response { code: 200, lines: 3, answer: 1 << 40, lent: request.lent.clone() };
        let mut bytes = Vec::new();
        response.encode(&mut bytes);
        let back = Response::decode(&bytes, &request);
        tally.check(back.is_some_and(|(r, rest)| r == response && rest.is_empty()), "a response");
    }
}

/// Of all tables of small counts exactly as many are accepted as there are models: with one head and
/// two links 5 ways to fill the set, with two processes 4 orders of notices at time 0.
fn every_small_table(tally: &mut Tally) {
    let fresh = encode(&Model::fresh(Counts::new(1, 1, 1)));
    let links = accepted(Counts::new(1, 1, 1), &fresh, |t| &mut t.links);
    tally.check(links == 5, &format!("{links} of all small links tables accepted, not 5"));
    let fresh = encode(&Model::fresh(Counts::new(0, 2, 0)));
    let axis = accepted(Counts::new(0, 2, 0), &fresh, |t| &mut t.axis);
    tally.check(axis == 4, &format!("{axis} of all small axis tables accepted, not 4"));
}

/// How many fillings of an eight-word table with 0 to 4 are accepted.
fn accepted(counts: Counts, tables: &Tables, table: fn(&mut Tables) -> &mut Vec<u32>) -> u32 {
    let mut tables = tables.clone();
    let mut accepted = 0;
    for filling in 0..5u32.pow(8) {
        let words = table(&mut tables);
        let mut rest = filling;
        words.iter_mut().for_each(|word| {
            *word = rest % 5;
            rest /= 5;
        });
        accepted += u32::from(decode(counts, &tables).is_ok());
    }
    accepted
}
