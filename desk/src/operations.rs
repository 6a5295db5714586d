//! The table of operations: for each its number and clause in a sheet, its words in a text, and what it takes. Texts are read, sheets
//! are shown and operands are judged by this table alone. A new operation is a new row; for ./run's words it has a case in replay.rs, and
//! where its number can be too large at every step, one in text/judge.rs.

use Part::{Number, Record, Word, T, X, Y};

/// The words for the first member of a queue, and for the first that is a process.
pub const FIRST: &str = "first";
pub const FIRST_PROCESS: &str = "first_process";

/// What an operand has to be at its step; anything else is refused with 3.
#[derive(Clone, Copy, PartialEq, Eq, Debug)]
pub enum Wants {
    /// A process or a plain link.
    Link,
    /// Any linkage, or none.
    LinkageOrNone,
    Head,
    HeadOrNone,
    /// In cancel, activate and reactivate alone: 65,536 + h is the first process of head h there.
    ProcessOrNone,
}

impl Wants {
    /// In words; that none will do as well is not said.
    pub fn words(self) -> &'static str {
        match self {
            Wants::Link => "a process or a link",
            Wants::LinkageOrNone => "a head, a process or a link",
            Wants::Head | Wants::HeadOrNone => "a head",
            Wants::ProcessOrNone => "a process",
        }
    }

    /// The word for 65,536 + h.
    pub fn first(self) -> &'static str {
        if self == Wants::ProcessOrNone {
            FIRST_PROCESS
        } else {
            FIRST
        }
    }
}

/// One place in the words of a statement.
#[derive(Clone, Copy, PartialEq, Eq, Debug)]
pub enum Part {
    Word(&'static str),
    /// An operand, in the record's x.
    X(Wants),
    /// An operand, in the record's y.
    Y(Wants),
    /// A number of ticks or a rate, in t.
    T,
    /// The number of an accumulator, in x.
    Number,
    /// A label, in y.
    Record,
}

/// One statement of a text, one operation of a sheet under one clause.
#[derive(PartialEq, Eq, Debug)]
pub struct Row {
    pub operation: u8,
    pub clause: u8,
    pub form: &'static [Part],
    pub means: &'static str,
}

const fn row(operation: u8, clause: u8, form: &'static [Part], means: &'static str) -> Row {
    Row { operation, clause, form, means }
}

const ACTIVATE: Part = Word("activate");
const REACTIVATE: Part = Word("reactivate");
const PROCESS: Part = X(Wants::ProcessOrNone);
const BESIDE: Part = Y(Wants::ProcessOrNone);
const EMPTY: Part = X(Wants::Head);
const AT: Part = Word("at");
const DELAY: Part = Word("delay");
const PRIOR: Part = Word("prior");
const BEFORE: Part = Word("before");
const AFTER: Part = Word("after");

pub const TABLE: &[Row] = &[
    row(1, 0, &[Word("out"), X(Wants::Link)], "X leaves its queue"),
    row(
        2,
        0,
        &[Word("follow"), X(Wants::Link), Y(Wants::LinkageOrNone)],
        "X leaves its queue, and goes right behind Y",
    ),
    row(
        3,
        0,
        &[Word("precede"), X(Wants::Link), Y(Wants::LinkageOrNone)],
        "X leaves its queue, and goes right in front of Y",
    ),
    row(4, 0, &[Word("into"), X(Wants::Link), Y(Wants::HeadOrNone)], "X leaves its queue, and goes last into queue Y"),
    row(5, 0, &[Word("clear"), X(Wants::Head)], "all members leave queue X"),
    row(6, 0, &[Word("hold"), T], "the process goes on T ticks later"),
    row(7, 0, &[Word("passivate")], "the process waits until another activates it"),
    row(8, 0, &[Word("wait"), Y(Wants::HeadOrNone)], "the process goes last into queue Y, and passivates"),
    row(9, 0, &[Word("cancel"), PROCESS], "X is no longer scheduled"),
    row(10, 0, &[ACTIVATE, PROCESS], "X, if idle, goes on at once, in front of the process itself"),
    row(10, 1, &[ACTIVATE, PROCESS, AT, T], "X, if idle, goes on at tick T, behind all due then"),
    row(10, 2, &[ACTIVATE, PROCESS, DELAY, T], "X, if idle, goes on T ticks later, behind all due then"),
    row(10, 3, &[ACTIVATE, PROCESS, AT, T, PRIOR], "the same, in front of all due then"),
    row(10, 4, &[ACTIVATE, PROCESS, DELAY, T, PRIOR], "the same, in front of all due then"),
    row(10, 5, &[ACTIVATE, PROCESS, BEFORE, BESIDE], "X, if idle, goes on at Y's time, right before Y"),
    row(10, 6, &[ACTIVATE, PROCESS, AFTER, BESIDE], "X, if idle, goes on at Y's time, right after Y"),
    row(11, 0, &[REACTIVATE, PROCESS], "as activate, for X scheduled already too"),
    row(11, 1, &[REACTIVATE, PROCESS, AT, T], "likewise"),
    row(11, 2, &[REACTIVATE, PROCESS, DELAY, T], "likewise"),
    row(11, 3, &[REACTIVATE, PROCESS, AT, T, PRIOR], "likewise"),
    row(11, 4, &[REACTIVATE, PROCESS, DELAY, T, PRIOR], "likewise"),
    row(11, 5, &[REACTIVATE, PROCESS, BEFORE, BESIDE], "likewise"),
    row(11, 6, &[REACTIVATE, PROCESS, AFTER, BESIDE], "likewise"),
    row(
        12,
        0,
        &[Word("if"), Word("empty"), EMPTY, Word("goto"), Record],
        "if queue X is empty, the process goes on at the label",
    ),
    row(12, 0, &[Word("if"), Word("empty"), EMPTY, Word("end")], "if queue X is empty, the process comes to its end"),
    row(13, 0, &[Word("accum"), Number, Word("by"), T], "the rate of accumulator N, 1 to 64, grows by T"),
];

impl Row {
    /// The word that a statement of this row begins with.
    pub fn name(&self) -> &'static str {
        match self.form[0] {
            Word(word) => word,
            _ => "",
        }
    }

    /// The words before its first operand: 'if empty'.
    pub fn title(&self) -> String {
        let word = |part: &Part| if let Word(word) = part { Some(*word) } else { None };
        self.form.iter().map_while(word).collect::<Vec<_>>().join(" ")
    }

    pub fn takes(&self, part: Part) -> bool {
        self.form.contains(&part)
    }

    /// What it asks of its x and its y, where it has them.
    pub fn wants_x(&self) -> Option<Wants> {
        self.form.iter().find_map(|part| if let X(wants) = part { Some(*wants) } else { None })
    }

    pub fn wants_y(&self) -> Option<Wants> {
        self.form.iter().find_map(|part| if let Y(wants) = part { Some(*wants) } else { None })
    }

    /// The form in words, as the pages and messages write it.
    pub fn words(&self) -> String {
        let word = |part: &Part| match part {
            Word(word) => *word,
            X(_) => "X",
            Y(_) => "Y",
            T => "T",
            Number => "N",
            Record => "LABEL",
        };
        self.form.iter().map(word).collect::<Vec<_>>().join(" ")
    }
}

/// The row of a record's operation and clause; of the two of 'if empty' the one with a label or the one without.
pub fn row_of(operation: u8, clause: u8, ends: bool) -> Option<&'static Row> {
    let fits = |row: &&Row| row.operation == operation && row.clause == clause;
    let rows: Vec<&Row> = TABLE.iter().filter(fits).collect();
    rows.iter().find(|row| rows.len() == 1 || row.takes(Record) != ends).copied()
}

/// The words that statements begin with, each once.
pub fn names() -> Vec<&'static str> {
    let mut names: Vec<&str> = TABLE.iter().map(Row::name).collect();
    names.dedup();
    names
}
