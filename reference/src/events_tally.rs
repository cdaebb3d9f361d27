//! How often one run exercises events: which courses of their scene, what they meet, what becomes of
//! blocks and verdicts, and which questions are asked after how many of them.

use crate::answer::{verdict_name, Answer};
use crate::courses::{Course, EVERY_COURSE};
use crate::desk::Desk;
use crate::events::{Event, EVERY_EVENT};
use crate::pooling::{blocks, Block};
use crate::script::Call;
use crate::spots::{Spot, EVERY_SPOT};
use crate::table::Table;
use crate::tally::{answer_counts, Answers, VERDICTS};
use std::collections::BTreeMap;

#[derive(Default)]
pub(crate) struct EventsTally {
    courses: BTreeMap<Course, usize>,
    met: BTreeMap<(Spot, Event), Answers>,
    /// Accepted events, by what became of the blocks.
    pub blocks: BTreeMap<&'static str, usize>,
    /// Verdicts of the first comparison before and after events.
    turns: BTreeMap<[&'static str; 2], usize>,
    /// Accepted questions, by the number of events that one of their tables has taken.
    asked: BTreeMap<&'static str, [usize; MANY.len()]>,
    now: Standing,
}

/// What the script has come to.
#[derive(Default)]
struct Standing {
    /// Events that the table in each place has taken.
    taken: [usize; 2],
    /// The last verdict on the two tables, if they have only taken events since.
    verdict: Option<&'static str>,
    has_changed: bool,
}

/// A column of the table of questions has so many events at least.
const MANY: [usize; 4] = [1, 10, 100, 1_000];

impl EventsTally {
    pub fn begin_script(&mut self) {
        self.now = Standing::default();
    }

    /// The desk is as the call found it.
    pub fn add(&mut self, desk: &Desk, call: &Call, answer: &Answer, course: Option<Course>) {
        if let Some(course) = course {
            *self.courses.entry(course).or_default() += 1;
        }
        let is_accepted = answer.refusal().is_none();
        match *call {
            Call::Event {
                event,
                place,
                grade,
            } => self.add_event(desk, (event, place, grade), answer),
            Call::Load { place, .. } | Call::Clear { place } if is_accepted => {
                self.now.taken[place as usize - 1] = 0;
                self.now.verdict = None;
            }
            _ if is_accepted => self.add_question(call, answer),
            _ => (),
        }
    }

    fn add_event(&mut self, desk: &Desk, event: (Event, u32, u32), answer: &Answer) {
        let (event, place, grade) = event;
        let spot = Spot::of(desk, event, place, grade);
        let answers = self.met.entry((spot, event)).or_default();
        *answers.entry(answer.refusal()).or_default() += 1;
        if answer.refusal().is_some() {
            return;
        }
        self.now.taken[place as usize - 1] += 1;
        self.now.has_changed = true;
        let mut after = desk.clone();
        let booked = after.event(event, place, grade);
        booked.expect("it was accepted");
        let change = [desk, &after].map(|desk| desk.table(place).expect("it is loaded"));
        *self.blocks.entry(block_change(change)).or_default() += 1;
    }

    fn add_question(&mut self, call: &Call, answer: &Answer) {
        let taken = match *call {
            Call::Shortlist { .. } => return,
            Call::Compare | Call::CompareShares | Call::Write { .. } => {
                self.now.taken[0].max(self.now.taken[1])
            }
            Call::Pool { place, .. } | Call::Cheapest { place, .. } => self.taken(place),
            Call::Measures { place } | Call::Brier { place } => self.taken(place),
            Call::Spread { place } => self.taken(place),
            _ => return,
        };
        if let Some(column) = MANY.iter().rposition(|&many| taken >= many) {
            self.asked.entry(call.name()).or_default()[column] += 1;
        }
        if let Answer::Compare(Ok(verdict)) = answer {
            let name = verdict_name(verdict);
            if let (Some(before), true) = (self.now.verdict, self.now.has_changed) {
                *self.turns.entry([before, name]).or_default() += 1;
            }
            (self.now.verdict, self.now.has_changed) = (Some(name), false);
        }
    }

    fn taken(&self, place: u32) -> usize {
        self.now.taken[place as usize - 1]
    }

    pub fn course_table(&self) -> String {
        let mut text = "| course of events | times |\n| --- | --- |\n".to_string();
        for course in EVERY_COURSE {
            let times = self.courses.get(&course).copied().unwrap_or(0);
            text += &format!("| {course} | {times} |\n");
        }
        text
    }

    /// A row for what an event meets, a column for each event.
    pub fn spot_table(&self) -> String {
        let heads = EVERY_EVENT.map(Event::name).join(" | ");
        let mut text = format!("| met by an event | {heads} |\n| --- | --- | --- | --- | --- |\n");
        for spot in EVERY_SPOT {
            let cell = |event| self.met.get(&(spot, event)).map(answer_counts);
            let cells = EVERY_EVENT.map(|event| cell(event).unwrap_or_default());
            text += &format!("| {spot} | {} |\n", cells.join(" | "));
        }
        text
    }

    /// A row for the verdict before, a column for the one after.
    pub fn turn_table(&self) -> String {
        let heads = VERDICTS.join(" | ");
        let dashes = ["---"; VERDICTS.len() + 1].join(" | ");
        let mut text = format!("| verdict before and after events | {heads} |\n| {dashes} |\n");
        for before in VERDICTS {
            let times = |after| self.turns.get(&[before, after]).copied().unwrap_or(0);
            let cells = VERDICTS.map(|after| times(after).to_string()).join(" | ");
            text += &format!("| {before}, then | {cells} |\n");
        }
        text
    }

    pub fn question_table(&self) -> String {
        let heads = MANY.map(|many| format!("{many} and more")).join(" | ");
        let dashes = ["---"; MANY.len() + 1].join(" | ");
        let mut text = format!("| asked after so many events | {heads} |\n| {dashes} |\n");
        for (question, times) in &self.asked {
            let cells = times.map(|times| times.to_string()).join(" | ");
            text += &format!("| {question} after events | {cells} |\n");
        }
        text
    }
}

/// What has become of the blocks of a table.
fn block_change(tables: [&Table; 2]) -> &'static str {
    let [before, after] = tables.map(blocks);
    let spans = |blocks: &[Block]| -> Vec<(usize, usize)> {
        blocks
            .iter()
            .map(|block| (block.first, block.last))
            .collect()
    };
    match before.len().cmp(&after.len()) {
        std::cmp::Ordering::Greater => "fewer blocks",
        std::cmp::Ordering::Less => "more blocks",
        _ if spans(&before) != spans(&after) => "as many blocks of other grades",
        _ => "blocks of the same grades",
    }
}
