//! How much was compared, and what the compared cases reached.

use crate::product::{Refused, ACCEPT, REJECT};
use reference::reach::marks::{self, MET, OF_LOGS, READ};
use reference::reach::ties::{self, SHOWN};
use reference::reach::{NAMES, REACHED};
use std::fmt;

#[derive(Clone, Debug, Default, PartialEq, Eq)]
pub struct Counts {
    pub cases: usize,
    pub logs: usize,
    pub formulas: usize,
    pub searches: usize,
    pub analyses: usize,
    pub accepts: usize,
    pub rejects: usize,
    pub nones: usize,
    pub longest: usize,
    pub widest: usize,
    /// Rows by their verdict: none, alert, subsumed, rejected.
    pub rows: [usize; 4],
    /// Refusals by their number.
    pub refusals: [usize; 14],
    /// Searches in which absent fields count, by the way that they do.
    pub absent: [usize; REACHED],
    /// Refusals of the log at an event that may lack fields, by their number.
    pub lacking: [usize; 14],
    /// Searches in which marks count, by the way that they do.
    pub marks: [usize; MET],
    /// Logs in which marks count, or are refused, likewise.
    pub clocks: [usize; READ],
    /// Rows in which ties count, by the way that they do.
    pub ties: [usize; SHOWN],
}

/// The numbers that such an event may have.
const OF_LACKING: [usize; 5] = [1, 2, 3, 4, 6];

impl Counts {
    pub fn refusal(&mut self, refused: &Refused) {
        if refused.number != 0 {
            self.refusals[refused.number] += 1;
        }
    }

    /// The refusal of a log, whose bytes tell the command that it stands at.
    pub fn log_refusal(&mut self, refused: &Refused, log: &[u8]) {
        self.refusal(refused);
        if refused.number != 0 && log.get(refused.place) == Some(&0x03) {
            self.lacking[refused.number] += 1;
        }
    }

    pub fn absent(&mut self, reached: &[bool; REACHED]) {
        for (times, &reached) in self.absent.iter_mut().zip(reached) {
            *times += usize::from(reached);
        }
    }

    pub fn marks(&mut self, met: &[bool; MET]) {
        for (times, &met) in self.marks.iter_mut().zip(met) {
            *times += usize::from(met);
        }
    }

    /// What the bytes of a log show of marks.
    pub fn clock(&mut self, log: &[u8]) {
        for (times, shown) in self.clocks.iter_mut().zip(marks::read(log)) {
            *times += usize::from(shown);
        }
    }

    pub fn ties(&mut self, shown: &[usize; SHOWN]) {
        for (times, &shown) in self.ties.iter_mut().zip(shown) {
            *times += shown;
        }
    }

    /// What the cases did not reach, of what they have to reach.
    pub fn missing(&self) -> Option<String> {
        let reached = [
            ("an accepting run", self.accepts),
            ("a rejecting run", self.rejects),
            ("a search without a run", self.nones),
            ("a none row", self.rows[0]),
            ("an alert row", self.rows[1]),
            ("a subsumed row", self.rows[2]),
            ("a rejected row", self.rows[3]),
        ];
        let refusal = (1..self.refusals.len()).find(|&number| self.refusals[number] == 0);
        let mut lacking = OF_LACKING.into_iter();
        let lacking = lacking.find(|&number| self.lacking[number] == 0);
        let absent = NAMES.into_iter().zip(self.absent);
        let marks = marks::NAMES.into_iter().zip(self.marks);
        let clocks = OF_LOGS.into_iter().zip(self.clocks);
        let marks = marks.chain(clocks);
        let ties = ties::NAMES.into_iter().zip(self.ties);
        let mut other = reached.into_iter().chain(absent).chain(marks).chain(ties);
        match (refusal, lacking) {
            (Some(number), _) => Some(format!("refusal {number}")),
            (_, Some(number)) => Some(format!("refusal {number} at a 03")),
            _ => other
                .find(|(_, times)| *times == 0)
                .map(|(what, _)| String::from(what)),
        }
    }

    pub fn run(&mut self, verdict: usize, steps: usize, width: usize) {
        match verdict {
            ACCEPT => self.accepts += 1,
            REJECT => self.rejects += 1,
            _ => self.nones += 1,
        }
        self.longest = self.longest.max(steps);
        self.widest = self.widest.max(width);
    }
}

/// Each name with its number.
fn named(names: &[&str], times: &[usize]) -> String {
    let pairs = names.iter().zip(times);
    let texts: Vec<String> = pairs
        .map(|(name, times)| format!("{name} {times}"))
        .collect();
    texts.join(", ")
}

/// Refusals of these numbers, each with how often it was met.
fn numbered(numbers: impl Iterator<Item = usize>, times: &[usize]) -> String {
    let text = |number: usize| format!("{}:{}", number, times[number]);
    numbers.map(text).collect::<Vec<String>>().join(" ")
}

impl Counts {
    fn write_absent(&self, out: &mut fmt::Formatter) -> fmt::Result {
        let [over, kept, beside, older, before, test, guard] = self.absent;
        write!(
            out,
            "; absent fields in searches: {over} with a run over them, {kept} kept from firing, \
             {beside} fired beside, {older} hopeless by an older value, {before} by one before \
             the start, {test} tests and {guard} guards let off; refusals at a 03 {}",
            numbered(OF_LACKING.into_iter(), &self.lacking)
        )
    }

    fn write_marks(&self, out: &mut fmt::Formatter) -> fmt::Result {
        write!(
            out,
            "; marks in searches: {}; in logs: {}",
            named(&marks::NAMES, &self.marks),
            named(&OF_LOGS, &self.clocks)
        )
    }

    fn write_ties(&self, out: &mut fmt::Formatter) -> fmt::Result {
        write!(out, "; ties in rows: {}", named(&ties::NAMES, &self.ties))
    }
}

impl fmt::Display for Counts {
    fn fmt(&self, out: &mut fmt::Formatter) -> fmt::Result {
        let [none, alert, subsumed, rejected] = self.rows;
        write!(
            out,
            "{} cases agree: {} logs, {} formulas read; {} searches: {} accept, {} reject, \
             {} none, up to {} steps and width {}; {} analyses: rows {none} none, {alert} alert, \
             {subsumed} subsumed, {rejected} rejected; refusals {}",
            self.cases,
            self.logs,
            self.formulas,
            self.searches,
            self.accepts,
            self.rejects,
            self.nones,
            self.longest,
            self.widest,
            self.analyses,
            numbered(1..self.refusals.len(), &self.refusals),
        )?;
        self.write_absent(out)?;
        self.write_marks(out)?;
        self.write_ties(out)
    }
}
