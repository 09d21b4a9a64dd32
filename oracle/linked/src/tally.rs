//! What a run has met.

use plain::lists::Entry;

use crate::answers::Answers;
use crate::comparing::Met;
use crate::lending::NO_ROOM;
use crate::shapes::Shapes;
use crate::Asked;

/// One in so many accepted records. The rarest shape is in one of 87; one that only damage still makes falls below this.
const SELDOM: usize = 200;
/// One in so many inputs. The rarest refusal, 10, is that of one in 450.
const SELDOM_REFUSED: usize = 1000;

#[derive(Default)]
pub struct Tally {
    accepted: usize,
    refused: Numbers,
    scoping: Numbers,
    told_apart_by_seeds: usize,
    closedness: Numbers,
    demands: Numbers,
    arithmetic: Numbers,
    listed: Numbers,
    named: usize,
    empty: usize,
    longest: usize,
    shapes: Shapes,
}

/// How often each of document 01's numbers was met.
struct Numbers([usize; NO_ROOM as usize + 1]);

impl Default for Numbers {
    fn default() -> Numbers {
        Numbers([0; NO_ROOM as usize + 1])
    }
}

impl Numbers {
    fn add(&mut self, number: u32) {
        self.0[number as usize] += 1;
    }
}

/// What is counted, which numbers it can have, and how often they were met.
struct Counted<'a> {
    what: &'static str,
    numbers: &'static [u32],
    met: &'a Numbers,
}

impl Counted<'_> {
    fn counts(&self) -> impl Iterator<Item = (u32, usize)> + '_ {
        self.numbers
            .iter()
            .map(|&number| (number, self.met.0[number as usize]))
    }

    fn line(&self) -> String {
        let counts: Vec<String> = self
            .counts()
            .map(|(number, count)| format!("{number} {count}"))
            .collect();
        format!("{}: {}", self.what, counts.join(", "))
    }

    /// Those that were met at most so many times.
    fn seldom_met(&self, most: usize) -> impl Iterator<Item = String> + '_ {
        self.counts()
            .filter(move |&(_, count)| count <= most)
            .map(|(number, _)| format!("{} {number}", self.what))
    }
}

impl Tally {
    pub fn add(&mut self, met: &Met) {
        match &met.reading {
            Ok(record) => {
                self.accepted += 1;
                self.named += usize::from(met.named);
                self.add_answers(&met.answers);
                self.add_list(&met.list);
                self.shapes.add(record, &met.list);
            }
            Err(refusal) => self.refused.add(refusal.number),
        }
    }

    fn add_answers(&mut self, answers: &Answers<Asked>) {
        let [without_a_seed, others @ ..] = answers.scoping;
        self.scoping.add(without_a_seed.number);
        self.told_apart_by_seeds +=
            usize::from(others.iter().any(|&other| other != without_a_seed));
        self.closedness.add(answers.closedness.number);
        self.demands.add(answers.demands.number);
        self.arithmetic.add(answers.arithmetic.number);
    }

    /// Every list but an empty one was asked for with too little room, too.
    fn add_list(&mut self, list: &[Entry]) {
        for &rule in LISTED {
            if list.iter().any(|entry| entry.rule == rule) {
                self.listed.add(rule);
            }
        }
        if list.is_empty() {
            self.empty += 1;
        } else {
            self.refused.add(NO_ROOM);
        }
        self.longest = self.longest.max(list.len());
    }

    pub fn lines(&self) -> Vec<String> {
        let mut lines = vec![
            format!("accepted {}", self.accepted),
            self.refusals().line(),
        ];
        lines.extend(self.answers().iter().map(Counted::line));
        lines.push(format!(
            "scoping told apart by seeds: {}; names found: {}; lists: {} empty, the longest has {} entries",
            self.told_apart_by_seeds, self.named, self.empty, self.longest
        ));
        lines.extend(self.shapes.lines());
        lines
    }

    /// The refusals that next to no input, and the answers, rules and shapes that next to no accepted record had.
    pub fn seldom_met(&self) -> Vec<String> {
        let most = self.accepted / SELDOM;
        let others = [
            ("scoping told apart by seeds", self.told_apart_by_seeds),
            ("name found", self.named),
            ("empty list", self.empty),
        ];
        let mut seldom: Vec<String> = self
            .refusals()
            .seldom_met(self.inputs() / SELDOM_REFUSED)
            .collect();
        for counted in self.answers() {
            seldom.extend(counted.seldom_met(most));
        }
        let others = others.into_iter().filter(|&(_, count)| count <= most);
        seldom.extend(others.map(|(what, _)| what.to_string()));
        seldom.extend(self.shapes.seldom_met(most));
        seldom
    }

    fn inputs(&self) -> usize {
        let by_the_reader = &self.refused.0[..NO_ROOM as usize];
        self.accepted + by_the_reader.iter().sum::<usize>()
    }

    fn refusals(&self) -> Counted<'_> {
        counted("refusal", REFUSALS, &self.refused)
    }

    fn answers(&self) -> [Counted<'_>; 5] {
        [
            counted("scoping", SCOPING, &self.scoping),
            counted("closedness", CLOSEDNESS, &self.closedness),
            counted("demands", DEMANDS, &self.demands),
            counted("arithmetic", ARITHMETIC, &self.arithmetic),
            counted("list with", LISTED, &self.listed),
        ]
    }
}

fn counted<'a>(what: &'static str, numbers: &'static [u32], met: &'a Numbers) -> Counted<'a> {
    Counted { what, numbers, met }
}

// 0 is "accepted", and the arithmetic test's "no".
const REFUSALS: &[u32] = &[1, 2, 3, 4, 5, 6, 7, 8, 9, 10, 11, 12, 13, NO_ROOM];
const SCOPING: &[u32] = &[0, 20, 21, 22, 23, 24, 25, 26, 27];
const CLOSEDNESS: &[u32] = &[0, 28];
const DEMANDS: &[u32] = &[0, 30, 31, 32];
const ARITHMETIC: &[u32] = &[0, 40];
const LISTED: &[u32] = &[20, 21, 22, 23, 24, 25, 26, 27, 28, 30, 31, 32];
