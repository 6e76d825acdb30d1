//! Another writer of scripts: it leads from the levels of one question to those
//! of the next in manners of its own, and knows only what is to be live.

use leskofar_reference::commands::{CMD_CHECK_SAT, CMD_GET_MODEL, CMD_POP, CMD_PUSH, LINE_END};
use leskofar_reference::random::{Random, AT_TIMES, OFTEN, RARELY};
use leskofar_reference::stack::Level;

/// What a writer does that this project's never does.
#[derive(Clone, Copy, Debug, Default)]
pub struct Manners {
    /// Lines of a level in any order.
    pub shuffles: bool,
    /// Pops to the root before each question.
    pub builds_anew: bool,
    /// Pops at times further than it need.
    pub pops_further: bool,
    /// Levels that are popped again, empty or not.
    pub strays: bool,
    pub gets_models: bool,
    /// Goes on behind the last check-sat.
    pub goes_on: bool,
}

impl Manners {
    pub const NAMES: [&'static str; 7] = [
        "in our order",
        "shuffled",
        "built anew",
        "popped further",
        "levels that are popped again",
        "get-models strewn in",
        "lines behind the last check-sat",
    ];

    pub fn random(random: &mut Random) -> Manners {
        if random.one_in(RARELY) {
            return Manners::default();
        }
        let mut at_times = || random.one_in(OFTEN);
        Manners {
            shuffles: at_times(),
            builds_anew: at_times(),
            pops_further: at_times(),
            strays: at_times(),
            gets_models: at_times(),
            goes_on: at_times(),
        }
    }

    /// Those that it has, by their names.
    pub fn names(self) -> Vec<&'static str> {
        let has = [
            self.shuffles,
            self.builds_anew,
            self.pops_further,
            self.strays,
            self.gets_models,
            self.goes_on,
        ];
        let [in_our_order, others @ ..] = Manners::NAMES;
        let names: Vec<&str> = others
            .into_iter()
            .zip(has)
            .filter_map(|(name, has)| has.then_some(name))
            .collect();
        if names.is_empty() {
            vec![in_our_order]
        } else {
            names
        }
    }
}

/// Lines that stand in levels which are popped again, and behind the end.
const STRAY_LINES: [&[u8]; 4] = [
    b"(assert )",
    b"(assert false)",
    b"(declare-fun x () Int)",
    b"(declare-sort T 0)",
];
/// The most of them in a level that is popped again.
const STRAYS: usize = 2;
/// The most commands behind the last check-sat, and how many sorts there are.
const BEHIND: usize = 6;
const COMMANDS: usize = 4;

pub struct ForeignWriter<'r> {
    random: &'r mut Random,
    manners: Manners,
    live: Vec<Level>,
    script: Vec<u8>,
}

impl ForeignWriter<'_> {
    /// A script with a check-sat for each of these stacks of levels.
    pub fn script(random: &mut Random, manners: Manners, stacks: &[Vec<Level>]) -> Vec<u8> {
        let mut writer = ForeignWriter {
            random,
            manners,
            live: vec![vec![]],
            script: Vec::new(),
        };
        for levels in stacks {
            writer.come_to(levels);
            writer.send(CMD_CHECK_SAT);
        }
        if manners.goes_on {
            writer.go_on();
        }
        writer.script
    }

    /// Makes just these levels live. What stands at the first level stays.
    fn come_to(&mut self, levels: &[Level]) {
        let mut kept = self.shared(levels);
        if self.manners.builds_anew {
            kept = 1;
        } else if self.manners.pops_further {
            kept = 1 + self.random.below(kept);
        }
        let at_first = self.live[0].len().min(levels[0].len());
        if at_first < levels[0].len() {
            kept = 1;
        }
        while self.live.len() > kept {
            self.pop();
        }
        for line in &levels[0][at_first..] {
            self.join(line);
        }
        for level in &levels[kept..] {
            self.push();
            let mut order: Vec<&Vec<u8>> = level.iter().collect();
            if self.manners.shuffles {
                shuffle(self.random, &mut order);
            }
            for line in order {
                self.join(line);
            }
        }
    }

    /// How many of the first levels hold the same already; one at least.
    fn shared(&self, levels: &[Level]) -> usize {
        let pairs = self.live.iter().zip(levels).skip(1);
        1 + pairs.take_while(|(a, b)| sorted(a) == sorted(b)).count()
    }

    /// Commands of any sort, which nothing compares.
    fn go_on(&mut self) {
        for _ in 0..=self.random.below(BEHIND) {
            match self.random.below(COMMANDS) {
                0 => self.push(),
                1 if self.live.len() > 1 => self.pop(),
                2 => self.send(CMD_GET_MODEL),
                _ => {
                    let line = self.random.pick(&STRAY_LINES);
                    self.join(line);
                }
            }
        }
    }

    fn push(&mut self) {
        self.send(CMD_PUSH);
        self.live.push(vec![]);
    }

    fn pop(&mut self) {
        self.send(CMD_POP);
        self.live.pop();
    }

    fn join(&mut self, line: &[u8]) {
        self.send(line);
        let last = self.live.last_mut().expect("the first is never popped");
        last.push(line.to_vec());
    }

    /// A line, with others before it that change nothing.
    fn send(&mut self, line: &[u8]) {
        if self.manners.gets_models && self.random.one_in(AT_TIMES) {
            self.write(CMD_GET_MODEL);
        }
        if self.manners.strays && self.random.one_in(AT_TIMES) {
            self.write(CMD_PUSH);
            for _ in 0..self.random.up_to(STRAYS) {
                let line = self.random.pick(&STRAY_LINES);
                self.write(line);
            }
            self.write(CMD_POP);
        }
        self.write(line);
    }

    fn write(&mut self, line: &[u8]) {
        self.script.extend_from_slice(line);
        self.script.push(LINE_END);
    }
}

pub fn shuffle<T>(random: &mut Random, items: &mut [T]) {
    for last in (1..items.len()).rev() {
        let other = random.up_to(last);
        items.swap(last, other);
    }
}

/// A level whatever its order.
pub fn sorted(level: &Level) -> Level {
    let mut level = level.clone();
    level.sort_unstable();
    level
}
