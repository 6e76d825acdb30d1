//! Random plans of boxes, as text: what a person would write.

use crate::random::{Random, AT_TIMES, OFTEN, RARELY};

const LEAST_BOXES: usize = 2;
const MOST_BOXES: usize = 4;
const MOST_NODES: usize = 5;
const MOST_GOALS: usize = 4;
/// Numbers run from 0 to this.
const MOST_NUMBER: usize = 9;
const HUES: [&str; 3] = ["red", "blue", "green"];

/// The constants that terms bind, and the function that no axiom explains.
pub(super) const BOUND: &str = "k";
pub(super) const BOUND_HUE: &str = "tone";
const FUNCTION: &str = "way";
const NAMED: &str = "kept";

pub fn random_box_plan(random: &mut Random) -> String {
    let mut writer = Writer {
        boxes: LEAST_BOXES + random.up_to(MOST_BOXES - LEAST_BOXES),
        has_hues: random.one_in(OFTEN),
        has_function: random.one_in(AT_TIMES),
        random,
    };
    let mut text = writer.declarations();
    let nodes = 2 + writer.random.up_to(MOST_NODES - 2);
    for node in 1..=nodes {
        let parent = writer.node_above(node);
        let premise = writer.premise(1 + (node - 1) % writer.boxes);
        text += &format!("(node n{node} {parent} {premise})\n");
    }
    let goal = writer.limit();
    text += &format!("(term {NAMED} {goal})\n");
    for goal in 0..=writer.random.below(MOST_GOALS) {
        let node = writer.random.up_to(nodes);
        let node = writer.node_name(nodes - node / 2);
        let term = writer.goal();
        text += &format!("(goal g{goal} {node} {term})\n");
    }
    text
}

struct Writer<'r> {
    random: &'r mut Random,
    boxes: usize,
    has_hues: bool,
    has_function: bool,
}

impl Writer<'_> {
    /// In random order, since the solver gets them as they are met.
    fn declarations(&mut self) -> String {
        let mut lines: Vec<String> = (1..=self.boxes)
            .map(|number| format!("(constant box_{number} Int)"))
            .collect();
        if self.random.one_in(AT_TIMES) {
            let number = self.random.below(self.boxes);
            lines[number] = format!("(constant box_{} Int :name \"b.{number}\")", number + 1);
        }
        lines.push(format!("(constant {BOUND} Int)"));
        lines.push("(constant fancy Bool)".into());
        if self.has_hues {
            lines.push("(type Shade)".into());
            lines.push("(constant hue Shade)".into());
            lines.push(format!("(constant {BOUND_HUE} Shade)"));
        }
        if self.has_function {
            lines.push(format!("(function {FUNCTION} (Int) Int)"));
        }
        for end in (1..lines.len()).rev() {
            lines.swap(end, self.random.up_to(end));
        }
        lines.join("\n") + "\n"
    }

    /// A node's parent: most hang below the one before, the others beside it.
    fn node_above(&mut self, node: usize) -> String {
        let above = node - 1;
        let back = usize::from(above > 0 && self.random.one_in(AT_TIMES));
        self.node_name(above - back)
    }

    fn node_name(&self, node: usize) -> String {
        match node {
            0 => "root".into(),
            _ => format!("n{node}"),
        }
    }

    fn number(&mut self) -> usize {
        self.random.up_to(MOST_NUMBER)
    }

    fn a_box(&mut self) -> String {
        format!("box_{}", 1 + self.random.below(self.boxes))
    }

    fn hue(&mut self) -> String {
        let hue = self.random.pick(&HUES);
        match self.random.below(6) {
            0 | 1 => "hue".into(),
            2 => BOUND_HUE.into(),
            3 => format!("|{hue}:Shade|"),
            _ => format!("(literal \"{hue}\" Shade)"),
        }
    }

    /// What a node says: most often which box a step brings up.
    fn premise(&mut self, step: usize) -> String {
        let (a, x, y) = (format!("box_{step}"), self.number(), self.number());
        let [b, c] = [self.a_box(), self.a_box()];
        if self.has_hues && self.random.one_in(AT_TIMES) {
            return self.about_hues();
        }
        match self.random.below(13) {
            0..4 => format!("(= {a} {x})"),
            4 => format!("(and (<= {x} {a}) (<= {a} {}))", x + y % 3),
            5 => format!("(or (= {a} {x}) (= {a} {y}))"),
            6 => format!("(< {b} {c})"),
            7 => format!("(and (=> fancy (= {a} {x})) (or fancy (= {a} {y})))"),
            8 => format!("(= {a} (ite fancy {x} (+ {b} 1)))"),
            9 => self.small_range("forall", &format!("(not (= {BOUND} {a}))")),
            10 => format!("(builtin \"<=\" {a} {x})"),
            11 => format!("(let (({BOUND} (+ {b} {x}))) (< {a} {BOUND}))"),
            _ => format!("(= {BOUND} {x})"),
        }
    }

    fn about_hues(&mut self) -> String {
        let [a, b] = [self.hue(), self.hue()];
        match self.random.below(6) {
            0 | 1 => format!("(= {a} {b})"),
            2 => format!("(not (= {a} {b}))"),
            3 => format!("(forall (({BOUND_HUE} Shade)) (= {BOUND_HUE} {a}))"),
            4 => format!("(exists (({BOUND_HUE} Shade)) (and (= {BOUND_HUE} {a}) (= hue {b})))"),
            _ => format!("(let (({BOUND_HUE} {a})) (= {BOUND_HUE} {b}))"),
        }
    }

    /// What is asked.
    fn goal(&mut self) -> String {
        let (a, b, x) = (self.a_box(), self.a_box(), self.number());
        if self.has_hues && self.random.one_in(AT_TIMES) {
            return self.about_hues();
        }
        match self.random.below(14) {
            0..4 => self.limit(),
            4 => NAMED.into(),
            5 => format!("(<= {a} {x})"),
            6 => format!("(not (= {a} {b}))"),
            7 => format!("(let (({BOUND} (+ {a} {x}))) (<= {b} {BOUND}))"),
            8 => self.small_range("exists", &format!("(= {BOUND} {a})")),
            9 => self.small_range("forall", &format!("(< {BOUND} {a})")),
            10 => format!("(builtin \"or\" fancy (< {a} {x}))"),
            11 => format!("(let (({BOUND} (- {a} {b}))) (< -{} {BOUND}))", x + 1),
            12 if self.has_function => format!("(= ({FUNCTION} {a}) ({FUNCTION} {b}))"),
            13 if self.has_function => format!("(<= 0 ({FUNCTION} {a}))"),
            _ => format!("(or (< {a} {b}) (<= {b} {a} {x}))"),
        }
    }

    /// The boxes of some steps travel at most so far.
    fn limit(&mut self) -> String {
        let steps = 2 + self.random.up_to(self.boxes - 2);
        let distance = |step: usize| {
            let (a, b) = (format!("box_{step}"), format!("box_{}", step + 1));
            format!("(ite (< {a} {b}) (- {b} {a}) (- {a} {b}))")
        };
        let travel: Vec<String> = (1..steps).map(distance).collect();
        let limit = self.number();
        match &travel[..] {
            [only] if self.random.one_in(RARELY) => format!("(< {only} {limit})"),
            [only] => format!("(<= {only} {limit})"),
            _ => format!("(<= (+ {}) {limit})", travel.join(" ")),
        }
    }

    fn small_range(&mut self, quantifier: &str, says: &str) -> String {
        let least = self.random.up_to(2);
        let most = least + self.random.up_to(4);
        let range = format!("(<= {least} {BOUND}) (<= {BOUND} {most})");
        match quantifier {
            "forall" => format!("(forall (({BOUND} Int)) (=> (and {range}) {says}))"),
            _ => format!("(exists (({BOUND} Int)) (and {range} {says}))"),
        }
    }
}
