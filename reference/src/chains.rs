//! Random plans of box chains. Whether a question must be proved is worked
//! out in plain arithmetic, apart from terms, books and solvers.

use crate::book::INT;
use crate::maker::Maker;
use crate::program::ROOT;
use crate::random::{Random, AT_TIMES, OFTEN};
use std::ops::RangeInclusive;

/// The boxes of a loom.
pub const BOXES: RangeInclusive<i64> = 1..=8;
/// The steps of a chain; with more, a book might not hold the plan.
pub const LEAST_STEPS: usize = 2;
pub const MOST_STEPS: usize = 12;
const MOST_BRANCHES: usize = 3;
const MOST_GOALS: usize = 3;
/// How far a limit may be off the longest travel of some path.
const NEAR: [i64; 5] = [-2, -1, 0, 0, 1];

pub struct ChainPlan {
    pub maker: Maker,
    pub questions: Vec<Question>,
}

impl ChainPlan {
    /// Whether the same goal must be proved at one node and not at a sibling
    /// of it.
    pub fn siblings_differ(&self) -> bool {
        let place = |question: &Question| {
            let record = (question.node as usize).checked_sub(1)?;
            let [parent, ..] = self.maker.contexts[record];
            Some((parent, question.goal))
        };
        let differ = |a: &Question, b: &Question| {
            place(a).is_some() && place(a) == place(b) && a.must_be_proved != b.must_be_proved
        };
        let mut questions = self.questions.iter();
        questions.any(|a| self.questions.iter().any(|b| differ(a, b)))
    }
}

/// A goal asked at a node.
#[derive(Clone, Copy, Debug, PartialEq, Eq)]
pub struct Question {
    pub node: u32,
    pub goal: u32,
    pub must_be_proved: bool,
}

/// A random plan with chains of up to `most_steps` steps, from `LEAST_STEPS`
/// to `MOST_STEPS`. A goal says of the first steps that their travel keeps a
/// limit; it is asked at the nodes where these steps end, in random order, and
/// at times at others.
pub fn random_chain_plan(random: &mut Random, most_steps: usize) -> ChainPlan {
    let tree = Tree::random(random, most_steps);
    let mut writer = Writer::new(random, tree.steps);
    writer.add_nodes(&tree);
    let mut questions = Vec::new();
    for _ in 0..=random.below(MOST_GOALS) {
        let goal = Goal::random(random, &tree);
        let number = writer.add_goal(&goal);
        for node in ROOT..=tree.nodes.len() {
            if tree.path(node).len() == goal.steps || random.one_in(AT_TIMES) {
                questions.push(Question {
                    node: node as u32,
                    goal: number,
                    must_be_proved: goal.holds_on(&tree.path(node)),
                });
            }
        }
    }
    shuffle(random, &mut questions);
    ChainPlan {
        maker: writer.maker,
        questions,
    }
}

/// What a node says of its step's box.
#[derive(Clone, Copy)]
enum Says {
    Box(i64),
    /// The step is left open.
    AnyBox,
}

impl Says {
    fn random(random: &mut Random) -> Says {
        if random.one_in(AT_TIMES) {
            Says::AnyBox
        } else {
            Says::Box(BOXES.start() + random.below(BOXES.count()) as i64)
        }
    }

    fn boxes(self) -> RangeInclusive<i64> {
        match self {
            Says::Box(number) => number..=number,
            Says::AnyBox => BOXES,
        }
    }
}

/// The nodes below the root, each with its parent's number, in chains of up
/// to `steps` steps.
struct Tree {
    steps: usize,
    nodes: Vec<(usize, Says)>,
}

impl Tree {
    /// A chain, and branches off it that are as long.
    fn random(random: &mut Random, most_steps: usize) -> Tree {
        let mut tree = Tree {
            steps: LEAST_STEPS + random.up_to(most_steps - LEAST_STEPS),
            nodes: Vec::new(),
        };
        tree.add_chain(random, ROOT);
        for _ in 0..random.up_to(MOST_BRANCHES) {
            let inner: Vec<usize> = (ROOT..=tree.nodes.len())
                .filter(|node| tree.path(*node).len() < tree.steps)
                .collect();
            let parent = random.pick(&inner);
            tree.add_chain(random, parent);
        }
        tree
    }

    /// Goes on from a node until all steps are there.
    fn add_chain(&mut self, random: &mut Random, parent: usize) {
        let mut parent = parent;
        for _ in self.path(parent).len()..self.steps {
            self.nodes.push((parent, Says::random(random)));
            parent = self.nodes.len();
        }
    }

    /// What the nodes say from below the root down to `node`.
    fn path(&self, node: usize) -> Vec<Says> {
        match node.checked_sub(1) {
            None => Vec::new(),
            Some(record) => {
                let (parent, says) = self.nodes[record];
                let mut path = self.path(parent);
                path.push(says);
                path
            }
        }
    }
}

/// The first `steps` steps travel at most `limit`.
struct Goal {
    steps: usize,
    limit: i64,
}

impl Goal {
    /// The limit is near the travel of some path, so that it holds on some
    /// and on others not.
    fn random(random: &mut Random, tree: &Tree) -> Goal {
        let long_enough: Vec<usize> = (1..=tree.nodes.len())
            .filter(|node| tree.path(*node).len() >= LEAST_STEPS)
            .collect();
        let path = tree.path(random.pick(&long_enough));
        Goal {
            steps: path.len(),
            limit: longest_travel(&path) + random.pick(&NEAR),
        }
    }

    /// Where a step's node is missing its box may be any number at all, so no
    /// limit holds.
    fn holds_on(&self, path: &[Says]) -> bool {
        let chain = path.get(..self.steps);
        chain.is_some_and(|chain| longest_travel(chain) <= self.limit)
    }
}

/// The longest travel of a chain over all choices of its open steps.
fn longest_travel(chain: &[Says]) -> i64 {
    // For each box that may be up at the present step, the longest way there.
    let mut ways: Vec<(i64, i64)> = Vec::new();
    for says in chain {
        let longest_to = |to: i64| {
            let travels = ways.iter().map(|(from, way)| way + (to - from).abs());
            (to, travels.max().unwrap_or(0))
        };
        ways = says.boxes().map(longest_to).collect();
    }
    ways.iter().map(|(_, way)| *way).max().unwrap_or(0)
}

/// Writes the plan's book, terms in the order of their text.
struct Writer {
    maker: Maker,
    /// The constant of each step's box.
    boxes: Vec<u32>,
    /// The distance if it is a function that an axiom explains.
    distance: Option<u32>,
}

impl Writer {
    fn new(random: &mut Random, steps: usize) -> Writer {
        let mut maker = Maker::default();
        let box_of_step = |step| format!("box_{step}");
        let boxes = (1..=steps)
            .map(|step| maker.constant(&box_of_step(step), INT))
            .collect();
        let distance = random.one_in(OFTEN).then(|| add_distance(&mut maker));
        Writer {
            maker,
            boxes,
            distance,
        }
    }

    fn add_nodes(&mut self, tree: &Tree) {
        for (record, (parent, says)) in tree.nodes.iter().enumerate() {
            let step = tree.path(record + 1).len();
            let term = self.premise(self.boxes[step - 1], *says);
            let trace = match says {
                Says::Box(number) => format!("step {step}: box {number}"),
                Says::AnyBox => format!("step {step}: any box"),
            };
            self.maker.traced_context(*parent as u32, term, &trace);
        }
    }

    fn premise(&mut self, constant: u32, says: Says) -> u32 {
        let m = &mut self.maker;
        match says {
            Says::Box(number) => {
                let args = [m.id(constant), m.integer(number)];
                m.built_in("=", &args)
            }
            Says::AnyBox => {
                let args = [m.integer(*BOXES.start()), m.id(constant)];
                let from_first = m.built_in("<=", &args);
                let args = [m.id(constant), m.integer(*BOXES.end())];
                let to_last = m.built_in("<=", &args);
                m.built_in("and", &[from_first, to_last])
            }
        }
    }

    fn add_goal(&mut self, goal: &Goal) -> u32 {
        let boxes = self.boxes[..goal.steps].to_vec();
        let mut distances = Vec::new();
        for pair in boxes.windows(2) {
            distances.push(self.add_distance_of(pair[0], pair[1]));
        }
        let travel = match distances[..] {
            [only] => only,
            _ => self.maker.built_in("+", &distances),
        };
        let limit = self.maker.integer(goal.limit);
        self.maker.built_in("<=", &[travel, limit])
    }

    fn add_distance_of(&mut self, a: u32, b: u32) -> u32 {
        match self.distance {
            None => add_difference(&mut self.maker, a, b),
            Some(function) => {
                let args = [self.maker.id(a), self.maker.id(b)];
                self.maker.apply(function, &args)
            }
        }
    }
}

/// `(ite (< a b) (- b a) (- a b))`
fn add_difference(m: &mut Maker, a: u32, b: u32) -> u32 {
    let args = [m.id(a), m.id(b)];
    let guard = m.built_in("<", &args);
    let args = [m.id(b), m.id(a)];
    let up = m.built_in("-", &args);
    let args = [m.id(a), m.id(b)];
    let down = m.built_in("-", &args);
    m.if_then_else(guard, up, down)
}

/// A function with the axiom that it is the difference of its arguments.
fn add_distance(m: &mut Maker) -> u32 {
    let distance = m.function("distance", &[INT, INT], INT);
    let [a, b] = ["a", "b"].map(|name| m.constant(name, INT));
    let args = [m.id(a), m.id(b)];
    let args = [m.apply(distance, &args), add_difference(m, a, b)];
    let body = m.built_in("=", &args);
    let args = [m.id(a), m.id(b)];
    let terms = [m.apply(distance, &args)];
    let pattern = m.pattern(&terms);
    let term = m.quantifier(true, &[a, b], &[pattern], body);
    let axiom = m.axiom(Some(term), &[distance]);
    m.explained_by(distance, &[axiom]);
    distance
}

fn shuffle<T>(random: &mut Random, items: &mut [T]) {
    for end in (1..items.len()).rev() {
        items.swap(end, random.up_to(end));
    }
}
