//! A list of calls with its text, looked at for strangers.

use crate::desk::{Answer, Desk};
use crate::writer_desk::{grown, Growth};
use leskofar_reference::book_test::check;
use leskofar_reference::live_lines::LiveLines;
use leskofar_reference::maker::Maker;
use leskofar_reference::strangers::{Breach, Look, Moment};
use leskofar_reference::told_apart::told_apart;

/// A list of calls, and the text that they sent.
pub struct Run {
    pub desk: Desk,
    pub text: String,
    pub node: u32,
    pub goal: Option<u32>,
}

impl Run {
    pub fn new(m: &Maker) -> Run {
        Run {
            desk: Desk::new(m),
            text: String::new(),
            node: 0,
            goal: None,
        }
    }

    pub fn moved(m: &Maker, node: u32) -> Run {
        let mut run = Run::new(m);
        run.move_to(node);
        run
    }

    pub fn move_to(&mut self, node: u32) {
        let text = self.desk.move_to(node).expect("accepted");
        self.text += &text;
        self.node = node;
    }

    pub fn ask(&mut self, node: u32, goal: u32) {
        let text = self.desk.ask(node, goal).expect("accepted");
        self.text += &text;
        (self.node, self.goal) = (node, Some(goal));
    }

    pub fn reply(&mut self, reply: &[u8]) {
        match self.desk.reply(false, reply).expect("accepted") {
            Answer::Proved { text } => {
                self.text += &text;
                self.goal = None;
            }
            Answer::ModelOwed { text } => self.text += &text,
            Answer::Unproved { .. } => unreachable!("no check failed"),
        }
    }

    pub fn grow(&mut self, growth: &Growth) -> u32 {
        let (number, book) = grown(&self.desk.book, growth).expect("accepted");
        self.desk.book = book;
        number
    }

    /// What another text in the stead of the session's leaves.
    pub fn look_at<T>(&self, text: &str, look: impl FnOnce(&Moment, Look) -> T) -> T {
        let program = check(&self.desk.book).expect("a good book");
        let mut live = LiveLines::default();
        live.hear(text.as_bytes()).expect("heard");
        let moment = Moment {
            program: &program,
            node: self.node as usize,
            goal: self.goal.map(|goal| goal as usize),
            live: &live,
        };
        look(&moment, moment.look())
    }

    /// The live declarations of each symbol of each live assertion.
    pub fn counts(&self) -> Vec<usize> {
        self.look_at(&self.text, |moment, look| {
            let found = look.assertions.iter().map(|asserted| &asserted.found);
            let symbols = found.flat_map(|found| &found.symbols);
            symbols.map(|symbol| moment.times(symbol)).collect()
        })
    }

    pub fn breaches(&self) -> Vec<Breach> {
        self.look_at(&self.text, |_, look| look.breaches)
    }

    pub fn told_apart(&self) -> bool {
        told_apart(&check(&self.desk.book).expect("a good book"))
    }

    /// A told-apart book, whose every symbol is declared once.
    pub fn assert_once(&self, counts: usize) {
        assert!(self.told_apart());
        assert_eq!(self.breaches(), []);
        assert_eq!(self.counts(), vec![1; counts]);
    }
}
