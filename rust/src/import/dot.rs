//! Mealy machines in DOT: `s0 -> s1 [label="a/0"]`, and an edge without a label from a node that stands for the start.

use super::tokens::{Token, What, tokens};
use super::{Found, Transition};
use crate::text::Mistake;
use std::collections::BTreeMap;

/// Takes a machine from DOT. Dashed edges are FAULTs, or STARTs if they have no label; dotted ones say nothing.
pub fn read(text: &str) -> Result<Found, Vec<Mistake>> {
    let tokens = tokens(text)?;
    let begin = tokens
        .iter()
        .position(|token| token.what == What::Sign('{'));
    let tokens = &tokens[begin.map_or(0, |begin| begin + 1)..];
    let mut reader = Reader {
        tokens,
        ..Reader::default()
    };
    while let Some(token) = reader.tokens.first() {
        let (line, what) = (token.line, token.what.clone());
        reader.tokens = &reader.tokens[1..];
        match what {
            What::Word(first) => reader.statement(line, first),
            What::Sign(';' | ',' | '{' | '}') => {}
            _ => reader.wrong.push(Mistake::new(line, "a name is due here")),
        }
    }
    match reader.wrong.is_empty() {
        true => Ok(reader.found()),
        false => Err(reader.wrong),
    }
}

/// An edge with what is said of it.
struct Edge {
    line: usize,
    from: String,
    to: String,
    attributes: BTreeMap<String, String>,
}

impl Edge {
    fn label(&self) -> &str {
        self.attributes
            .get("label")
            .map_or("", |label| label.trim())
    }

    fn is(&self, style: &str) -> bool {
        self.attributes
            .get("style")
            .is_some_and(|given| given == style)
    }
}

#[derive(Default)]
struct Reader<'a> {
    tokens: &'a [Token],
    /// All nodes in the order in which they are met.
    nodes: Vec<(usize, String)>,
    edges: Vec<Edge>,
    wrong: Vec<Mistake>,
}

impl Reader<'_> {
    fn take(&mut self, what: &What) -> bool {
        let there = self.tokens.first().is_some_and(|token| token.what == *what);
        if there {
            self.tokens = &self.tokens[1..];
        }
        there
    }

    fn word(&mut self) -> Option<(usize, String)> {
        let Some(Token {
            line,
            what: What::Word(word),
        }) = self.tokens.first()
        else {
            return None;
        };
        let word = (*line, word.clone());
        self.tokens = &self.tokens[1..];
        Some(word)
    }

    /// A node, edges in a row, or something that is passed over.
    fn statement(&mut self, line: usize, first: String) {
        if self.take(&What::Sign('=')) {
            self.word();
            return;
        }
        let mut row = vec![(line, first)];
        while self.take(&What::Arrow) {
            match self.word() {
                Some(next) => row.push(next),
                None => self
                    .wrong
                    .push(Mistake::new(line, "an arrow leads to nothing")),
            }
        }
        let attributes = self.attributes(line);
        if row.len() == 1
            && ["graph", "node", "edge", "subgraph", "digraph"].contains(&row[0].1.as_str())
        {
            return;
        }
        for (line, name) in &row {
            if !self.nodes.iter().any(|(_, node)| node == name) {
                self.nodes.push((*line, name.clone()));
            }
        }
        for pair in row.windows(2) {
            let (from, to) = (pair[0].1.clone(), pair[1].1.clone());
            let attributes = attributes.clone();
            self.edges.push(Edge {
                line,
                from,
                to,
                attributes,
            });
        }
    }

    /// `[name=value, ..]`, if it is there.
    fn attributes(&mut self, line: usize) -> BTreeMap<String, String> {
        let mut attributes = BTreeMap::new();
        while self.take(&What::Sign('[')) {
            while !self.take(&What::Sign(']')) {
                let name = self.word();
                let value = if self.take(&What::Sign('=')) {
                    self.word()
                } else {
                    None
                };
                match (name, value) {
                    (Some((_, name)), value) => {
                        attributes.insert(name, value.map_or(String::new(), |(_, value)| value));
                    }
                    _ if self.take(&What::Sign(',')) || self.take(&What::Sign(';')) => {}
                    _ => {
                        self.wrong.push(Mistake::new(line, "a [ is not closed"));
                        return attributes;
                    }
                }
            }
        }
        attributes
    }

    fn found(self) -> Found {
        let mut found = Found::default();
        let marks = |node: &String| {
            self.edges
                .iter()
                .any(|edge| edge.from == *node && edge.label().is_empty())
        };
        let is_state = |node: &String| !marks(node) && !node.starts_with("__start");
        let used = |node: &String| {
            self.edges
                .iter()
                .any(|edge| !edge.is("dotted") && (edge.from == *node || edge.to == *node))
        };
        for (line, node) in self
            .nodes
            .iter()
            .filter(|(_, node)| is_state(node) && used(node))
        {
            found.meet(*line, node);
        }
        for edge in self.edges.iter().filter(|edge| !edge.is("dotted")) {
            match edge.label() {
                "" if edge.is("dashed") => found.wakings.push(edge.to.clone()),
                "" => found.start = found.start.or(Some(edge.to.clone())),
                label => found
                    .transitions
                    .extend(label.split('\n').map(|label| transition(edge, label))),
            }
        }
        found
    }
}

/// A transition of one label: `a/0` or `a / 0`. Without a `/` there is no output.
fn transition(edge: &Edge, label: &str) -> Transition {
    let parts = label.split_once(" / ").or_else(|| label.split_once('/'));
    let (input, output) = parts.unwrap_or((label, ""));
    Transition {
        line: edge.line,
        from: edge.from.clone(),
        to: edge.to.clone(),
        input: input.trim().to_string(),
        output: output.trim().to_string(),
        fault: edge.is("dashed"),
    }
}
