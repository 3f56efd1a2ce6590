//! Graphviz's DOT.

use super::{Arrow, Line, Picture, Target};

/// The picture in DOT.
#[must_use]
pub fn dot(picture: &Picture) -> String {
    let mut text =
        "digraph {\n  rankdir=LR\n  node [shape=circle]\n  start [shape=point]\n".to_string();
    if !picture.title.is_empty() {
        text += &format!("  label=\"{}\"\n", escaped(&picture.title));
    }
    let arrows = picture.arrows();
    for state in 0..picture.states {
        let name = picture.names.state(state);
        if name != state.to_string() {
            text += &format!("  {state} [label=\"{}\"]\n", escaped(&name));
        } else if !arrows.keys().any(|arrow| touches(arrow, state)) {
            text += &format!("  {state}\n");
        }
    }
    if arrows.keys().any(|arrow| arrow.to == Target::Any) {
        text += "  any [label=\"any state\" shape=plaintext]\n";
    }
    for (arrow, labels) in &arrows {
        text += &line(arrow, labels);
    }
    text + "}\n"
}

/// The inside of a quoted string of DOT.
pub(super) fn escaped(text: &str) -> String {
    text.replace('\\', "\\\\").replace('"', "\\\"")
}

fn touches(arrow: &Arrow, state: u8) -> bool {
    arrow.from == Some(state) || arrow.to == Target::State(state)
}

fn line(arrow: &Arrow, labels: &[String]) -> String {
    let from = arrow
        .from
        .map_or("start".to_string(), |state| state.to_string());
    let to = match arrow.to {
        Target::State(state) => state.to_string(),
        Target::Any => "any".to_string(),
    };
    let labels: Vec<String> = labels.iter().map(|label| escaped(label)).collect();
    let label = (!labels.is_empty()).then(|| format!("label=\"{}\"", labels.join("\\n")));
    let style = match arrow.line {
        Line::Rule => None,
        Line::Fault => Some("style=dashed".to_string()),
        Line::Unspecified => Some("style=dotted".to_string()),
        Line::Specified => Some("color=gray fontcolor=gray".to_string()),
    };
    let mark = arrow
        .marked
        .then(|| "color=red fontcolor=red penwidth=3".to_string());
    let attributes: Vec<String> = [label, style, mark].into_iter().flatten().collect();
    match attributes.as_slice() {
        [] => format!("  {from} -> {to}\n"),
        all => format!("  {from} -> {to} [{}]\n", all.join(" ")),
    }
}
