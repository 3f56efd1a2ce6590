//! A Mealy machine in DOT, as learners and benchmarks write it: an edge for each press, and `__start0` before the first
//! state.

use super::dot::escaped;
use super::{Line, Picture, Transition};

/// The picture as a Mealy machine: what is specified, or what a board does. The other lines of the picture are left
/// out.
///
/// ```
/// use ranthelo::{Names, draw, machine::Machine};
///
/// let sheet = ranthelo::text::assemble(b"SIZE 1 2 2\n RULE 0 0 0 0\n RULE 0 1 1 0\n FAULT 0 0 1 0")?;
/// let picture = draw::machine(&Machine::of(&sheet)?, &Names::default(), false);
/// assert_eq!(
///     draw::mealy(&picture),
///     r#"digraph {
///   __start0 [label="" shape="none"];
///   s0 [shape="circle" label="s0"];
///   __start0 -> s0;
///   s0 -> s0 [label="0/0"];
///   s0 -> s0 [label="1/1"];
/// }
/// "#,
/// );
/// # Ok::<(), Box<dyn std::error::Error>>(())
/// ```
#[must_use]
pub fn mealy(picture: &Picture) -> String {
    let mut text = "digraph {\n  __start0 [label=\"\" shape=\"none\"];\n".to_string();
    for state in 0..picture.states {
        let (node, name) = (node(picture, state), escaped(&name(picture, state)));
        text += &format!("  {node} [shape=\"circle\" label=\"{name}\"];\n");
    }
    let start = node(picture, start(picture));
    text += &format!("  __start0 -> {start};\n");
    let edges = picture.transitions.iter();
    text += &edges
        .filter_map(|one| edge(picture, one))
        .collect::<String>();
    text + "}\n"
}

/// Whether a line is of the machine, or of the board if the picture shows one.
fn belongs(picture: &Picture, line: Line) -> bool {
    match line {
        Line::Rule | Line::Unspecified => true,
        Line::Fault => !picture.title.is_empty(),
        Line::Specified => false,
    }
}

fn start(picture: &Picture) -> u8 {
    let mut wakings = picture.wakings.iter();
    let waking = wakings.find(|waking| belongs(picture, waking.line));
    waking.map_or(0, |waking| waking.state)
}

/// A state's name; `s0` where it has none.
fn name(picture: &Picture, state: u8) -> String {
    match picture.names.state(state) {
        name if name == state.to_string() => format!("s{state}"),
        name => name,
    }
}

/// The name as DOT has it: quoted, but for those that are made here.
fn node(picture: &Picture, state: u8) -> String {
    let name = name(picture, state);
    match name == format!("s{state}") {
        true => name,
        false => format!("\"{}\"", escaped(&name)),
    }
}

fn edge(picture: &Picture, transition: &Transition) -> Option<String> {
    let to = transition.to?;
    if !belongs(picture, transition.line) {
        return None;
    }
    let names = &picture.names;
    let (from, next) = (node(picture, transition.state), node(picture, to.next));
    let label = names.press(transition.press) + "/" + &names.sound(to.sound);
    Some(format!(
        "  {from} -> {next} [label=\"{}\"];\n",
        escaped(&label)
    ))
}
