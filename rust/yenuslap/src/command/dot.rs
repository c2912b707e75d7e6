//! Machines as a Graphviz graph.

use yenuslap::Casebook;

use super::contents::{rows, start_states, states};

/// One graph with a cluster for each machine; an arrow from a point marks the state that the log starts in.
pub fn dot(name: &str, parts: &Casebook) -> Vec<String> {
    let (left, right) = start_states(parts.run);
    let mut lines = graph("casebook", name);
    lines.extend(cluster("left", parts.left, left));
    lines.extend(cluster("right", parts.right, right));
    lines.push("}".to_string());
    lines
}

/// The graph of one machine alone; an arrow from a point marks its first state.
pub fn dot_of_table(name: &str, table: &[u8], first: u8) -> Vec<String> {
    let mut lines = graph("table", name);
    lines.extend(machine("  ", "state", table, first));
    lines.push("}".to_string());
    lines
}

/// The beginning of a graph.
fn graph(kind: &str, name: &str) -> Vec<String> {
    vec![
        format!("digraph {kind} {{"),
        format!("  label={};", quoted(name)),
        "  rankdir=LR;".to_string(),
        "  node [shape=circle];".to_string(),
    ]
}

/// The cluster of one machine.
fn cluster(side: &str, table: &[u8], start: u8) -> Vec<String> {
    let mut lines = vec![
        format!("  subgraph cluster_{side} {{"),
        format!("    label={};", quoted(side)),
    ];
    lines.extend(machine("    ", side, table, start));
    lines.push("  }".to_string());
    lines
}

/// The states and rows of one machine, each line indented, each state's name with this beginning.
fn machine(indent: &str, begin: &str, table: &[u8], start: u8) -> Vec<String> {
    let mut lines = vec![format!("{indent}{begin}_start [shape=point];")];
    for state in 0..states(table) {
        let label = quoted(&state.to_string());
        lines.push(format!("{indent}{begin}_{state} [label={label}];"));
    }
    lines.push(format!("{indent}{begin}_start -> {begin}_{start};"));
    for row in rows(table) {
        let label = quoted(&row.label.to_string());
        lines.push(format!(
            "{indent}{begin}_{} -> {begin}_{} [label={label}];",
            row.from, row.to
        ));
    }
    lines
}

/// A text as Graphviz takes it in quotes.
fn quoted(text: &str) -> String {
    let escaped = text.replace('\\', "\\\\").replace('"', "\\\"");
    format!("\"{}\"", escaped.replace('\n', "\\n"))
}
