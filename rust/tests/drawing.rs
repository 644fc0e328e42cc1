//! The pictures that the example `graph` draws.

#[path = "../examples/drawing/mod.rs"]
mod drawing;
mod words;

use cegridom::Refusal;
use drawing::graph::{Edge, Graph, Split, EDITION};
use drawing::layout::{Layout, CLEARANCE};
use words::{every_word, fibonacci, last_differs, thue_morse};

const STORED: &str = include_str!("../../docs/aabaabaa.svg");

/// Words to draw: all short ones, and longer ones of several kinds.
fn drawn() -> Vec<Vec<u8>> {
    let mut words = vec![
        b"abaabaababaabaabababa".to_vec(),
        b"aabaabaacbbcbbcbb".to_vec(),
        b"abcdefghijklabcdefghijkl".to_vec(),
        b"abcdefghabcdefgh".to_vec(),
        b"abababababababababababab".to_vec(),
    ];
    for n in 0..=24 {
        words.extend([vec![b'a'; n], last_differs(n), fibonacci(n), thue_morse(n)]);
    }
    every_word(2, 9, |w| words.push(w.to_vec()));
    every_word(3, 6, |w| words.push(w.to_vec()));
    words
}

#[test]
fn the_stored_picture_is_drawn_by_the_example() {
    assert!(
        drawing::draw(b"aabaabaa").unwrap() == STORED,
        "docs/aabaabaa.svg is not what `cargo run --example graph -- aabaabaa` prints"
    );
}

#[test]
fn no_edge_runs_behind_a_node() {
    for w in drawn() {
        let graph = Graph::of(&w).unwrap();
        let layout = Layout::of(&graph);
        for edge in graph.edges() {
            let clearance = layout.clearance(edge, &layout.curve(edge));
            let word = w.escape_ascii();
            assert!(clearance >= CLEARANCE, "{word}: {edge:?}, {clearance}");
        }
    }
}

#[test]
fn the_graph_has_the_white_nodes_of_the_library() {
    // A unit that a block may have, and one that is too long.
    let about = [256, 257].map(|unit| last_differs(unit).repeat(2));
    for w in drawn().into_iter().chain(about) {
        let graph = Graph::of(&w).unwrap();
        for position in 1..=w.len() {
            let here = graph.whites().filter(|white| white.position == position);
            let numbers: Vec<u32> = here.map(|white| white.run as u32).collect();
            assert_eq!(cegridom::nodes(&w, EDITION, position as u32), Ok(numbers));
        }
    }
}

/// A path is made of edges of the graph that follow each other, and drops to the ends of its split.
fn follows(graph: &Graph, split: &Split) {
    let mut at = 0;
    let mut drops = Vec::new();
    for &edge in &split.path {
        assert!(graph.edges().any(|known| known == edge));
        let (from, to) = match edge {
            Edge::Diagonal(white) => (graph.source(white), white.position),
            Edge::Flat(white) => (white.position - 1, white.position),
            Edge::Drop(white) => (white.position, white.position),
        };
        assert_eq!(at, from);
        at = to;
        if let Edge::Drop(white) = edge {
            drops.push(white.position as u32);
        }
    }
    assert_eq!(drops, split.ends);
    let weight: u32 = split.path.iter().map(|edge| edge.weight()).sum();
    assert_eq!(weight as usize, split.ends.len());
}

#[test]
fn the_paths_are_those_of_the_splits() {
    for w in drawn() {
        let graph = Graph::of(&w).unwrap();
        for split in [&graph.fewest, &graph.most].into_iter().flatten() {
            follows(&graph, split);
        }
    }
}

#[test]
fn any_byte_is_drawn_as_plain_text() {
    let bytes: Vec<u8> = (0..=255).collect();
    for word in [&bytes[..], b"", b"\0\0", b"<&>\"<&>\"", b"  ", b"--]]>"] {
        let picture = drawing::draw(word).unwrap();
        assert!(picture.starts_with("<svg ") && picture.ends_with("</svg>\n"));
        assert!(picture
            .chars()
            .all(|c| c == '\n' || c == '…' || !c.is_control()));
        // Each bracket belongs to a tag, each ampersand to a name of a symbol.
        let opened = picture.matches('<').count();
        assert_eq!(opened, picture.matches('>').count());
        let names = ["&amp;", "&lt;", "&gt;"].map(|name| picture.matches(name).count());
        assert_eq!(picture.matches('&').count(), names.iter().sum());
    }
}

#[test]
fn a_word_that_is_too_long_is_refused() {
    assert_eq!(
        drawing::draw(&vec![b'a'; cegridom::LIMIT + 1]),
        Err(Refusal::TooLong)
    );
}
