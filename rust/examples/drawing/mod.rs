//! Draws a word, its runs, its graph in edition 1 and the paths of its fewest and its most split as
//! SVG.

pub mod graph;
pub mod layout;
mod svg;

use cegridom::Refusal;
use graph::Graph;
use layout::Layout;

/// The picture of a word. Refusal: 1.
pub fn draw(word: &[u8]) -> Result<String, Refusal> {
    let graph = Graph::of(word)?;
    Ok(svg::text(&graph, &Layout::of(&graph)))
}
