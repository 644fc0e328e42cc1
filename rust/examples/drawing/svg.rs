//! The picture as the text of an SVG file.

use super::graph::{Edge, Graph, Split};
use super::layout::{Curve, Layout, Piece, Point, RADIUS};

/// The styles of the two paths: a wide pale band, and a narrower dark line that shows within it.
const FEWEST: &str = r##"stroke="#a6d4fa" stroke-width="12""##;
const MOST: &str = r##"stroke="#e8590c" stroke-width="4""##;
/// The styles of the edges.
const ARROW: &str = r#"stroke="black" stroke-width="1.2" marker-end="url(#head)""#;
const DASHES: &str = r#"stroke-dasharray="6 4""#;
/// The extent of a run, behind its row.
const EXTENT: &str = r##"fill="#f1f1f1""##;
const EXTENT_HALF: f64 = 14.0;
const MIDDLE: &str = r#"text-anchor="middle""#;
const SMALL: &str = r#"font-size="12""#;
/// From the middle of small letters down to the line that they stand on.
const SMALL_BASE: f64 = 4.0;

/// Where weights stand: on a drop so far below the white node; so far above a flat edge; on a
/// diagonal so far from the white node, or beside it to be so far left of the node and below it.
const DROP_LABEL: f64 = 31.0;
const FLAT_LABEL: f64 = 9.0;
const DIAGONAL_LABEL: f64 = 25.0;
const DIAGONAL_ASIDE: f64 = 13.0;
/// The disc behind a weight, which keeps lines off it.
const DISC: f64 = 6.0;

/// The legend has two lines and two columns; a line begins with a sample.
const LEGEND_LINES: [f64; 2] = [22.0, 46.0];
const LEGEND_COLUMNS: [f64; 2] = [16.0, 470.0];
const SAMPLE: f64 = 40.0;
const LEAST_WIDTH: f64 = 730.0;
/// How many ends of a split the legend names.
const NAMED_ENDS: usize = 8;

/// The text of the picture.
pub fn text(graph: &Graph, layout: &Layout) -> String {
    let mut lines = head(graph, layout);
    lines.extend(legend(graph));
    lines.extend(runs(graph, layout));
    lines.extend(path(layout, FEWEST, graph.fewest.as_ref()));
    lines.extend(path(layout, MOST, graph.most.as_ref()));
    lines.extend(edges(graph, layout));
    lines.extend(weights(graph, layout));
    lines.extend(whites(graph, layout));
    lines.extend(joints(graph, layout));
    lines.push("</svg>\n".to_string());
    lines.join("\n")
}

fn head(graph: &Graph, layout: &Layout) -> Vec<String> {
    let (width, height) = (layout.width().max(LEAST_WIDTH), layout.height());
    let size = format!(r#"width="{}" height="{}""#, number(width), number(height));
    let word: String = graph.word.iter().map(|&byte| in_title(byte)).collect();
    vec![
        format!(
            r#"<svg xmlns="http://www.w3.org/2000/svg" {size} viewBox="0 0 {} {}" font-family="sans-serif" font-size="14">"#,
            number(width),
            number(height)
        ),
        format!("<title>The graph of {word}, with the paths of its fewest and its most split</title>"),
        r#"<defs><marker id="head" markerUnits="userSpaceOnUse" markerWidth="8" markerHeight="8" refX="8" refY="4" orient="auto"><path d="M0,0 L8,4 L0,8 z"/></marker></defs>"#.to_string(),
        format!(r#"<rect {size} fill="white"/>"#),
    ]
}

fn legend(graph: &Graph) -> Vec<String> {
    let [first, second] = LEGEND_LINES;
    let [left, right] = LEGEND_COLUMNS;
    let mut lines = Vec::new();
    let mut entry = |x: f64, y: f64, style: &str, text: &str| {
        let (end, from) = (number(x + SAMPLE), number(x + SAMPLE + 10.0));
        let (middle, base) = (number(y), number(y + 5.0));
        lines.push(format!(
            r#"<path d="M{},{middle} L{end},{middle}" {style}/><text x="{from}" y="{base}">{text}</text>"#,
            number(x)
        ));
    };
    entry(left, first, FEWEST, &named("fewest", graph.fewest.as_ref()));
    entry(left, second, MOST, &named("most", graph.most.as_ref()));
    entry(
        right,
        first,
        &format!("{ARROW} {DASHES}"),
        "diagonal, weight 1",
    );
    entry(right, second, ARROW, "flat edge or drop, weight 0");
    lines
}

/// A split in the legend: its name, its size and its ends.
fn named(name: &str, split: Option<&Split>) -> String {
    let Some(Split { ends, .. }) = split else {
        return format!("{name}: no split");
    };
    let mut list: Vec<String> = ends.iter().take(NAMED_ENDS).map(u32::to_string).collect();
    if ends.len() > NAMED_ENDS {
        list.push("…".to_string());
    }
    let blocks = if ends.len() == 1 { "block" } else { "blocks" };
    let word = match ends.len() {
        0 => "",
        1 => ", end ",
        _ => ", ends ",
    };
    format!("{name}: {} {blocks}{word}{}", ends.len(), list.join(", "))
}

/// What each run is, at the left, and its extent.
fn runs(graph: &Graph, layout: &Layout) -> Vec<String> {
    let mut lines = Vec::new();
    for (i, run) in graph.runs.iter().enumerate() {
        let y = layout.row(i + 1);
        let from = layout.joint(run.first as usize - 1).x;
        let to = layout.joint(run.last as usize).x;
        lines.push(format!(
            r#"<rect x="{}" y="{}" width="{}" height="{}" rx="6" {EXTENT}/>"#,
            number(from),
            number(y - EXTENT_HALF),
            number(to - from),
            number(2.0 * EXTENT_HALF)
        ));
        lines.push(format!(
            r#"<text x="16" y="{}">run {}</text><text x="16" y="{}" {SMALL}>{} to {}, unit {}</text>"#,
            number(y - 1.0),
            i + 1,
            number(y + 13.0),
            run.first,
            run.last,
            run.unit
        ));
    }
    lines
}

fn path(layout: &Layout, style: &str, split: Option<&Split>) -> Vec<String> {
    let edges = split.map_or(&[][..], |split| &split.path);
    group(
        &format!(r#"{style} fill="none" stroke-linejoin="round""#),
        edges.iter().map(|&edge| way(&layout.curve(edge))).collect(),
    )
}

fn edges(graph: &Graph, layout: &Layout) -> Vec<String> {
    let (diagonals, others): (Vec<Edge>, Vec<Edge>) = graph
        .edges()
        .partition(|edge| matches!(edge, Edge::Diagonal(_)));
    let ways = |edges: Vec<Edge>| edges.iter().map(|&edge| way(&layout.curve(edge))).collect();
    let mut lines = group(&format!(r#"{ARROW} {DASHES} fill="none""#), ways(diagonals));
    lines.extend(group(&format!(r#"{ARROW} fill="none""#), ways(others)));
    lines
}

fn weights(graph: &Graph, layout: &Layout) -> Vec<String> {
    let spots: Vec<(Point, u32)> = graph
        .edges()
        .map(|edge| (label(layout, edge), edge.weight()))
        .collect();
    let discs = spots.iter().map(|&(spot, _)| circle(spot, DISC)).collect();
    let texts = spots.iter().map(|&(spot, weight)| {
        format!(
            r#"<text x="{}" y="{}">{weight}</text>"#,
            number(spot.x),
            number(spot.y + SMALL_BASE)
        )
    });
    let mut lines = group(r#"fill="white""#, discs);
    lines.extend(group(&format!("{SMALL} {MIDDLE}"), texts.collect()));
    lines
}

/// Where the weight of an edge stands.
fn label(layout: &Layout, edge: Edge) -> Point {
    let points = layout.curve(edge).points();
    match edge {
        Edge::Diagonal(white) => {
            let node = layout.white(white);
            let spot = first_away(points.iter().rev(), node, DIAGONAL_LABEL);
            Point {
                x: spot.x.min(node.x - DIAGONAL_ASIDE),
                y: spot.y.max(node.y + DIAGONAL_ASIDE),
            }
        }
        Edge::Drop(white) => first_away(points.iter(), layout.white(white), DROP_LABEL),
        Edge::Flat(_) => {
            let middle = points[points.len() / 2];
            Point {
                y: middle.y - FLAT_LABEL,
                ..middle
            }
        }
    }
}

/// The first of some points that is so far from a node, or else the node itself.
fn first_away<'p>(
    mut points: impl Iterator<Item = &'p Point>,
    node: Point,
    distance: f64,
) -> Point {
    *points
        .find(|point| point.distance(node) >= distance)
        .unwrap_or(&node)
}

fn whites(graph: &Graph, layout: &Layout) -> Vec<String> {
    group(
        r#"fill="white" stroke="black" stroke-width="1.5""#,
        graph
            .whites()
            .map(|white| circle(layout.white(white), RADIUS))
            .collect(),
    )
}

/// The joints with their numbers, and the symbols between them.
fn joints(graph: &Graph, layout: &Layout) -> Vec<String> {
    let mut lines = Vec::new();
    for joint in 0..=graph.word.len() {
        let at = layout.joint(joint);
        lines.push(format!(
            r#"{}<text x="{}" y="{}" {MIDDLE}>{joint}</text>"#,
            circle(at, RADIUS),
            number(at.x),
            number(at.y + 26.0)
        ));
    }
    for (i, &byte) in graph.word.iter().enumerate() {
        let (before, after) = (layout.joint(i), layout.joint(i + 1));
        lines.push(format!(
            r#"<text x="{}" y="{}" {MIDDLE} font-weight="bold">{}</text>"#,
            number((before.x + after.x) / 2.0),
            number(after.y + 46.0),
            symbol(byte)
        ));
    }
    let at = layout.joint(0);
    lines.push(format!(
        r#"<text x="16" y="{}">joint</text><text x="16" y="{}">symbol</text>"#,
        number(at.y + 26.0),
        number(at.y + 46.0)
    ));
    lines
}

// ---- pieces of text

/// Elements that share their attributes; nothing where there are none.
fn group(attributes: &str, elements: Vec<String>) -> Vec<String> {
    if elements.is_empty() {
        return vec![];
    }
    let mut lines = vec![format!("<g {attributes}>")];
    lines.extend(elements);
    lines.push("</g>".to_string());
    lines
}

fn way(curve: &Curve) -> String {
    let mut data = format!("M{}", point(curve.start));
    for piece in &curve.pieces {
        data += &match *piece {
            Piece::Line(end) => format!(" L{}", point(end)),
            Piece::Bend(control, end) => format!(" Q{} {}", point(control), point(end)),
        };
    }
    format!(r#"<path d="{data}"/>"#)
}

fn circle(centre: Point, radius: f64) -> String {
    format!(
        r#"<circle cx="{}" cy="{}" r="{}"/>"#,
        number(centre.x),
        number(centre.y),
        number(radius)
    )
}

fn point(point: Point) -> String {
    format!("{},{}", number(point.x), number(point.y))
}

/// A number with at most one digit after the point.
fn number(x: f64) -> String {
    let text = format!("{x:.1}");
    match text.strip_suffix(".0") {
        Some(whole) => whole.to_string(),
        None => text,
    }
}

/// A byte that has a shape of its own, as XML text.
fn shape(byte: u8) -> Option<String> {
    match byte {
        b'&' => Some("&amp;".to_string()),
        b'<' => Some("&lt;".to_string()),
        b'>' => Some("&gt;".to_string()),
        _ => byte
            .is_ascii_graphic()
            .then(|| char::from(byte).to_string()),
    }
}

/// A symbol as it stands in the picture: any other byte in two small hexadecimal digits.
fn symbol(byte: u8) -> String {
    shape(byte).unwrap_or_else(|| format!("<tspan {SMALL}>{byte:02X}</tspan>"))
}

fn in_title(byte: u8) -> String {
    shape(byte).unwrap_or_else(|| format!("\\x{byte:02X}"))
}
