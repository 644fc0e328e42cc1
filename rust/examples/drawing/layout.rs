//! Where things are drawn: a row for each run, a column for each joint, the joints on the bottom
//! line, and edges that keep off the nodes that are not theirs.

use super::graph::{Edge, Graph, White};

/// The radius of a node.
pub const RADIUS: f64 = 8.0;
/// An edge stays at least so far from the centres of other nodes.
pub const CLEARANCE: f64 = RADIUS + 3.0;

/// The heights of what stands above and below the nodes, and the room beside them.
const LEGEND: f64 = 66.0;
const FOOT: f64 = 64.0;
const LEFT: f64 = 130.0;
const RIGHT: f64 = 40.0;

/// The distance of rows, and what the lowest of them keeps from the joints.
const ROW: f64 = 54.0;
const LEAST_GAP: f64 = 76.0;
/// A diagonal climbs at least so steeply, to pass the next joint and the node before its own.
const LEAST_SLOPE: f64 = 0.25;
/// Columns stand as far apart as this width allows, between the two distances.
const WIDTH: f64 = 660.0;
const COLUMNS: (f64, f64) = (48.0, 72.0);
/// Where the drops of one position stand side by side: the first lane, and the next ones.
const FIRST_LANE: f64 = RADIUS + 7.0;
const LANE: f64 = 8.0;
/// The heights in which a drop turns into its lane and out of it.
const TURN_OUT: f64 = 22.0;
const TURN_IN: f64 = 26.0;
/// How much further out each trial of a bent diagonal goes, and how many there are to each side.
const BULGE: f64 = 6.0;
const TRIALS: i32 = 80;
/// A diagonal that keeps less than this from other nodes costs as much as a bulge of so many times
/// the difference.
const WISHED: f64 = RADIUS + 12.0;
const CROWDING: f64 = 3.0;
/// What more of a gap is tried to bend less, for words of up to so many symbols.
const GAP_STEP: f64 = 8.0;
const GAP_TRIALS: i32 = 24;
const SEARCHED: usize = 64;
/// How far apart the points stand that a curve is judged by.
const STRIDE: f64 = 2.0;

#[derive(Clone, Copy, Debug, PartialEq)]
pub struct Point {
    pub x: f64,
    pub y: f64,
}

impl Point {
    /// The point so far from this one towards another.
    fn towards(self, other: Point, distance: f64) -> Point {
        self.between(other, distance / self.distance(other))
    }

    /// The point that parts the way to another so.
    fn between(self, other: Point, part: f64) -> Point {
        Point {
            x: self.x + part * (other.x - self.x),
            y: self.y + part * (other.y - self.y),
        }
    }

    pub fn distance(self, other: Point) -> f64 {
        let (x, y) = (other.x - self.x, other.y - self.y);
        (x * x + y * y).sqrt()
    }
}

/// A piece of a curve: where it ends, and for a bend its control point.
#[derive(Clone, Copy, Debug)]
pub enum Piece {
    Line(Point),
    Bend(Point, Point),
}

impl Piece {
    fn end(self) -> Point {
        match self {
            Piece::Line(end) | Piece::Bend(_, end) => end,
        }
    }

    fn at(self, start: Point, part: f64) -> Point {
        match self {
            Piece::Line(end) => start.between(end, part),
            Piece::Bend(control, end) => start
                .between(control, part)
                .between(control.between(end, part), part),
        }
    }
}

#[derive(Clone, Debug)]
pub struct Curve {
    pub start: Point,
    pub pieces: Vec<Piece>,
}

impl Curve {
    /// The straight way from the rim of a node to the rim of another.
    fn straight([start, end]: [Point; 2]) -> Curve {
        Curve {
            start: start.towards(end, RADIUS),
            pieces: vec![Piece::Line(end.towards(start, RADIUS))],
        }
    }

    /// Points along the curve.
    pub fn points(&self) -> Vec<Point> {
        let mut start = self.start;
        let mut points = vec![start];
        for piece in &self.pieces {
            let steps = (start.distance(piece.end()) / STRIDE).ceil().max(1.0);
            points.extend((1..=steps as usize).map(|i| piece.at(start, i as f64 / steps)));
            start = piece.end();
        }
        points
    }
}

pub struct Layout<'g> {
    graph: &'g Graph<'g>,
    /// What the lanes beside a column need.
    lanes: f64,
    /// The distance of columns.
    column: f64,
    /// The distance of the lowest row from the joints.
    gap: f64,
    /// For each run, how its diagonals are bent, where that is alike.
    bends: Vec<Option<Bend>>,
}

/// How far a diagonal bulges to its left (to its right, if below 0), and what that costs.
#[derive(Clone, Copy, Debug)]
struct Bend {
    bulge: f64,
    price: f64,
}

impl<'g> Layout<'g> {
    /// Of some distances of the lowest row from the joints, the one that bends the diagonals least.
    pub fn of(graph: &'g Graph<'g>) -> Layout<'g> {
        let lanes = lanes(graph);
        let column = least_column(graph, lanes);
        let gap = least_gap(graph, column);
        let trials = if graph.word.len() > SEARCHED {
            0
        } else {
            GAP_TRIALS
        };
        (0..=trials)
            .map(|k| gap + GAP_STEP * f64::from(k))
            .map(|gap| Layout::with(graph, lanes, column, gap))
            .min_by(|a, b| a.price().total_cmp(&b.price()))
            .expect("the least gap is always tried")
    }

    fn with(graph: &'g Graph<'g>, lanes: f64, column: f64, gap: f64) -> Layout<'g> {
        let mut layout = Layout {
            graph,
            lanes,
            column,
            gap,
            bends: vec![],
        };
        let runs = 1..=graph.runs.len();
        layout.bends = runs.map(|run| layout.common_bend(run)).collect();
        layout
    }

    /// What all diagonals cost, and how far they go.
    fn price(&self) -> f64 {
        let bend = |white: White| self.bends[white.run - 1];
        let diagonals = self.graph.whites().map(|white| match bend(white) {
            Some(bend) => bend.price,
            None => BULGE * f64::from(TRIALS),
        });
        self.gap + diagonals.sum::<f64>()
    }

    pub fn width(&self) -> f64 {
        self.joint(self.graph.word.len()).x + self.lanes.max(RIGHT)
    }

    pub fn height(&self) -> f64 {
        self.joint(0).y + FOOT
    }

    /// The height of a run's row.
    pub fn row(&self, run: usize) -> f64 {
        LEGEND + ROW * ((self.graph.runs.len() - run) as f64 + 0.5)
    }

    pub fn joint(&self, joint: usize) -> Point {
        Point {
            x: LEFT + self.column * joint as f64,
            y: LEGEND + ROW * (self.graph.runs.len() as f64 - 0.5) + self.gap,
        }
    }

    pub fn white(&self, white: White) -> Point {
        Point {
            x: self.joint(white.position).x,
            y: self.row(white.run),
        }
    }

    /// The way of an edge, from the rim of its first node to the rim of its last.
    pub fn curve(&self, edge: Edge) -> Curve {
        match edge {
            Edge::Diagonal(white) => self.diagonal(white),
            Edge::Flat(_) => Curve::straight(self.own(edge)),
            Edge::Drop(white) => self.drop(white),
        }
    }

    /// Down to the joint; where other white nodes are in the way, in a lane to the right of them.
    fn drop(&self, white: White) -> Curve {
        let [top, bottom] = self.own(Edge::Drop(white));
        let lane = lane(self.graph, white);
        if lane == 0 {
            return Curve::straight([top, bottom]);
        }
        let x = top.x + lane_offset(lane);
        let at = |y| Point { x, y };
        let (out, into) = (at(top.y + TURN_OUT / 2.0), at(bottom.y - TURN_IN / 2.0));
        Curve {
            start: top.towards(out, RADIUS),
            pieces: vec![
                Piece::Bend(out, at(top.y + RADIUS + TURN_OUT)),
                Piece::Line(at(bottom.y - RADIUS - TURN_IN)),
                Piece::Bend(into, bottom.towards(into, RADIUS)),
            ],
        }
    }

    /// The straight way, or a bent one that keeps off all other nodes. The diagonals of a run are
    /// bent alike where that can be, else each by itself.
    fn diagonal(&self, white: White) -> Curve {
        let alone = || self.best_bend(|bulge| self.diagonal_clearance(white, bulge));
        let bend = self.bends[white.run - 1].or_else(alone);
        self.bent(white, bend.map_or(0.0, |bend| bend.bulge))
    }

    /// The best bend by which all diagonals of a run keep off all other nodes.
    fn common_bend(&self, run: usize) -> Option<Bend> {
        self.best_bend(|bulge| {
            let positions = self.graph.positions(run);
            positions
                .map(|position| self.diagonal_clearance(White { run, position }, bulge))
                .fold(f64::MAX, f64::min)
        })
    }

    fn diagonal_clearance(&self, white: White, bulge: f64) -> f64 {
        self.clearance(Edge::Diagonal(white), &self.bent(white, bulge))
    }

    /// The cheapest bend that has the clearance: bent little, and not close to other nodes.
    fn best_bend(&self, clearance: impl Fn(f64) -> f64) -> Option<Bend> {
        let mut best: Option<Bend> = None;
        for bulge in (0..=TRIALS).flat_map(|k| [k, -k]) {
            let bulge = BULGE * f64::from(bulge);
            if best.is_some_and(|best| best.price <= bulge.abs()) {
                break;
            }
            let clearance = clearance(bulge);
            let price = bulge.abs() + CROWDING * (WISHED - clearance).max(0.0);
            if clearance >= CLEARANCE && best.map_or(true, |best| price < best.price) {
                best = Some(Bend { bulge, price });
            }
        }
        best
    }

    /// The diagonal to a white node, bent to the left by so much; to the right, if below 0.
    fn bent(&self, white: White, bulge: f64) -> Curve {
        let [start, end] = self.own(Edge::Diagonal(white));
        if bulge == 0.0 {
            return Curve::straight([start, end]);
        }
        let part = bulge / start.distance(end);
        let middle = start.between(end, 0.5);
        let control = Point {
            x: middle.x + part * (end.y - start.y),
            y: middle.y - part * (end.x - start.x),
        };
        Curve {
            start: start.towards(control, RADIUS),
            pieces: vec![Piece::Bend(control, end.towards(control, RADIUS))],
        }
    }

    /// How far the way of an edge stays from the centres of the nodes that are not its own; 0 where
    /// it leaves the picture's field.
    pub fn clearance(&self, edge: Edge, curve: &Curve) -> f64 {
        let own = self.own(edge);
        let points = curve.points();
        if !points.iter().all(|&point| self.in_field(point)) {
            return 0.0;
        }
        let mut least = f64::MAX;
        for node in self.nodes_beside(&points) {
            if !own.contains(&node) {
                for point in &points {
                    least = least.min(point.distance(node));
                }
            }
        }
        least
    }

    fn in_field(&self, point: Point) -> bool {
        (LEFT..self.width()).contains(&point.x) && (LEGEND..self.height()).contains(&point.y)
    }

    /// The two nodes of an edge.
    fn own(&self, edge: Edge) -> [Point; 2] {
        match edge {
            Edge::Diagonal(white) => [self.joint(self.graph.source(white)), self.white(white)],
            Edge::Flat(white) => {
                let before = White {
                    position: white.position - 1,
                    ..white
                };
                [self.white(before), self.white(white)]
            }
            Edge::Drop(white) => [self.white(white), self.joint(white.position)],
        }
    }

    /// The nodes of the columns that the points lie in or next to.
    fn nodes_beside(&self, points: &[Point]) -> Vec<Point> {
        let columns = || points.iter().map(|point| (point.x - LEFT) / self.column);
        let first = columns().fold(f64::MAX, f64::min).floor() as usize;
        let last = columns().fold(0.0, f64::max).ceil() as usize;
        let last = last.min(self.graph.word.len());
        let joints = (first..=last).map(|joint| self.joint(joint));
        let whites = (1..=self.graph.runs.len()).flat_map(|run| {
            let positions = self.graph.positions(run);
            let from = first.max(*positions.start());
            let to = last.min(*positions.end());
            (from..=to).map(move |position| self.white(White { run, position }))
        });
        joints.chain(whites).collect()
    }
}

/// How many runs in lower rows have a white node at the same position: the number of a drop's lane.
fn lane(graph: &Graph, white: White) -> usize {
    (1..white.run)
        .filter(|&run| graph.positions(run).contains(&white.position))
        .count()
}

/// How far to the right of its column a lane is, from lane 1 on.
fn lane_offset(lane: usize) -> f64 {
    FIRST_LANE + LANE * (lane as f64 - 1.0)
}

/// What the lanes beside a column need.
fn lanes(graph: &Graph) -> f64 {
    let outermost = graph.whites().map(|white| lane(graph, white)).max();
    lane_offset(outermost.unwrap_or(0)) + FIRST_LANE
}

/// The distance of columns that lets the lanes pass between them.
fn least_column(graph: &Graph, lanes: f64) -> f64 {
    let (least, most) = COLUMNS;
    let wanted = (WIDTH / graph.word.len().max(1) as f64).clamp(least, most);
    wanted.round().max(lanes)
}

/// The distance of the lowest row from the joints that lets all diagonals climb steeply enough.
fn least_gap(graph: &Graph, column: f64) -> f64 {
    let needed = |run| {
        let span = column * graph.span(run) as f64;
        (LEAST_SLOPE * span - ROW * (run - 1) as f64).ceil()
    };
    (1..=graph.runs.len()).map(needed).fold(LEAST_GAP, f64::max)
}
