//! What is drawn: the runs of a word, its graph, and the paths of its best splits.

use cegridom::{best_split, path_of_split, runs, Choice, Edition, Refusal, Run, UNIT_MEMORY};
use std::ops::RangeInclusive;

/// The edition that is drawn, and the turns of its blocks at least.
pub const EDITION: Edition = Edition::One;
const TURNS: usize = 2;

/// The white node of a run at a position. Runs and positions count from 1.
#[derive(Clone, Copy, Debug, PartialEq, Eq)]
pub struct White {
    pub run: usize,
    pub position: usize,
}

/// An edge, by the white node that it leads to; a drop, by the one that it leaves.
#[derive(Clone, Copy, Debug, PartialEq, Eq)]
pub enum Edge {
    Diagonal(White),
    Flat(White),
    Drop(White),
}

impl Edge {
    pub fn weight(self) -> u32 {
        match self {
            Edge::Diagonal(_) => 1,
            Edge::Flat(_) | Edge::Drop(_) => 0,
        }
    }
}

/// A split and its path.
pub struct Split {
    pub ends: Vec<u32>,
    pub path: Vec<Edge>,
}

pub struct Graph<'w> {
    pub word: &'w [u8],
    pub runs: Vec<Run>,
    pub fewest: Option<Split>,
    pub most: Option<Split>,
}

impl<'w> Graph<'w> {
    /// The graph of a word. Refusal: 1.
    pub fn of(word: &'w [u8]) -> Result<Graph<'w>, Refusal> {
        let mut graph = Graph {
            word,
            runs: runs(word)?,
            fewest: None,
            most: None,
        };
        graph.fewest = graph.best(Choice::Fewest)?;
        graph.most = graph.best(Choice::Most)?;
        Ok(graph)
    }

    fn best(&self, choice: Choice) -> Result<Option<Split>, Refusal> {
        let ends = match best_split(self.word, EDITION, choice) {
            Err(Refusal::NoSplit) => return Ok(None),
            ends => ends?,
        };
        let numbers = path_of_split(self.word, EDITION, &ends)?;
        let mut path = Vec::new();
        let mut joint = 0;
        for (&run, &end) in numbers.iter().zip(&ends) {
            let (run, end) = (run as usize, end as usize);
            let white = |position| White { run, position };
            let start = joint + self.span(run);
            path.push(Edge::Diagonal(white(start)));
            path.extend((start + 1..=end).map(|x| Edge::Flat(white(x))));
            path.push(Edge::Drop(white(end)));
            joint = end;
        }
        Ok(Some(Split { ends, path }))
    }

    /// How many positions the diagonals of a run span.
    pub fn span(&self, run: usize) -> usize {
        TURNS * self.runs[run - 1].unit as usize
    }

    /// The positions of a run's white nodes: none where its unit is longer than that of any block.
    pub fn positions(&self, run: usize) -> RangeInclusive<usize> {
        let Run {
            first, last, unit, ..
        } = self.runs[run - 1];
        let last = if unit <= UNIT_MEMORY { last } else { 0 };
        first as usize + self.span(run) - 1..=last as usize
    }

    /// The joint that the diagonal to a white node comes from.
    pub fn source(&self, white: White) -> usize {
        white.position - self.span(white.run)
    }

    /// All white nodes, run by run.
    pub fn whites(&self) -> impl Iterator<Item = White> + '_ {
        (1..=self.runs.len()).flat_map(move |run| {
            self.positions(run)
                .map(move |position| White { run, position })
        })
    }

    /// All edges, run by run.
    pub fn edges(&self) -> impl Iterator<Item = Edge> + '_ {
        self.whites().flat_map(move |white| {
            let flat = white.position > *self.positions(white.run).start();
            [Edge::Diagonal(white), Edge::Drop(white)]
                .into_iter()
                .chain(flat.then_some(Edge::Flat(white)))
        })
    }
}
