//! The tree under the bar: a fork spans the runs of its lamps. In a large room also the draw's way by itself.

use crate::plan::bar::{Bar, WIDE};
use crate::plan::labels::{cell_words, frame};
use crate::plan::markup::{Anchor, Box2, Svg};
use crate::plan::runs::{End, Run, Step};
use crate::plan::scene::Scene;
use crate::plan::seen::View;
use crate::plan::shade::{ACCENT, CLOSED, EDGE, FORK, INK, TINT, look};
use crate::plan::words::{figure, many};

/// How high the whole tree is, and the top of a large one.
const HIGH: [f64; 2] = [330.0, 120.0];
/// The rows' heights are held between these; words stand in rows that are high enough.
const ROW: [f64; 2] = [8.0, 22.0];
const ROW_WITH_WORDS: f64 = 13.0;
/// So many rows are drawn of a whole tree and of a large one, and a fork is opened where it is so wide.
const ROWS: [usize; 2] = [64, 15];
const OPENED: [f64; 2] = [0.5, 4.0];
/// So many forks of a way are drawn.
const WAY: usize = 14;
const WAY_ROW: f64 = 16.0;

/// A place of the tree with the places under it, up to the last.
#[derive(Clone, Copy)]
struct Branch {
    place: usize,
    until: usize,
    depth: usize,
}

/// What is drawn of a branch.
#[derive(Clone, Copy)]
enum Kind {
    Fork([f32; 2]),
    /// Too narrow or too deep to be opened.
    Closed,
    End,
}

impl Branch {
    fn root(scene: &Scene) -> Branch {
        Branch { place: 0, until: scene.tree.len(), depth: 0 }
    }

    fn sides(&self, right: usize) -> [Branch; 2] {
        let depth = self.depth + 1;
        [Branch { place: self.place + 1, until: right, depth }, Branch { place: right, until: self.until, depth }]
    }

    fn lamps(&self) -> usize {
        (self.until - self.place).div_ceil(2)
    }

    fn runs<'a>(&self, view: &'a View) -> &'a [Run] {
        let before = |place: usize| view.runs.runs.partition_point(|run| run.place < place);
        &view.runs.runs[before(self.place)..before(self.until)]
    }

    fn span(&self, view: &View) -> [f64; 2] {
        view.runs.span_of(self.place..self.until)
    }

    /// "4 lamps", "lamp 45", "none".
    fn holds(&self, scene: &Scene, view: &View) -> String {
        match view.runs.steps.get(self.place).copied().flatten() {
            Some(Step::End(End::Lamp(handle))) => scene.called(handle),
            Some(Step::End(End::None)) => format!("none ({})", many(self.lamps(), "lamp", "lamps")),
            Some(Step::End(End::Refused(_))) => "refused".into(),
            _ => many(self.lamps(), "lamp", "lamps"),
        }
    }
}

/// A share of a fork in two digits. It always has a point, as a lamp's handle never does.
fn share(part: f32) -> String {
    match part {
        0.0 => "0.0".into(),
        1.0 => "1.0".into(),
        part if part < 0.005 => "<0.01".into(),
        part if part > 0.995 => ">0.99".into(),
        part if part.is_nan() => "not a number".into(),
        part => format!("{part:.2}"),
    }
}

/// A branch as it is drawn.
struct Cell {
    branch: Branch,
    kind: Kind,
    place: Box2,
    /// Whether the draw passes it.
    is_way: bool,
}

impl Cell {
    fn has_words(&self) -> bool {
        self.place.h >= ROW_WITH_WORDS
    }

    fn inner(&self) -> Box2 {
        Box2 { x: self.place.x + 0.3, w: self.place.w - 0.6, ..self.place }
    }
}

impl Bar<'_> {
    /// Draws the tree from the top on, the way to where the draw ends marked; where it ends below.
    pub fn branches(&self, svg: &mut Svg, end: usize, top: f64, is_whole: bool) -> f64 {
        let large = usize::from(!is_whole);
        let all = opened(self.scene, self.view, OPENED[large], ROWS[large]);
        let rows = 1 + all.iter().map(|(branch, _)| branch.depth).max().unwrap_or(0);
        let row = (HIGH[large] / rows as f64).clamp(ROW[0], ROW[1]);
        let way = self.view.runs.way(end);
        let cell = |&(branch, kind): &(Branch, Kind)| {
            let Branch { place, depth, .. } = branch;
            let [from, to] = branch.span(self.view).map(|part| part * WIDE);
            let at = Box2 { x: from, y: top + row * depth as f64, w: to - from, h: row - 1.0 };
            Cell { branch, kind, place: at, is_way: way.get(depth) == Some(&place) }
        };
        // the way comes last, over its neighbours
        for is_way in [false, true] {
            let cells = all.iter().map(cell);
            cells.filter(|cell| cell.is_way == is_way).for_each(|cell| self.draw_cell(svg, &cell));
        }
        top + row * rows as f64
    }

    fn draw_cell(&self, svg: &mut Svg, cell: &Cell) {
        match cell.kind {
            Kind::Fork(shares) => self.draw_fork(svg, cell, shares),
            Kind::Closed => {
                let (edge, wide) = if cell.is_way { (ACCENT, 1.5) } else { (EDGE, 0.4) };
                let title = format!("{}; not opened here", fork_title(&cell.branch, self.view));
                svg.titled(None, &title, |svg| svg.rect(cell.inner(), &look(CLOSED, edge, wide)));
            }
            Kind::End => self.draw_end(svg, cell),
        }
    }

    fn draw_fork(&self, svg: &mut Svg, cell: &Cell, [left, right]: [f32; 2]) {
        let title = format!("{}; left {}, right {}", fork_title(&cell.branch, self.view), figure(left), figure(right));
        side_rect(svg, cell.inner(), cell.is_way, &title);
        if cell.has_words() {
            let short = share(left);
            cell_words(svg, cell.place, Some(self.at_u), "t", INK, &[format!("left {short}"), short]);
        }
    }

    fn draw_end(&self, svg: &mut Svg, cell: &Cell) {
        let Some(run) = cell.branch.runs(self.view).first() else { return };
        let (fill, ink) = self.run_look(run);
        svg.titled(run.end.lamp(), &self.run_title(run), |svg| svg.rect(cell.inner(), &look(fill, EDGE, 0.5)));
        if cell.has_words() {
            cell_words(svg, cell.place, Some(self.at_u), "b s", ink, &self.run_words(run));
        }
        if cell.is_way {
            frame(svg, cell.inner());
        }
    }

    /// The way of a draw: a row a fork, as wide as the page, cut by its shares; the side taken is marked.
    pub fn way(&self, svg: &mut Svg, end: usize, top: f64) -> f64 {
        let forks = forks(self.scene, self.view, end);
        // a long way is told by its first and its last forks
        let between = if forks.len() > WAY { WAY / 2..forks.len() - WAY / 2 } else { 0..0 };
        let mut y = top;
        for (at, fork) in forks.iter().enumerate() {
            if at == between.start && !between.is_empty() {
                let words = format!("{} between", many(between.len(), "fork", "forks"));
                svg.words([WIDE / 2.0, y + 13.0], Anchor::Middle, "class=\"t\"", &words);
                y += WAY_ROW;
            }
            if !between.contains(&at) {
                self.fork_row(svg, fork, end, Box2 { x: 0.0, y, w: WIDE, h: WAY_ROW - 1.0 });
                y += WAY_ROW;
            }
        }
        y + 4.0
    }

    fn fork_row(&self, svg: &mut Svg, fork: &Fork, end: usize, row: Box2) {
        let taken = usize::from(end >= fork.right);
        let left = fork.shares[0];
        // each side is seen, however small its share is
        let cut = (f64::from(left).clamp(0.0, 1.0) * WIDE).clamp(3.0, WIDE - 3.0);
        let cells = [Box2 { w: cut, ..row }, Box2 { x: cut, w: WIDE - cut, ..row }];
        for side in [1 - taken, taken] {
            let (name, part) = [("left", left), ("right", 1.0 - left)][side];
            let holds = fork.branch.sides(fork.right)[side].holds(self.scene, self.view);
            let title = format!("{name} {}: {holds}{}", figure(part), if side == taken { "; taken" } else { "" });
            side_rect(svg, cells[side], side == taken, &title);
            let part = share(part);
            let words = [format!("{name} {part}: {holds}"), format!("{part}: {holds}"), holds];
            cell_words(svg, cells[side], None, "t", INK, &words);
        }
    }
}

/// A side of a fork, marked where the draw passes it.
fn side_rect(svg: &mut Svg, place: Box2, is_way: bool, title: &str) {
    let (fill, edge, wide) = if is_way { (TINT, ACCENT, 1.5) } else { (FORK, "#a9a9a4", 0.6) };
    svg.titled(None, title, |svg| svg.rect(place.grown(-wide / 2.0), &look(fill, edge, wide)));
}

/// The branches that have a run, from the root down, as far as they are opened.
fn opened(scene: &Scene, view: &View, least: f64, rows: usize) -> Vec<(Branch, Kind)> {
    let mut cells = Vec::new();
    let mut open = vec![Branch::root(scene)];
    while let Some(branch) = open.pop() {
        let [from, to] = branch.span(view);
        if to <= from {
            continue;
        }
        let cell = match view.runs.steps.get(branch.place).copied().flatten() {
            Some(Step::Fork { right, shares }) if (to - from) * WIDE >= least && branch.depth + 1 < rows => {
                open.extend(branch.sides(right));
                Kind::Fork(shares)
            }
            Some(Step::Fork { .. }) => Kind::Closed,
            _ => Kind::End,
        };
        cells.push((branch, cell));
    }
    cells
}

/// "fork over 4 lamps: u from 0.22 to 0.47".
fn fork_title(branch: &Branch, view: &View) -> String {
    let runs = branch.runs(view);
    let ends = runs
        .first()
        .zip(runs.last())
        .map_or(String::new(), |(a, b)| format!(": u from {} to {}", figure(a.first), figure(b.last)));
    format!("fork over {}{ends}", many(branch.lamps(), "lamp", "lamps"))
}

/// A fork that a draw passes.
struct Fork {
    branch: Branch,
    right: usize,
    shares: [f32; 2],
}

/// The forks that a draw passes.
fn forks(scene: &Scene, view: &View, end: usize) -> Vec<Fork> {
    let mut forks = Vec::new();
    let mut branch = Branch::root(scene);
    while let Some(Step::Fork { right, shares }) = view.runs.steps.get(branch.place).copied().flatten() {
        forks.push(Fork { branch, right, shares });
        branch = branch.sides(right)[usize::from(end >= right)];
    }
    forks
}
