//! The tables of times and of the ratios beside their targets, as docs/SPEED.md has them.

use crate::points::{BRANCH, Kind, Point};

/// The least times of a point; infinite where the point has no such call.
#[derive(Clone, Copy)]
pub struct Row {
    pub arm: f64,
    pub fetched: f64,
    pub parts: f64,
    pub lent: f64,
    pub image: f64,
}

impl Row {
    pub const NO_TIME: f64 = f64::INFINITY;
    pub const NONE: Self = Self::of([Self::NO_TIME; 5]);

    const fn of([arm, fetched, parts, lent, image]: [f64; 5]) -> Self {
        Self { arm, fetched, parts, lent, image }
    }

    fn columns(&self) -> [f64; 5] {
        [self.arm, self.fetched, self.parts, self.lent, self.image]
    }

    pub fn least(&self, other: &Self) -> Self {
        let (a, b) = (self.columns(), other.columns());
        Self::of(std::array::from_fn(|k| a[k].min(b[k])))
    }
}

/// A ratio that must be at most, or at least, its bound.
pub struct Target {
    /// The two times of which it is the ratio.
    pub what: &'static str,
    /// The row that has it.
    pub of: String,
    pub ratio: f64,
    pub bound: f64,
    pub at_most: bool,
}

impl Target {
    fn met(&self) -> bool {
        if self.at_most { self.ratio <= self.bound } else { self.ratio >= self.bound }
    }
}

/// What each kind of point is held to; a copy of the image is set against one instruction, a branch's time against a load,
/// store or operation, and Rust's division against DIVU.
pub fn targets(points: &[Point], rows: &[Row], copy: f64) -> Vec<Target> {
    let branch = points.iter().position(|point| point.name == BRANCH).map_or(f64::NAN, |k| rows[k].parts);
    let of_point = |(point, row): (&Point, &Row)| -> Vec<Target> {
        let copies = copy * point.instructions() as f64;
        let held = |at_most, bound, what, ratio| Target { what, of: point.name.clone(), ratio, bound, at_most };
        match point.kind {
            Kind::Simple => vec![
                held(true, 2.0, "simple step in place / the Rust's arm", row.parts / row.arm),
                held(false, 10.0, "the Rust's fetched instruction / simple step in place", row.fetched / row.parts),
                held(true, 5.0, "mmix_step_lent / copy of an image", row.lent / copies),
                held(true, 14.0, "mmix_step, mmix_exceptions / copy of an image", row.image / copies),
            ],
            Kind::Exception => {
                vec![held(true, 14.0, "mmix_step, mmix_exceptions / copy of an image", row.image / copies)]
            }
            Kind::Memory { times } => vec![held(
                false,
                times as f64,
                "the Rust's arms / call and return, save and unsave in place",
                row.arm / row.parts,
            )],
            Kind::Transfer => vec![held(true, 2.5, "load or store in place / BN in place", row.parts / branch)],
            Kind::Operation => vec![held(true, 2.0, "operation in place / BN in place", row.parts / branch)],
            Kind::Division { held: true } => {
                vec![held(true, 5.0, "DIVU with rD > 0 in place / Rust's division of 128 bits", row.parts / row.arm)]
            }
            Kind::Division { held: false } => Vec::new(),
        }
    };
    points.iter().zip(rows).flat_map(of_point).collect()
}

/// A row of a table; a time that there is not is a dash.
pub fn print_row(name: &str, times: &[f64]) {
    let columns = times.iter().map(|t| if t.is_finite() { format!(" {t:.1} |") } else { " – |".to_string() });
    println!("| {name} |{}", columns.collect::<String>());
}

pub fn print(points: &[Point], rows: &[Row]) {
    println!("| | arm | fetched | parts | lent | image |\n|---|---|---|---|---|---|");
    points.iter().zip(rows).for_each(|(point, row)| print_row(&point.name, &row.columns()));
}

/// The targets, those of one bound in one row: the ratios' range, and which rows miss it.
pub fn print_targets(targets: &[Target]) {
    println!("| what | ratio | target | |\n|---|---|---|---|");
    for (k, first) in targets.iter().enumerate() {
        let same = |target: &&Target| target.what == first.what && target.bound == first.bound;
        if targets[..k].iter().any(|target| same(&target)) {
            continue;
        }
        let group: Vec<&Target> = targets.iter().filter(same).collect();
        let least = group.iter().map(|target| target.ratio).fold(f64::INFINITY, f64::min);
        let most = group.iter().map(|target| target.ratio).fold(0.0, f64::max);
        let missed: Vec<String> =
            group.iter().filter(|t| !t.met()).map(|t| format!("{} {:.2}", t.of, t.ratio)).collect();
        let verdict = match missed.len() {
            0 => "met".to_string(),
            n if n == group.len() => "missed by all".to_string(),
            _ => format!("missed: {}", missed.join("; ")),
        };
        let range = if group.len() == 1 { format!("{least:.2}") } else { format!("{least:.2} to {most:.2}") };
        println!(
            "| {} | {range} | at {} {} | {verdict} |",
            first.what,
            if first.at_most { "most" } else { "least" },
            first.bound
        );
    }
}
