//! Passes over trees of growing size: the time and the memory that each takes a node.
use crate::clock::{best, milliseconds};
use crate::memory;

/// The sizes of a family's trees, and that of the shared trees.
const SIZES: [usize; 3] = [64, 1_024, 16_384];
const SHARED_SIZE: usize = 10;

/// A pass that takes more milliseconds than this is run once.
const LONG: f64 = 2_000.0;

/// A pass is left out at a size where it takes more milliseconds than this if its time grows with the
/// square of the size, each size being so many times the one before.
const TOO_LONG: f64 = 10_000.0;
const STEP: f64 = 16.0;

/// The families but the shared trees, and their numbers in the library.
const FAMILIES: [(&str, u8); 6] = [
    ("conj", 0),
    ("deep", 1),
    ("getpack", 2),
    ("wide", 3),
    ("case", 5),
    ("consts", 6),
];
const SHARED: u8 = 4;

/// The passes, in the order of their numbers in the library.
pub const PASSES: [&str; 11] = [
    "bind",
    "display",
    "optimize_recursive",
    "find_between",
    "label_bound_tree",
    "annotations",
    "partition_bound",
    "referenced_field_paths",
    "split_by_fields",
    "plan",
    "fold",
];

unsafe extern "C" {
    fn vx_pass(family: u8, size: usize, pass: u8, repeats: u32, nodes: *mut u64) -> u8;
}

/// A pass over a tree.
#[derive(Clone, Copy)]
struct Run {
    family: u8,
    size: usize,
    pass: u8,
}

/// What a pass takes.
#[derive(Clone, Copy)]
struct Cost {
    nodes: f64,
    milliseconds: f64,
    bytes: f64,
}

impl Cost {
    fn nanoseconds_a_node(self) -> f64 {
        self.milliseconds * 1e6 / self.nodes
    }

    fn bytes_a_node(self) -> f64 {
        self.bytes / self.nodes
    }
}

/// Prints the table of the families that grow, and that of the shared trees.
pub fn tables() {
    println!(
        "| Family | Pass | ns a node: {0} | {1} | {2} | {0} to {1} | {1} to {2} | bytes a node: {0} | {1} | {2} | {0} to {1} | {1} to {2} |",
        SIZES[0], SIZES[1], SIZES[2]
    );
    println!("|---|---|---:|---:|---:|---:|---:|---:|---:|---:|---:|---:|");
    for (name, family) in FAMILIES {
        for (pass, title) in (0..).zip(PASSES) {
            let costs = costs(family, pass);
            let nanoseconds = growth(costs.map(|cost| cost.map(Cost::nanoseconds_a_node)));
            let bytes = growth(costs.map(|cost| cost.map(Cost::bytes_a_node)));
            println!("| {name} | {title} | {nanoseconds} | {bytes} |");
        }
    }
    println!();
    println!("| Pass over dag {SHARED_SIZE} | ns a node | bytes a node |");
    println!("|---|---:|---:|");
    for (pass, title) in (0..).zip(PASSES) {
        let run = Run {
            family: SHARED,
            size: SHARED_SIZE,
            pass,
        };
        let cost = run.cost();
        let nanoseconds = cost.nanoseconds_a_node();
        println!(
            "| {title} | {nanoseconds:.1} | {:.1} |",
            cost.bytes_a_node()
        );
    }
}

/// One run of the pass over the family's tree of that size.
pub fn once(family: u8, size: usize, pass: u8) {
    Run { family, size, pass }.through_library(1);
}

/// The pass's costs at the sizes, none where it is left out.
fn costs(family: u8, pass: u8) -> [Option<Cost>; 3] {
    let mut last: Option<Cost> = None;
    SIZES.map(|size| {
        if last.is_some_and(|cost| cost.milliseconds * STEP * STEP > TOO_LONG) {
            return None;
        }
        last = Some(Run { family, size, pass }.cost());
        last
    })
}

/// Three cells, and the ratio of each to the one before.
fn growth([small, medium, large]: [Option<f64>; 3]) -> String {
    let number = |cell: Option<f64>| cell.map_or(String::from("-"), |x| format!("{x:.1}"));
    format!(
        "{} | {} | {} | {} | {}",
        number(small),
        number(medium),
        number(large),
        ratio(small, medium),
        ratio(medium, large)
    )
}

fn ratio(before: Option<f64>, after: Option<f64>) -> String {
    match (before, after) {
        (Some(before), Some(after)) if before > 0.0 => format!("{:.2}", after / before),
        _ => String::from("-"),
    }
}

impl Run {
    /// Builds and binds the tree, and runs the pass so often, for the nodes of the tree.
    fn through_library(self, repeats: u32) -> u64 {
        let mut nodes = 0;
        let status = unsafe { vx_pass(self.family, self.size, self.pass, repeats, &mut nodes) };
        assert_eq!(status, 0, "{} {}", self.family, self.pass);
        nodes
    }

    /// What the pass takes beyond building and binding the tree.
    fn cost(self) -> Cost {
        let nodes = self.through_library(0) as f64;
        let (none, begin) = self.read_with_peak(0);
        let (some, end) = self.read_with_peak(1);
        let once = match some - none {
            once if once > LONG => once,
            _ => self.best(),
        };
        Cost {
            nodes,
            milliseconds: once,
            bytes: end.saturating_sub(begin) as f64,
        }
    }

    /// The milliseconds of one pass.
    fn best(self) -> f64 {
        best(|repeats| self.through_library(repeats))
    }

    /// The milliseconds of a run with so many passes.
    fn read(self, repeats: u32) -> f64 {
        milliseconds(|| self.through_library(repeats))
    }

    /// The same, and the bytes at its peak.
    fn read_with_peak(self, repeats: u32) -> (f64, usize) {
        let mut time = 0.0;
        let peak = memory::peak(|| time = self.read(repeats));
        (time, peak)
    }
}
