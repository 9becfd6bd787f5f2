//! How deep a tree may be: the largest of each family that a pass returns from, on a stack of 8 MiB.
use crate::passes::{self, PASSES};
use std::process::{Command, Stdio};

/// The families whose trees are as deep as they are large, and the levels of one of their sizes.
const DEEP: [(&str, u8, usize); 3] = [("deep", 1, 1), ("getpack", 2, 2), ("case", 5, 1)];

/// Deeper trees aren't tried, and for `display_tree`, whose text grows with the square of the depth,
/// none deeper than the second.
const DEEPEST: usize = 131_072;
const DEEPEST_TEXT: usize = 14_336;

/// What goes down a tree beside the passes that are timed, in the order of its numbers in the library,
/// which follow theirs.
const OTHERS: [&str; 23] = [
    "return_dtype",
    "==",
    "text of the source",
    "display_tree",
    "contains",
    "is_well_typed, is_root_bound_to",
    "ExactBoundExpr::new",
    "validity",
    "accept, pre_order_visit_down",
    "rewrite, transform_down",
    "fold_context",
    "optimize_with (branch rules)",
    "direct_bound_annotations",
    "apply_bound",
    "run_query (all passes, split)",
    "scan",
    "rebind",
    "hash",
    "Debug",
    "run_passes",
    "covers, partition_bound_annotations",
    "replace_partitions",
    "bounds, verdict",
];

/// Prints for each pass the levels of the deepest tree of each family from which it returned.
pub fn table() {
    println!("| Pass | Levels of deep | of getpack | of case |");
    println!("|---|---:|---:|---:|");
    for (number, pass) in (0..).zip(PASSES.into_iter().chain(OTHERS)) {
        let cells = DEEP.map(|(_, family, levels)| {
            let most = match pass {
                "display_tree" => DEEPEST_TEXT / levels,
                _ => DEEPEST / levels,
            };
            let size = largest(most, |size| returns(family, size, number));
            let more = if size == most { "≥ " } else { "" };
            format!("{more}{}", size * levels)
        });
        println!("| {pass} | {} |", cells.join(" | "));
    }
}

/// The run of one pass in a process of its own: binds the family's tree of that size, and goes over it.
pub fn one(mut words: impl Iterator<Item = String>) {
    let mut number = || words.next().and_then(|word| word.parse::<usize>().ok());
    let (Some(family), Some(size), Some(pass)) = (number(), number(), number()) else {
        panic!("a family, a size and a pass, as numbers");
    };
    passes::once(family as u8, size, pass as u8);
}

/// The largest size that passes, to one in sixteen, of those up to that one; sizes up to it pass too.
fn largest(most: usize, mut passes: impl FnMut(usize) -> bool) -> usize {
    if passes(most) {
        return most;
    }
    let (mut low, mut high) = (0, most);
    while high - low > (low / 16).max(1) {
        let middle = low + (high - low) / 2;
        if passes(middle) {
            low = middle;
        } else {
            high = middle;
        }
    }
    low
}

/// Whether the pass comes back from the tree: a process whose stack ends is killed.
fn returns(family: u8, size: usize, pass: u8) -> bool {
    let program = std::env::current_exe().expect("this program's path");
    Command::new("sh")
        .args(["-c", "ulimit -s 8192 && exec \"$0\" \"$@\""])
        .arg(program)
        .arg("one")
        .args([family.to_string(), size.to_string(), pass.to_string()])
        .stdout(Stdio::null())
        .stderr(Stdio::null())
        .status()
        .is_ok_and(|status| status.success())
}
