//! The exact text that the program prints for a record.

use std::fmt::Write;

use crate::building::{three_trees, Built, Measure, Trees};
use crate::net::{Net, Refusal};
use crate::record::read;

/// The most bytes of its input that the program reads.
pub const MOST_BYTES: usize = 15_372;

/// The program's output for this input, of which it looks at no more than the
/// first 15,372 bytes.
pub fn program_output(input: &[u8]) -> String {
    let looked_at = &input[..input.len().min(MOST_BYTES)];
    match planned(looked_at) {
        Ok((net, trees)) => plan_text(&net, &trees, &trees.built(&net)),
        Err(refusal) => refusal_text(refusal),
    }
}

/// Reads a record and builds its trees, as the program does.
pub fn planned(record: &[u8]) -> Result<(Net, Trees), Refusal> {
    let net = read(record)?;
    let trees = three_trees(&net)?;
    Ok((net, trees))
}

/// The line for a refusal.
pub fn refusal_text(refusal: Refusal) -> String {
    format!("{refusal}\n")
}

/// The five lines for a net that was built; the first has the house ratio,
/// whatever the form.
pub fn plan_text(net: &Net, trees: &Trees, built: &Built) -> String {
    let mut text = format!(
        "net {} {} {} {}/{}\n",
        net.posts,
        net.segments.len(),
        net.source,
        net.p,
        net.q
    );
    tree_line(&mut text, "mst", net, built.lightest, &trees.lightest);
    tree_line(&mut text, "spt", net, built.shortest, &trees.shortest);
    tree_line(&mut text, "last", net, built.between, &trees.between);
    writeln!(text, "laid {}", built.laid).expect("writing to a string");
    text
}

/// A tree line: length, radius, then the entries of all posts but the source.
fn tree_line(text: &mut String, name: &str, net: &Net, measure: Measure, tree: &[u16]) {
    write!(text, "{name} {} {}", measure.length, measure.radius).expect("writing to a string");
    for (post, entry) in (0..).zip(tree) {
        if post != net.source {
            write!(text, " {entry}").expect("writing to a string");
        }
    }
    text.push('\n');
}
