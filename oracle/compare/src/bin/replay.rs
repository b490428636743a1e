//! Writes the replay list anew. Usage: replay

use compare::replay::{list, FILE};
use std::path::Path;

fn main() {
    let workspace = Path::new(env!("CARGO_MANIFEST_DIR")).join("..");
    let text = list();
    std::fs::write(workspace.join(FILE), &text).expect("the list is written");
    println!("{} bytes in {FILE}", text.len());
}
