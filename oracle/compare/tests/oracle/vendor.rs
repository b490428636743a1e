//! The given files are compiled byte for byte as they were given.

use crate::sha256::sha256;

const GIVEN: [(&str, &[u8], &str); 6] = [
    (
        "scoring/list_precedence.rs",
        include_bytes!("../../../vendor/scoring/list_precedence.rs"),
        "7ffda85409cbc6b757621c960ef4df390a620d1a39eb8b66bc46fabafd606537",
    ),
    (
        "scoring/graph.rs",
        include_bytes!("../../../vendor/scoring/graph.rs"),
        "7acf9f3d925b6e3e5a07951bb675c9b8adef58e9754255f46c5b19c6259f7fb0",
    ),
    (
        "scoring/route.rs",
        include_bytes!("../../../vendor/scoring/route.rs"),
        "7679f71082313358d2687e6f48d900aa00e3d087962b5e30ffcc76b9b053d516",
    ),
    (
        "solver/precedence_route.rs",
        include_bytes!("../../../vendor/solver/precedence_route.rs"),
        "519d08bc593e32af15d3655a1afd8aea7c9a3242a23ce49ee534bd9a27d66b5c",
    ),
    (
        "solver/delta.rs",
        include_bytes!("../../../vendor/solver/delta.rs"),
        "84b29518a5677835c4ea2c065d78ac0e3b7a6864a7a79c341143650c0e476816",
    ),
    (
        "solver/analysis.rs",
        include_bytes!("../../../vendor/solver/analysis.rs"),
        "e9d2481dad760d159c8289b730122285a2ef02a803351ba48bb090f5eca6df18",
    ),
];

#[test]
fn given_files_are_unchanged() {
    for (name, bytes, digest) in GIVEN {
        assert_eq!(sha256(bytes), digest, "{name}");
    }
}

/// docs/DIFFERENCES.md names what document 01 says is missing and is there.
#[test]
fn items_said_to_be_missing_are_there() {
    let list_precedence = include_str!("../../../vendor/scoring/list_precedence.rs");
    for item in [
        "fn new(node_count: usize, owner_count: usize, durations: Vec<i64>) -> Self",
        "fn is_empty(&self) -> bool",
        "fn seeds(&self) -> impl Iterator<Item = NodeId> + '_",
    ] {
        assert!(list_precedence.contains(item), "{item}");
    }
    let precedence_route = include_str!("../../../vendor/solver/precedence_route.rs");
    assert!(precedence_route.contains("pub(crate) struct PrecedenceRouteGraph {"));
}
