//! Stores the directed cases.

use std::path::Path;

fn main() {
    let vectors = Path::new(env!("CARGO_MANIFEST_DIR")).join("../vectors");
    for (name, text) in compare::directed::files() {
        std::fs::write(vectors.join(name), text).expect("host/vectors can be written");
    }
}
