//! The header, this crate, the archive and the Python example are of one version.

use std::fs::read_to_string;
use std::path::Path;
use ylhovesko::{version, VERSION};

#[test]
fn all_are_of_one_version() {
    let root = Path::new(env!("CARGO_MANIFEST_DIR")).join("../..");
    let has = |file: &str, line: String| read_to_string(root.join(file)).unwrap().lines().any(|written| written.starts_with(&line));
    assert_eq!(version(), VERSION);
    assert!(has("include/ylhovesko.h", format!("#define YLHOVESKO_VERSION {VERSION}u")));
    assert!(has("host/python/result.py", format!("VERSION = {VERSION} ")));
}
