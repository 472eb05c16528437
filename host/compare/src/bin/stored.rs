//! Stores vectors/gear.txt and vectors/bags.txt: the cases of vectors/gear_by_01.txt, which has the clutch by 01 alone, and of vectors/bags_by_01.txt, which
//! has readings to the nearest unit, as the second implementation answers them now.

use std::path::Path;

fn main() {
    let gear = compare::gear::answered_anew(include_str!("../../../vectors/gear_by_01.txt"));
    let bags = compare::bags::answered_anew(include_str!("../../../vectors/bags_by_01.txt"));
    let vectors = Path::new(env!("CARGO_MANIFEST_DIR")).join("../vectors");
    for (name, text) in [("gear.txt", gear), ("bags.txt", bags)] {
        std::fs::write(vectors.join(name), text).expect("host/vectors can be written");
    }
}
