//! What document 001 gives of a fuel (paragraph 8): "densities, triple and fuel factors are data of the fuel".

use crate::bags::GASES;

/// In the units of the bag sheet's fields 9, 10 and 11, the triple as D, wc, wh. The density of the test fuel is measured. 001 has none of the fifth gas: 0 stands
/// for it, which field 9 refuses.
#[derive(Clone, Copy, Debug, PartialEq, Eq)]
pub struct Preset {
    pub density: [u32; GASES],
    pub triple: [u32; 3],
    pub k: u32,
    pub f: [u32; 3],
}

/// 0.577, 1.16, 1.91 and 1.83 kg per cubic metre (8-2, 8-4, 8-6, 8-10); 13.4 (8-12); 0.1155, 0.866, 0.429 and 0.273 (8-14).
pub const PETROL: Preset =
    Preset { density: [577_000, 1_160_000, 1_910_000, 1_830_000, 0], triple: [134, 10, 10], k: 1155, f: [866, 429, 273] };

/// 0.579 kg per cubic metre (8-2); 13.28 (8-13), for which 133 tenths are the nearest; 0.1160, 0.862, 0.429 and 0.273 (8-15).
pub const DIESEL: Preset =
    Preset { density: [579_000, 1_160_000, 1_910_000, 1_830_000, 0], triple: [133, 10, 10], k: 1160, f: [862, 429, 273] };
