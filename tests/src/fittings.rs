//! The twelve fittings of document 01.

use crate::reference::Code;

pub const F: &str = "0; d 2<0; d 3<0; (1,2)";
pub const F_WITHOUT_PAIR: &str = "0; d 2<0; d 3<0";
pub const G: &str = "0; d 2<0; d 4<0; d 3<4; d 5<0";
pub const G_WITH_PAIR: &str = "0; d 2<0; d 4<0; d 3<4; d 5<0; (4,2)";
pub const H: &str = "0; d 2<0; d 4<0; 5<2";
pub const K: &str = "0; 3; d 2<0";
pub const L: &str = "0; d 2<0; d 4<0; d 4<2";
pub const T: &str = "0; d 2<0; d 4<0; d 6<0; 5<2; 7<2; 3<4; 7<4; 3<6; 5<6";
pub const EMPTY: &str = "";

/// Name, program, literal, budget, answer, nodes.
pub const FITTINGS: [(&str, &str, u32, u32, Code, usize); 12] = [
    ("P1", F, 2, 4096, Code::Yes, 3),
    ("P2", F, 2, 2, Code::Unfinished, 2),
    ("P3", F_WITHOUT_PAIR, 2, 4096, Code::Undecided, 4),
    ("P4", G, 2, 4096, Code::Undecided, 5),
    ("P5", G_WITH_PAIR, 2, 4096, Code::Yes, 6),
    ("P6", H, 2, 4096, Code::Undecided, 2),
    ("P7", H, 4, 4096, Code::Undecided, 5),
    ("P8", K, 2, 4096, Code::No, 1),
    ("P9", L, 4, 4096, Code::Yes, 2),
    ("P10", T, 2, 4096, Code::Undecided, 15),
    ("P11", EMPTY, 100, 4096, Code::Unknown, 0),
    ("P12", F, 3, 4096, Code::No, 3),
];
