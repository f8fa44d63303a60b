//! The sizes (n, m) at which laws and rounds are tried.

pub const SHAPES: [(u8, u8); 8] = [
    (1, 1),
    (1, 9),
    (2, 2),
    (3, 5),
    (8, 7),
    (17, 4),
    (33, 3),
    (96, 2),
];
