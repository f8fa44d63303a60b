//! Systems and vectors that the cases are made of.

use super::case::Call;
use super::piece::Piece;
use crate::random::Generator;
use crate::system::{length, width, Dimensions, HEAD, MOST};

/// q, n and m as a system's head has them.
#[derive(Clone, Copy, Debug)]
pub struct Shape {
    pub q: u8,
    pub n: u8,
    pub m: u8,
}

impl Shape {
    pub fn new(q: u8, n: u8, m: u8) -> Shape {
        Shape { q, n, m }
    }

    /// The shape that a system says.
    pub fn of(system: &Piece) -> Shape {
        let head = system.expanded();
        Shape::new(head[0], head[1], head[2])
    }

    pub fn n(self) -> usize {
        usize::from(self.n)
    }

    pub fn m(self) -> usize {
        usize::from(self.m)
    }

    /// q, n and m of a shape that is not refused.
    pub fn dimensions(self) -> Dimensions {
        Dimensions::of_bytes(self.q, self.n, self.m).expect("numbers among their values")
    }

    /// The bytes that a system of this shape has, also where the shape is refused.
    pub fn length(self) -> usize {
        length(self.n(), self.m())
    }

    /// A system of this shape whose coefficients are the pattern over and over.
    pub fn system(self, pattern: &[u8]) -> Piece {
        self.system_of_length(pattern, self.length())
    }

    /// The same cut or extended to a length, which has room for the head.
    pub fn system_of_length(self, pattern: &[u8], length: usize) -> Piece {
        Piece::repeated(pattern, length).overwritten(0, &[self.q, self.n, self.m])
    }

    /// A system of this shape with a random pattern.
    pub fn random_system(self, random: &mut Generator) -> Piece {
        self.system(&self.random_pattern(random))
    }

    /// The bytes of a system of this shape in which every coefficient is random, with no pattern.
    pub fn random_bytes(self, random: &mut Generator) -> Vec<u8> {
        let coefficients = self.random_elements(random, self.length() - HEAD);
        [&[self.q, self.n, self.m], &coefficients[..]].concat()
    }

    /// Random elements, as many as a prime that no two rows of a system have the same part of.
    pub fn random_pattern(self, random: &mut Generator) -> Vec<u8> {
        self.random_elements(random, prime(MOST.into(), width(self.n())))
    }

    /// A vector of n random elements.
    pub fn random_vector(self, random: &mut Generator) -> Piece {
        Piece::literal(&self.random_elements(random, self.n()))
    }

    /// The vector of n elements that are all the same.
    pub fn constant_vector(self, element: u8) -> Piece {
        Piece::repeated(&[element], self.n())
    }

    /// The vector with a 1 at one place, counted from 0.
    pub fn unit_vector(self, place: usize) -> Piece {
        self.constant_vector(0).patched(place, 1)
    }

    pub fn random_elements(self, random: &mut Generator, count: usize) -> Vec<u8> {
        random.bytes_below(u16::from(self.q), count)
    }
}

/// The least prime above the number of rows that does not divide a row's width. So rows l and k
/// begin at the same place of a pattern of that length only if it divides l - k, which is less.
pub fn prime(rows: usize, width: usize) -> usize {
    (rows + 1..)
        .find(|&number| is_prime(number) && !width.is_multiple_of(number))
        .expect("primes go on")
}

fn is_prime(number: usize) -> bool {
    number > 1 && (2..number).all(|divisor| !number.is_multiple_of(divisor))
}

/// The arguments of F or of G. F has no y.
#[derive(Clone, Debug)]
pub struct Instance {
    pub system: Piece,
    pub x: Piece,
    pub y: Piece,
    /// The output's length.
    pub out: usize,
}

impl Instance {
    /// Two vectors of a shape's system, and an output of the right length.
    pub fn of(shape: Shape, system: Piece, x: &Piece, y: &Piece) -> Instance {
        Instance {
            system,
            x: x.clone(),
            y: y.clone(),
            out: shape.m(),
        }
    }

    /// A random instance of a shape.
    pub fn random(random: &mut Generator, shape: Shape) -> Instance {
        Instance {
            system: shape.random_system(random),
            x: shape.random_vector(random),
            y: shape.random_vector(random),
            out: shape.m(),
        }
    }

    pub fn evaluate(self) -> Call {
        Call::Evaluate {
            system: self.system,
            x: self.x,
            out: self.out,
        }
    }

    pub fn polar(self) -> Call {
        Call::Polar {
            system: self.system,
            x: self.x,
            y: self.y,
            out: self.out,
        }
    }
}
