//! Document 01, "System, F and G": the quadratic map F of a system and its polar form G.

use crate::field::Field;
use crate::system::{Polynomial, System};
use crate::vector;

/// F(x): each polynomial's value.
pub fn evaluate(system: &System, x: &[u8]) -> Vec<u8> {
    let values = system.polynomials.iter();
    values.map(|f| value(system.field, f, x)).collect()
}

/// G(x,y), by its definition F(x+y) - F(x) - F(y).
pub fn polar(system: &System, x: &[u8], y: &[u8]) -> Vec<u8> {
    let field = system.field;
    let of_sum = evaluate(system, &vector::sum(field, x, y));
    let less_one = vector::difference(field, &of_sum, &evaluate(system, x));
    vector::difference(field, &less_one, &evaluate(system, y))
}

/// The sum of the a(i,j)·x_i·x_j for i ≤ j plus the sum of the b(i)·x_i.
fn value(field: Field, f: &Polynomial, x: &[u8]) -> u8 {
    let n = x.len();
    let mut sum = 0;
    for i in 0..n {
        for j in i..n {
            let monomial = field.product(x[i], x[j]);
            sum = field.sum(sum, field.product(f.a(i, j), monomial));
        }
    }
    for (i, &x_i) in x.iter().enumerate() {
        sum = field.sum(sum, field.product(f.b(i), x_i));
    }
    sum
}
