//! Laws of the field, and of F and G on random inputs.

mod shapes;

use reference::field::{Field, ORDERS};
use reference::map::{evaluate, polar};
use reference::random::Generator;
use reference::system::System;
use reference::vector;
use reference::vectors::instance::Shape;
use shapes::SHAPES;

fn fields() -> impl Iterator<Item = Field> {
    ORDERS.into_iter().filter_map(Field::of_order)
}

/// A random system with three random vectors and a scalar.
struct Sample {
    system: System,
    x: Vec<u8>,
    y: Vec<u8>,
    z: Vec<u8>,
    scalar: u8,
}

fn samples(seed: u64) -> Vec<Sample> {
    let mut random = Generator::from_seed(seed);
    let mut samples = Vec::new();
    for field in fields() {
        for (n, m) in SHAPES {
            for _ in 0..5 {
                samples.push(sample(&mut random, field.order(), n, m));
            }
        }
    }
    samples
}

fn sample(random: &mut Generator, q: u8, n: u8, m: u8) -> Sample {
    let bytes = Shape::new(q, n, m).random_bytes(random);
    Sample {
        system: System::read(&bytes).expect("a well-formed system"),
        x: random.bytes_below(q.into(), n.into()),
        y: random.bytes_below(q.into(), n.into()),
        z: random.bytes_below(q.into(), n.into()),
        scalar: random.byte_below(q.into()),
    }
}

/// G from the coefficients: the sum of the a(i,j)·(x_i·y_j + x_j·y_i) for i ≤ j.
fn polar_by_coefficients(system: &System, x: &[u8], y: &[u8]) -> Vec<u8> {
    let q = u64::from(system.field.order());
    let rows = system.polynomials.iter().map(|f| {
        let mut sum = 0;
        for i in 0..system.n {
            for j in i..system.n {
                let (xi, xj) = (u64::from(x[i]), u64::from(x[j]));
                let (yi, yj) = (u64::from(y[i]), u64::from(y[j]));
                sum += u64::from(f.a(i, j)) * (xi * yj + xj * yi);
            }
        }
        u8::try_from(sum % q).expect("a remainder")
    });
    rows.collect()
}

#[test]
fn operations_are_remainders() {
    for field in fields() {
        let q = field.order();
        let whole = i64::from(q);
        assert_eq!(field.difference(0, 1), q - 1);
        for a in 0..q {
            for b in 0..q {
                let (x, y) = (i64::from(a), i64::from(b));
                assert_eq!(i64::from(field.sum(a, b)), (x + y) % whole);
                assert_eq!(i64::from(field.difference(a, b)), (x + whole - y) % whole);
                assert_eq!(i64::from(field.product(a, b)), x * y % whole);
            }
        }
    }
}

#[test]
fn nonzero_elements_have_inverses() {
    for field in fields() {
        for a in 1..field.order() {
            let inverses = (1..field.order()).filter(|&b| field.product(a, b) == 1);
            assert_eq!(inverses.count(), 1);
        }
    }
}

#[test]
fn only_four_orders() {
    let orders = (0..=255).filter(|&q| Field::of_order(q).is_some());
    assert_eq!(orders.collect::<Vec<u8>>(), ORDERS);
}

#[test]
fn polar_form_by_coefficients() {
    for Sample { system, x, y, .. } in samples(1) {
        assert_eq!(
            polar(&system, &x, &y),
            polar_by_coefficients(&system, &x, &y)
        );
    }
}

#[test]
fn polar_form_is_symmetric() {
    for Sample { system, x, y, .. } in samples(2) {
        assert_eq!(polar(&system, &x, &y), polar(&system, &y, &x));
    }
}

#[test]
fn polar_form_is_bilinear() {
    for sample in samples(3) {
        let Sample {
            system,
            x,
            y,
            z,
            scalar,
        } = sample;
        let field = system.field;
        let of_sum = polar(&system, &vector::sum(field, &x, &y), &z);
        let sum = vector::sum(field, &polar(&system, &x, &z), &polar(&system, &y, &z));
        assert_eq!(of_sum, sum);
        let of_multiple = polar(&system, &vector::multiple(field, scalar, &x), &z);
        let multiple = vector::multiple(field, scalar, &polar(&system, &x, &z));
        assert_eq!(of_multiple, multiple);
    }
}

#[test]
fn map_of_a_sum() {
    for Sample { system, x, y, .. } in samples(4) {
        let field = system.field;
        let separate = vector::sum(field, &evaluate(&system, &x), &evaluate(&system, &y));
        let whole = vector::sum(field, &separate, &polar(&system, &x, &y));
        assert_eq!(evaluate(&system, &vector::sum(field, &x, &y)), whole);
    }
}
