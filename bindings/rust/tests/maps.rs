//! The check of a system, F and G: the proved functions and the second implementation.

mod common;

use canvasfox::{evaluate, polar, slices, system_check};
use common::{assert_answers, damage, number, once_in, output, perhaps_damage, shape, Tally};
use reference::entries;
use reference::random::Generator;
use reference::system::System;
use reference::vectors::instance::Shape;

/// A system, with two vectors of n elements, and a right output length.
struct Case {
    system: Vec<u8>,
    x: Vec<u8>,
    y: Vec<u8>,
    out: usize,
}

fn case(random: &mut Generator, shape: Shape) -> Case {
    let mut system = shape.random_system(random).expanded();
    perhaps_damage(random, 6, &mut system);
    let [x, y] = [0; 2].map(|_| {
        let mut x = shape.random_elements(random, shape.n());
        perhaps_damage(random, 6, &mut x);
        x
    });
    Case {
        system,
        x,
        y,
        out: shape.m(),
    }
}

/// What the second implementation answers and writes where its output has the right length. The
/// functions by value make that output themselves. A refused system is refused with any output.
fn with_right_output(system: &[u8], call: impl FnOnce(&mut [u8]) -> u8) -> (u8, Vec<u8>) {
    let mut out = vec![0; System::read(system).map_or(0, |system| system.m())];
    (call(&mut out), out)
}

#[test]
fn checks() {
    let mut random = Generator::from_seed(10);
    let mut tally = Tally::default();
    for _ in 0..40_000 {
        let shape = shape(&mut random, 400);
        let mut system = shape.random_system(&mut random).expanded();
        while once_in(&mut random, 2) {
            damage(&mut random, &mut system);
        }
        let answer = entries::check(&system);
        assert_eq!(slices::system_check(&system), answer);
        assert_eq!(number(&system_check(&system)), answer);
        tally.note(answer);
    }
    tally.has("system check", &[0, 1, 2, 3], 2000);
}

#[test]
fn values_of_f() {
    let mut random = Generator::from_seed(11);
    let [mut tally, mut by_value] = [(); 2].map(|()| Tally::default());
    for _ in 0..30_000 {
        let shape = shape(&mut random, 400);
        let Case { system, x, out, .. } = case(&mut random, shape);
        let mut expected = output(&mut random, out);
        let mut found = expected.clone();
        let answer = entries::evaluate(&system, &x, &mut expected);
        assert_eq!(slices::evaluate(&system, &x, &mut found), answer);
        assert_eq!(found, expected);
        tally.note(answer);
        let (answer, value) = with_right_output(&system, |out| entries::evaluate(&system, &x, out));
        assert_answers(evaluate(&system, &x), answer, value);
        by_value.note(answer);
    }
    tally.has("evaluate", &[0, 1, 2, 3], 150);
    by_value.has("evaluate by value", &[0, 1, 2, 3], 150);
}

#[test]
fn values_of_g() {
    let mut random = Generator::from_seed(12);
    let [mut tally, mut by_value] = [(); 2].map(|()| Tally::default());
    for _ in 0..30_000 {
        let shape = shape(&mut random, 400);
        let Case { system, x, y, out } = case(&mut random, shape);
        let mut expected = output(&mut random, out);
        let mut found = expected.clone();
        let answer = entries::polar(&system, &x, &y, &mut expected);
        assert_eq!(slices::polar(&system, &x, &y, &mut found), answer);
        assert_eq!(found, expected);
        tally.note(answer);
        let (answer, value) =
            with_right_output(&system, |out| entries::polar(&system, &x, &y, out));
        assert_answers(polar(&system, &x, &y), answer, value);
        by_value.note(answer);
    }
    tally.has("polar", &[0, 1, 2, 3], 150);
    by_value.has("polar by value", &[0, 1, 2, 3], 150);
}

/// The largest system, and one byte more and less.
#[test]
fn largest() {
    let mut random = Generator::from_seed(13);
    for q in reference::field::ORDERS {
        let shape = Shape::new(q, 96, 96);
        let system = shape.random_system(&mut random).expanded();
        assert_eq!(system.len(), 456_195);
        let [x, y] = [0; 2].map(|_| shape.random_elements(&mut random, 96));
        for length in [456_194, 456_195, 456_196] {
            let mut system = system.clone();
            system.resize(length, 0);
            let answer = if length == 456_195 { 0 } else { 2 };
            assert_eq!(number(&system_check(&system)), answer);
            let mut expected = vec![255; 96];
            assert_eq!(entries::evaluate(&system, &x, &mut expected), answer);
            let mut found = vec![255; 96];
            assert_eq!(slices::evaluate(&system, &x, &mut found), answer);
            assert_eq!(found, expected);
            assert_eq!(entries::polar(&system, &x, &y, &mut expected), answer);
            assert_eq!(slices::polar(&system, &x, &y, &mut found), answer);
            assert_eq!(found, expected);
        }
    }
}
