//! Cases for F and G: document 01, "System, F and G" and "The small key".

use super::case::{Call, Group};
use super::instance::{Instance, Shape};
use super::piece::Piece;
use crate::field::ORDERS;
use crate::random::Generator;
use crate::system::HEAD;

/// The sizes of n and m: small ones, the edges of powers of two, the sizes of document 000, the
/// largest.
const SIZES: [u8; 14] = [1, 2, 3, 5, 16, 17, 31, 32, 33, 48, 64, 84, 95, 96];

/// The small key's system, and its q = 2 and q = 251 companions.
pub const SMALL: [u8; 13] = [7, 2, 2, 1, 2, 3, 1, 0, 0, 1, 5, 0, 4];
const SMALL_BINARY: [u8; 5] = [2, 1, 1, 1, 0];
const SMALL_LARGE: [u8; 5] = [251, 1, 1, 1, 0];

pub fn groups() -> Vec<Group> {
    let topics: [(&str, Vec<Instance>); 8] = [
        ("small key", small_key()),
        ("every pair of sizes", pairs_of_sizes()),
        ("every q", every_order()),
        ("zero and largest vectors", extreme_vectors()),
        ("largest coefficients", largest_coefficients()),
        ("unit vectors", unit_vectors()),
        ("long patterns", long_patterns()),
        ("one variable", one_variable()),
    ];
    let mut evaluations = Vec::new();
    let mut polars = Vec::new();
    for (topic, instances) in topics {
        let cases = instances.iter().cloned().map(Instance::evaluate);
        evaluations.push(group("F", topic, cases.collect()));
        let cases = instances.into_iter().map(Instance::polar);
        polars.push(group("G", topic, cases.collect()));
    }
    evaluations.push(group("F", "refusals", refused_evaluations()));
    polars.push(group("G", "refusals", refused_polars()));
    evaluations.extend(polars);
    evaluations
}

/// The cases of a topic, without the repeats that F has where only y differs.
fn group(map: &str, topic: &str, mut cases: Vec<Call>) -> Group {
    let name = format!("{map}, {topic}");
    cases.dedup();
    Group { name, cases }
}

/// K1 to K4 and K10 to K12: the vectors s, r0, r1, t0 and zero in pairs, and the one-variable keys.
fn small_key() -> Vec<Instance> {
    let vectors = [[3, 5], [5, 1], [5, 4], [4, 2], [0, 0]];
    let mut instances = Vec::new();
    for x in vectors {
        for y in vectors {
            instances.push(literal(&SMALL, &x, &y));
        }
    }
    instances.push(literal(&SMALL_BINARY, &[1], &[1]));
    instances.push(literal(&SMALL_BINARY, &[0], &[1]));
    instances.push(literal(&SMALL_LARGE, &[250], &[250]));
    instances.push(literal(&SMALL_LARGE, &[125], &[126]));
    instances
}

fn literal(system: &[u8], x: &[u8], y: &[u8]) -> Instance {
    Instance {
        system: Piece::literal(system),
        x: Piece::literal(x),
        y: Piece::literal(y),
        out: usize::from(system[2]),
    }
}

/// Random instances, n and m of any two sizes, q in turn.
fn pairs_of_sizes() -> Vec<Instance> {
    let mut random = Generator::from_seed(21);
    let mut orders = ORDERS.iter().cycle();
    let mut instances = Vec::new();
    for n in SIZES {
        for m in SIZES {
            let q = *orders.next().expect("a cycle goes on");
            instances.push(Instance::random(&mut random, Shape::new(q, n, m)));
        }
        orders.next();
    }
    instances
}

/// Random instances at each q, n = m of each size, and the most uneven ones.
fn every_order() -> Vec<Instance> {
    let mut random = Generator::from_seed(22);
    let even = SIZES.map(|size| (size, size));
    let uneven = [(1, 96), (96, 1), (2, 96), (96, 2), (84, 80)];
    let mut instances = Vec::new();
    for (n, m) in even.into_iter().chain(uneven) {
        for q in ORDERS {
            instances.push(Instance::random(&mut random, Shape::new(q, n, m)));
        }
    }
    instances
}

/// The vectors of all 0 and of all q-1, in pairs with each other and with random ones.
fn extreme_vectors() -> Vec<Instance> {
    let mut random = Generator::from_seed(23);
    let mut instances = Vec::new();
    for q in ORDERS {
        for (n, m) in [(1, 1), (5, 3), (96, 1), (1, 96), (96, 96)] {
            let shape = Shape::new(q, n, m);
            let zero = shape.constant_vector(0);
            let last = shape.constant_vector(q - 1);
            let other = shape.random_vector(&mut random);
            for (x, y) in [
                (&zero, &zero),
                (&zero, &other),
                (&other, &zero),
                (&last, &last),
                (&last, &other),
                (&other, &last),
            ] {
                let system = shape.random_system(&mut random);
                instances.push(Instance::of(shape, system, x, y));
            }
        }
    }
    instances
}

/// All coefficients q-1, where the running sums are largest.
fn largest_coefficients() -> Vec<Instance> {
    let mut random = Generator::from_seed(24);
    let mut instances = Vec::new();
    for q in ORDERS {
        for (n, m) in [(1, 1), (17, 2), (96, 1), (96, 96)] {
            let shape = Shape::new(q, n, m);
            let last = shape.constant_vector(q - 1);
            let other = shape.random_vector(&mut random);
            for (x, y) in [(&last, &last), (&last, &other), (&other, &last)] {
                instances.push(Instance::of(shape, shape.system(&[q - 1]), x, y));
            }
        }
    }
    instances
}

/// Single coefficients: every pair of places of a small system, the outer ones of a large.
fn unit_vectors() -> Vec<Instance> {
    let mut random = Generator::from_seed(25);
    let mut instances = unit_pairs(&mut random, Shape::new(31, 5, 4), &[0, 1, 2, 3, 4]);
    let places = [0, 1, 47, 48, 94, 95];
    for q in ORDERS {
        instances.extend(unit_pairs(&mut random, Shape::new(q, 96, 3), &places));
    }
    instances
}

/// One random system at each pair of unit vectors.
fn unit_pairs(random: &mut Generator, shape: Shape, places: &[usize]) -> Vec<Instance> {
    let system = shape.random_system(random);
    let pairs = places
        .iter()
        .flat_map(|&i| places.iter().map(move |&j| (i, j)));
    pairs
        .map(|(i, j)| {
            let (x, y) = (shape.unit_vector(i), shape.unit_vector(j));
            Instance::of(shape, system.clone(), &x, &y)
        })
        .collect()
}

/// The largest systems with a pattern longer than a row.
fn long_patterns() -> Vec<Instance> {
    let mut random = Generator::from_seed(26);
    let instances = ORDERS.map(|q| {
        let shape = Shape::new(q, 96, 96);
        let pattern = random.bytes_below(u16::from(q), 4799);
        Instance {
            system: shape.system(&pattern),
            x: shape.random_vector(&mut random),
            y: shape.random_vector(&mut random),
            out: shape.m(),
        }
    });
    instances.to_vec()
}

/// One polynomial in one variable, over values from all of the field or its edges.
fn one_variable() -> Vec<Instance> {
    let mut instances = Vec::new();
    for (q, values) in [
        (2, vec![0, 1]),
        (7, vec![0, 1, 3, 6]),
        (31, vec![0, 15, 30]),
        (251, vec![1, 126, 250]),
    ] {
        for_each_four(&values, |a, b, x, y| {
            instances.push(literal(&[q, 1, 1, a, b], &[x], &[y]));
        });
    }
    instances
}

fn for_each_four(values: &[u8], mut visit: impl FnMut(u8, u8, u8, u8)) {
    for &a in values {
        for &b in values {
            for &x in values {
                for &y in values {
                    visit(a, b, x, y);
                }
            }
        }
    }
}

/// The shapes at which each refusal is tried.
const REFUSED_SHAPES: [(u8, u8, u8); 5] = [
    (7, 2, 2),
    (2, 1, 1),
    (31, 33, 17),
    (251, 1, 96),
    (251, 96, 96),
];

fn refused_evaluations() -> Vec<Call> {
    let mut random = Generator::from_seed(27);
    let mut instances = Vec::new();
    for (q, n, m) in REFUSED_SHAPES {
        let shape = Shape::new(q, n, m);
        let good = Instance::random(&mut random, shape);
        let mut faulty = vec![good.clone()];
        faulty.extend(faults_of_x(shape, &good));
        instances.extend(with_bad_systems(shape, &faulty));
        instances.extend(faulty);
    }
    instances.into_iter().map(Instance::evaluate).collect()
}

fn refused_polars() -> Vec<Call> {
    let mut random = Generator::from_seed(28);
    let mut instances = Vec::new();
    for (q, n, m) in REFUSED_SHAPES {
        let shape = Shape::new(q, n, m);
        let good = Instance::random(&mut random, shape);
        let mut faulty = vec![good.clone()];
        faulty.extend(faults_of_x(shape, &good));
        faulty.extend(faults_of_x(shape, &good).into_iter().map(swapped));
        faulty.extend(faults_of_both(shape, &good));
        instances.extend(with_bad_systems(shape, &faulty));
        instances.extend(faulty);
    }
    instances.into_iter().map(Instance::polar).collect()
}

/// x and y exchanged.
fn swapped(instance: Instance) -> Instance {
    Instance {
        x: instance.y,
        y: instance.x,
        ..instance
    }
}

/// x or the output of a wrong length, x with a wrong element, and these at once.
fn faults_of_x(shape: Shape, good: &Instance) -> Vec<Instance> {
    let bad = bad_vectors(shape, &good.x);
    let mut faults = Vec::new();
    for length in wrong_lengths(shape.n()) {
        faults.push(with_x(good, Piece::repeated(&[1], length)));
        faults.push(with_x(good, Piece::repeated(&[255], length)));
    }
    for out in wrong_lengths(shape.m()) {
        faults.push(Instance {
            out,
            ..good.clone()
        });
        faults.push(Instance {
            out,
            ..with_x(good, bad[0].clone())
        });
    }
    faults.extend(bad.into_iter().map(|x| with_x(good, x)));
    faults
}

/// Both vectors at fault: a wrong length of the one beside a wrong element of the other.
fn faults_of_both(shape: Shape, good: &Instance) -> Vec<Instance> {
    let short = Piece::repeated(&[0], shape.n() - 1);
    let bad_x = bad_vectors(shape, &good.x);
    let bad_y = bad_vectors(shape, &good.y);
    let pairs = [
        (bad_x[0].clone(), short.clone()),
        (short.clone(), bad_y[0].clone()),
        (short.clone(), short),
        (bad_x[1].clone(), bad_y[0].clone()),
    ];
    let out = good.out;
    let system = &good.system;
    let faulty = pairs.map(|(x, y)| Instance {
        system: system.clone(),
        x,
        y,
        out,
    });
    faulty.to_vec()
}

fn with_x(good: &Instance, x: Piece) -> Instance {
    Instance { x, ..good.clone() }
}

/// Lengths other than the right one.
fn wrong_lengths(right: usize) -> [usize; 5] {
    [0, right - 1, right + 1, 97, 200]
}

/// The vector with a byte that is no element at its first or its last place.
fn bad_vectors(shape: Shape, vector: &Piece) -> Vec<Piece> {
    let last = shape.n() - 1;
    let faults = [(0, shape.q), (last, shape.q), (0, 255), (last, 255)];
    let bad = faults.map(|(offset, byte)| vector.clone().patched(offset, byte));
    bad.to_vec()
}

/// Each refused system with arguments that are good and with some that are refused too.
fn with_bad_systems(shape: Shape, instances: &[Instance]) -> Vec<Instance> {
    let systems = bad_systems(shape, &instances[0].system);
    let chosen = [
        0,
        1,
        instances.len() / 3,
        2 * instances.len() / 3,
        instances.len() - 1,
    ];
    let pairs = systems
        .iter()
        .flat_map(|system| chosen.iter().map(move |&k| (system, k)));
    pairs
        .map(|(system, k)| Instance {
            system: system.clone(),
            ..instances[k].clone()
        })
        .collect()
}

/// The system with one fault of each kind.
pub fn bad_systems(shape: Shape, system: &Piece) -> Vec<Piece> {
    let pattern = [0, 1, 1];
    vec![
        Piece::literal(&[]),
        Piece::literal(&[shape.q, shape.n]),
        system.clone().patched(0, 4),
        system.clone().patched(1, 0),
        system.clone().patched(2, 97),
        shape.system_of_length(&pattern, HEAD),
        shape.system_of_length(&pattern, shape.length() - 1),
        shape.system_of_length(&pattern, shape.length() + 1),
        system.clone().patched(HEAD, shape.q),
        system.clone().patched(shape.length() - 1, 255),
    ]
}
