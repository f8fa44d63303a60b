//! The simulator: the proved function and the second implementation.

mod common;

use canvasfox::{simulate, slices, Simulated, COMMITMENTS};
use common::{any_bytes, assert_answers, once_in, output, perhaps_damage, shape, Tally};
use reference::entries::{self, Simulate};
use reference::random::Generator;
use reference::scheme::Scheme;
use reference::system::System;

/// A challenge, or one time in eight any byte.
fn challenge(random: &mut Generator) -> u8 {
    let bound = if once_in(random, 8) { 256 } else { 3 };
    random.byte_below(bound)
}

/// The length of the reply, which the function by value makes itself. A refused system is refused with
/// any reply.
fn reply_length(system: &[u8]) -> usize {
    System::read(system).map_or(0, |system| {
        Scheme::ThreePass.reply_length(system.dimensions())
    })
}

#[test]
fn simulated() {
    let mut random = Generator::from_seed(20);
    let [mut tally, mut by_value] = [(); 2].map(|()| Tally::default());
    for _ in 0..30_000 {
        let shape = shape(&mut random, 300);
        let mut system = shape.random_system(&mut random).expanded();
        perhaps_damage(&mut random, 8, &mut system);
        let mut v = shape.random_elements(&mut random, shape.m());
        perhaps_damage(&mut random, 10, &mut v);
        let mut lent = shape.random_elements(&mut random, 3 * shape.n() + shape.m());
        lent.extend(any_bytes(&mut random, 96));
        perhaps_damage(&mut random, 8, &mut lent);
        let [unanswered, challenge] = [0; 2].map(|_| challenge(&mut random));
        let outputs = [COMMITMENTS, 2 * shape.n() + shape.m() + 64];
        let [commitments, reply] = outputs.map(|right| output(&mut random, right));
        let own = |commitments: &mut [u8], reply: &mut [u8]| {
            entries::simulate(Simulate {
                system: &system,
                v: &v,
                unanswered,
                challenge,
                lent: &lent,
                commitments,
                reply,
            })
        };
        let (mut expected, mut expected_reply) = (commitments.clone(), reply.clone());
        let answer = own(&mut expected, &mut expected_reply);
        let (mut found, mut found_reply) = (commitments, reply);
        let found_answer = slices::simulate(
            &system,
            &v,
            unanswered,
            challenge,
            &lent,
            &mut found,
            &mut found_reply,
        );
        assert_eq!(found_answer, answer);
        assert_eq!(found, expected);
        assert_eq!(found_reply, expected_reply);
        tally.note(answer);
        let mut right = Simulated {
            commitments: [0; COMMITMENTS],
            reply: vec![0; reply_length(&system)],
        };
        let answer = own(&mut right.commitments, &mut right.reply);
        let result = simulate(&system, &v, unanswered, challenge, &lent);
        assert_answers(result, answer, right);
        by_value.note(answer);
    }
    tally.has("simulate", &[0, 1, 2, 3, 4], 150);
    by_value.has("simulate by value", &[0, 1, 2, 3, 4], 150);
}
