//! Judges that are wrong in a known way, told by the stored cases.

use crate::stored::{cases, Case};
use reference::five_pass::{self, Middle};
use reference::scheme::Scheme;
use reference::three_pass;

/// The judgements among the stored cases of a scheme.
fn judgements(scheme: Scheme) -> Vec<Case> {
    let mut judgements = cases(7);
    judgements.retain(|case| case.scheme() == scheme);
    judgements
}

/// A check that leaves one of the two openings out in one challenge accepts too much.
#[test]
fn one_opening_left_out() {
    let mut told = [[0; 2]; 3];
    for case in judgements(Scheme::ThreePass) {
        let (v, round) = case.judged();
        let opened = three_pass::opened(&case.system(), v, round.challenge, &round.reply);
        let opens = opened.map(|opening| opening.opens(&round.commitments));
        for left_out in [0, 1] {
            let accepts = opens[1 - left_out];
            if u8::from(accepts) != case.number {
                told[usize::from(round.challenge)][left_out] += 1;
            }
        }
    }
    assert!(told.iter().flatten().all(|&cases| cases > 20), "{told:?}");
}

/// A check that reads α as the challenge, or the challenge as α, accepts too much and too little.
#[test]
fn alpha_and_challenge_mistaken() {
    let mut told = [[0; 2]; 2];
    for case in judgements(Scheme::FivePass) {
        let (v, round) = case.judged();
        let system = case.system();
        let middle = Middle::read(&system, &round.middle);
        let by_challenge = Middle {
            alpha: round.challenge,
            ..middle.clone()
        };
        let mistaken = [
            (&middle, middle.alpha % 2),
            (&by_challenge, round.challenge),
        ];
        for (told, (middle, challenge)) in told.iter_mut().zip(mistaken) {
            let opened = five_pass::opened(&system, v, middle, challenge, &round.reply);
            if u8::from(opened.opens(&round.commitments)) != case.number {
                told[usize::from(case.number)] += 1;
            }
        }
    }
    assert!(
        told[0][0] > 0 && told[0][1] > 0 && told[1][1] > 0,
        "{told:?}"
    );
}
