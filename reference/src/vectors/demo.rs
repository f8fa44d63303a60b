//! The demonstration's input and output: an honest session of each scheme.

use super::audited::{Cards, Question};
use super::honest::SMALL_S;
use super::maps::SMALL;
use super::piece::Piece;
use super::samples::hex;
use super::session::Session;
use super::ProgramFile;
use crate::entries::report;
use crate::random::Generator;
use crate::scheme::{Scheme, SCHEMES};
use crate::sha256::sha256;

/// What is asked in the three rounds: α and the challenge.
fn asked(scheme: Scheme) -> [Question; 3] {
    match scheme {
        Scheme::ThreePass => [(0, 2), (0, 0), (0, 1)],
        Scheme::FivePass => [(3, 1), (0, 0), (5, 1)],
    }
}

/// The small key's system, then a session of each scheme.
pub fn file() -> ProgramFile {
    let mut stdin = SMALL.to_vec();
    let mut stdout = String::new();
    for scheme in SCHEMES {
        let mut random = Generator::from_seed(150 + u64::from(scheme.byte()));
        let asked = asked(scheme);
        let secrets = vec![SMALL_S.to_vec(); asked.len()];
        let cards = Cards::of_secrets(&mut random, scheme, &Piece::literal(&SMALL), &secrets);
        stdin.extend(session_bytes(scheme, &cards, &asked));
        let questions = asked.map(|question| vec![question]);
        stdout += &text(&cards.sessions(&questions)[0]);
    }
    ProgramFile {
        program: "demo",
        stdin,
        stdout,
    }
}

/// Scheme, N, v, s, then for each round what is lent, α in five passes, the challenge.
fn session_bytes(scheme: Scheme, cards: &Cards, asked: &[Question]) -> Vec<u8> {
    let first = &cards.0[0];
    let rounds = u8::try_from(asked.len()).expect("at most 255 rounds");
    let mut bytes = [&[scheme.byte(), rounds][..], &first.v(), &first.s].concat();
    for (card, &(alpha, challenge)) in cards.0.iter().zip(asked) {
        bytes.extend(&card.lent);
        if scheme == Scheme::FivePass {
            bytes.push(alpha);
        }
        bytes.push(challenge);
    }
    bytes
}

/// What the program prints for an honest session.
fn text(session: &Session) -> String {
    let [scheme, rounds] = [session.header()[0], session.header()[4]];
    let record = session.record();
    let digest = hex(&sha256(&record));
    let length = record.len();
    let report = report(&session.input());
    format!(
        "scheme {scheme}, {rounds} rounds\n\
         record of {length} bytes, SHA-256 {digest}\n\
         {report}\
         card closed\n\
         carrier closed, accepted, rounds accepted: {rounds}\n"
    )
}
