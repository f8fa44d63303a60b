//! Document 01, "Sessions": the card's end. Per round it commits, in five passes it answers α, and
//! it replies to the challenge.

use super::{answered, check_length, due, Terms, Verdict};
use crate::map::evaluate;
use crate::refusal::{unless, Refusal};
use crate::rounds;
use crate::scheme::Scheme;
use crate::system::System;

/// The call that is due, or the verdict of a closed session.
#[derive(Clone, Copy, Debug, PartialEq, Eq)]
pub enum Phase {
    Commit,
    /// The reply to α.
    Answer,
    Reply,
    Closed(Verdict),
}

/// A card's session. A closed one has no terms, no secret and the count 0.
#[derive(Clone, Debug, PartialEq, Eq)]
pub struct Card {
    pub phase: Phase,
    pub terms: Option<Terms>,
    /// How many rounds are over.
    pub round: u8,
    pub s: Vec<u8>,
    /// From a round's commitments to its reply.
    pub held: Option<Held>,
}

/// What the card holds of a round.
#[derive(Clone, Debug, PartialEq, Eq)]
pub struct Held {
    /// r0, t0, e0 and a ρ for each commitment.
    pub lent: Vec<u8>,
    /// The reply to each challenge. They are made with the commitments, since no system is lent to
    /// a reply.
    pub replies: Vec<Vec<u8>>,
}

/// The session after a call, and the call's number.
pub type Answer = (Card, u8);

impl Held {
    fn new(system: &System, scheme: Scheme, s: &[u8], lent: &[u8]) -> Held {
        let challenges = scheme.challenges();
        let replies = challenges.map(|challenge| rounds::reply(system, scheme, s, lent, challenge));
        Held {
            lent: lent.to_vec(),
            replies: replies.collect(),
        }
    }
}

impl Card {
    /// Opens a session of N rounds. A refused opening gives a closed one.
    pub fn open(system: &[u8], scheme: u8, rounds: u8, v: &[u8], s: &[u8]) -> Answer {
        let opened = Card::try_open(system, scheme, rounds, v, s);
        answered(Card::closed(), opened)
    }

    /// The commitments of a round into `out`, from the lent r0, t0, e0 and ρ.
    pub fn commit(self, system: &[u8], lent: &[u8], out: &mut [u8]) -> Answer {
        let committed = self.try_commit(system, lent, out);
        answered(self, committed)
    }

    /// t1 and e1 for α into `out`, in five passes.
    pub fn answer(self, system: &[u8], alpha: u8, out: &mut [u8]) -> Answer {
        let replied = self.try_answer(system, alpha, out);
        answered(self, replied)
    }

    /// The reply to a challenge into `out`. It ends the round.
    pub fn reply(self, challenge: u8, out: &mut [u8]) -> Answer {
        let replied = self.try_reply(challenge, out);
        answered(self, replied)
    }

    /// After round N, and after a refused opening.
    fn closed() -> Card {
        Card {
            phase: Phase::Closed(Verdict::None),
            terms: None,
            round: 0,
            s: Vec::new(),
            held: None,
        }
    }

    fn try_open(
        system: &[u8],
        scheme: u8,
        rounds: u8,
        v: &[u8],
        s: &[u8],
    ) -> Result<Card, Refusal> {
        let system = System::read(system)?;
        let terms = Terms::of(&system, scheme, rounds)?;
        check_length(v, terms.size.m)?;
        check_length(s, terms.size.n)?;
        terms.check_elements(v)?;
        terms.check_elements(s)?;
        unless(evaluate(&system, s) == v, Refusal::Key)?;
        Ok(Card {
            phase: Phase::Commit,
            terms: Some(terms),
            round: 0,
            s: s.to_vec(),
            held: None,
        })
    }

    fn try_commit(&self, system: &[u8], lent: &[u8], out: &mut [u8]) -> Result<Card, Refusal> {
        let terms = due(self.terms, self.phase, Phase::Commit)?;
        let Terms { scheme, size, .. } = terms;
        let system = terms.system(system)?;
        check_length(lent, scheme.lent_length(size))?;
        check_length(out, scheme.commitments_length())?;
        terms.check_elements(&lent[..2 * size.n + size.m])?;
        out.copy_from_slice(&rounds::commit(&system, scheme, &self.s, lent));
        Ok(Card {
            phase: match scheme {
                Scheme::ThreePass => Phase::Reply,
                Scheme::FivePass => Phase::Answer,
            },
            held: Some(Held::new(&system, scheme, &self.s, lent)),
            ..self.clone()
        })
    }

    fn try_answer(&self, system: &[u8], alpha: u8, out: &mut [u8]) -> Result<Card, Refusal> {
        let terms = due(self.terms, self.phase, Phase::Answer)?;
        let system = terms.system(system)?;
        check_length(out, terms.answer_length())?;
        terms.check_elements(&[alpha])?;
        out.copy_from_slice(&rounds::answer(&system, alpha, &self.held().lent));
        Ok(Card {
            phase: Phase::Reply,
            ..self.clone()
        })
    }

    fn try_reply(&self, challenge: u8, out: &mut [u8]) -> Result<Card, Refusal> {
        let terms = due(self.terms, self.phase, Phase::Reply)?;
        check_length(out, terms.scheme.reply_length(terms.size))?;
        terms.check_challenge(challenge)?;
        out.copy_from_slice(&self.held().replies[usize::from(challenge)]);
        Ok(self.after_round(terms))
    }

    /// What is held of the round that the card has committed to.
    fn held(&self) -> &Held {
        self.held.as_ref().expect("a round that has begun")
    }

    /// The next round's session, or after round N a closed one. Nothing is held of the round.
    fn after_round(&self, terms: Terms) -> Card {
        let over = self.round + 1;
        if over == terms.rounds {
            return Card::closed();
        }
        Card {
            phase: Phase::Commit,
            round: over,
            held: None,
            ..self.clone()
        }
    }
}
