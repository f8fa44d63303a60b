//! Document 01, "Sessions": the carrier's end. Per round it takes the commitments, in five passes
//! sets α and takes t1 and e1, sets the challenge, and judges the reply that it takes.

use super::{answered, check_length, due, Terms, Verdict};
use crate::refusal::Refusal;
use crate::rounds::{accepts, Transcript};
use crate::scheme::Scheme;
use crate::system::System;

/// The call that is due, or the verdict of a closed session.
#[derive(Clone, Copy, Debug, PartialEq, Eq)]
pub enum Phase {
    TakeCommitments,
    SetAlpha,
    /// t1 and e1.
    TakeMiddle,
    SetChallenge,
    TakeReply,
    Closed(Verdict),
}

/// A carrier's session. A closed one has its verdict and its count, and nothing else.
#[derive(Clone, Debug, PartialEq, Eq)]
pub struct Carrier {
    pub phase: Phase,
    pub terms: Option<Terms>,
    /// How many rounds were accepted.
    pub accepted: u8,
    pub v: Vec<u8>,
    /// The round under way. Between rounds it is empty.
    pub round: Messages,
}

/// What has passed in a round before its reply.
#[derive(Clone, Debug, Default, PartialEq, Eq)]
pub struct Messages {
    pub commitments: Vec<u8>,
    /// Empty in three passes; in five α, then t1 and e1 once they are taken.
    pub middle: Vec<u8>,
    pub challenge: u8,
}

/// The session after a call, and the call's number.
pub type Answer = (Carrier, u8);

impl Messages {
    /// The whole round, with its reply.
    fn replied(&self, reply: &[u8]) -> Transcript {
        let Messages {
            commitments,
            middle,
            challenge,
        } = self.clone();
        Transcript {
            commitments,
            middle,
            challenge,
            reply: reply.to_vec(),
        }
    }
}

impl Carrier {
    /// Opens a session of N rounds. A refused opening gives a closed one.
    pub fn open(system: &[u8], scheme: u8, rounds: u8, v: &[u8]) -> Answer {
        let opened = Carrier::try_open(system, scheme, rounds, v);
        answered(Carrier::closed(Verdict::None, 0), opened)
    }

    /// Takes the commitments of a round.
    pub fn take_commitments(self, commitments: &[u8]) -> Answer {
        let taken = self.try_take_commitments(commitments);
        answered(self, taken)
    }

    /// Sets α, in five passes.
    pub fn set_alpha(self, alpha: u8) -> Answer {
        let set = self.try_set_alpha(alpha);
        answered(self, set)
    }

    /// Takes t1 then e1, in five passes.
    pub fn take_middle(self, answer: &[u8]) -> Answer {
        let taken = self.try_take_middle(answer);
        answered(self, taken)
    }

    /// Sets the challenge.
    pub fn set_challenge(self, challenge: u8) -> Answer {
        let set = self.try_set_challenge(challenge);
        answered(self, set)
    }

    /// Takes the reply, which ends the round. Is the round accepted? A refused reply is not.
    pub fn take_reply(self, system: &[u8], reply: &[u8]) -> (Answer, bool) {
        let judged = self.judge(system, reply);
        let accepted = judged == Ok(true);
        let after = judged.map(|accepted| self.after_round(accepted));
        (answered(self, after), accepted)
    }

    /// A closed session, which keeps the verdict and the count of accepted rounds.
    fn closed(verdict: Verdict, accepted: u8) -> Carrier {
        Carrier {
            phase: Phase::Closed(verdict),
            terms: None,
            accepted,
            v: Vec::new(),
            round: Messages::default(),
        }
    }

    fn try_open(system: &[u8], scheme: u8, rounds: u8, v: &[u8]) -> Result<Carrier, Refusal> {
        let system = System::read(system)?;
        let terms = Terms::of(&system, scheme, rounds)?;
        check_length(v, terms.size.m)?;
        terms.check_elements(v)?;
        Ok(Carrier {
            phase: Phase::TakeCommitments,
            terms: Some(terms),
            accepted: 0,
            v: v.to_vec(),
            round: Messages::default(),
        })
    }

    fn try_take_commitments(&self, commitments: &[u8]) -> Result<Carrier, Refusal> {
        let Terms { scheme, .. } = due(self.terms, self.phase, Phase::TakeCommitments)?;
        check_length(commitments, scheme.commitments_length())?;
        let next = match scheme {
            Scheme::ThreePass => Phase::SetChallenge,
            Scheme::FivePass => Phase::SetAlpha,
        };
        Ok(self.with(next, |round| round.commitments = commitments.to_vec()))
    }

    fn try_set_alpha(&self, alpha: u8) -> Result<Carrier, Refusal> {
        let terms = due(self.terms, self.phase, Phase::SetAlpha)?;
        terms.check_elements(&[alpha])?;
        Ok(self.with(Phase::TakeMiddle, |round| round.middle = vec![alpha]))
    }

    fn try_take_middle(&self, answer: &[u8]) -> Result<Carrier, Refusal> {
        let terms = due(self.terms, self.phase, Phase::TakeMiddle)?;
        check_length(answer, terms.answer_length())?;
        terms.check_elements(answer)?;
        Ok(self.with(Phase::SetChallenge, |round| round.middle.extend(answer)))
    }

    fn try_set_challenge(&self, challenge: u8) -> Result<Carrier, Refusal> {
        let terms = due(self.terms, self.phase, Phase::SetChallenge)?;
        terms.check_challenge(challenge)?;
        Ok(self.with(Phase::TakeReply, |round| round.challenge = challenge))
    }

    /// Is the round with this reply accepted?
    fn judge(&self, system: &[u8], reply: &[u8]) -> Result<bool, Refusal> {
        let terms = due(self.terms, self.phase, Phase::TakeReply)?;
        let Terms { scheme, size, .. } = terms;
        let system = terms.system(system)?;
        check_length(reply, scheme.reply_length(size))?;
        terms.check_elements(&reply[..scheme.reply_elements(size)])?;
        let round = self.round.replied(reply);
        Ok(accepts(&system, scheme, &self.v, &round))
    }

    /// The session with a message put in, and the call that is due next.
    fn with(&self, next: Phase, put: impl FnOnce(&mut Messages)) -> Carrier {
        let mut carrier = self.clone();
        carrier.phase = next;
        put(&mut carrier.round);
        carrier
    }

    /// The session after a round: closed by a rejected one and by the N-th accepted one.
    fn after_round(&self, accepted: bool) -> Carrier {
        if !accepted {
            return Carrier::closed(Verdict::Rejected, self.accepted);
        }
        let count = self.accepted + 1;
        if self.terms.is_some_and(|terms| terms.rounds == count) {
            return Carrier::closed(Verdict::Accepted, count);
        }
        Carrier {
            phase: Phase::TakeCommitments,
            accepted: count,
            round: Messages::default(),
            ..self.clone()
        }
    }
}
