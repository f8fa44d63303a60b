//! Calls of a session that are refused because of their input: right calls with faults put in.

use super::calls::SessionCall;
use super::instance::Shape;
use super::piece::Piece;
use crate::field::ORDERS;
use crate::scheme::Scheme;

/// A change that makes a call refused.
type Fault = Box<dyn Fn(&mut SessionCall)>;

/// The right call with each fault alone, and together with one of each later stage of document 01's
/// order, which the earlier one hides.
pub fn faulty(scheme: Scheme, right: &SessionCall, shape: Shape) -> Vec<SessionCall> {
    let stages = stages(scheme, right, shape);
    let mut calls = Vec::new();
    for (i, stage) in stages.iter().enumerate() {
        for fault in stage {
            let later = stages[i + 1..].iter().map(|stage| &stage[0]).rev();
            calls.push(changed(right, [fault].into_iter()));
            if i + 1 < stages.len() {
                calls.push(changed(right, later.chain([fault])));
            }
        }
    }
    calls
}

fn changed<'a>(right: &SessionCall, faults: impl Iterator<Item = &'a Fault>) -> SessionCall {
    let mut call = right.clone();
    faults.for_each(|fault| fault(&mut call));
    call
}

/// The faults of a call, stage by stage: the system, a slice's length, the output's length, an
/// element or the challenge.
fn stages(scheme: Scheme, call: &SessionCall, shape: Shape) -> Vec<Vec<Fault>> {
    let (n, m, q) = (shape.n(), shape.m(), shape.q);
    let replied = scheme.reply_elements(shape.dimensions());
    let alphas = || bytes([q, 255]);
    let challenges = || bytes([scheme.commitments(), 255]);
    match call {
        SessionCall::OpenCard { .. } | SessionCall::OpenCarrier { .. } => Vec::new(),
        SessionCall::Commit { .. } => {
            vec![systems(shape), lengths(), outs(), elements(2 * n + m, q)]
        }
        SessionCall::Answer { .. } => vec![systems(shape), outs(), alphas()],
        SessionCall::Reply { .. } => vec![outs(), challenges()],
        SessionCall::TakeCommitments(_) => vec![lengths()],
        SessionCall::SetAlpha(_) => vec![alphas()],
        SessionCall::TakeMiddle(_) => vec![lengths(), elements(n + m, q)],
        SessionCall::SetChallenge(_) => vec![challenges()],
        SessionCall::TakeReply { .. } => vec![systems(shape), lengths(), elements(replied, q)],
    }
}

/// Systems that are malformed, or that have another q, n or m.
fn systems(shape: Shape) -> Vec<Fault> {
    let Shape { q, n, m } = shape;
    let good = shape.system(&[1]);
    let length = good.length();
    let other_q = ORDERS.into_iter().find(|&order| order != q);
    let other = |number: u8| if number == 1 { 2 } else { number - 1 };
    let systems = [
        Piece::literal(&[q, n]),
        good.clone().patched(0, 4),
        good.clone().patched(1, 0),
        good.clone().patched(2, 97),
        good.part(0, length - 1),
        shape.system_of_length(&[1], length + 1),
        good.clone().patched(length - 1, q),
        Shape::new(other_q.expect("four orders"), n, m).system(&[1]),
        Shape::new(q, other(n), m).system(&[1]),
        Shape::new(q, n, other(m)).system(&[1]),
    ];
    let fault =
        |system: Piece| -> Fault { Box::new(move |call| *system_of(call) = system.clone()) };
    systems.into_iter().map(fault).collect()
}

/// The slice one byte too short, and one too long.
fn lengths() -> Vec<Fault> {
    let short: Fault = Box::new(|call| {
        slice_of(call).pop();
    });
    vec![short, Box::new(|call| slice_of(call).push(0))]
}

/// The output one byte too short, and one too long.
fn outs() -> Vec<Fault> {
    let short: Fault = Box::new(|call| *out_of(call) -= 1);
    vec![short, Box::new(|call| *out_of(call) += 1)]
}

/// No element at the first place and at the last of those that the slice begins with.
fn elements(count: usize, q: u8) -> Vec<Fault> {
    let fault = |(place, byte): (usize, u8)| -> Fault {
        Box::new(move |call| slice_of(call)[place] = byte)
    };
    [(0, q), (count - 1, 255)].map(fault).into()
}

/// α or the challenge.
fn bytes(values: [u8; 2]) -> Vec<Fault> {
    let fault = |value: u8| -> Fault { Box::new(move |call| *byte_of(call) = value) };
    values.map(fault).into()
}

fn system_of(call: &mut SessionCall) -> &mut Piece {
    match call {
        SessionCall::Commit { system, .. }
        | SessionCall::Answer { system, .. }
        | SessionCall::TakeReply { system, .. } => system,
        _ => panic!("a call with a system"),
    }
}

fn slice_of(call: &mut SessionCall) -> &mut Vec<u8> {
    match call {
        SessionCall::Commit { lent: slice, .. }
        | SessionCall::TakeCommitments(slice)
        | SessionCall::TakeMiddle(slice)
        | SessionCall::TakeReply { reply: slice, .. } => slice,
        _ => panic!("a call with a slice"),
    }
}

fn out_of(call: &mut SessionCall) -> &mut usize {
    match call {
        SessionCall::Commit { out, .. }
        | SessionCall::Answer { out, .. }
        | SessionCall::Reply { out, .. } => out,
        _ => panic!("a call with an output"),
    }
}

fn byte_of(call: &mut SessionCall) -> &mut u8 {
    match call {
        SessionCall::Answer { alpha: byte, .. }
        | SessionCall::Reply {
            challenge: byte, ..
        }
        | SessionCall::SetAlpha(byte)
        | SessionCall::SetChallenge(byte) => byte,
        _ => panic!("a call with α or a challenge"),
    }
}
