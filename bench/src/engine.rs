//! The proved engine: the C interface by its Rust crate, and what that lacks by the functions of the crates `bench_entries` and
//! `bench_refused`. A slice is passed as its address and its length, one after the other.

pub use canvasfox::slices::{evaluate, polar, record_read, report, sha256, simulate, system_check};
use canvasfox::{slices, FINDING};

mod c {
    extern "C" {
        pub fn canvasfox_book_read(
            book: *const u8,
            book_len: usize,
            fields: *mut u8,
            fields_len: usize,
        ) -> u8;
        pub fn canvasfox_book_lookup(
            book: *const u8,
            book_len: usize,
            label: *const u8,
            label_len: usize,
            key: *mut u8,
            key_len: usize,
        ) -> u8;
        pub fn bench_write(
            scheme: u8,
            q: u8,
            n: u8,
            m: u8,
            rounds: u8,
            key: *const u8,
            key_len: usize,
            commitments: *const u8,
            commitments_len: usize,
            exchanges: *const u8,
            exchanges_len: usize,
            out: *mut u8,
            out_len: usize,
        ) -> u8;
        pub fn bench_judge(
            system: *const u8,
            system_len: usize,
            bytes: *const u8,
            bytes_len: usize,
            accepted: *mut u8,
        ) -> u8;
        pub fn bench_card(
            system: *const u8,
            system_len: usize,
            scheme: u8,
            v: *const u8,
            v_len: usize,
            s: *const u8,
            s_len: usize,
            lent: *const u8,
            lent_len: usize,
            alpha: u8,
            challenge: u8,
            commitments: *mut u8,
            commitments_len: usize,
            middle: *mut u8,
            middle_len: usize,
            reply: *mut u8,
            reply_len: usize,
        ) -> u8;
        pub fn bench_carrier(
            system: *const u8,
            system_len: usize,
            scheme: u8,
            v: *const u8,
            v_len: usize,
            commitments: *const u8,
            commitments_len: usize,
            alpha: u8,
            middle: *const u8,
            middle_len: usize,
            challenge: u8,
            reply: *const u8,
            reply_len: usize,
        ) -> bool;
        pub fn bench_commit(
            phase: u8,
            system: *const u8,
            system_len: usize,
            lent: *const u8,
            lent_len: usize,
            out: *mut u8,
            out_len: usize,
        ) -> u8;
        pub fn bench_answer_alpha(
            phase: u8,
            system: *const u8,
            system_len: usize,
            alpha: u8,
            out: *mut u8,
            out_len: usize,
        ) -> u8;
        pub fn bench_take_reply(
            phase: u8,
            system: *const u8,
            system_len: usize,
            reply: *const u8,
            reply_len: usize,
        ) -> u8;
    }
}

/// The reader of key books, which gives the first seven bytes: the refusal's number.
pub fn book_read(book: &[u8], fields: &mut [u8; 7]) -> u8 {
    unsafe { c::canvasfox_book_read(book.as_ptr(), book.len(), fields.as_mut_ptr(), fields.len()) }
}

/// The lookup in a key book: 0 with the key, 255 for an absent label, or the refusal's number.
pub fn book_lookup(book: &[u8], label: &[u8], key: &mut [u8; 96]) -> u8 {
    unsafe {
        c::canvasfox_book_lookup(
            book.as_ptr(),
            book.len(),
            label.as_ptr(),
            label.len(),
            key.as_mut_ptr(),
            key.len(),
        )
    }
}

/// The writer of records, of scheme, q, n, m and N: the refusal's number.
pub fn write(
    [scheme, q, n, m, rounds]: [u8; 5],
    key: &[u8],
    commitments: &[u8],
    exchanges: &[u8],
    out: &mut [u8],
) -> u8 {
    unsafe {
        c::bench_write(
            scheme,
            q,
            n,
            m,
            rounds,
            key.as_ptr(),
            key.len(),
            commitments.as_ptr(),
            commitments.len(),
            exchanges.as_ptr(),
            exchanges.len(),
            out.as_mut_ptr(),
            out.len(),
        )
    }
}

/// A whole record judged: the count of accepted rounds, or the refusal's number.
pub fn judge(system: &[u8], record: &[u8]) -> Result<u8, u8> {
    let mut accepted = 0;
    let refusal = unsafe {
        c::bench_judge(
            system.as_ptr(),
            system.len(),
            record.as_ptr(),
            record.len(),
            &mut accepted,
        )
    };
    if refusal == 0 {
        Ok(accepted)
    } else {
        Err(refusal)
    }
}

/// The secret that an audit of three passes finds, within the finding's bytes, which are lent; or the refusal's number, 0 for a
/// clash.
pub fn audit_three<'a>(
    system: &[u8],
    [a, b, c]: &[Vec<u8>; 3],
    finding: &'a mut [u8; FINDING],
) -> Result<&'a [u8], u8> {
    secret(slices::audit_three(system, a, b, c, finding), finding)
}

/// The same of five passes.
pub fn audit_five<'a>(
    system: &[u8],
    [a, b, c, d]: &[Vec<u8>; 4],
    finding: &'a mut [u8; FINDING],
) -> Result<&'a [u8], u8> {
    secret(slices::audit_five(system, a, b, c, d, finding), finding)
}

fn secret(answer: u32, finding: &[u8; FINDING]) -> Result<&[u8], u8> {
    let [number, ..] = answer.to_le_bytes();
    if number == 0 && finding[0] == 1 {
        Ok(&finding[4..100])
    } else {
        Err(number)
    }
}

/// What a round's two sides take and give.
pub struct Round<'a> {
    pub system: &'a [u8],
    pub scheme: u8,
    pub v: &'a [u8],
    pub alpha: u8,
    pub challenge: u8,
}

/// All calls of a card's session of one round: the refusal's number of the last.
pub fn card(
    round: &Round,
    s: &[u8],
    lent: &[u8],
    commitments: &mut [u8],
    middle: &mut [u8],
    reply: &mut [u8],
) -> u8 {
    unsafe {
        c::bench_card(
            round.system.as_ptr(),
            round.system.len(),
            round.scheme,
            round.v.as_ptr(),
            round.v.len(),
            s.as_ptr(),
            s.len(),
            lent.as_ptr(),
            lent.len(),
            round.alpha,
            round.challenge,
            commitments.as_mut_ptr(),
            commitments.len(),
            middle.as_mut_ptr(),
            middle.len(),
            reply.as_mut_ptr(),
            reply.len(),
        )
    }
}

/// All calls of a carrier's session of one round: whether it is accepted.
pub fn carrier(round: &Round, commitments: &[u8], middle: &[u8], reply: &[u8]) -> bool {
    unsafe {
        c::bench_carrier(
            round.system.as_ptr(),
            round.system.len(),
            round.scheme,
            round.v.as_ptr(),
            round.v.len(),
            commitments.as_ptr(),
            commitments.len(),
            round.alpha,
            middle.as_ptr(),
            middle.len(),
            round.challenge,
            reply.as_ptr(),
            reply.len(),
        )
    }
}

/// A card's commit in a phase: the refusal's number.
pub fn commit(phase: u8, system: &[u8], lent: &[u8], out: &mut [u8]) -> u8 {
    unsafe {
        c::bench_commit(
            phase,
            system.as_ptr(),
            system.len(),
            lent.as_ptr(),
            lent.len(),
            out.as_mut_ptr(),
            out.len(),
        )
    }
}

/// A card's answer to α in a phase: the refusal's number.
pub fn answer_alpha(phase: u8, system: &[u8], alpha: u8, out: &mut [u8]) -> u8 {
    unsafe {
        c::bench_answer_alpha(
            phase,
            system.as_ptr(),
            system.len(),
            alpha,
            out.as_mut_ptr(),
            out.len(),
        )
    }
}

/// A carrier's taking of a reply in a phase: the refusal's number.
pub fn take_reply(phase: u8, system: &[u8], reply: &[u8]) -> u8 {
    unsafe {
        c::bench_take_reply(
            phase,
            system.as_ptr(),
            system.len(),
            reply.as_ptr(),
            reply.len(),
        )
    }
}
