//! The functions as C has them: each answers a number and writes to outputs that are lent. Where it
//! refuses, no byte of an output changes.
//!
//! Every call below hands over slices by their own pointers and lengths. A slice of Rust's has what
//! canvasfox.h asks of one: its pointer is never null, its bytes can be read, and an output, which is a
//! `&mut`, overlaps no other slice and is reached by nothing else during the call.

extern "C" {
    fn canvasfox_sha256(m: *const u8, m_len: usize, digest: *mut u8, digest_len: usize) -> u8;
    fn canvasfox_system_check(system: *const u8, system_len: usize) -> u8;
    fn canvasfox_evaluate(
        system: *const u8,
        system_len: usize,
        x: *const u8,
        x_len: usize,
        out: *mut u8,
        out_len: usize,
    ) -> u8;
    fn canvasfox_polar(
        system: *const u8,
        system_len: usize,
        x: *const u8,
        x_len: usize,
        y: *const u8,
        y_len: usize,
        out: *mut u8,
        out_len: usize,
    ) -> u8;
    fn canvasfox_simulate(
        system: *const u8,
        system_len: usize,
        v: *const u8,
        v_len: usize,
        unanswered: u8,
        challenge: u8,
        lent: *const u8,
        lent_len: usize,
        commitments: *mut u8,
        commitments_len: usize,
        reply: *mut u8,
        reply_len: usize,
    ) -> u8;
    fn canvasfox_record_read(
        record: *const u8,
        record_len: usize,
        fields: *mut u8,
        fields_len: usize,
    ) -> u8;
    fn canvasfox_report(
        input: *const u8,
        input_len: usize,
        text: *mut u8,
        text_len: usize,
    ) -> usize;
    fn canvasfox_book_write(
        count: u32,
        q: u8,
        n: u8,
        m: u8,
        labels: *const u8,
        labels_len: usize,
        keys: *const u8,
        keys_len: usize,
        book: *mut u8,
        book_len: usize,
    ) -> u8;
    fn canvasfox_book_read(
        book: *const u8,
        book_len: usize,
        fields: *mut u8,
        fields_len: usize,
    ) -> u8;
    fn canvasfox_book_lookup(
        book: *const u8,
        book_len: usize,
        label: *const u8,
        label_len: usize,
        key: *mut u8,
        key_len: usize,
    ) -> u8;
    fn canvasfox_audit_three(
        system: *const u8,
        system_len: usize,
        a: *const u8,
        a_len: usize,
        b: *const u8,
        b_len: usize,
        c: *const u8,
        c_len: usize,
        finding: *mut u8,
        finding_len: usize,
    ) -> u32;
    fn canvasfox_audit_five(
        system: *const u8,
        system_len: usize,
        a: *const u8,
        a_len: usize,
        b: *const u8,
        b_len: usize,
        c: *const u8,
        c_len: usize,
        d: *const u8,
        d_len: usize,
        finding: *mut u8,
        finding_len: usize,
    ) -> u32;
}

/// The SHA-256 digest of a message, to 32 bytes.
pub fn sha256(message: &[u8], digest: &mut [u8]) -> u8 {
    // SAFETY: slices by their own pointers and lengths, as above.
    unsafe {
        canvasfox_sha256(
            message.as_ptr(),
            message.len(),
            digest.as_mut_ptr(),
            digest.len(),
        )
    }
}

/// Whether a system is well-formed.
pub fn system_check(system: &[u8]) -> u8 {
    // SAFETY: a slice by its own pointer and length, as above.
    unsafe { canvasfox_system_check(system.as_ptr(), system.len()) }
}

/// F(x), to m bytes.
pub fn evaluate(system: &[u8], x: &[u8], out: &mut [u8]) -> u8 {
    // SAFETY: slices by their own pointers and lengths, as above.
    unsafe {
        canvasfox_evaluate(
            system.as_ptr(),
            system.len(),
            x.as_ptr(),
            x.len(),
            out.as_mut_ptr(),
            out.len(),
        )
    }
}

/// G(x, y), to m bytes.
pub fn polar(system: &[u8], x: &[u8], y: &[u8], out: &mut [u8]) -> u8 {
    // SAFETY: slices by their own pointers and lengths, as above.
    unsafe {
        canvasfox_polar(
            system.as_ptr(),
            system.len(),
            x.as_ptr(),
            x.len(),
            y.as_ptr(),
            y.len(),
            out.as_mut_ptr(),
            out.len(),
        )
    }
}

/// A simulated round's commitments, to 96 bytes, and its reply, to 2n + m + 64.
pub fn simulate(
    system: &[u8],
    v: &[u8],
    unanswered: u8,
    challenge: u8,
    lent: &[u8],
    commitments: &mut [u8],
    reply: &mut [u8],
) -> u8 {
    // SAFETY: slices by their own pointers and lengths, as above.
    unsafe {
        canvasfox_simulate(
            system.as_ptr(),
            system.len(),
            v.as_ptr(),
            v.len(),
            unanswered,
            challenge,
            lent.as_ptr(),
            lent.len(),
            commitments.as_mut_ptr(),
            commitments.len(),
            reply.as_mut_ptr(),
            reply.len(),
        )
    }
}

/// A record's header and where its bodies stand, to 30 bytes: edition, scheme, q, n, m, N, then offset
/// and length of key, commitments and exchanges, four bytes each, the lowest first.
pub fn record_read(record: &[u8], fields: &mut [u8]) -> u8 {
    // SAFETY: slices by their own pointers and lengths, as above.
    unsafe {
        canvasfox_record_read(
            record.as_ptr(),
            record.len(),
            fields.as_mut_ptr(),
            fields.len(),
        )
    }
}

/// The report on a system with a record behind it, to the front of 8,192 bytes; the text's length. A
/// buffer of another length stays as it is, and the answer is 0.
pub fn report(input: &[u8], text: &mut [u8]) -> usize {
    // SAFETY: slices by their own pointers and lengths, as above.
    unsafe { canvasfox_report(input.as_ptr(), input.len(), text.as_mut_ptr(), text.len()) }
}

/// The audit of three records of scheme 3, to 752 bytes, laid out as canvasfox.h says. The answer is
/// the refusal's number, the record and the round, lowest byte first.
pub fn audit_three(system: &[u8], a: &[u8], b: &[u8], c: &[u8], finding: &mut [u8]) -> u32 {
    // SAFETY: slices by their own pointers and lengths, as above.
    unsafe {
        canvasfox_audit_three(
            system.as_ptr(),
            system.len(),
            a.as_ptr(),
            a.len(),
            b.as_ptr(),
            b.len(),
            c.as_ptr(),
            c.len(),
            finding.as_mut_ptr(),
            finding.len(),
        )
    }
}

/// The same of four records of scheme 5.
pub fn audit_five(
    system: &[u8],
    a: &[u8],
    b: &[u8],
    c: &[u8],
    d: &[u8],
    finding: &mut [u8],
) -> u32 {
    // SAFETY: slices by their own pointers and lengths, as above.
    unsafe {
        canvasfox_audit_five(
            system.as_ptr(),
            system.len(),
            a.as_ptr(),
            a.len(),
            b.as_ptr(),
            b.len(),
            c.as_ptr(),
            c.len(),
            d.as_ptr(),
            d.len(),
            finding.as_mut_ptr(),
            finding.len(),
        )
    }
}

/// The key book of a delivery, to 7 + count * (14 + m) bytes. `labels` has 10 bytes a card and `keys` m,
/// the cards in order.
pub fn book_write(
    count: u32,
    [q, n, m]: [u8; 3],
    labels: &[u8],
    keys: &[u8],
    book: &mut [u8],
) -> u8 {
    // SAFETY: slices by their own pointers and lengths, as above.
    unsafe {
        canvasfox_book_write(
            count,
            q,
            n,
            m,
            labels.as_ptr(),
            labels.len(),
            keys.as_ptr(),
            keys.len(),
            book.as_mut_ptr(),
            book.len(),
        )
    }
}

/// A book's first seven bytes, to 7 bytes: its count, four bytes, the lowest first, then q, n and m.
pub fn book_read(book: &[u8], fields: &mut [u8]) -> u8 {
    // SAFETY: slices by their own pointers and lengths, as above.
    unsafe { canvasfox_book_read(book.as_ptr(), book.len(), fields.as_mut_ptr(), fields.len()) }
}

/// The key of the card with this label, which has 10 bytes, to 96 bytes, zero beyond m. The answer is
/// `ABSENT` where no card has it, and the key then stays.
pub fn book_lookup(book: &[u8], label: &[u8], key: &mut [u8]) -> u8 {
    // SAFETY: slices by their own pointers and lengths, as above.
    unsafe {
        canvasfox_book_lookup(
            book.as_ptr(),
            book.len(),
            label.as_ptr(),
            label.len(),
            key.as_mut_ptr(),
            key.len(),
        )
    }
}
