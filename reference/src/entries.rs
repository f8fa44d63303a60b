//! The engine's entries as the outside sees them: numbers, slices and refusals.
//!
//! Document 01, "Refused because of the state", has their order: the system first, then the
//! arguments left to right, all 1, all 2, all 3, then 4. Outputs count as arguments with an exact
//! length. A refused call leaves its outputs unchanged. `record::read`, `report`, `audit` and the
//! calls for books have orders of their own.

use crate::book::{self, Book, Head, HEAD};
use crate::label::{Label, LABEL};
use crate::map;
use crate::record::{self, Header, Layout, BODIES};
use crate::refusal::{number, unless, Refusal};
use crate::report;
use crate::scheme::Scheme;
use crate::sha256::{sha256, DIGEST};
use crate::simulator::{self, Simulation};
use crate::system::System;
use crate::vector::all_elements;

/// The longest message that SHA-256 takes here.
pub const LONGEST_MESSAGE: usize = 65_535;

/// What a lookup answers if no card has the label.
pub const ABSENT: u8 = 255;

/// A key by value: m bytes, and zeros.
pub const KEY: usize = 96;

/// Is this a well-formed system? 0 if it is.
pub fn check(system: &[u8]) -> u8 {
    number(System::read(system).map(|_| ()))
}

/// F(x) into `out`.
pub fn evaluate(system: &[u8], x: &[u8], out: &mut [u8]) -> u8 {
    number(try_evaluate(system, x, out))
}

/// G(x,y) into `out`.
pub fn polar(system: &[u8], x: &[u8], y: &[u8], out: &mut [u8]) -> u8 {
    number(try_polar(system, x, y, out))
}

/// The message's digest into `out`.
pub fn digest(message: &[u8], out: &mut [u8]) -> u8 {
    number(try_digest(message, out))
}

/// The arguments of `simulate`, in their order. `unanswered` is Ch*, the challenge that is not answered.
pub struct Simulate<'a> {
    pub system: &'a [u8],
    pub v: &'a [u8],
    pub unanswered: u8,
    pub challenge: u8,
    pub lent: &'a [u8],
    pub commitments: &'a mut [u8],
    pub reply: &'a mut [u8],
}

/// A simulated three-pass round's commitments and its reply to the challenge.
pub fn simulate(arguments: Simulate) -> u8 {
    number(try_simulate(arguments))
}

/// The arguments of `write`, in their order. `header` is scheme, q, n, m, N.
pub struct Write<'a> {
    pub header: [u8; 5],
    pub key: &'a [u8],
    pub commitments: &'a [u8],
    pub exchanges: &'a [u8],
    pub out: &'a mut [u8],
}

/// The record of all N rounds into `out`.
pub fn write(arguments: Write) -> u8 {
    number(try_write(arguments))
}

/// Where a record's bodies are, into `out`: its header, then offset and length of key, commitments
/// and exchanges, 4 bytes each, the lowest first.
pub fn read(record: &[u8], out: &mut [u8; BODIES]) -> u8 {
    number(try_read(record, out))
}

/// What the report program prints for its standard input, a system and then a record.
pub fn report(input: &[u8]) -> String {
    report::report(input)
}

/// Is this a well-formed book? Its count, q, n, m as they stand there into `out`.
pub fn read_book(book: &[u8], out: &mut [u8; HEAD]) -> u8 {
    number(try_read_book(book, out))
}

/// The arguments of `write_book`, in their order. `numbers` is q, n, m.
pub struct WriteBook<'a> {
    pub count: u32,
    pub numbers: [u8; 3],
    pub labels: &'a [u8],
    pub keys: &'a [u8],
    pub out: &'a mut [u8],
}

/// The book of all labels and keys into `out`.
pub fn write_book(arguments: WriteBook) -> u8 {
    number(try_write_book(arguments))
}

/// The key of the card with this label into `out`; `ABSENT` if no card has it.
pub fn look_up(book: &[u8], label: &[u8], out: &mut [u8; KEY]) -> u8 {
    try_look_up(book, label, out).unwrap_or_else(Refusal::number)
}

fn try_evaluate(system: &[u8], x: &[u8], out: &mut [u8]) -> Result<(), Refusal> {
    let system = System::read(system)?;
    unless(x.len() == system.n, Refusal::Length)?;
    unless(out.len() == system.m(), Refusal::Length)?;
    unless(all_elements(system.field, x), Refusal::Element)?;
    out.copy_from_slice(&map::evaluate(&system, x));
    Ok(())
}

fn try_polar(system: &[u8], x: &[u8], y: &[u8], out: &mut [u8]) -> Result<(), Refusal> {
    let system = System::read(system)?;
    unless(x.len() == system.n, Refusal::Length)?;
    unless(y.len() == system.n, Refusal::Length)?;
    unless(out.len() == system.m(), Refusal::Length)?;
    unless(all_elements(system.field, x), Refusal::Element)?;
    unless(all_elements(system.field, y), Refusal::Element)?;
    out.copy_from_slice(&map::polar(&system, x, y));
    Ok(())
}

fn try_digest(message: &[u8], out: &mut [u8]) -> Result<(), Refusal> {
    unless(message.len() <= LONGEST_MESSAGE, Refusal::Length)?;
    unless(out.len() == DIGEST, Refusal::Length)?;
    out.copy_from_slice(&sha256(message));
    Ok(())
}

fn try_simulate(arguments: Simulate) -> Result<(), Refusal> {
    let Simulate {
        system,
        v,
        unanswered,
        challenge,
        lent,
        commitments,
        reply,
    } = arguments;
    let scheme = Scheme::ThreePass;
    let system = System::read(system)?;
    let reply_length = scheme.reply_length(system.dimensions());
    unless(v.len() == system.m(), Refusal::Length)?;
    unless(
        lent.len() == simulator::lent_length(&system),
        Refusal::Length,
    )?;
    unless(
        commitments.len() == scheme.commitments_length(),
        Refusal::Length,
    )?;
    unless(reply.len() == reply_length, Refusal::Length)?;
    let vectors = &lent[..simulator::lent_elements(&system)];
    unless(all_elements(system.field, v), Refusal::Element)?;
    unless(all_elements(system.field, vectors), Refusal::Element)?;
    unless(
        scheme.challenges().contains(&unanswered),
        Refusal::Challenge,
    )?;
    unless(scheme.challenges().contains(&challenge), Refusal::Challenge)?;
    unless(challenge != unanswered, Refusal::Challenge)?;
    let simulation = Simulation::new(&system, v, unanswered, lent);
    commitments.copy_from_slice(&simulation.commitments());
    reply.copy_from_slice(&simulation.reply(challenge));
    Ok(())
}

fn try_write(arguments: Write) -> Result<(), Refusal> {
    let Write {
        header,
        key,
        commitments,
        exchanges,
        out,
    } = arguments;
    let layout = Layout::of(Header::of_bytes(header)?);
    let lengths = [key.len(), commitments.len(), exchanges.len()];
    let bodies = [layout.key, layout.commitments, layout.exchanges];
    unless(lengths == bodies.map(|body| body.length), Refusal::Length)?;
    unless(out.len() == layout.length(), Refusal::Length)?;
    let faults = layout.header.faults(key, exchanges);
    unless(!faults.contains(&Refusal::Element), Refusal::Element)?;
    unless(!faults.contains(&Refusal::Challenge), Refusal::Challenge)?;
    out.copy_from_slice(&record::write(layout, key, commitments, exchanges));
    Ok(())
}

fn try_read(record: &[u8], out: &mut [u8; BODIES]) -> Result<(), Refusal> {
    let layout = record::read(record)?;
    out.copy_from_slice(&layout.front());
    Ok(())
}

fn try_read_book(book: &[u8], out: &mut [u8; HEAD]) -> Result<(), Refusal> {
    Book::read(book)?;
    out.copy_from_slice(&book[..HEAD]);
    Ok(())
}

/// Refusals in order: 6 for the count, 1, 2 for a slice, 12 or 13 for the first label at fault, 3.
fn try_write_book(arguments: WriteBook) -> Result<(), Refusal> {
    let WriteBook {
        count,
        numbers,
        labels,
        keys,
        out,
    } = arguments;
    let head = Head::of(count, numbers)?;
    unless(labels.len() == head.count * LABEL, Refusal::Length)?;
    unless(keys.len() == head.count * head.size.m, Refusal::Length)?;
    unless(out.len() == head.length(), Refusal::Length)?;
    book::rising(labels.chunks(LABEL))?;
    unless(all_elements(head.size.field, keys), Refusal::Element)?;
    out.copy_from_slice(&book::write(numbers, labels, keys));
    Ok(())
}

/// 0 or `ABSENT`. Refusals in order: those of the book, 2 for the label, 12.
fn try_look_up(book: &[u8], label: &[u8], out: &mut [u8; KEY]) -> Result<u8, Refusal> {
    let book = Book::read(book)?;
    let label = Label::of_bytes(label)?;
    let Some(key) = book.key(label) else {
        return Ok(ABSENT);
    };
    let (start, rest) = out.split_at_mut(key.len());
    start.copy_from_slice(key);
    rest.fill(0);
    Ok(0)
}
