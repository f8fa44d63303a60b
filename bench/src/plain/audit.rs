//! The audit of three records of scheme 3.

use super::judge::{add, Record, Round, Vectors};
use super::system::check;
use crate::by_order;

/// The secret, or the refusal's number; 0 for a clash.
pub fn audit_three(system: &[u8], records: &[Vec<u8>; 3]) -> Result<[u8; 96], u8> {
    check(system)?;
    let [a, b, c] = records;
    let records = [Record::read(a)?, Record::read(b)?, Record::read(c)?];
    records[0].fits(system)?;
    if records
        .iter()
        .any(|record| record.front != records[0].front)
    {
        return Err(7);
    }
    by_order!(system[0], search(system, &records))
}

/// Every round judged, then the first full set.
fn search<const Q: u32>(system: &[u8], records: &[Record; 3]) -> Result<[u8; 96], u8> {
    let key = records[0].key;
    let judged = |round: Round| round.accepted::<Q>(system, key);
    if !records.iter().all(|record| record.rounds().all(judged)) {
        return Err(8);
    }
    let [a, b, c] = records.map(|record| record.rounds());
    let mut rounds = a.zip(b).zip(c).map(|((a, b), c)| [a, b, c]);
    let full = rounds.find_map(in_order).ok_or(9)?;
    let opened = full.map(|round| round.opened::<Q>(system, key));
    for k in 0..3 {
        let mut openings = opened.iter().flatten().filter(|(of, _)| *of == k);
        let vectors = |opening: Option<&(u8, Vectors)>| opening.map(|(_, vectors)| *vectors);
        if vectors(openings.next()) != vectors(openings.next()) {
            return Err(0);
        }
    }
    let mut secret = [0; 96];
    let s = &mut secret[..full[0].x.len()];
    s.copy_from_slice(full[0].x);
    add::<Q>(s, full[1].x);
    Ok(secret)
}

/// The rounds by their challenges, where these are 0, 1 and 2.
fn in_order(mut rounds: [Round; 3]) -> Option<[Round; 3]> {
    rounds.sort_unstable_by_key(|round| round.challenge);
    (rounds.map(|round| round.challenge) == [0, 1, 2]).then_some(rounds)
}
