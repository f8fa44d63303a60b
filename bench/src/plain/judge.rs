//! The judgement of a three-pass record: the system and every byte of the record checked, then each round by F and G in their
//! monomial form and two digests.

use super::map::{f, g};
use super::sha256::hash;
use super::system::{all_below, are_sizes, check};
use crate::by_order;

/// The bytes before the bodies.
const FRONT: usize = 30;

/// A well-formed record of scheme 3, taken apart.
#[derive(Clone, Copy)]
pub struct Record<'a> {
    /// All bytes before the exchanges.
    pub front: &'a [u8],
    pub key: &'a [u8],
    commitments: &'a [u8],
    exchanges: &'a [u8],
    n: usize,
    m: usize,
}

/// A round of it.
#[derive(Clone, Copy)]
pub struct Round<'a> {
    pub challenge: u8,
    pub x: &'a [u8],
    y: &'a [u8],
    z: &'a [u8],
    /// The two ρ.
    rhos: &'a [u8],
    commitments: &'a [u8],
}

impl<'a> Record<'a> {
    /// Reads a record; the refusal's number where it is not well-formed.
    pub fn read(bytes: &'a [u8]) -> Result<Record<'a>, u8> {
        if bytes.len() < FRONT || bytes[0] != 1 {
            return Err(6);
        }
        let [scheme, q, n, m, rounds] = bytes[1..6] else {
            return Err(6);
        };
        if scheme != 3 || !are_sizes(q, n, m) || rounds == 0 {
            return Err(1);
        }
        let (n, m, rounds) = (usize::from(n), usize::from(m), usize::from(rounds));
        let lengths = [m, rounds * 96, rounds * exchange_length(n, m)];
        let mut offset = FRONT;
        for (length, entry) in lengths.iter().zip(bytes[6..FRONT].chunks_exact(8)) {
            let (at, size) = entry.split_at(4);
            if at != (offset as u32).to_le_bytes() || size != (*length as u32).to_le_bytes() {
                return Err(6);
            }
            offset += length;
        }
        if bytes.len() != offset {
            return Err(6);
        }
        let (front, exchanges) = bytes.split_at(FRONT + lengths[0] + lengths[1]);
        let (key, commitments) = front[FRONT..].split_at(m);
        if !all_below(q, key) {
            return Err(3);
        }
        for exchange in exchanges.chunks_exact(exchange_length(n, m)) {
            if exchange[0] > 2 {
                return Err(4);
            }
            if !all_below(q, &exchange[1..1 + 2 * n + m]) {
                return Err(3);
            }
        }
        Ok(Record {
            front,
            key,
            commitments,
            exchanges,
            n,
            m,
        })
    }

    /// 7 where the system is not of the record's q, n and m.
    pub fn fits(&self, system: &[u8]) -> Result<(), u8> {
        if system[..3] == self.front[2..5] {
            Ok(())
        } else {
            Err(7)
        }
    }

    /// The rounds.
    pub fn rounds(&self) -> impl Iterator<Item = Round<'a>> {
        let (n, m) = (self.n, self.m);
        let exchanges = self.exchanges.chunks_exact(exchange_length(n, m));
        let both = exchanges.zip(self.commitments.chunks_exact(96));
        both.map(move |(exchange, commitments)| {
            let (x, rest) = exchange[1..].split_at(n);
            let (y, rest) = rest.split_at(n);
            let (z, rhos) = rest.split_at(m);
            Round {
                challenge: exchange[0],
                x,
                y,
                z,
                rhos,
                commitments,
            }
        })
    }
}

/// The bytes of a challenge and its reply.
fn exchange_length(n: usize, m: usize) -> usize {
    1 + 2 * n + m + 64
}

/// Two vectors that a reply opens a commitment with, one behind the other.
#[derive(Clone, Copy, PartialEq, Eq)]
pub struct Vectors {
    bytes: [u8; 192],
    len: usize,
}

impl Vectors {
    fn of(a: &[u8], b: &[u8]) -> Vectors {
        let mut bytes = [0; 192];
        bytes[..a.len()].copy_from_slice(a);
        bytes[a.len()..a.len() + b.len()].copy_from_slice(b);
        Vectors {
            bytes,
            len: a.len() + b.len(),
        }
    }

    /// Do they open commitment k?
    fn open(&self, k: u8, rho: &[u8], commitments: &[u8]) -> bool {
        let mut string = [0; 226];
        string[0] = 3;
        string[1] = k;
        string[2..34].copy_from_slice(rho);
        string[34..34 + self.len].copy_from_slice(&self.bytes[..self.len]);
        let at = 32 * usize::from(k);
        hash(&string[..34 + self.len]) == commitments[at..at + 32]
    }
}

impl Round<'_> {
    /// What the reply opens: the number of each of the two commitments, and the vectors.
    pub fn opened<const Q: u32>(&self, system: &[u8], v: &[u8]) -> [(u8, Vectors); 2] {
        let (x, y, z) = (self.x, self.y, self.z);
        let (n, m) = (x.len(), z.len());
        let mut first = [0; 96];
        let mut second = [0; 96];
        match self.challenge {
            0 => {
                let t0 = &mut first[..n];
                t0.copy_from_slice(x);
                subtract::<Q>(t0, y);
                let e0 = &mut second[..m];
                f::<Q>(system, x, e0);
                subtract::<Q>(e0, z);
                [(1, Vectors::of(t0, e0)), (2, Vectors::of(y, z))]
            }
            1 => {
                let mask = &mut first[..m];
                mask.copy_from_slice(v);
                let term = &mut second[..m];
                f::<Q>(system, x, term);
                subtract::<Q>(mask, term);
                g::<Q>(system, y, x, term);
                subtract::<Q>(mask, term);
                subtract::<Q>(mask, z);
                [(0, Vectors::of(x, mask)), (2, Vectors::of(y, z))]
            }
            _ => {
                let mask = &mut first[..m];
                g::<Q>(system, y, x, mask);
                add::<Q>(mask, z);
                [(0, Vectors::of(x, mask)), (1, Vectors::of(y, z))]
            }
        }
    }

    /// Is the round accepted?
    pub fn accepted<const Q: u32>(&self, system: &[u8], v: &[u8]) -> bool {
        let [(k, first), (l, second)] = self.opened::<Q>(system, v);
        let (rho, other) = self.rhos.split_at(32);
        first.open(k, rho, self.commitments) && second.open(l, other, self.commitments)
    }
}

pub fn add<const Q: u32>(x: &mut [u8], y: &[u8]) {
    for (a, &b) in x.iter_mut().zip(y) {
        *a = ((u32::from(*a) + u32::from(b)) % Q) as u8;
    }
}

fn subtract<const Q: u32>(x: &mut [u8], y: &[u8]) {
    for (a, &b) in x.iter_mut().zip(y) {
        *a = ((u32::from(*a) + Q - u32::from(b)) % Q) as u8;
    }
}

/// The count of accepted rounds, or the refusal's number.
pub fn judge(system: &[u8], record: &[u8]) -> Result<u8, u8> {
    check(system)?;
    let record = Record::read(record)?;
    record.fits(system)?;
    Ok(by_order!(system[0], accepted_rounds(system, &record)))
}

fn accepted_rounds<const Q: u32>(system: &[u8], record: &Record) -> u8 {
    let accepted = record
        .rounds()
        .filter(|round| round.accepted::<Q>(system, record.key));
    accepted.count() as u8
}
