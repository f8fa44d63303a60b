//! The vector files, read back by a reader of their own: every case is whole and answers as it
//! says; judges, readers, audits and lookups that are wrong in a known way are told.

mod answers;
mod audits;
mod books;
mod judges;
mod records;
mod reports;
mod sessions;
mod stored;
