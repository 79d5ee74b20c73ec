//! SHA-1 and SHA-256 as FIPS 180-4 states them, the banks, entries, stores and
//! calls of document 01, and the messages on which the programs of this
//! project are compared.

pub mod bank;
pub mod calls;
pub mod entry;
pub mod limits;
pub mod messages;
pub mod octets;
pub mod random;
pub mod replay;
pub mod request;
pub mod service;
mod sha;
pub mod sha1;
pub mod sha256;
pub mod store;
