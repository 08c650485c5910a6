//! Safe Rust over the proved page store of document 01.
//!
//! A [`Store`] works on three areas that the caller lends or hands over, and keeps the record of
//! its open sessions ([`Desk`]) beside them. It comes from [`Store::format`], or from
//! [`Store::open`] once it was sealed. Who works in it is a [`Session`]; what is written is a
//! [`Row`] of 32 bytes. A refused call says why ([`Refusal`]) and leaves areas and desk as they
//! were, but for one mark: a session that lost a conflict ([`Refusal::WriterCommitted`]) can only
//! read and withdraw from then on. A reading lies where it was found: [`Store::read`] hands back a
//! part of the area and no copy.
//!
//! ```
//! # fn main() -> Result<(), chirimok::Refusal> {
//! use chirimok::Store;
//!
//! let (mut data, mut undo, mut status) = (vec![0; 8192], vec![0; 8192], vec![0; 8192]);
//! let mut store = Store::format(&mut data, &mut undo, &mut status)?;
//! let writer = store.begin()?;
//! let row = store.insert(writer, &[7; 32])?;
//! store.commit(writer)?;
//! store.seal()?;
//!
//! let mut store = Store::open(&mut data, &mut undo, &mut status)?;
//! let reader = store.begin()?;
//! assert_eq!(store.read(reader, row)?.body, &[7; 32]);
//! # Ok(())
//! # }
//! ```

#![deny(unsafe_code)]

mod desk;
// Not for users: the tests read what the library writes into the out array of a refused call.
#[doc(hidden)]
#[allow(unsafe_code)]
pub mod ffi;
pub mod limits;
mod numbers;
mod refusal;
mod store;

pub use desk::{Desk, OpenSession};
pub use numbers::{Row, Session};
pub use refusal::Refusal;
pub use store::{Reading, Store, Swept};
