//! TETRA "barring of outgoing calls" (BOC) in safe Rust, written from the scope (document 01), its changes
//! (document 02) and the codes of the standard that it names (EN 300 392-12-18), not from the library's
//! code. Records, requests and keys are the words that `include/boc.h` lists.
//!
//! It is the test oracle of the library's C boundary and the speed anchor of its benchmarks, so each
//! call has the shape of its C twin: slices in, a lent slice out, a refusal or a value as the answer.
//! No call uses the heap or recurses, and a refused call leaves every lent byte as it was.
//!
//! | module | what it has | section of the scope |
//! |---|---|---|
//! | `layout` | the words of records, requests and keys | |
//! | `words`, `bits` | runs of words; bit cursors, several bits at a time | |
//! | `codes` | which elements a PDU has, and their codes | "The two PDUs"; document 02, 2026-01 and 2026-06 |
//! | `refusal` | the refusals, and where a call stopped | "Refusal numbers" |
//! | `pdu` | the grammar of the PDUs, and reading | "The two PDUs", "Site sheet" |
//! | `write` | which records are legal, and writing | "The two PDUs", "Site sheet" |
//! | `archive` | check, empty, capture, its entries, restore | "The archive"; document 02, 2026-05 |
//! | `reload` | a held part as a DEFINE or a DEFINE EXTERNAL | document 02, 2026-01 and 2026-06 |
//! | `barring` | requests and decisions | "The barring rule" |
//! | `contents` | the listing | "Profiles to try"; document 02, 2026-05 |
//! | `terminals` | +CTSP lines and the table of profiles | document 02, 2026-10 |
//! | `decimal` | numbers as text | |

#![no_std]
#![forbid(unsafe_code)]
#![warn(missing_docs)]

mod archive;
mod barring;
mod bits;
mod codes;
mod contents;
mod decimal;
pub mod layout;
mod pdu;
mod refusal;
mod reload;
mod terminals;
mod words;
mod write;

pub use archive::{capture, empty, entry, restore, Restored};
pub use barring::{decide, Decision};
pub use contents::contents;
pub use pdu::read;
pub use refusal::{Refusal, Refused};
pub use reload::{reload, reload_external};
pub use terminals::{terminal_line, terminal_reset, PLACES};
pub use write::write;
