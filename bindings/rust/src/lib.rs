//! Robinlocker: a datatype solver whose every answer line is a theorem.
//!
//! A [`Session`] takes one line at a time and answers it with an [`Answer`]. [`Line`] writes lines, so that no caller formats text.
//! [`run`] answers a whole script. What lines, answers and questions mean is said in the repository's README.md.
//!
//! ```
//! use robinlocker::{Answer, Leaf, Line, Session, Var};
//!
//! let mut session = Session::new();
//! // Numbers with a zero and a successor, and a constant: symbols 0 zero, 2 successor, 5 the constant.
//! session.send(&Line::Sort { datatype: true });
//! session.send(&Line::Ctor { sort: 1, fields: vec![] });
//! session.send(&Line::Ctor { sort: 1, fields: vec![1] });
//! session.send(&Line::Fun { result: 1, arguments: vec![] });
//! session.send(&Line::Close);
//!
//! // The constant is its own successor: no finite tree is.
//! session.send(&Line::Term { symbol: 5, arguments: vec![] });
//! session.send(&Line::Term { symbol: 2, arguments: vec![0] });
//! assert_eq!(session.send(&Line::Eq(0, 1)), Answer::Term(2));
//! session.send(&Line::Var { var: Var(0), atom: 2 });
//! let itself = Var(0).positive();
//! assert_eq!(session.send(&Line::Equate(itself)), Answer::Ok);
//! assert_eq!(session.send(&Line::Check { full: true }), Answer::Conflict(vec![Leaf::Asserted(itself)]));
//! ```
//!
//! The library is linked statically: the file that `ROBINLOCKER_LIBRARY` names at build time, else `target/staticlib/libsession.a`
//! of the repository, which `tools/library` makes. `examples/search` is a search core over this crate.
//!
//! What the C interface can be asked wrongly cannot be asked here: a session's memory is its own, of the right size and open from
//! the start; every line is lent as much output as the longest answer takes; and closing a session takes it away.
//!
//! ```compile_fail,E0382
//! let mut session = robinlocker::Session::new();
//! session.close();
//! session.line(b"check=1");
//! ```

#![deny(unsafe_code)]
#![warn(missing_docs)]

mod answer;
#[allow(unsafe_code)]
mod ffi;
mod ids;
mod limits;
mod line;
mod question;
mod run;
mod session;
mod text;

pub use answer::{Answer, Leaf, NotAnAnswer, Phase};
pub use ids::{Lit, Var};
pub use limits::{limits, version, Limits, Version};
pub use line::{Line, NotALine};
pub use question::Question;
pub use run::{run, run_with_output, Ending, Run, RUN_OUTPUT_BYTES};
pub use session::Session;
