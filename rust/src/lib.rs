//! Does this profile let a step have this file?
//!
//! A [`Policy`] is a text in the AppArmor profile language that was read once.
//! It is asked with a [`Request`]: the name of a profile, a path, the asked
//! permissions and the owner mark. The [`Answer`] says what is granted, what
//! is recorded and which execute transition applies; a [`Refusal`] says why
//! and where the text or the request is refused. [`decide`] reads and asks in
//! one call, for a text that is asked but once.
//!
//! Any bytes may be given; nothing needs checking first. The work is done by
//! a proved library, a static archive that `build.rs` links. A request
//! allocates nothing but a target's bytes, and the library uses less than
//! 48 KiB of the caller's stack (measured on the largest texts).
//!
//! # Reading once, asking often
//!
//! ```
//! use sidluqethe::{Execute, Fallback, Kind, Mode, Perms, Policy, Refusal, Request};
//!
//! let policy = Policy::read(
//!     "@{RUN}=/runs/a/ /runs/b/
//! profile step {
//!   @{RUN}in/* r,
//!   owner @{RUN}out/** rw,
//!   audit deny /runs/*/out/lock w,
//!   /bin/cat ix,
//!   /bin/* px -> tool,
//! }
//! ",
//! )?;
//!
//! // Reading an input of this run.
//! let answer = policy.ask(&Request::new("step", "/runs/a/in/x", Perms::READ))?;
//! assert!(answer.grants(Perms::READ));
//! assert_eq!(answer.recorded, Perms::NONE);
//!
//! // Reading and writing the lock: writing is denied, and that is recorded.
//! let asked = Perms::READ | Perms::WRITE;
//! let lock = Request::new("step", "/runs/a/out/lock", asked).owner(true);
//! let answer = policy.ask(&lock)?;
//! assert_eq!(answer.granted, Perms::READ);
//! assert_eq!(answer.to_string(), "granted read; recorded write; execute not asked");
//!
//! // Starting a program names the transition; it is not followed.
//! let answer = policy.ask(&Request::new("step", "/bin/ls", Perms::EXECUTE))?;
//! let px = Mode { kind: Kind::Profile, fallback: Fallback::None, scrubs: false };
//! assert_eq!(answer.execute, Execute::ByMode(px));
//! assert_eq!(answer.target.as_deref(), Some(&b"tool"[..]));
//! # Ok::<(), Refusal>(())
//! ```
//!
//! # Which rules made the answer
//!
//! ```
//! use sidluqethe::{Match, Perms, Policy, Refusal, Request};
//!
//! let policy = Policy::read("profile step {\n  /data/** r,\n  deny /data/key r,\n}\n")?;
//! let request = Request::new("step", "/data/key", Perms::READ);
//! for (rule, how) in policy.matching(&request)? {
//!     let word = if rule.deny { "deny" } else { "allow" };
//!     let exactly = if how == Match::Exact { "exactly" } else { "not exactly" };
//!     println!("{}:{}: {word}, {exactly}: {}", rule.line, rule.column, rule.text.escape_ascii());
//! }
//! # assert_eq!(policy.matching(&request)?.len(), 2);
//! # Ok::<(), Refusal>(())
//! ```
//!
//! # Refusals
//!
//! ```
//! use sidluqethe::{decide, Perms, Reason, Request};
//!
//! let text = b"profile step {\n  /data/* r, /tmp/** rq,\n}\n";
//! let refusal = decide(text, &Request::new("step", "/tmp/x", Perms::READ)).unwrap_err();
//! let advice = match refusal.reason {
//!     Reason::BadPath => "give a whole path".into(),
//!     Reason::NoProfile => "give the name of a profile in the text".into(),
//!     reason => format!("line {}, column {}: {reason}", refusal.line, refusal.column),
//! };
//! assert_eq!(advice, "line 2, column 22: bad permissions");
//! assert_eq!(refusal.number(), 8);
//! ```

#![deny(unsafe_code, missing_docs)]

mod answer;
#[allow(unsafe_code)]
mod ffi;
mod mode;
mod perms;
mod policy;
mod refusal;
mod request;
mod rule;
mod table;

pub use answer::{Answer, Execute};
pub use mode::{Fallback, Kind, Mode};
pub use perms::{Perms, PermsError};
pub use policy::Policy;
pub use refusal::{Reason, Refusal};
pub use request::Request;
pub use rule::{Match, Rule};

/// Reads a text and judges one request by it.
///
/// The answers are those of [`Policy::read`] and [`Policy::ask`]. Where both
/// the text and the request are at fault, a text over 65,535 bytes comes
/// first, then the path, the asked set, the text's other faults and the
/// profile's name.
///
/// ```
/// use sidluqethe::{decide, Perms, Refusal, Request};
///
/// let request = Request::new("step", "/data/a.vcf", Perms::READ);
/// let answer = decide(b"profile step { /data/*.vcf r, }", &request)?;
/// assert!(answer.grants(Perms::READ));
/// # Ok::<(), Refusal>(())
/// ```
///
/// # Errors
///
/// A text, path, asked set or name that the rules refuse gives the reason,
/// and of a text the line and column.
pub fn decide(text: &[u8], request: &Request<'_>) -> Result<Answer, Refusal> {
    ffi::decide(text, request, answer::decode)
}

/// The version of this package, as `0.3.0`.
pub const fn version() -> &'static str {
    env!("CARGO_PKG_VERSION")
}

/// The version of the library that is linked: 10000 * major + 100 * minor +
/// patch.
pub fn library_version() -> u32 {
    ffi::version()
}
