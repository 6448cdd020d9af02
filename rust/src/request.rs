//! What is asked.

use crate::Perms;

/// What is asked: may a step under this profile have this file?
///
/// Names and paths are bytes; a `str` does as well.
///
/// ```
/// use sidluqethe::{Perms, Request};
///
/// let request = Request::new("step", "/data/a.vcf", Perms::READ).owner(true);
/// assert_eq!(request.profile, b"step");
/// assert_eq!(request.path, b"/data/a.vcf");
/// assert!(request.owner);
///
/// let bytes: Vec<u8> = vec![b'/', 0xff];
/// let request = Request::new("step", &bytes, Perms::READ | Perms::WRITE);
/// assert_eq!(request.path, b"/\xff");
/// ```
#[derive(Clone, Copy, Debug, PartialEq, Eq, Hash)]
#[non_exhaustive]
pub struct Request<'a> {
    /// The name of the profile that the step runs under.
    pub profile: &'a [u8],
    /// The path of the file.
    pub path: &'a [u8],
    /// The asked permissions.
    pub asked: Perms,
    /// Whether the file is the step's own: rules that say `owner` match only
    /// then.
    pub owner: bool,
}

impl<'a> Request<'a> {
    /// A request for a file that is not the step's own.
    #[must_use]
    pub fn new<N, P>(profile: &'a N, path: &'a P, asked: Perms) -> Request<'a>
    where
        N: AsRef<[u8]> + ?Sized,
        P: AsRef<[u8]> + ?Sized,
    {
        Request {
            profile: profile.as_ref(),
            path: path.as_ref(),
            asked,
            owner: false,
        }
    }

    /// The same request with this owner mark.
    #[must_use]
    pub const fn owner(self, owner: bool) -> Request<'a> {
        Request { owner, ..self }
    }
}
