//! A profile text that is read once and asked often.

use crate::answer::decode;
use crate::table::Table;
use crate::{ffi, Answer, Match, Refusal, Request, Rule};
use std::fmt;

/// A profile text that was accepted, and what was read of it.
///
/// It owns both, so that what was read of one text is never asked with
/// another. Asking changes nothing: threads may share a policy.
///
/// ```
/// use sidluqethe::{Perms, Policy, Refusal, Request};
///
/// let policy = Policy::read("profile step { /data/*.vcf r, }")?;
/// assert_eq!(policy.profiles().collect::<Vec<_>>(), [b"step"]);
///
/// let request = Request::new("step", "/data/a.vcf", Perms::READ);
/// assert_eq!(policy.ask(&request)?.granted, Perms::READ);
///
/// let other = Request::new("step", "/data/b.bam", Perms::READ);
/// assert_eq!(policy.ask(&other)?.granted, Perms::NONE);
/// # Ok::<(), Refusal>(())
/// ```
#[derive(Clone)]
pub struct Policy {
    text: Box<[u8]>,
    memory: Box<[u64]>,
}

impl Policy {
    /// Reads a text.
    ///
    /// # Errors
    ///
    /// A text that the rules refuse gives the reason, line and column.
    pub fn read(text: impl Into<Vec<u8>>) -> Result<Policy, Refusal> {
        Policy::read_within(text, ffi::RULES)
    }

    /// Reads a text with room for so many rules, so that less memory is
    /// taken; 512 are the most in any case.
    ///
    /// # Errors
    ///
    /// As [`Policy::read`]; and
    /// [`Reason::TooMuch`](crate::Reason::TooMuch) at the pattern of the first
    /// rule that finds no room.
    pub fn read_within(text: impl Into<Vec<u8>>, rules: usize) -> Result<Policy, Refusal> {
        let text = text.into().into_boxed_slice();
        let rules = rules.min(ffi::RULES);
        let mut memory = vec![0; ffi::HEAD + ffi::RULE * rules];
        ffi::read(&text, &mut memory, decode)?;
        let table = Table {
            text: &text,
            memory: &memory,
        };
        // What stands beyond the last rule is not asked for.
        let used = ffi::HEAD + ffi::RULE * table.rule_count();
        memory.truncate(used);
        let memory = memory.into_boxed_slice();
        Ok(Policy { text, memory })
    }

    /// Judges one request. It allocates nothing but the bytes of a target,
    /// where the answer has one.
    ///
    /// # Errors
    ///
    /// A path, asked set or profile name that the rules refuse gives the
    /// reason: [`BadPath`](crate::Reason::BadPath),
    /// [`BadAsked`](crate::Reason::BadAsked) or
    /// [`NoProfile`](crate::Reason::NoProfile), in this order.
    #[inline]
    pub fn ask(&self, request: &Request<'_>) -> Result<Answer, Refusal> {
        ffi::ask(&self.text, &self.memory, request, decode)
    }

    /// The text.
    pub fn text(&self) -> &[u8] {
        &self.text
    }

    /// The names of the profiles, in the text's order.
    pub fn profiles(&self) -> impl Iterator<Item = &[u8]> + '_ {
        let table = self.table();
        (0..self.profile_count()).map(move |profile| table.bytes(table.name(profile)))
    }

    /// The rules of all profiles, in the text's order.
    pub fn rules(&self) -> impl Iterator<Item = Rule<'_>> + '_ {
        let table = self.table();
        (0..self.rule_count()).map(move |number| Rule::of(table, number))
    }

    /// How the rule of this number matches a request; what is asked for plays
    /// no part. None where it does not match: also where it is another
    /// profile's, where there is no such rule, and for a request whose path or
    /// profile name is refused.
    pub fn rule_match(&self, number: usize, request: &Request<'_>) -> Option<Match> {
        let how = ffi::rule_match(&self.text, &self.memory, request, number);
        Match::of_number(how)
    }

    /// The rules that match a request, in the text's order. They alone make
    /// the answer: without the others it would be the same.
    ///
    /// ```
    /// use sidluqethe::{Match, Perms, Policy, Refusal, Request};
    ///
    /// let policy = Policy::read("profile step { /bin/cat ix, /bin/* px, /lib/** rm, }")?;
    /// let request = Request::new("step", "/bin/cat", Perms::EXECUTE);
    /// let found = policy.matching(&request)?;
    /// assert_eq!(found.len(), 2);
    /// assert_eq!((found[0].0.text, found[0].1), (&b"/bin/cat ix,"[..], Match::Exact));
    /// assert_eq!((found[1].0.text, found[1].1), (&b"/bin/* px,"[..], Match::Other));
    /// # Ok::<(), Refusal>(())
    /// ```
    ///
    /// # Errors
    ///
    /// As [`Policy::ask`].
    pub fn matching(&self, request: &Request<'_>) -> Result<Vec<(Rule<'_>, Match)>, Refusal> {
        self.ask(request)?;
        let found = (0..self.rule_count()).filter_map(|number| {
            let how = self.rule_match(number, request)?;
            Some((Rule::of(self.table(), number), how))
        });
        Ok(found.collect())
    }

    /// How many rules the profiles have together.
    pub fn rule_count(&self) -> usize {
        self.table().rule_count()
    }

    /// How many variables the text sets.
    pub fn variable_count(&self) -> usize {
        self.table().variable_count()
    }

    /// How many profiles the text has.
    pub fn profile_count(&self) -> usize {
        self.table().profile_count()
    }

    fn table(&self) -> Table<'_> {
        Table {
            text: &self.text,
            memory: &self.memory,
        }
    }
}

impl fmt::Debug for Policy {
    /// The names of its profiles and the number of its rules.
    fn fmt(&self, f: &mut fmt::Formatter<'_>) -> fmt::Result {
        let names = self.profiles().map(String::from_utf8_lossy);
        f.debug_struct("Policy")
            .field("profiles", &names.collect::<Vec<_>>())
            .field("rules", &self.rule_count())
            .finish_non_exhaustive()
    }
}
