//! The C entry points of `libsidluqethe.a`: the only unsafe code of the
//! package.

use crate::Request;
use std::mem::MaybeUninit;

/// Bytes of an answer, and where its parts stand.
pub(crate) const ANSWER: usize = 268;
pub(crate) const REFUSAL: usize = 0;
pub(crate) const GRANTED: usize = 1;
pub(crate) const RECORDED: usize = 2;
pub(crate) const EXECUTE: usize = 3;
pub(crate) const LINE: usize = 4;
pub(crate) const COLUMN: usize = 8;
pub(crate) const TARGET_LENGTH: usize = 12;
pub(crate) const TARGET: usize = 13;

/// Words of memory in front of the rules.
pub(crate) const HEAD: usize = 1_256;

/// Words of memory for each rule.
pub(crate) const RULE: usize = 12;

/// The most rules of a text.
pub(crate) const RULES: usize = 512;

extern "C" {
    fn sidluqethe_decide(
        text: *const u8,
        text_len: usize,
        name: *const u8,
        name_len: usize,
        path: *const u8,
        path_len: usize,
        asked: u8,
        owner: u8,
        answer: *mut u8,
        answer_len: usize,
    ) -> usize;

    fn sidluqethe_read(
        text: *const u8,
        text_len: usize,
        memory: *mut u64,
        memory_len: usize,
        answer: *mut u8,
        answer_len: usize,
    ) -> usize;

    fn sidluqethe_ask(
        text: *const u8,
        text_len: usize,
        memory: *const u64,
        memory_len: usize,
        name: *const u8,
        name_len: usize,
        path: *const u8,
        path_len: usize,
        asked: u8,
        owner: u8,
        answer: *mut u8,
        answer_len: usize,
    ) -> usize;

    fn sidluqethe_match(
        text: *const u8,
        text_len: usize,
        memory: *const u64,
        memory_len: usize,
        name: *const u8,
        name_len: usize,
        path: *const u8,
        path_len: usize,
        owner: u8,
        rule: usize,
    ) -> u8;

    fn sidluqethe_version() -> u32;
}

/// A number of four bytes in an answer, lowest first.
pub(crate) fn number(answer: &[u8; ANSWER], at: usize) -> u32 {
    u32::from_le_bytes(std::array::from_fn(|i| answer[at + i]))
}

/// Has the library write an answer, and reads it where it stands: nothing is
/// cleared before and nothing copied.
#[inline]
fn answered<T>(
    write: impl FnOnce(*mut u8, usize) -> usize,
    read: impl FnOnce(&[u8; ANSWER]) -> T,
) -> T {
    let mut answer = MaybeUninit::<[u8; ANSWER]>::uninit();
    let written = write(answer.as_mut_ptr().cast(), ANSWER);
    assert_eq!(written, ANSWER, "the archive is of another version");
    // SAFETY: the library has written all of its bytes.
    read(unsafe { answer.assume_init_ref() })
}

/// Asks the library, and reads the answer.
pub(crate) fn decide<T>(
    text: &[u8],
    request: &Request<'_>,
    read: impl FnOnce(&[u8; ANSWER]) -> T,
) -> T {
    // SAFETY: each pointer comes from a slice or array that outlives the
    // call, with that slice's length. The library only reads the first three
    // and writes at most `answer_len` bytes of the last, which no other
    // reference reaches meanwhile. It keeps no pointer.
    let write = |answer, answer_len| unsafe {
        sidluqethe_decide(
            text.as_ptr(),
            text.len(),
            request.profile.as_ptr(),
            request.profile.len(),
            request.path.as_ptr(),
            request.path.len(),
            request.asked.bits(),
            u8::from(request.owner),
            answer,
            answer_len,
        )
    };
    answered(write, read)
}

/// Has the library read a text into memory of at least [`HEAD`] words.
pub(crate) fn read<T>(text: &[u8], memory: &mut [u64], read: impl FnOnce(&[u8; ANSWER]) -> T) -> T {
    // SAFETY: as above; the library writes at most `memory_len` words of
    // memory, which is borrowed for this call alone.
    let write = |answer, answer_len| unsafe {
        sidluqethe_read(
            text.as_ptr(),
            text.len(),
            memory.as_mut_ptr(),
            memory.len(),
            answer,
            answer_len,
        )
    };
    answered(write, read)
}

/// Asks what the library has read; any memory and any text end in an answer.
#[inline]
pub(crate) fn ask<T>(
    text: &[u8],
    memory: &[u64],
    request: &Request<'_>,
    read: impl FnOnce(&[u8; ANSWER]) -> T,
) -> T {
    // SAFETY: as above; memory is only read.
    let write = |answer, answer_len| unsafe {
        sidluqethe_ask(
            text.as_ptr(),
            text.len(),
            memory.as_ptr(),
            memory.len(),
            request.profile.as_ptr(),
            request.profile.len(),
            request.path.as_ptr(),
            request.path.len(),
            request.asked.bits(),
            u8::from(request.owner),
            answer,
            answer_len,
        )
    };
    answered(write, read)
}

/// How a rule of what the library has read matches a request: 0 it does not,
/// 1 it does, 2 exactly.
pub(crate) fn rule_match(text: &[u8], memory: &[u64], request: &Request<'_>, rule: usize) -> u8 {
    // SAFETY: as above; everything is only read.
    unsafe {
        sidluqethe_match(
            text.as_ptr(),
            text.len(),
            memory.as_ptr(),
            memory.len(),
            request.profile.as_ptr(),
            request.profile.len(),
            request.path.as_ptr(),
            request.path.len(),
            u8::from(request.owner),
            rule,
        )
    }
}

/// The library's version.
pub(crate) fn version() -> u32 {
    // SAFETY: it takes nothing and touches no memory of ours.
    unsafe { sidluqethe_version() }
}
