//! The exported calls of the archive, each lent a struct of numbers and tables, a table as a pointer and a length. All unsafe code
//! stands here. These declarations are those of version 10, [`crate::VERSION`]: whoever changes one changes both.
#![allow(unsafe_code)]

use crate::tables::{ContractTables, ReplayJunctionsTables, ReplayTables};

#[repr(C)]
pub(crate) struct SizesReply {
    pub code: usize,
    pub place: usize,
    pub n: usize,
    pub m: usize,
    pub t: usize,
    pub k: usize,
}

#[repr(C)]
pub(crate) struct CheckNumberReply {
    pub code: usize,
    pub place: usize,
    pub number: u32,
}

#[repr(C)]
pub(crate) struct ContractReply {
    pub code: usize,
    pub place: usize,
    pub nodes: usize,
    pub edges: usize,
}

#[repr(C)]
pub(crate) struct ReplayReply {
    pub code: usize,
    pub place: usize,
    pub queries: usize,
    pub open: usize,
    pub kept: usize,
}

#[repr(C)]
pub(crate) struct ReplayJunctionsReply {
    pub code: usize,
    pub place: usize,
    pub queries: usize,
    pub open: usize,
}

/// A table that is only read, as a pointer and a length.
#[repr(C)]
struct Read<T> {
    pointer: *const T,
    length: usize,
}

/// A table that may be written, as a pointer and a length.
#[repr(C)]
struct Written<T> {
    pointer: *mut T,
    length: usize,
}

fn read<T>(table: &[T]) -> Read<T> {
    Read {
        pointer: table.as_ptr(),
        length: table.len(),
    }
}

fn written<T>(table: &mut [T]) -> Written<T> {
    Written {
        pointer: table.as_mut_ptr(),
        length: table.len(),
    }
}

#[repr(C)]
struct ContractLent {
    n: usize,
    m: usize,
    k: usize,
    from: Read<u16>,
    to: Read<u16>,
    names: Read<u16>,
    active: Read<u16>,
    map: Written<u16>,
    out_from: Written<u16>,
    out_to: Written<u16>,
    out_names: Written<u16>,
    pieces: Written<u16>,
    work: Written<u32>,
}

#[repr(C)]
struct ReplayLent {
    n: usize,
    m: usize,
    t: usize,
    p: usize,
    a: Read<u16>,
    b: Read<u16>,
    start: Read<u16>,
    x: Read<u16>,
    y: Read<u16>,
    answers: Written<u8>,
    names: Written<u16>,
    work: Written<u32>,
}

#[repr(C)]
struct ReplayJunctionsLent {
    n: usize,
    m: usize,
    t: usize,
    p: usize,
    a: Read<u16>,
    b: Read<u16>,
    start: Read<u16>,
    x: Read<u16>,
    y: Read<u16>,
    answers: Written<u8>,
    work: Written<u32>,
}

extern "C" {
    fn lum_version() -> u32;

    fn lum_kind_of(x: u16, n: usize) -> u32;

    fn lum_sizes(n: usize, m: usize, t: usize, k: usize) -> SizesReply;

    fn lum_answers(table: *const u8, table_len: usize, t: usize) -> usize;

    fn lum_check_number(table: *const u8, table_len: usize, t: usize) -> CheckNumberReply;

    fn lum_contract(lent: ContractLent) -> ContractReply;

    fn lum_replay(lent: ReplayLent) -> ReplayReply;

    fn lum_replay_junctions(lent: ReplayJunctionsLent) -> ReplayJunctionsReply;
}

pub(crate) fn version() -> u32 {
    // SAFETY: the call takes nothing and returns a number in every version.
    unsafe { lum_version() }
}

pub(crate) fn kind_of(x: u16, n: usize) -> u32 {
    // SAFETY: the call takes and returns numbers, asks nothing of them, and touches no memory of ours.
    unsafe { lum_kind_of(x, n) }
}

pub(crate) fn sizes(n: usize, m: usize, t: usize, k: usize) -> SizesReply {
    // SAFETY: the call takes and returns numbers, asks nothing of them, and touches no memory of ours.
    unsafe { lum_sizes(n, m, t, k) }
}

pub(crate) fn answers(table: &[u8], t: usize) -> usize {
    // SAFETY: the pointer and the length are those of one slice, so that the pointer is non-null and
    // aligned and all entries are initialised. The call writes nothing.
    unsafe { lum_answers(table.as_ptr(), table.len(), t) }
}

pub(crate) fn check_number(table: &[u8], t: usize) -> CheckNumberReply {
    // SAFETY: as in `answers`: the pointer and the length of one slice, which is only read.
    unsafe { lum_check_number(table.as_ptr(), table.len(), t) }
}

pub(crate) fn contract(lent: ContractTables<'_>) -> ContractReply {
    let lent = ContractLent {
        n: lent.n,
        m: lent.m,
        k: lent.k,
        from: read(lent.from),
        to: read(lent.to),
        names: read(lent.names),
        active: read(lent.active),
        map: written(lent.map),
        out_from: written(lent.out_from),
        out_to: written(lent.out_to),
        out_names: written(lent.out_names),
        pieces: written(lent.pieces),
        work: written(lent.work),
    };
    // SAFETY: each pointer and the length after it are those of one slice, also of an empty one, whose
    // pointer is non-null and aligned. The slices that are written are borrowed mutably, so they overlap
    // no other and nobody else reads them, until this function returns. The call is proved to stay within
    // the lengths, for all numbers and entries, and it keeps no pointer.
    unsafe { lum_contract(lent) }
}

pub(crate) fn replay(lent: ReplayTables<'_>) -> ReplayReply {
    let lent = ReplayLent {
        n: lent.n,
        m: lent.m,
        t: lent.t,
        p: lent.p,
        a: read(lent.a),
        b: read(lent.b),
        start: read(lent.start),
        x: read(lent.x),
        y: read(lent.y),
        answers: written(lent.answers),
        names: written(lent.names),
        work: written(lent.work),
    };
    // SAFETY: as in `contract`: pointers and lengths of whole slices, those that are written borrowed mutably.
    unsafe { lum_replay(lent) }
}

pub(crate) fn replay_junctions(lent: ReplayJunctionsTables<'_>) -> ReplayJunctionsReply {
    let lent = ReplayJunctionsLent {
        n: lent.n,
        m: lent.m,
        t: lent.t,
        p: lent.p,
        a: read(lent.a),
        b: read(lent.b),
        start: read(lent.start),
        x: read(lent.x),
        y: read(lent.y),
        answers: written(lent.answers),
        work: written(lent.work),
    };
    // SAFETY: as in `contract`: pointers and lengths of whole slices, those that are written borrowed mutably.
    unsafe { lum_replay_junctions(lent) }
}
