//! The proved calls, with the replies that the rivals give.

use bench::replay::Totals;
use bench::{junctions, Refusal};
use lumzhasel::tables::{self, ContractTables, ReplayJunctionsTables, ReplayTables};
use lumzhasel::Error;

fn refusal(e: Error) -> Refusal {
    let r = e
        .refusal()
        .expect("the archive has the calls of the package");
    Refusal::new(r.reason.code(), r.place)
}

#[allow(clippy::too_many_arguments)]
pub fn replay(
    n: usize,
    m: usize,
    t: usize,
    p: usize,
    a: &[u16],
    b: &[u16],
    start: &[u16],
    x: &[u16],
    y: &[u16],
    answers: &mut [u8],
    names: &mut [u16],
    work: &mut [u32],
) -> Result<Totals, Refusal> {
    let lent = ReplayTables {
        n,
        m,
        t,
        p,
        a,
        b,
        start,
        x,
        y,
        answers,
        names,
        work,
    };
    let r = tables::replay(lent).map_err(refusal)?;
    Ok(Totals {
        queries: r.queries,
        open: r.open,
        kept: r.kept,
    })
}

#[allow(clippy::too_many_arguments)]
pub fn replay_junctions(
    n: usize,
    m: usize,
    t: usize,
    p: usize,
    a: &[u16],
    b: &[u16],
    start: &[u16],
    x: &[u16],
    y: &[u16],
    answers: &mut [u8],
    work: &mut [u32],
) -> Result<junctions::Totals, Refusal> {
    let lent = ReplayJunctionsTables {
        n,
        m,
        t,
        p,
        a,
        b,
        start,
        x,
        y,
        answers,
        work,
    };
    let r = tables::replay_junctions(lent).map_err(refusal)?;
    Ok(junctions::Totals {
        queries: r.queries,
        open: r.open,
    })
}

#[allow(clippy::too_many_arguments)]
pub fn contract(
    n: usize,
    m: usize,
    k: usize,
    from: &[u16],
    to: &[u16],
    names: &[u16],
    active: &[u16],
    map: &mut [u16],
    out_from: &mut [u16],
    out_to: &mut [u16],
    out_names: &mut [u16],
    pieces: &mut [u16],
    work: &mut [u32],
) -> Result<(usize, usize), Refusal> {
    let lent = ContractTables {
        n,
        m,
        k,
        from,
        to,
        names,
        active,
        map,
        out_from,
        out_to,
        out_names,
        pieces,
        work,
    };
    let r = tables::contract(lent).map_err(refusal)?;
    Ok((r.nodes, r.edges))
}

pub fn check_number(table: &[u8], t: usize) -> Result<u32, Refusal> {
    tables::check_number(table, t).map_err(refusal)
}
