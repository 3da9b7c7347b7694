//! The tables, as Markdown.

use crate::timing::{
    ContractionRow, JunctionRow, NumberRow, ReplayRow, Time, GRAPHS, LISTS, ROUNDS, SHARES, TABLES,
};
use std::fmt::Write;

/// Three figures, or all that stand before the point.
fn figures(x: f64) -> String {
    if x >= 99.95 {
        let whole = format!("{x:.0}");
        let (thousands, rest) = whole.split_at(whole.len().saturating_sub(3));
        if thousands.is_empty() {
            rest.to_string()
        } else {
            format!("{thousands},{rest}")
        }
    } else if x >= 9.995 {
        format!("{x:.1}")
    } else {
        format!("{x:.2}")
    }
}

fn both(t: Time) -> String {
    format!("{} ({})", figures(t.median), figures(t.least))
}

pub fn markdown(
    replays: &[ReplayRow],
    junctions: &[JunctionRow],
    contractions: &[ContractionRow],
    numbers: &[NumberRow],
) -> String {
    let mut out = String::new();
    let mut worst: (f64, String) = (0.0, String::new());
    let mut worst_least: (f64, String) = (0.0, String::new());
    let mut ratio = |proved: Time, plain: Time, what: String| {
        let (by_median, by_least) = (proved.median / plain.median, proved.least / plain.least);
        if by_median > worst.0 {
            worst = (by_median, what.clone());
        }
        if by_least > worst_least.0 {
            worst_least = (by_least, what);
        }
        format!("{by_median:.2} ({by_least:.2})")
    };

    let _ = write!(
        out,
        "# Results\n\nWritten by `bench/run`. Times are microseconds a call: the average over {LISTS} lists, {GRAPHS} graphs or {TABLES} tables of each one's median in {ROUNDS} rounds; \
         in brackets that of its least. Ratios are those of the medians, in brackets those of the least times.\n\n\
         ## The replay of a list\n\n\
         The searches do not depend on the share p.\n\n\
         | list | T | N | M | open at the start | queries | p | proved | plain Rust | proved / plain | search of all | of all / proved | search of the piece | of the piece / proved |\n\
         |---|---|---|---|---|---|---|---|---|---|---|---|---|---|\n"
    );
    for r in replays {
        for (i, p) in SHARES.iter().enumerate() {
            let (proved, plain) = (r.proved[i], r.plain[i]);
            let what = format!(
                "the replay, {} list, T = {}, p = {p}",
                r.kind.name(),
                r.events
            );
            let _ = writeln!(
                out,
                "| {} | {} | {} | {} | {} | {} | {p} | {} | {} | {} | {} | {} | {} | {} |",
                r.kind.name(),
                r.events,
                r.junctions,
                r.segments,
                r.open,
                r.queries,
                both(proved),
                both(plain),
                ratio(proved, plain, what),
                both(r.whole),
                figures(r.whole.median / proved.median),
                both(r.piece),
                figures(r.piece.median / proved.median),
            );
        }
    }
    let _ = write!(
        out,
        "\n## The replay by the loss of a junction\n\n\
         On the same lists. The search does not depend on the share p. The last column is the proved replay by the loss of a junction over the proved replay by the loss of a road.\n\n\
         | list | T | N | M | answers 0, 1, 2 a list | p | proved | plain Rust | proved / plain | search of the piece | of the piece / proved | replay by roads | proved / by roads |\n\
         |---|---|---|---|---|---|---|---|---|---|---|---|---|\n"
    );
    for r in junctions {
        for (i, p) in SHARES.iter().enumerate() {
            let (proved, plain) = (r.proved[i], r.plain[i]);
            let what = format!(
                "the replay by the loss of a junction, {} list, T = {}, p = {p}",
                r.kind.name(),
                r.events
            );
            let _ = writeln!(
                out,
                "| {} | {} | {} | {} | {} | {p} | {} | {} | {} | {} | {} | {} | {} |",
                r.kind.name(),
                r.events,
                r.junctions,
                r.segments,
                r.answers.map(|a| (a / LISTS).to_string()).join(", "),
                both(proved),
                both(plain),
                ratio(proved, plain, what),
                both(r.piece),
                figures(r.piece.median / proved.median),
                both(r.replay[i]),
                figures(proved.median / r.replay[i].median),
            );
        }
    }
    let _ = write!(
        out,
        "\n## The contraction alone\n\nn nodes, 2n edges, n / 4 active entries. The last two columns are nanoseconds a node.\n\n\
         | graph | n | proved | plain Rust | proved / plain | proved, ns a node | plain, ns a node |\n|---|---|---|---|---|---|---|\n"
    );
    for r in contractions {
        let what = format!("the contraction, {} graph, n = {}", r.shape.name(), r.nodes);
        let a_node = |t: Time| figures(t.median * 1e3 / r.nodes as f64);
        let _ = writeln!(
            out,
            "| {} | {} | {} | {} | {} | {} | {} |",
            r.shape.name(),
            r.nodes,
            both(r.proved),
            both(r.plain),
            ratio(r.proved, r.plain, what),
            a_node(r.proved),
            a_node(r.plain),
        );
    }
    let _ = write!(
        out,
        "\n## The check number\n\nOf random answers.\n\n| bytes | proved | plain Rust | proved / plain |\n|---|---|---|---|\n"
    );
    for r in numbers {
        let what = format!("the check number of {} bytes", r.bytes);
        let _ = writeln!(
            out,
            "| {} | {} | {} | {} |",
            r.bytes,
            both(r.proved),
            both(r.plain),
            ratio(r.proved, r.plain, what),
        );
    }
    let _ = write!(
        out,
        "\nWorst ratio proved / plain: {:.2} by medians ({}), {:.2} by least times ({}).\n",
        worst.0, worst.1, worst_least.0, worst_least.1
    );
    out
}
