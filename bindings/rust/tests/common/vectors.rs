//! The vectors of crates/test_replay, test_junctions, test_contraction and test_program, from the files that these programs read. The
//! benchmark's tests read them by this file too, so it uses nothing of the package.
//!
//! Each vector is a line with ; at its end. Of replays and contractions it is numbers of four digits in base 16: ten of
//! the sizes, ten of the tables' lengths and ten of the reply, each ten with zeros behind those that mean something;
//! then the tables that are read, and where it is accepted those that are written. Of the program it is the input's
//! bytes in base 16, then = and the output, where _ stands for a space and / for a line end.

/// The number and the place of a refusal.
pub type Refused = (usize, usize);

pub struct Replay {
    pub n: usize,
    pub m: usize,
    pub t: usize,
    pub p: usize,
    pub a: Vec<u16>,
    pub b: Vec<u16>,
    pub start: Vec<u16>,
    pub x: Vec<u16>,
    pub y: Vec<u16>,
    /// Of the answers, the names and the work table.
    pub lengths: [usize; 3],
    pub reply: Result<Replayed, Refused>,
}

pub struct Replayed {
    pub queries: usize,
    pub open: usize,
    pub kept: usize,
    pub answers: Vec<u8>,
    /// The program prints none, and the sibling writes none.
    pub names: Option<Vec<u16>>,
}

pub struct Contraction {
    pub n: usize,
    pub m: usize,
    pub k: usize,
    pub from: Vec<u16>,
    pub to: Vec<u16>,
    pub names: Vec<u16>,
    pub active: Vec<u16>,
    /// Of the map, the first and the second ends of the edges out, their names, the pieces and the work table.
    pub lengths: [usize; 6],
    pub reply: Result<Contracted, Refused>,
}

pub struct Contracted {
    pub nodes: usize,
    pub map: Vec<u16>,
    pub out_from: Vec<u16>,
    pub out_to: Vec<u16>,
    pub out_names: Vec<u16>,
    pub pieces: Vec<u16>,
}

/// What is left of a vector's numbers.
struct Numbers<'a>(&'a str);

impl Numbers<'_> {
    fn next(&mut self) -> u16 {
        let (number, rest) = self.0.split_at(4);
        self.0 = rest;
        u16::from_str_radix(number, 16).unwrap()
    }

    fn row(&mut self) -> [usize; 10] {
        [(); 10].map(|_| self.next().into())
    }

    fn table(&mut self, length: usize) -> Vec<u16> {
        (0..length).map(|_| self.next()).collect()
    }
}

fn lines(text: &str) -> impl Iterator<Item = &str> {
    text.lines().map(|line| line.strip_suffix(';').unwrap())
}

fn read<T>(text: &str, vector: impl Fn(&mut Numbers) -> T) -> Vec<T> {
    let whole = |line| {
        let mut numbers = Numbers(line);
        let found = vector(&mut numbers);
        assert_eq!(numbers.0, "", "a vector has more numbers than it needs");
        found
    };
    lines(text).map(whole).collect()
}

fn replay(numbers: &mut Numbers, with_names: bool) -> Replay {
    let [n, m, t, p, ..] = numbers.row();
    let [a, b, start, x, y, answers, names, work, ..] = numbers.row();
    let [code, place, queries, open, kept, ..] = numbers.row();
    let [a, b, start, x, y] = [a, b, start, x, y].map(|length| numbers.table(length));
    let reply = match code {
        0 => Ok(Replayed {
            queries,
            open,
            kept,
            answers: numbers.table(t).iter().map(|&v| v as u8).collect(),
            names: with_names.then(|| numbers.table(t)),
        }),
        _ => Err((code, place)),
    };
    Replay {
        n,
        m,
        t,
        p,
        a,
        b,
        start,
        x,
        y,
        lengths: [answers, names, work],
        reply,
    }
}

pub fn replays() -> Vec<Replay> {
    let text = include_str!("../../../../crates/test_replay/stdin");
    read(text, |numbers| replay(numbers, true))
}

/// Of the sibling, by the loss of a junction: the length of the names is 0, and so is kept.
pub fn junctions() -> Vec<Replay> {
    let text = include_str!("../../../../crates/test_junctions/stdin");
    read(text, |numbers| replay(numbers, false))
}

fn contraction(numbers: &mut Numbers) -> Contraction {
    let [n, m, k, ..] = numbers.row();
    let [from, to, names, active, lengths @ ..] = numbers.row();
    let [code, place, nodes, edges, ..] = numbers.row();
    let [from, to, names, active] = [from, to, names, active].map(|length| numbers.table(length));
    let reply = match code {
        0 => Ok(Contracted {
            nodes,
            map: numbers.table(k),
            out_from: numbers.table(edges),
            out_to: numbers.table(edges),
            out_names: numbers.table(edges),
            pieces: numbers.table(k),
        }),
        _ => Err((code, place)),
    };
    Contraction {
        n,
        m,
        k,
        from,
        to,
        names,
        active,
        lengths,
        reply,
    }
}

pub fn contractions() -> Vec<Contraction> {
    let text = include_str!("../../../../crates/test_contraction/stdin");
    read(text, contraction)
}

/// What the program's output says of a list of t events.
fn printed(output: &str, t: usize) -> Result<Replayed, Refused> {
    let mut lines: Vec<Vec<&str>> = output.lines().map(|l| l.split(' ').collect()).collect();
    let number = |word: &str| word.parse::<usize>().unwrap();
    match lines.pop().unwrap()[..] {
        ["refused", code, "at", place] => Err((number(code), number(place))),
        ["asks", queries, "open", open, "kept", kept] => {
            let mut answers = vec![3; t];
            for line in lines {
                answers[number(line[0])] = number(line[1]) as u8;
            }
            Ok(Replayed {
                queries: number(queries),
                open: number(open),
                kept: number(kept),
                answers,
                names: None,
            })
        }
        _ => panic!("no output of the program: {output}"),
    }
}

/// The list of a vector of the program, with tables of the lengths that the program lends; none where the program refuses
/// the input itself, by 9 or 10.
fn program(line: &str) -> Option<Replay> {
    let (input, output) = line.split_once('=').unwrap();
    let byte = |i: usize| u16::from_str_radix(&input[2 * i..2 * i + 2], 16).unwrap();
    let number = |i: usize| byte(2 * i) + 256 * byte(2 * i + 1);
    let output = output.replace('_', " ").replace('/', "\n");
    if output.starts_with("refused 9 ") || output.starts_with("refused 10 ") {
        return None;
    }
    let [n, m, t, p] = [0, 1, 2, 3].map(|i| usize::from(number(i)));
    let table = |first: usize, length: usize| (first..first + length).map(number).collect();
    Some(Replay {
        n,
        m,
        t,
        p,
        a: table(4, m),
        b: table(4 + m, m),
        start: table(4 + 2 * m, m),
        x: table(4 + 3 * m, t),
        y: table(4 + 3 * m + t, t),
        lengths: [32, 32, 16384],
        reply: printed(&output, t),
    })
}

/// Those of the program that are the replay's to answer.
pub fn programs() -> Vec<Replay> {
    let text = include_str!("../../../../crates/test_program/stdin");
    lines(text).filter_map(program).collect()
}
