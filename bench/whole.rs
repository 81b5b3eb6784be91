// The yardstick for a whole run, in plain Rust: `whole --program P [--from V] [--rounds K]` reads a graph text on standard input
// into a vector of vertices, takes supersteps until all have halted and no message is left, and writes the text of the vertices.
// It keeps all in memory: a vertex is found by std's hash map, and of the messages to a vertex their merge alone is kept.
// It writes the bytes that px writes of the same words and text.
use std::collections::HashMap;
use std::env;
use std::error::Error;
use std::io::{self, BufWriter, Read, Write};

const CHUNK: usize = 262_144;
const WHOLE: u64 = 1_000_000_000_000;
const RESTART: u64 = 150_000_000_000;

/// A vertex, and the merge of the messages that came to it.
struct Vertex<M> {
    vid: u64,
    halt: bool,
    value: Option<u64>,
    edges: Vec<(u64, u32)>,
    inbox: Option<M>,
}

impl<M> Vertex<M> {
    fn new(vid: u64, edges: Vec<(u64, u32)>) -> Vertex<M> {
        Vertex {
            vid,
            halt: false,
            value: None,
            edges,
            inbox: None,
        }
    }
}

/// What a vertex knows of its superstep.
struct At {
    superstep: u64,
    count: u64,
}

/// What a superstep sends and contributes, and the vertices that it removes.
struct Outbox<M> {
    messages: Vec<(u64, M)>,
    removed: Vec<u64>,
    contributed: u64,
}

impl<M> Outbox<M> {
    fn new() -> Outbox<M> {
        Outbox {
            messages: Vec::new(),
            removed: Vec::new(),
            contributed: 0,
        }
    }

    fn send(&mut self, to: u64, message: M) {
        self.messages.push((to, message));
    }

    fn remove(&mut self, vid: u64) {
        self.removed.push(vid);
    }

    fn contribute(&mut self, n: u64) {
        self.contributed = self.contributed.saturating_add(n);
    }
}

trait Program {
    type Message;

    fn compute(&self, at: &At, vertex: &mut Vertex<Self::Message>, message: Option<Self::Message>, out: &mut Outbox<Self::Message>);

    fn merge(into: &mut Self::Message, message: Self::Message);

    fn print(value: u64, to: &mut dyn Write) -> io::Result<()> {
        write!(to, "{value}")
    }
}

struct Reach {
    from: u64,
}

struct Sssp {
    from: u64,
}

struct Components;

struct PageRank {
    rounds: u64,
}

struct Reverse;

struct Prune;

impl Program for Reach {
    type Message = ();

    fn compute(&self, at: &At, vertex: &mut Vertex<()>, message: Option<()>, out: &mut Outbox<()>) {
        vertex.halt = true;
        let is_first = at.superstep == 0 && vertex.vid == self.from;
        let is_reached = at.superstep > 0 && message.is_some() && vertex.value != Some(1);
        if is_first || is_reached {
            vertex.value = Some(1);
            out.contribute(1);
            for edge in &vertex.edges {
                out.send(edge.0, ());
            }
        } else if at.superstep == 0 {
            vertex.value = Some(0);
        }
    }

    fn merge(_: &mut (), _: ()) {}
}

impl Program for Sssp {
    type Message = u64;

    fn compute(&self, at: &At, vertex: &mut Vertex<u64>, message: Option<u64>, out: &mut Outbox<u64>) {
        vertex.halt = true;
        let least = vertex.value.unwrap_or(u64::MAX);
        let found = match message {
            _ if at.superstep == 0 && vertex.vid == self.from => Some(0),
            Some(distance) if at.superstep > 0 && distance < least => Some(distance),
            _ => None,
        };
        vertex.value = Some(found.unwrap_or(least));
        if let Some(distance) = found {
            out.contribute(1);
            for edge in &vertex.edges {
                out.send(edge.0, distance.saturating_add(edge.1.into()));
            }
        }
    }

    fn merge(into: &mut u64, message: u64) {
        *into = message.min(*into);
    }

    fn print(value: u64, to: &mut dyn Write) -> io::Result<()> {
        if value == u64::MAX {
            to.write_all(b"inf")
        } else {
            write!(to, "{value}")
        }
    }
}

impl Program for Components {
    type Message = u64;

    fn compute(&self, at: &At, vertex: &mut Vertex<u64>, message: Option<u64>, out: &mut Outbox<u64>) {
        vertex.halt = true;
        let found = match (message, vertex.value) {
            _ if at.superstep == 0 => vertex.vid,
            (Some(least), None) => least.min(vertex.vid),
            (Some(least), Some(value)) if least < value => least,
            _ => return,
        };
        vertex.value = Some(found);
        out.contribute(1);
        for edge in &vertex.edges {
            out.send(edge.0, found);
        }
    }

    fn merge(into: &mut u64, message: u64) {
        *into = message.min(*into);
    }
}

impl Program for PageRank {
    type Message = u64;

    fn compute(&self, at: &At, vertex: &mut Vertex<u64>, message: Option<u64>, out: &mut Outbox<u64>) {
        vertex.halt = at.superstep >= self.rounds;
        let count = at.count.max(1);
        let rank = if at.superstep == 0 {
            WHOLE / count
        } else if at.superstep <= self.rounds {
            let walked = u128::from(message.unwrap_or(0)) * 85 / 100;
            (RESTART / count).saturating_add(walked as u64)
        } else {
            return;
        };
        vertex.value = Some(rank);
        out.contribute(rank);
        if vertex.halt || vertex.edges.is_empty() {
            return;
        }
        let share = rank / vertex.edges.len() as u64;
        for edge in &vertex.edges {
            out.send(edge.0, share);
        }
    }

    fn merge(into: &mut u64, message: u64) {
        *into = message.saturating_add(*into);
    }
}

impl Program for Reverse {
    type Message = Vec<(u64, u32)>;

    fn compute(&self, at: &At, vertex: &mut Vertex<Self::Message>, message: Option<Self::Message>, out: &mut Outbox<Self::Message>) {
        vertex.halt = true;
        if at.superstep == 0 {
            for edge in vertex.edges.drain(..) {
                out.send(edge.0, vec![(vertex.vid, edge.1)]);
            }
        } else if let Some(mut entries) = message {
            entries.sort_unstable();
            out.contribute(entries.len() as u64);
            vertex.edges = entries;
        }
    }

    fn merge(into: &mut Self::Message, message: Self::Message) {
        into.extend(message);
    }
}

impl Program for Prune {
    type Message = ();

    fn compute(&self, at: &At, vertex: &mut Vertex<()>, _: Option<()>, out: &mut Outbox<()>) {
        vertex.halt = true;
        if at.superstep > 0 {
            return;
        }
        if vertex.edges.is_empty() {
            out.remove(vertex.vid);
            out.contribute(1);
        }
        for edge in &vertex.edges {
            out.send(edge.0, ());
        }
    }

    fn merge(_: &mut (), _: ()) {}
}

/// The vertices, and the place of each vid.
struct Graph<M> {
    vertices: Vec<Vertex<M>>,
    places: HashMap<u64, usize>,
}

impl<M> Graph<M> {
    fn of(vertices: Vec<Vertex<M>>) -> Graph<M> {
        let places = vertices.iter().enumerate().map(|(i, v)| (v.vid, i)).collect();
        Graph { vertices, places }
    }

    fn remove(&mut self, vids: impl Iterator<Item = u64>) {
        for vid in vids {
            let Some(place) = self.places.remove(&vid) else {
                continue;
            };
            self.vertices.swap_remove(place);
            if let Some(moved) = self.vertices.get(place) {
                self.places.insert(moved.vid, place);
            }
        }
    }

    // A vid without a vertex gets one.
    fn deliver<P: Program<Message = M>>(&mut self, messages: impl Iterator<Item = (u64, M)>) {
        for (to, message) in messages {
            let place = *self.places.entry(to).or_insert_with(|| {
                self.vertices.push(Vertex::new(to, Vec::new()));
                self.vertices.len() - 1
            });
            match &mut self.vertices[place].inbox {
                Some(sum) => P::merge(sum, message),
                inbox => *inbox = Some(message),
            }
        }
    }
}

/// The number of supersteps and the last aggregate.
struct Outcome {
    supersteps: u64,
    aggregate: u64,
}

fn run<P: Program>(program: &P, graph: &mut Graph<P::Message>) -> Outcome {
    let mut outcome = Outcome {
        supersteps: 0,
        aggregate: 0,
    };
    // A vertex that a message made is counted from the superstep after that on.
    let mut count = graph.vertices.len() as u64;
    let mut out = Outbox::new();
    loop {
        let is_active = |v: &Vertex<P::Message>| !v.halt || v.inbox.is_some();
        if !graph.vertices.iter().any(is_active) {
            return outcome;
        }
        let at = At {
            superstep: outcome.supersteps,
            count,
        };
        out.contributed = 0;
        for vertex in graph.vertices.iter_mut().filter(|v| is_active(v)) {
            let message = vertex.inbox.take();
            program.compute(&at, vertex, message, &mut out);
        }
        graph.remove(out.removed.drain(..));
        count = graph.vertices.len() as u64;
        graph.deliver::<P>(out.messages.drain(..));
        outcome.supersteps += 1;
        outcome.aggregate = out.contributed;
    }
}

fn write_text<P: Program>(graph: &mut Graph<P::Message>, outcome: &Outcome) -> io::Result<()> {
    let mut to = BufWriter::with_capacity(CHUNK, io::stdout().lock());
    graph.vertices.sort_unstable_by_key(|v| v.vid);
    for vertex in &graph.vertices {
        write!(to, "{} ", vertex.vid)?;
        match vertex.value {
            Some(value) => P::print(value, &mut to)?,
            None => to.write_all(b"-")?,
        }
        for (target, weight) in &vertex.edges {
            write!(to, " {target}:{weight}")?;
        }
        to.write_all(b"\n")?;
    }
    let Outcome { supersteps, aggregate } = outcome;
    let count = graph.vertices.len();
    writeln!(to, "#superstep {supersteps} aggregate {aggregate} vertices {count}")?;
    to.flush()
}

fn edge_of(field: &str) -> Option<(u64, u32)> {
    match field.split_once(':') {
        Some((target, weight)) => Some((target.parse().ok()?, weight.parse().ok()?)),
        None => Some((field.parse().ok()?, 1)),
    }
}

// None for a line without a vertex.
fn vertex_of<M>(line: &str) -> Option<Result<Vertex<M>, Box<dyn Error>>> {
    let mut fields = line.split_ascii_whitespace();
    let vid = fields.next().filter(|field| !field.starts_with('#'))?;
    let vertex = vid.parse().ok().and_then(|vid| {
        let edges: Option<Vec<_>> = fields.map(edge_of).collect();
        Some(Vertex::new(vid, edges?))
    });
    Some(vertex.ok_or_else(|| format!("a bad line: {line}").into()))
}

fn answer<P: Program>(program: &P) -> Result<(), Box<dyn Error>> {
    let mut text = String::new();
    io::stdin().lock().read_to_string(&mut text)?;
    let mut vertices = text.lines().filter_map(vertex_of).collect::<Result<Vec<_>, _>>()?;
    drop(text);
    vertices.sort_unstable_by_key(|v| v.vid);
    let mut graph = Graph::of(vertices);
    let outcome = run(program, &mut graph);
    write_text::<P>(&mut graph, &outcome)?;
    Ok(())
}

fn main() -> Result<(), Box<dyn Error>> {
    let words: Vec<String> = env::args().skip(1).collect();
    let value_of = |name: &str| words.iter().position(|w| w == name).and_then(|at| words.get(at + 1));
    let number_of = |name: &str| value_of(name).ok_or("a number is missing")?.parse::<u64>().map_err(|_| "no number");
    match value_of("--program").map(String::as_str) {
        Some("reach") => answer(&Reach { from: number_of("--from")? }),
        Some("sssp") => answer(&Sssp { from: number_of("--from")? }),
        Some("components") => answer(&Components),
        Some("pagerank") => answer(&PageRank { rounds: number_of("--rounds")? }),
        Some("reverse") => answer(&Reverse),
        Some("prune") => answer(&Prune),
        _ => Err("usage: whole --program reach|sssp|components|pagerank|reverse|prune [--from V] [--rounds K]".into()),
    }
}
