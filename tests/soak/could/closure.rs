// closure.rs: random graphs of 2 to 6 vertices with silent sets, and the whole closure under take and grant, written apart.
//   closure SEED GRAPHS            writes questions for the program beside it
//   closure SEED GRAPHS ANSWERS    holds its answers against the closure, and replays each witness by the rules; no turn of a
//                                  witness can be left out alone, and if up to three takes and grants of one right each do, it has
//                                  no more turns (two are tried on each graph, and three on each 50th)
use std::collections::BTreeSet;
use std::io::{BufRead, Write};

const LETTERS: [char; 3] = ['t', 'g', 'r'];
const QUESTIONS: usize = 12;
const APART: [usize; 2] = [1, 1000];

struct Draw(u64);

impl Draw {
    fn below(&mut self, n: u64) -> u64 {
        self.0 ^= self.0 << 13;
        self.0 ^= self.0 >> 7;
        self.0 ^= self.0 << 17;
        (self.0 >> 11) % n
    }
}

// rows[c][x] has the vertices over which x has the letter c, a bit each. Names are written so far apart. Names between them are of
// vertices without edges, so that the program beside it numbers the vertices that there are.
#[derive(Clone)]
struct Graph {
    apart: usize,
    made: usize,
    limit: usize,
    subjects: BTreeSet<usize>,
    silent: BTreeSet<usize>,
    rows: [Vec<u64>; 3],
}

struct Question {
    x: usize,
    letter: usize,
    y: usize,
}

fn drawn(draw: &mut Draw, apart: usize) -> Graph {
    let made = 2 + draw.below(5) as usize;
    let limit = made + if draw.below(4) == 0 { draw.below(4) as usize } else { 1000 };
    let density = [15, 25, 40, 60][draw.below(4) as usize];
    let mut graph = Graph { apart, made, limit, subjects: BTreeSet::new(), silent: BTreeSet::new(), rows: [vec![0; made], vec![0; made], vec![0; made]] };
    let most = draw.below(made as u64 + 1);
    for x in 0..made {
        if draw.below(made as u64) < most {
            graph.subjects.insert(x);
        }
        if draw.below(4) == 0 {
            graph.silent.insert(x);
        }
        for y in 0..made {
            if x != y && draw.below(100) < density {
                let some = draw.below(3) as usize;
                for c in 0..3 {
                    if c == some || draw.below(100) < 30 {
                        graph.rows[c][x] |= 1 << y;
                    }
                }
            }
        }
    }
    graph
}

fn questions(draw: &mut Draw, graph: &Graph) -> Vec<Question> {
    let names = graph.made as u64 + 1;
    (0..QUESTIONS)
        .map(|_| Question { x: draw.below(names) as usize, letter: draw.below(3) as usize, y: draw.below(names) as usize })
        .collect()
}

fn text(graph: &Graph, x: usize, y: usize) -> String {
    let held: String = (0..3).filter(|c| graph.rows[*c][x] >> y & 1 == 1).map(|c| LETTERS[c]).collect();
    "rtg".chars().filter(|c| held.contains(*c)).collect()
}

// A name as it is written, where so many were made at first, and back.
fn written(apart: usize, made: usize, name: usize) -> usize {
    if name < made { name * apart } else { made * apart + name - made }
}

fn read(apart: usize, made: usize, name: usize) -> usize {
    if name < made * apart { name / apart } else { name + made - made * apart }
}

fn write(out: &mut impl Write, graph: &Graph, asked: &[Question]) {
    let name = |x: usize| written(graph.apart, graph.made, x);
    writeln!(out, "graph {} {}", name(graph.made), name(graph.limit)).unwrap();
    for x in &graph.subjects {
        writeln!(out, "subject {}", name(*x)).unwrap();
    }
    for x in &graph.silent {
        writeln!(out, "silent {}", name(*x)).unwrap();
    }
    for x in 0..graph.made {
        for y in 0..graph.made {
            let rights = text(graph, x, y);
            if !rights.is_empty() {
                writeln!(out, "edge {} {} {rights}", name(x), name(y)).unwrap();
            }
        }
    }
    for q in asked {
        writeln!(out, "? {} {} {}", name(q.x), LETTERS[q.letter], name(q.y)).unwrap();
    }
}

impl Graph {
    fn acts(&self, x: usize) -> bool {
        self.subjects.contains(&x) && !self.silent.contains(&x)
    }

    fn add_vertex(&mut self, by: usize) -> usize {
        let name = self.rows[0].len();
        for c in 0..3 {
            self.rows[c].push(0);
            self.rows[c][by] |= 1 << name;
        }
        name
    }

    // All takes and grants of who acts, to the end. Each who acts first makes three objects, and a subject that makes two.
    // Answers the rows, and the first object of each.
    fn closed(&self) -> (Graph, Vec<usize>) {
        let mut graph = self.clone();
        let actors: Vec<usize> = self.subjects.iter().copied().filter(|x| self.acts(*x)).collect();
        let mut moving = actors.clone();
        let mut first_objects = Vec::new();
        for p in &actors {
            first_objects.push(graph.add_vertex(*p));
            graph.add_vertex(*p);
            graph.add_vertex(*p);
            let spawned = graph.add_vertex(*p);
            moving.push(spawned);
            graph.add_vertex(spawned);
            graph.add_vertex(spawned);
        }
        let mut changed = true;
        while changed {
            changed = false;
            for x in moving.iter().copied() {
                for y in 0..graph.rows[0].len() {
                    let (takes, grants) = (graph.rows[0][x] >> y & 1 == 1, graph.rows[1][x] >> y & 1 == 1);
                    for c in 0..3 {
                        if takes {
                            let more = graph.rows[c][x] | graph.rows[c][y] & !(1 << x);
                            changed |= more != graph.rows[c][x];
                            graph.rows[c][x] = more;
                        }
                        if grants {
                            let more = graph.rows[c][y] | graph.rows[c][x] & !(1 << y);
                            changed |= more != graph.rows[c][y];
                            graph.rows[c][y] = more;
                        }
                    }
                }
            }
        }
        (graph, first_objects)
    }

    fn holds(&self, x: usize, letter: usize, y: usize) -> bool {
        self.rows[letter][x] >> y & 1 == 1
    }

    // One turn by the rules. Whether it was served.
    fn turn(&mut self, first: usize, line: &str) -> bool {
        let words: Vec<&str> = line.split(' ').collect();
        let name = |at: usize| read(self.apart, first, words[at].parse::<usize>().unwrap());
        let x = name(0);
        if !self.subjects.contains(&x) || (x < first && self.silent.contains(&x)) {
            return false;
        }
        let letters = |text: &str| -> Vec<usize> { text.chars().map(|c| LETTERS.iter().position(|l| *l == c).unwrap()).collect() };
        match words[1] {
            "take" | "grant" => {
                let (via, z, rights) = (name(2), name(3), letters(words[4]));
                if x == via || via == z || x == z {
                    return false;
                }
                let (needed, holder, target) = if words[1] == "take" { (0, via, x) } else { (1, x, via) };
                if !self.holds(x, needed, via) || !rights.iter().all(|c| self.holds(holder, *c, z)) {
                    return false;
                }
                for c in rights {
                    self.rows[c][target] |= 1 << z;
                }
            }
            "create" | "spawn" => {
                if self.made >= self.limit || (words[1] == "spawn" && self.subjects.len() >= 64) {
                    return false;
                }
                let new = self.made;
                self.made += 1;
                for c in 0..3 {
                    self.rows[c].push(0);
                }
                for c in letters(words[2]) {
                    self.rows[c][x] |= 1 << new;
                }
                if words[1] == "spawn" {
                    self.subjects.insert(new);
                }
            }
            "retire" => {
                self.subjects.remove(&x);
            }
            _ => return false,
        }
        true
    }
}

// The turns without the turn at a place, with the names that are made then. None if another turn names what it made.
fn without(apart: usize, made: usize, turns: &[String], at: usize) -> Option<Vec<String>> {
    let makes = |line: &String| line.contains(" create ") || line.contains(" spawn ");
    let gone = makes(&turns[at]).then(|| written(apart, made, made + turns[..at].iter().filter(|line| makes(line)).count()));
    let mut rest = Vec::new();
    for line in turns[..at].iter().chain(&turns[at + 1..]) {
        let mut words = Vec::new();
        for word in line.split(' ') {
            match (word.parse::<usize>(), gone) {
                (Ok(name), Some(gone)) if name == gone => return None,
                (Ok(name), Some(gone)) if name > gone => words.push((name - 1).to_string()),
                _ => words.push(word.to_string()),
            }
        }
        rest.push(words.join(" "));
    }
    Some(rest)
}

// Whether these turns are served and lead to it.
fn lead(graph: &Graph, turns: &[String], q: &Question) -> bool {
    let mut behind = graph.clone();
    turns.iter().all(|line| behind.turn(graph.made, line)) && behind.rows[0].len() > q.x.max(q.y) && behind.holds(q.x, q.letter, q.y)
}

// Whether so many takes and grants of one right each lead to it.
fn leads_within(graph: &Graph, q: &Question, most: usize) -> bool {
    if graph.holds(q.x, q.letter, q.y) {
        return true;
    }
    let vertices = 0..graph.rows[0].len();
    for (x, via) in vertices.clone().filter(|x| graph.acts(*x)).flat_map(|x| vertices.clone().map(move |via| (x, via))) {
        for (needed, giver, taker) in [(0, via, x), (1, x, via)] {
            if most == 0 || x == via || !graph.holds(x, needed, via) || most == 1 && taker != q.x {
                continue;
            }
            for (z, c) in vertices.clone().filter(|z| *z != x && *z != via).flat_map(|z| [(z, 0), (z, 1), (z, 2)]) {
                if most == 1 && (c != q.letter || z != q.y) || !graph.holds(giver, c, z) || graph.holds(taker, c, z) {
                    continue;
                }
                let mut behind = graph.clone();
                behind.rows[c][taker] |= 1 << z;
                if leads_within(&behind, q, most - 1) {
                    return true;
                }
            }
        }
    }
    false
}

// Whether x could hold it, by the closure. A name that isn't made yet is the first object of a subject that acts.
fn could(graph: &Graph, closed: &Graph, first_objects: &[usize], q: &Question) -> bool {
    if q.x == q.y {
        return false;
    }
    let room = graph.made < graph.limit;
    if (q.x == graph.made || q.y == graph.made) && !room {
        return false;
    }
    if q.x == graph.made {
        return first_objects.iter().any(|v| closed.holds(*v, q.letter, q.y));
    }
    if q.y == graph.made {
        return first_objects.iter().any(|v| closed.holds(q.x, q.letter, *v));
    }
    closed.holds(q.x, q.letter, q.y)
}

fn main() {
    let args: Vec<String> = std::env::args().collect();
    let mut draw = Draw(args[1].parse::<u64>().unwrap() * 2654435761 + 88172645463325252);
    let graphs: usize = args[2].parse().unwrap();
    if args.len() == 3 {
        let mut out = std::io::BufWriter::new(std::io::stdout().lock());
        for at in 0..graphs {
            let graph = drawn(&mut draw, APART[at % 2]);
            let asked = questions(&mut draw, &graph);
            write(&mut out, &graph, &asked);
        }
        return;
    }
    let mut lines = std::io::BufReader::new(std::fs::File::open(&args[3]).unwrap()).lines().map(|line| line.unwrap());
    let (mut never, mut yes, mut wanting, mut all, mut longest, mut most) = (0, 0, 0, 0, 0, 0);
    for at_graph in 0..graphs {
        let graph = drawn(&mut draw, APART[at_graph % 2]);
        let asked = questions(&mut draw, &graph);
        let (closed, first_objects) = graph.closed();
        for q in &asked {
            let answer = lines.next().expect("an answer is wanting");
            let want = could(&graph, &closed, &first_objects, q);
            let here = || {
                let mut all = Vec::new();
                write(&mut all, &graph, std::slice::from_ref(q));
                format!("graph {at_graph}: answered {answer}, closure says {want}:\n{}", String::from_utf8(all).unwrap())
            };
            if answer == "never" {
                assert!(!want, "{}", here());
                never += 1;
                continue;
            }
            let words: Vec<&str> = answer.split(' ').collect();
            assert!(words[0] == "could" && want, "{}", here());
            let (names, turns): (usize, usize) = (words[1].parse().unwrap(), words[2].parse().unwrap());
            let mut behind = graph.clone();
            behind.limit += names;
            let witness: Vec<String> = (0..turns).map(|_| lines.next().unwrap()).collect();
            for line in &witness {
                assert!(behind.turn(graph.made, line), "not served: {line}\n{}", here());
            }
            assert!(behind.holds(q.x, q.letter, q.y), "the witness leads elsewhere\n{}", here());
            assert!(names == 0 || graph.limit < graph.made + 65, "{}", here());
            let mut roomy = graph.clone();
            roomy.limit += names;
            for at in 0..turns {
                let rest = without(graph.apart, graph.made, &witness, at);
                assert!(!rest.is_some_and(|rest| lead(&roomy, &rest, q)), "turn {at} isn't needed: {witness:?}\n{}", here());
            }
            let tried = if at_graph % 50 == 0 { 3 } else { 2 };
            let fewer = turns.saturating_sub(1).min(tried);
            let has_fewer = q.x.max(q.y) < graph.made && leads_within(&graph, q, fewer);
            assert!(turns == 0 || !has_fewer, "{fewer} takes and grants do: {witness:?}\n{}", here());
            yes += 1;
            all += turns;
            wanting += usize::from(names > 0);
            longest = longest.max(turns);
            most = most.max(behind.made - graph.made);
        }
    }
    assert!(lines.next().is_none(), "answers are left");
    println!("{graphs} graphs: {never} never, {yes} could, {wanting} of them with names wanting; {all} turns, at most {longest} of them, {most} vertices made");
}
