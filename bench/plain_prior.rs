//! A plain program to measure `learn --table MACHINE --prior ANSWERS` and `check MACHINE ANSWERS` beside: `learn MACHINE ANSWERS`
//! prints the model, and `check MACHINE ANSWERS` the first answer that differs from the machine's.
//!
//! It learns by an observation table with single letters as its first suffixes. A hypothesis is tested by what is known alone,
//! and no suite is asked, so the model is the same only where the answers lead to all states. Answers files are of format 1.
use std::collections::HashMap;
use std::{env, fs, process};

enum Json {
    Text(String),
    Number(u16),
    List(Vec<Json>),
    Object(HashMap<String, Json>),
}

impl Json {
    fn text(&self) -> &str {
        match self {
            Json::Text(text) => text,
            _ => process::exit(3),
        }
    }

    fn number(&self) -> u16 {
        match self {
            Json::Number(number) => *number,
            _ => process::exit(3),
        }
    }

    fn list(&self) -> &[Json] {
        match self {
            Json::List(items) => items,
            _ => process::exit(3),
        }
    }

    fn member(&self, name: &str) -> &Json {
        match self {
            Json::Object(members) => members.get(name).unwrap_or_else(|| process::exit(3)),
            _ => process::exit(3),
        }
    }
}

/// Reads the JSON of these files, which has no escapes and no white space outside texts.
struct Reader<'a> {
    bytes: &'a [u8],
    at: usize,
}

impl Reader<'_> {
    fn peek(&self) -> u8 {
        self.bytes.get(self.at).copied().unwrap_or(0)
    }

    fn takes(&mut self, byte: u8) -> bool {
        let is = self.peek() == byte;
        self.at += usize::from(is);
        is
    }

    fn text(&mut self) -> String {
        let rest = &self.bytes[self.at + 1..];
        let len = rest.iter().position(|byte| *byte == b'"').unwrap_or_else(|| process::exit(3));
        self.at += len + 2;
        String::from_utf8_lossy(&rest[..len]).into_owned()
    }

    fn value(&mut self) -> Json {
        match self.peek() {
            b'"' => Json::Text(self.text()),
            b'[' => {
                self.at += 1;
                let mut items = Vec::new();
                while !self.takes(b']') {
                    items.push(self.value());
                    self.takes(b',');
                }
                Json::List(items)
            }
            b'{' => {
                self.at += 1;
                let mut members = HashMap::new();
                while !self.takes(b'}') {
                    let name = self.text();
                    self.takes(b':');
                    members.insert(name, self.value());
                    self.takes(b',');
                }
                Json::Object(members)
            }
            _ => {
                let mut number = 0;
                while self.peek().is_ascii_digit() {
                    number = number * 10 + u16::from(self.peek() - b'0');
                    self.at += 1;
                }
                Json::Number(number)
            }
        }
    }
}

fn read(path: &str) -> Json {
    let bytes = fs::read(path).unwrap_or_else(|_| process::exit(3));
    Reader { bytes: &bytes, at: 0 }.value()
}

fn numbers(names: &Json) -> HashMap<&str, u16> {
    names.list().iter().enumerate().map(|(i, name)| (name.text(), i as u16)).collect()
}

fn word(text: &str, numbers: &HashMap<&str, u16>) -> Vec<u16> {
    text.split(' ').filter(|name| !name.is_empty()).map(|name| numbers[name]).collect()
}

type Rows = Vec<Vec<(u16, u16)>>;

fn outputs(rows: &Rows, word: &[u16]) -> Vec<u16> {
    let mut q = 0;
    let step = |x: &u16| {
        let (target, output) = rows[q as usize][*x as usize];
        q = target;
        output
    };
    word.iter().map(step).collect()
}

/// What is known, as a tree: for each node its output, and its children by letter.
struct Known {
    inputs: usize,
    outs: Vec<u16>,
    children: Vec<u32>,
}

impl Known {
    fn keep(&mut self, word: &[u16], outs: &[u16]) {
        let mut node = 0;
        for (x, y) in word.iter().zip(outs) {
            let place = node * self.inputs + *x as usize;
            if self.children[place] == 0 {
                self.children[place] = self.outs.len() as u32;
                self.outs.push(*y);
                self.children.resize(self.outs.len() * self.inputs, 0);
            }
            node = self.children[place] as usize;
        }
    }

    /// The first word, the shorter before the longer, on which a model differs: breadth first, by letters.
    fn difference(&self, model: &Rows) -> Option<Vec<u16>> {
        let mut queue = vec![(0, 0, 0, 0)];
        let mut first = 0;
        while let Some(&(node, q, _, _)) = queue.get(first) {
            for (x, &(target, output)) in model[q as usize].iter().enumerate() {
                let child = self.children[node as usize * self.inputs + x];
                if child != 0 {
                    queue.push((child, target, first, x as u16));
                    if self.outs[child as usize] != output {
                        return Some(spelled(&queue));
                    }
                }
            }
            first += 1;
        }
        None
    }
}

fn spelled(queue: &[(u32, u16, usize, u16)]) -> Vec<u16> {
    let mut letters = Vec::new();
    let mut at = queue.len() - 1;
    while at != 0 {
        letters.push(queue[at].3);
        at = queue[at].2;
    }
    letters.reverse();
    letters
}

struct Table<'a> {
    system: &'a Rows,
    inputs: u16,
    access: Vec<Vec<u16>>,
    suffixes: Vec<Vec<u16>>,
}

impl Table<'_> {
    fn row(&self, word: &[u16]) -> Vec<u16> {
        let answer = |end: &Vec<u16>| outputs(self.system, &[word, end].concat()).split_off(word.len());
        self.suffixes.iter().flat_map(answer).collect()
    }

    /// Puts more access words in, until each row has its state, and answers the model.
    fn close(&mut self) -> Rows {
        let mut states: HashMap<Vec<u16>, u16> = HashMap::new();
        for (q, word) in self.access.iter().enumerate() {
            states.insert(self.row(word), q as u16);
        }
        let mut model: Rows = Vec::new();
        while model.len() < self.access.len() {
            let mut cells = Vec::new();
            for x in 0..self.inputs {
                let longer = [self.access[model.len()].as_slice(), &[x]].concat();
                let next = self.access.len() as u16;
                let target = *states.entry(self.row(&longer)).or_insert(next);
                let output = *outputs(self.system, &longer).last().unwrap();
                if target == next {
                    self.access.push(longer);
                }
                cells.push((target, output));
            }
            model.push(cells);
        }
        model
    }

    /// Puts the suffix of a counterexample in (Rivest and Schapire 1993).
    fn refine(&mut self, model: &Rows, word: &[u16]) {
        let agrees = |place: usize| {
            let q = word[..place].iter().fold(0, |q: u16, x| model[q as usize][*x as usize].0);
            let probe = [&self.access[q as usize], &word[place..]].concat();
            outputs(self.system, &probe) == outputs(model, &probe)
        };
        let (mut low, mut high) = (0, word.len());
        while high - low > 1 {
            let middle = (low + high) / 2;
            if agrees(middle) {
                high = middle;
            } else {
                low = middle;
            }
        }
        self.suffixes.push(word[low + 1..].to_vec());
    }
}

/// The text of a machine file, the states numbered breadth first.
fn text(machine: &Json, model: &Rows) -> String {
    let names = |member: &str| machine.member(member).list().iter().map(|name| format!("\"{}\"", name.text())).collect::<Vec<_>>();
    let (inputs, outputs) = (names("inputs"), names("outputs"));
    let mut order = vec![0];
    let mut place = HashMap::from([(0, 0)]);
    let mut rows = Vec::new();
    while rows.len() < order.len() {
        let mut cells = Vec::new();
        for (target, output) in &model[order[rows.len()] as usize] {
            let next = order.len();
            let number = *place.entry(*target).or_insert(next);
            if number == next {
                order.push(*target);
            }
            cells.push(format!("[{number},{}]", outputs[*output as usize]));
        }
        rows.push(format!("[{}]", cells.join(",")));
    }
    format!("{{\"inputs\":[{}],\"outputs\":[{}],\"states\":[{}]}}", inputs.join(","), outputs.join(","), rows.join(","))
}

/// What `check MACHINE ANSWERS` says of a first answer that differs.
fn checked(system: &Rows, kept: &[(Vec<u16>, Vec<u16>)]) -> String {
    for (number, (word, outs)) in kept.iter().enumerate() {
        let own = outputs(system, word);
        if let Some(place) = own.iter().zip(outs).position(|(own, out)| own != out) {
            return format!("no: answer {number} differs at place {place}");
        }
    }
    "all answers are given".to_string()
}

fn learned(system: &Rows, inputs: usize, known: &Known) -> Rows {
    let suffixes = (0..inputs as u16).map(|x| vec![x]).collect();
    let mut table = Table { system, inputs: inputs as u16, access: vec![vec![]], suffixes };
    let mut model = table.close();
    while let Some(word) = known.difference(&model) {
        table.refine(&model, &word);
        model = table.close();
    }
    model
}

fn main() {
    let words: Vec<String> = env::args().skip(1).collect();
    let (machine, answers) = (read(&words[1]), read(&words[2]));
    let (inputs, outs) = (numbers(machine.member("inputs")), numbers(machine.member("outputs")));
    let cell = |cell: &Json| (cell.list()[0].number(), outs[cell.list()[1].text()]);
    let system: Rows = machine.member("states").list().iter().map(|row| row.list().iter().map(cell).collect()).collect();
    let mut known = Known { inputs: inputs.len(), outs: vec![0], children: vec![0; inputs.len()] };
    let mut kept = Vec::new();
    for answer in answers.member("answers").list() {
        let texts = answer.list();
        kept.push((word(texts[0].text(), &inputs), word(texts[1].text(), &outs)));
    }
    for (word, outs) in &kept {
        known.keep(word, outs);
    }
    match words[0].as_str() {
        "learn" => println!("{}", text(&machine, &learned(&system, inputs.len(), &known))),
        _ => println!("{}", checked(&system, &kept)),
    }
}
