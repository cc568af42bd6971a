//! A plain program to measure Nofjand beside: `trial`, `learn`, `check` and `serve`, with the same arguments, files and texts.
//!
//! It takes the same steps in the same order: the same words are asked in the same batches, and at one worker the files are the
//! same to the byte. Of the options it has those that `bench/beside` uses; suites are those of the W-method. A setup has to name
//! its outputs. What is no file of its kind, and a child that fails, end it with a short line and the same status.
use std::{env, process};

/// Words, one behind the other, and ways to join them.
mod words {
    pub type Word = Vec<u8>;

    #[derive(Default)]
    pub struct Words {
        letters: Vec<u8>,
        ends: Vec<usize>,
    }

    impl Words {
        /// Puts a word last that is made of these parts.
        pub fn push(&mut self, parts: &[&[u8]]) {
            for part in parts {
                self.letters.extend_from_slice(part);
            }
            self.ends.push(self.letters.len());
        }

        pub fn get(&self, place: usize) -> &[u8] {
            let start = if place == 0 { 0 } else { self.ends[place - 1] };
            &self.letters[start..self.ends[place]]
        }

        pub fn len(&self) -> usize {
            self.ends.len()
        }

        pub fn clear(&mut self) {
            self.letters.clear();
            self.ends.clear();
        }

        pub fn iter(&self) -> impl Iterator<Item = &[u8]> {
            (0..self.len()).map(|place| self.get(place))
        }
    }

    /// The names of the letters of a word, with one blank between.
    pub fn spelled<N: Copy + Into<usize>>(names: &[String], word: &[N]) -> String {
        word.iter().map(|&number| names[number.into()].as_str()).collect::<Vec<_>>().join(" ")
    }
}

/// Mealy machines: canonical form, access words, separating words.
mod machine {
    use crate::words::Word;
    use std::collections::HashMap;

    const NONE: u16 = u16::MAX;

    #[derive(Clone, PartialEq)]
    pub struct Machine {
        pub inputs: usize,
        /// For each state, and for each letter, the next state and the output.
        pub cells: Vec<(u16, u16)>,
    }

    impl Machine {
        pub fn states(&self) -> usize {
            self.cells.len() / self.inputs
        }

        pub fn step(&self, state: u16, letter: u8) -> (u16, u16) {
            self.cells[usize::from(state) * self.inputs + usize::from(letter)]
        }

        pub fn row(&self, state: usize) -> &[(u16, u16)] {
            &self.cells[state * self.inputs..(state + 1) * self.inputs]
        }

        pub fn after(&self, state: u16, word: &[u8]) -> u16 {
            word.iter().fold(state, |state, &letter| self.step(state, letter).0)
        }

        pub fn outputs<'a>(&'a self, mut state: u16, word: &'a [u8]) -> impl Iterator<Item = u16> + 'a {
            word.iter().map(move |&letter| {
                let (target, output) = self.step(state, letter);
                state = target;
                output
            })
        }

        /// The classes of states by the words of at most 0, 1, 2 letters and so on, the last by all words.
        pub fn levels(&self) -> Vec<Vec<u16>> {
            let mut levels = vec![vec![0; self.states()]];
            let mut count = 1;
            loop {
                let (finer, more) = self.refined(&levels[levels.len() - 1]);
                if more == count {
                    return levels;
                }
                count = more;
                levels.push(finer);
            }
        }

        /// The classes by words of one letter more, and their number.
        fn refined(&self, classes: &[u16]) -> (Vec<u16>, usize) {
            let mut numbers: HashMap<Vec<u32>, u16> = HashMap::new();
            let mut key = Vec::new();
            let mut finer = Vec::with_capacity(classes.len());
            for state in 0..self.states() {
                key.clear();
                key.push(u32::from(classes[state]));
                let part = |&(target, output): &(u16, u16)| u32::from(classes[usize::from(target)]) << 16 | u32::from(output);
                key.extend(self.row(state).iter().map(part));
                let next = numbers.len() as u16;
                finer.push(match numbers.get(&key) {
                    Some(&number) => number,
                    None => {
                        numbers.insert(key.clone(), next);
                        next
                    }
                });
            }
            (finer, numbers.len())
        }

        /// The reachable states, those taken for one that agree on all words, numbered breadth first in letter order.
        pub fn canonical(&self) -> Machine {
            let levels = self.levels();
            let classes = &levels[levels.len() - 1];
            let mut number_of = vec![NONE; self.states()];
            let mut order = vec![0_u16];
            number_of[usize::from(classes[0])] = 0;
            let mut cells = Vec::with_capacity(self.cells.len());
            let mut next = 0;
            while next < order.len() {
                for &(target, output) in self.row(usize::from(order[next])) {
                    let class = usize::from(classes[usize::from(target)]);
                    if number_of[class] == NONE {
                        number_of[class] = order.len() as u16;
                        order.push(target);
                    }
                    cells.push((number_of[class], output));
                }
                next += 1;
            }
            Machine { inputs: self.inputs, cells }
        }

        /// For each state its least access word, None where no word leads to it.
        pub fn access_words(&self) -> Vec<Option<Word>> {
            let mut words: Vec<Option<Word>> = vec![None; self.states()];
            words[0] = Some(Vec::new());
            let mut queue = vec![0];
            let mut next = 0;
            while next < queue.len() {
                let word = words[queue[next]].clone().unwrap_or_default();
                for (letter, &(target, _)) in self.row(queue[next]).iter().enumerate() {
                    let target = usize::from(target);
                    if words[target].is_none() {
                        words[target] = Some([word.as_slice(), &[letter as u8]].concat());
                        queue.push(target);
                    }
                }
                next += 1;
            }
            words
        }

        /// The least word that separates two states, by the levels.
        fn separating(&self, levels: &[Vec<u16>], mut p: usize, mut q: usize) -> Word {
            let length = levels.iter().position(|classes| classes[p] != classes[q]).expect("states that are apart");
            let mut word = Vec::with_capacity(length);
            for classes in levels[..length].iter().rev() {
                let class = |target: u16| classes[usize::from(target)];
                let parts = |(one, other): (&(u16, u16), &(u16, u16))| one.1 != other.1 || class(one.0) != class(other.0);
                let letter = self.row(p).iter().zip(self.row(q)).position(parts).expect("a letter that parts them");
                (p, q) = (usize::from(self.row(p)[letter].0), usize::from(self.row(q)[letter].0));
                word.push(letter as u8);
            }
            word
        }

        /// Words that tell all states apart: for each pair that those before don't tell apart, the least that does.
        pub fn separators(&self) -> Vec<Word> {
            let levels = self.levels();
            let (mut words, mut classes) = (Vec::new(), vec![0; self.states()]);
            for p in 0..classes.len() {
                for q in p + 1..classes.len() {
                    if classes[p] == classes[q] {
                        let word = self.separating(&levels, p, q);
                        self.split(&mut classes, &word);
                        words.push(word);
                    }
                }
            }
            words
        }

        /// Splits classes of states by their outputs on a word.
        fn split(&self, classes: &mut [u16], word: &[u8]) {
            let mut numbers = HashMap::new();
            for (state, class) in classes.iter_mut().enumerate() {
                let next = numbers.len() as u16;
                let outputs: Vec<u16> = self.outputs(state as u16, word).collect();
                *class = *numbers.entry((*class, outputs)).or_insert(next);
            }
        }

        /// The first two states that agree on all words.
        pub fn first_alike(&self) -> Option<(usize, usize)> {
            let levels = self.levels();
            let classes = &levels[levels.len() - 1];
            let later = |p: usize| (p + 1..classes.len()).find(move |&q| classes[p] == classes[q]).map(|q| (p, q));
            (0..classes.len()).find_map(later)
        }
    }
}

/// The numbers of a seed, PCG with 128 bits of state (O'Neill 2014), and the machines that they draw.
mod drawing {
    use crate::machine::Machine;

    const MULTIPLIER: u128 = 0x2360_ED05_1FC6_5DA4_4385_DF64_9FCC_F645;

    struct Generator {
        state: u128,
        step: u128,
    }

    impl Generator {
        fn of_seed(mut seed: u64) -> Generator {
            let mut part = || {
                seed = seed.wrapping_mul(6_364_136_223_846_793_005).wrapping_add(11_634_580_027_462_260_723);
                ((((seed >> 18) ^ seed) >> 27) as u32).rotate_right((seed >> 59) as u32)
            };
            let mut number = || (0..4).fold(0, |sum, place| sum | u128::from(part()) << (32 * place));
            let state = number();
            let step = number() | 1;
            let mut generator = Generator { state: state.wrapping_add(step), step };
            generator.advance();
            generator
        }

        fn advance(&mut self) {
            self.state = self.state.wrapping_mul(MULTIPLIER).wrapping_add(self.step);
        }

        fn draw(&mut self) -> u64 {
            self.advance();
            ((self.state >> 64) as u64 ^ self.state as u64).rotate_right((self.state >> 122) as u32)
        }
    }

    /// Letter 0 goes round the states, with output 1 at the last; of each other letter target and output are drawn.
    pub fn drawn(states: usize, inputs: usize, seed: u64) -> Machine {
        let mut random = Generator::of_seed(seed);
        let mut cells = Vec::with_capacity(states * inputs);
        for state in 0..states {
            cells.push((((state + 1) % states) as u16, u16::from(state + 1 == states)));
            for _ in 1..inputs {
                let target = random.draw() % states as u64;
                cells.push((target as u16, (random.draw() % 2) as u16));
            }
        }
        Machine { inputs, cells }
    }
}

/// What is known: a node for each word with letters that was answered, or begins one that was.
mod trie {
    use crate::machine::Machine;
    use crate::words::Word;

    pub const ROOT: u32 = 0;
    const NONE: u32 = 0;
    const UNKNOWN: u16 = u16::MAX;

    #[derive(Clone, Copy)]
    struct Node {
        parent: u32,
        /// The first of its children, which stand in a list by their letters.
        child: u32,
        sibling: u32,
        output: u16,
        letter: u8,
    }

    pub struct Trie {
        nodes: Vec<Node>,
    }

    impl Trie {
        pub fn new() -> Trie {
            Trie { nodes: vec![Node { parent: NONE, child: NONE, sibling: NONE, output: UNKNOWN, letter: 0 }] }
        }

        pub fn len(&self) -> usize {
            self.nodes.len()
        }

        pub fn child(&self, node: u32, letter: u8) -> Option<u32> {
            let mut at = self.nodes[node as usize].child;
            while at != NONE {
                let node = &self.nodes[at as usize];
                if node.letter >= letter {
                    return (node.letter == letter).then_some(at);
                }
                at = node.sibling;
            }
            None
        }

        pub fn children(&self, node: u32) -> impl Iterator<Item = u32> + '_ {
            let some = |at: u32| (at != NONE).then_some(at);
            std::iter::successors(some(self.nodes[node as usize].child), move |&at| some(self.nodes[at as usize].sibling))
        }

        pub fn walk(&self, node: u32, word: &[u8]) -> Option<u32> {
            word.iter().try_fold(node, |node, &letter| self.child(node, letter))
        }

        pub fn output(&self, node: u32) -> u16 {
            self.nodes[node as usize].output
        }

        /// The outputs on a word behind a node, which is known.
        pub fn outputs<'a>(&'a self, mut node: u32, word: &'a [u8]) -> impl Iterator<Item = u16> + 'a {
            word.iter().map(move |&letter| {
                node = self.child(node, letter).expect("a known word");
                self.output(node)
            })
        }

        /// Makes room for a word: its last node, and None where all of its nodes are there.
        pub fn insert(&mut self, word: &[u8]) -> Option<u32> {
            let before = self.nodes.len();
            let mut node = ROOT;
            for &letter in word {
                node = self.child_or_new(node, letter);
            }
            (self.nodes.len() > before).then_some(node)
        }

        fn child_or_new(&mut self, parent: u32, letter: u8) -> u32 {
            let (mut before, mut at) = (NONE, self.nodes[parent as usize].child);
            while at != NONE && self.nodes[at as usize].letter < letter {
                (before, at) = (at, self.nodes[at as usize].sibling);
            }
            if at != NONE && self.nodes[at as usize].letter == letter {
                return at;
            }
            let new = self.nodes.len() as u32;
            self.nodes.push(Node { parent, child: NONE, sibling: at, output: UNKNOWN, letter });
            match before {
                NONE => self.nodes[parent as usize].child = new,
                before => self.nodes[before as usize].sibling = new,
            }
            new
        }

        /// Puts the outputs of a word in, whose last node this is: false where another output was known.
        pub fn fill(&mut self, mut node: u32, outputs: &[u16]) -> bool {
            for &output in outputs.iter().rev() {
                let known = &mut self.nodes[node as usize];
                if known.output == UNKNOWN {
                    known.output = output;
                } else if known.output != output {
                    return false;
                }
                node = known.parent;
            }
            true
        }

        /// The word of a node, and its outputs.
        pub fn read(&self, mut node: u32, word: &mut Word, outputs: &mut Vec<u16>) {
            word.clear();
            outputs.clear();
            while node != ROOT {
                let Node { parent, output, letter, .. } = self.nodes[node as usize];
                word.push(letter);
                outputs.push(output);
                node = parent;
            }
            word.reverse();
            outputs.reverse();
        }

        /// The first known word in shortlex order on which a machine differs. Each node stands behind its parent in the list.
        pub fn differing(&self, machine: &Machine) -> Option<Word> {
            let mut reached: Vec<(u16, u32)> = Vec::with_capacity(self.nodes.len());
            reached.push((0, 0));
            let mut found: Option<(u32, Word)> = None;
            let (mut word, mut outputs) = (Vec::new(), Vec::new());
            for (place, node) in self.nodes.iter().enumerate().skip(1) {
                let (state, depth) = reached[node.parent as usize];
                let (target, output) = machine.step(state, node.letter);
                reached.push((target, depth + 1));
                if output != node.output && found.as_ref().is_none_or(|&(least, _)| depth <= least) {
                    self.read(place as u32, &mut word, &mut outputs);
                    let new = (depth, word.clone());
                    found = match found {
                        Some(old) => Some(old.min(new)),
                        None => Some(new),
                    };
                }
            }
            found.map(|(_, word)| word)
        }
    }
}

/// Systems that are asked, by one thread or by several that live as long as the learning.
mod asking {
    use crate::children::Link;
    use crate::machine::Machine;
    use crate::trie::Trie;
    use crate::words::Words;
    use std::sync::atomic::{AtomicUsize, Ordering};
    use std::sync::mpsc::{channel, Receiver, Sender};
    use std::sync::Arc;
    use std::thread::Scope;

    /// The most words that a thread takes at once.
    const MOST: usize = 16;

    pub enum Session<'a> {
        Table(&'a Machine),
        Child(Link),
    }

    impl Session<'_> {
        /// Puts the outputs of a word behind these.
        fn ask(&mut self, word: &[u8], outputs: &mut Vec<u16>) {
            match self {
                Session::Table(machine) => outputs.extend(machine.outputs(0, word)),
                Session::Child(link) => link.ask(word, outputs),
            }
        }
    }

    /// The words of a batch, and the places of those that are to be asked, first ones first.
    struct Batch {
        words: Words,
        places: Vec<u32>,
        next: AtomicUsize,
        step: usize,
    }

    /// What one thread asked of a batch: the numbers of the places, and the outputs one behind the other.
    struct Share {
        instance: u8,
        asked: Vec<u32>,
        outputs: Vec<u16>,
    }

    fn work(session: &mut Session<'_>, instance: u8, batch: &Batch) -> Share {
        let mut share = Share { instance, asked: Vec::new(), outputs: Vec::new() };
        loop {
            let first = batch.next.fetch_add(batch.step, Ordering::Relaxed);
            let last = batch.places.len().min(first + batch.step);
            if first >= last {
                return share;
            }
            for number in first..last {
                session.ask(batch.words.get(batch.places[number] as usize), &mut share.outputs);
                share.asked.push(number as u32);
            }
        }
    }

    /// An answer: the last node of its word, and who gave it.
    pub struct Answer {
        pub node: u32,
        pub run: u32,
        pub instance: u8,
    }

    /// What is known, and who may be asked.
    pub struct Oracle<'a> {
        pub trie: Trie,
        pub answers: Vec<Answer>,
        own: Session<'a>,
        helpers: Vec<Sender<Arc<Batch>>>,
        shares: Receiver<Share>,
        runs: Vec<u32>,
    }

    impl<'a> Oracle<'a> {
        /// The first session is asked by this thread, each other one by a thread of its own.
        pub fn new<'s>(scope: &'s Scope<'s, 'a>, sessions: Vec<Session<'a>>) -> Oracle<'a> {
            let runs = vec![0; sessions.len()];
            let (share_to, shares) = channel();
            let mut sessions = sessions.into_iter();
            let own = sessions.next().expect("a session");
            let mut helpers = Vec::new();
            for (number, mut session) in sessions.enumerate() {
                let (helper, batches) = channel::<Arc<Batch>>();
                let share_to = share_to.clone();
                scope.spawn(move || {
                    for batch in batches {
                        let share = work(&mut session, number as u8 + 1, &batch);
                        drop(batch);
                        if share_to.send(share).is_err() {
                            return;
                        }
                    }
                });
                helpers.push(helper);
            }
            Oracle { trie: Trie::new(), answers: Vec::new(), own, helpers, shares, runs }
        }

        /// Asks the words of a batch that aren't known and begin no other one, the longest first; answers the batch.
        pub fn settle(&mut self, words: Words) -> Words {
            let mut order: Vec<u32> = (0..words.len() as u32).collect();
            order.sort_by_key(|&place| std::cmp::Reverse(words.get(place as usize).len()));
            let mut nodes = Vec::new();
            order.retain(|&place| match self.trie.insert(words.get(place as usize)) {
                Some(node) => {
                    nodes.push(node);
                    true
                }
                None => false,
            });
            if self.helpers.is_empty() || nodes.len() < 2 {
                self.ask_alone(&words, &order, &nodes);
                return words;
            }
            self.ask_together(words, order, &nodes)
        }

        fn ask_alone(&mut self, words: &Words, places: &[u32], nodes: &[u32]) {
            let mut outputs = Vec::new();
            for (&place, &node) in places.iter().zip(nodes) {
                outputs.clear();
                self.own.ask(words.get(place as usize), &mut outputs);
                self.record(0, node, &outputs);
            }
        }

        fn ask_together(&mut self, words: Words, places: Vec<u32>, nodes: &[u32]) -> Words {
            let helpers = self.helpers.len().min(places.len() - 1);
            let step = (places.len() / (4 * (helpers + 1))).clamp(1, MOST);
            let batch = Arc::new(Batch { words, places, next: AtomicUsize::new(0), step });
            for helper in &self.helpers[..helpers] {
                helper.send(Arc::clone(&batch)).expect("a thread that works");
            }
            let own = work(&mut self.own, 0, &batch);
            self.take(own, &batch, nodes);
            for _ in 0..helpers {
                let share = self.shares.recv().expect("a thread that works");
                self.take(share, &batch, nodes);
            }
            Arc::into_inner(batch).expect("a batch that all have left").words
        }

        fn take(&mut self, share: Share, batch: &Batch, nodes: &[u32]) {
            let mut outputs = share.outputs.as_slice();
            for number in share.asked {
                let place = batch.places[number as usize] as usize;
                let (own, rest) = outputs.split_at(batch.words.get(place).len());
                self.record(share.instance, nodes[number as usize], own);
                outputs = rest;
            }
        }

        fn record(&mut self, instance: u8, node: u32, outputs: &[u16]) {
            if !self.trie.fill(node, outputs) {
                crate::stop(4, "nondeterministic");
            }
            let run = &mut self.runs[usize::from(instance)];
            self.answers.push(Answer { node, run: *run, instance });
            *run += 1;
        }
    }
}

/// Children that are asked over pipes, a line at a time, and the child's side.
mod children {
    use crate::files::Names;
    use crate::machine::Machine;
    use std::io::{self, BufRead, BufReader, Write};
    use std::process::{Child, ChildStdin, ChildStdout, Command, Stdio};
    use std::sync::Arc;

    pub struct Link {
        instance: usize,
        to: ChildStdin,
        from: BufReader<ChildStdout>,
        line: Vec<u8>,
        lines: Arc<Vec<Vec<u8>>>,
        outputs: Arc<Names>,
    }

    impl Link {
        /// Sends a line, and reads the answer without its end.
        fn exchange(&mut self, line: &[u8]) -> &[u8] {
            self.line.clear();
            let sent = self.to.write_all(line).and_then(|()| self.from.read_until(b'\n', &mut self.line));
            if sent.is_err() || self.line.pop() != Some(b'\n') {
                crate::stop(6, &format!("system failed: instance {}", self.instance));
            }
            self.line.strip_suffix(b"\r").unwrap_or(&self.line)
        }

        pub fn ask(&mut self, word: &[u8], outputs: &mut Vec<u16>) {
            if self.exchange(b"reset\n") != b"ready" {
                self.refuse();
            }
            let lines = Arc::clone(&self.lines);
            let names = Arc::clone(&self.outputs);
            for &letter in word {
                let answer = self.exchange(&lines[usize::from(letter)]);
                let name = answer.strip_prefix(b"out ").and_then(|name| std::str::from_utf8(name).ok());
                match name.and_then(|name| names.number(name)) {
                    Some(output) => outputs.push(output),
                    None => self.refuse(),
                }
            }
        }

        fn refuse(&self) -> ! {
            let bytes: String = self.line.iter().map(|byte| format!("{byte:02x}")).collect();
            crate::stop(6, &format!("bad line: instance {}: {bytes}", self.instance))
        }
    }

    /// Starts this many children.
    pub fn start(command: &[String], inputs: &Names, outputs: Names, count: usize) -> (Vec<Link>, Vec<Child>) {
        let lines = Arc::new(inputs.list.iter().map(|name| format!("in {name}\n").into_bytes()).collect::<Vec<_>>());
        let outputs = Arc::new(outputs);
        let (mut links, mut children) = (Vec::new(), Vec::new());
        for instance in 0..count {
            let mut one = Command::new(&command[0]);
            one.args(&command[1..]).env("NOFJAND_INSTANCE", instance.to_string());
            let Ok(mut child) = one.stdin(Stdio::piped()).stdout(Stdio::piped()).spawn() else {
                crate::stop(6, &format!("system failed: instance {instance}"));
            };
            let (to, from) = (child.stdin.take().expect("a pipe"), child.stdout.take().expect("a pipe"));
            let (lines, outputs) = (Arc::clone(&lines), Arc::clone(&outputs));
            links.push(Link { instance, to, from: BufReader::new(from), line: Vec::new(), lines, outputs });
            children.push(child);
        }
        (links, children)
    }

    /// Answers lines as a machine does.
    pub fn serve(machine: &Machine, inputs: &Names, outputs: &Names) -> io::Result<()> {
        let (mut from, mut to) = (io::stdin().lock(), io::stdout().lock());
        let answers: Vec<String> = outputs.list.iter().map(|name| format!("out {name}\n")).collect();
        let (mut state, mut line) = (0, String::new());
        loop {
            line.clear();
            if from.read_line(&mut line)? == 0 {
                return Ok(());
            }
            match line.trim_end_matches(['\r', '\n']) {
                "reset" => {
                    state = 0;
                    to.write_all(b"ready\n")?;
                }
                "quit" => return Ok(()),
                asked => match asked.strip_prefix("in ").and_then(|name| inputs.number(name)) {
                    Some(letter) => {
                        let (target, output) = machine.step(state, letter as u8);
                        state = target;
                        to.write_all(answers[usize::from(output)].as_bytes())?;
                    }
                    None => crate::stop(6, "bad line"),
                },
            }
            to.flush()?;
        }
    }
}

/// The suite of the W-method (Vasilevskii 1973, Chow 1978), and the certificate.
mod suite {
    use crate::asking::Oracle;
    use crate::machine::Machine;
    use crate::trie::{Trie, ROOT};
    use crate::words::{Word, Words};

    pub const GREATEST: usize = 8_388_608;
    const CHUNK: usize = 512;

    fn middle_count(inputs: usize, longest: u32) -> usize {
        (0..=longest).map(|length| inputs.pow(length)).sum()
    }

    /// What bounds the number of words.
    pub fn size(machine: &Machine, extra: u8) -> usize {
        machine.states() * machine.states() * middle_count(machine.inputs, u32::from(extra) + 1)
    }

    pub struct Suite {
        access: Vec<Word>,
        middles: Words,
        ends: Words,
    }

    impl Suite {
        /// Of a machine that is minimal, whose states are all reached.
        pub fn new(machine: &Machine, extra: u8) -> Suite {
            let mut ends = Words::default();
            ends.push(&[]);
            for word in machine.separators() {
                ends.push(&[&word]);
            }
            let access = machine.access_words().into_iter().flatten().collect();
            Suite { access, middles: middles(machine.inputs, u32::from(extra) + 1), ends }
        }

        fn words(&self) -> impl Iterator<Item = [&[u8]; 3]> {
            let behind = |access| {
                let fronts = self.middles.iter().map(move |middle| [access, middle]);
                fronts.flat_map(|[access, middle]| self.ends.iter().map(move |end| [access, middle, end]))
            };
            self.access.iter().map(Vec::as_slice).flat_map(behind)
        }

        /// Settles the suite in chunks, up to the first word on which the machine differs: cut to where it does.
        pub fn first_differing(&self, oracle: &mut Oracle<'_>, machine: &Machine) -> Option<Word> {
            let mut words = self.words();
            let mut chunk = Words::default();
            loop {
                chunk.clear();
                for parts in words.by_ref().take(CHUNK) {
                    chunk.push(&parts);
                }
                if chunk.len() == 0 {
                    return None;
                }
                let before = oracle.answers.len();
                chunk = oracle.settle(chunk);
                // What was known before agrees with the machine.
                if oracle.answers.len() > before {
                    if let Some(word) = chunk.iter().find_map(|word| differing_prefix(&oracle.trie, machine, word)) {
                        return Some(word.to_vec());
                    }
                }
            }
        }

        /// The first word that isn't known.
        pub fn first_missing(&self, trie: &Trie) -> Option<Word> {
            for access in &self.access {
                let start = trie.walk(ROOT, access);
                for middle in self.middles.iter() {
                    let front = start.and_then(|node| trie.walk(node, middle));
                    for end in self.ends.iter() {
                        if front.and_then(|node| trie.walk(node, end)).is_none() {
                            return Some([access.as_slice(), middle, end].concat());
                        }
                    }
                }
            }
            None
        }
    }

    /// The words of at most so many letters, in shortlex order.
    fn middles(inputs: usize, longest: u32) -> Words {
        let mut words = Words::default();
        words.push(&[]);
        for place in 0..middle_count(inputs, longest - 1) {
            let word = words.get(place).to_vec();
            for letter in 0..inputs {
                words.push(&[&word, &[letter as u8]]);
            }
        }
        words
    }

    fn differing_prefix<'w>(trie: &Trie, machine: &Machine, word: &'w [u8]) -> Option<&'w [u8]> {
        let place = trie.outputs(ROOT, word).zip(machine.outputs(0, word)).position(|(known, own)| known != own);
        place.map(|place| &word[..=place])
    }
}

/// What both learners have in common: the rounds (Angluin 1987), and how a counterexample is cut (Rivest and Schapire 1993).
mod rounds {
    use crate::asking::Oracle;
    use crate::machine::Machine;
    use crate::suite::{self, Suite};
    use crate::trie::ROOT;
    use crate::words::{Word, Words};

    /// A state, a letter and a suffix that split a machine.
    pub struct Cut {
        pub state: u16,
        pub letter: u8,
        pub suffix: Word,
    }

    pub trait Learner {
        fn close(&mut self, oracle: &mut Oracle<'_>);
        fn machine(&self, oracle: &Oracle<'_>) -> Machine;
        fn access(&self, state: u16) -> &[u8];
        fn refine(&mut self, oracle: &mut Oracle<'_>, cut: Cut);
        /// Puts a final discriminator in the place of a temporary one, where there is one.
        fn settle_block(&mut self, oracle: &mut Oracle<'_>) -> bool;
    }

    fn cut(oracle: &mut Oracle<'_>, machine: &Machine, learner: &dyn Learner, word: &[u8]) -> Cut {
        let (mut low, mut high) = (0, word.len());
        while high - low > 1 {
            let middle = low + (high - low) / 2;
            let (state, rest) = (machine.after(0, &word[..middle]), &word[middle..]);
            let mut probe = Words::default();
            probe.push(&[learner.access(state), rest]);
            oracle.settle(probe);
            let node = oracle.trie.walk(ROOT, learner.access(state)).expect("a known access word");
            if oracle.trie.outputs(node, rest).eq(machine.outputs(state, rest)) {
                high = middle;
            } else {
                low = middle;
            }
        }
        Cut { state: machine.after(0, &word[..low]), letter: word[low], suffix: word[low + 1..].to_vec() }
    }

    /// A model that the answers suffice for, and the number of refinements; or the model whose suite is too large.
    pub fn learn(oracle: &mut Oracle<'_>, learner: &mut dyn Learner, extra: u8) -> Result<(Machine, usize), Machine> {
        let mut refinements = 0;
        learner.close(oracle);
        loop {
            let hypothesis = learner.machine(oracle);
            let mut word = oracle.trie.differing(&hypothesis);
            if word.is_none() {
                if learner.settle_block(oracle) {
                    continue;
                }
                let model = hypothesis.canonical();
                if suite::size(&model, extra) > suite::GREATEST {
                    return Err(model);
                }
                word = Suite::new(&model, extra).first_differing(oracle, &hypothesis);
                if word.is_none() {
                    certify(oracle, &model, extra);
                    return Ok((model, refinements));
                }
            }
            let cut = cut(oracle, &hypothesis, learner, &word.unwrap_or_default());
            learner.refine(oracle, cut);
            refinements += 1;
        }
    }

    /// Holds that a model is minimal and reached, agrees with the answers, and that its suite is known.
    fn certify(oracle: &Oracle<'_>, model: &Machine, extra: u8) {
        assert!(model.access_words().iter().all(Option::is_some) && model.first_alike().is_none());
        assert!(oracle.trie.differing(model).is_none());
        assert!(Suite::new(model, extra).first_missing(&oracle.trie).is_none());
    }
}

/// The observation table (Angluin 1987).
mod table {
    use crate::asking::Oracle;
    use crate::machine::Machine;
    use crate::rounds::{Cut, Learner};
    use crate::trie::{Trie, ROOT};
    use crate::words::{Word, Words};
    use std::collections::HashMap;

    /// A row: the node of its word, how many cells are filled, and the number of what they hold.
    #[derive(Clone, Copy)]
    struct Row {
        node: u32,
        filled: usize,
        class: u32,
    }

    const EMPTY: Row = Row { node: ROOT, filled: 0, class: 0 };

    /// Row 0 is the empty word's, and row 1 + i·a + x that of access word i followed by letter x.
    pub struct Table {
        inputs: usize,
        access: Vec<Word>,
        /// The rows of the access words.
        homes: Vec<usize>,
        suffixes: Vec<Word>,
        rows: Vec<Row>,
        cells: HashMap<Vec<u16>, u32>,
        /// A class for each shorter row with one cell more.
        classes: HashMap<(u32, u32), u32>,
        states: HashMap<u32, u16>,
    }

    impl Table {
        pub fn new(inputs: usize) -> Table {
            Table {
                inputs,
                access: vec![Vec::new()],
                homes: vec![0],
                suffixes: (0..inputs).map(|letter| vec![letter as u8]).collect(),
                rows: vec![EMPTY; 1 + inputs],
                cells: HashMap::new(),
                classes: HashMap::new(),
                states: HashMap::new(),
            }
        }

        /// The access word and the letter of a row but the first.
        fn parts(&self, row: usize) -> (usize, u8) {
            ((row - 1) / self.inputs, ((row - 1) % self.inputs) as u8)
        }

        fn push_words(&self, words: &mut Words, row: usize) {
            for suffix in &self.suffixes[self.rows[row].filled..] {
                if row == 0 {
                    words.push(&[suffix]);
                } else {
                    let (access, letter) = self.parts(row);
                    words.push(&[&self.access[access], &[letter], suffix]);
                }
            }
        }

        fn fill_row(&mut self, trie: &Trie, row: usize) {
            if row > 0 {
                let (access, letter) = self.parts(row);
                let node = self.rows[self.homes[access]].node;
                self.rows[row].node = trie.child(node, letter).expect("a known row");
            }
            let row = &mut self.rows[row];
            let mut outputs = Vec::new();
            for suffix in &self.suffixes[row.filled..] {
                outputs.clear();
                outputs.extend(trie.outputs(row.node, suffix));
                let next = self.cells.len() as u32;
                let cell = self.cells.get(&outputs).copied().unwrap_or_else(|| {
                    self.cells.insert(outputs.clone(), next);
                    next
                });
                let next = self.classes.len() as u32 + 1;
                row.class = *self.classes.entry((row.class, cell)).or_insert(next);
            }
            row.filled = self.suffixes.len();
        }

        /// Fills the cells of the rows from one on.
        fn fill(&mut self, oracle: &mut Oracle<'_>, first: usize) {
            let mut words = Words::default();
            for row in first..self.rows.len() {
                self.push_words(&mut words, row);
            }
            oracle.settle(words);
            for row in first..self.rows.len() {
                self.fill_row(&oracle.trie, row);
            }
        }

        fn add_access(&mut self, row: usize) {
            let (access, letter) = self.parts(row);
            self.states.insert(self.rows[row].class, self.access.len() as u16);
            self.access.push([self.access[access].as_slice(), &[letter]].concat());
            self.homes.push(row);
            self.rows.resize(self.rows.len() + self.inputs, EMPTY);
        }
    }

    impl Learner for Table {
        fn close(&mut self, oracle: &mut Oracle<'_>) {
            self.fill(oracle, 0);
            self.states = self.homes.iter().enumerate().map(|(state, &row)| (self.rows[row].class, state as u16)).collect();
            let mut row = 0;
            while row < self.rows.len() {
                if !self.states.contains_key(&self.rows[row].class) {
                    let first = self.rows.len();
                    self.add_access(row);
                    self.fill(oracle, first);
                }
                row += 1;
            }
        }

        fn machine(&self, oracle: &Oracle<'_>) -> Machine {
            let cell = |row: &Row| (self.states[&row.class], oracle.trie.output(row.node));
            Machine { inputs: self.inputs, cells: self.rows[1..].iter().map(cell).collect() }
        }

        fn access(&self, state: u16) -> &[u8] {
            &self.access[usize::from(state)]
        }

        fn refine(&mut self, oracle: &mut Oracle<'_>, cut: Cut) {
            self.suffixes.push(cut.suffix);
            self.close(oracle);
        }

        fn settle_block(&mut self, _: &mut Oracle<'_>) -> bool {
            false
        }
    }
}

/// The discrimination tree (Kearns and Vazirani 1994) with temporary discriminators (Isberner, Howar and Steffen 2014).
mod tree {
    use crate::asking::Oracle;
    use crate::machine::Machine;
    use crate::rounds::{Cut, Learner};
    use crate::trie::{Trie, ROOT};
    use crate::words::{Word, Words};

    const NONE: u32 = u32::MAX;

    enum Content {
        State(u16),
        Inner { word: Word, is_final: bool, below: Vec<(Vec<u16>, u32)> },
    }

    struct Node {
        parent: u32,
        content: Content,
    }

    /// Transition q·a + x is that of state q by letter x. It stands at a node; at a leaf it has that state as its target.
    struct Transition {
        node: u32,
        output: u16,
        is_spanning: bool,
    }

    pub struct Tree {
        inputs: usize,
        access: Vec<Word>,
        /// The nodes of the access words among what is known.
        known: Vec<u32>,
        leaves: Vec<u32>,
        nodes: Vec<Node>,
        transitions: Vec<Transition>,
        /// The transitions without a target, by their numbers.
        open: Vec<usize>,
    }

    impl Tree {
        pub fn new(inputs: usize) -> Tree {
            let nodes = vec![Node { parent: NONE, content: Content::State(0) }];
            let (access, known) = (vec![Vec::new()], vec![ROOT]);
            let mut tree = Tree { inputs, access, known, leaves: vec![0], nodes, transitions: Vec::new(), open: Vec::new() };
            tree.push_transitions();
            tree
        }

        /// The transitions of a new state, at the root.
        fn push_transitions(&mut self) {
            for _ in 0..self.inputs {
                self.open.push(self.transitions.len());
                self.transitions.push(Transition { node: 0, output: 0, is_spanning: false });
            }
        }

        fn push_node(&mut self, parent: u32, content: Content) -> u32 {
            self.nodes.push(Node { parent, content });
            self.nodes.len() as u32 - 1
        }

        fn parts(&self, transition: usize) -> (usize, u8) {
            (transition / self.inputs, (transition % self.inputs) as u8)
        }

        /// The node of a transition's word among what is known.
        fn known(&self, trie: &Trie, transition: usize) -> u32 {
            let (state, letter) = self.parts(transition);
            trie.child(self.known[state], letter).expect("a known transition")
        }

        fn state_at(&self, node: u32) -> Option<u16> {
            match self.nodes[node as usize].content {
                Content::State(state) => Some(state),
                Content::Inner { .. } => None,
            }
        }

        fn target(&self, transition: usize) -> u16 {
            self.state_at(self.transitions[transition].node).expect("a closed tree")
        }

        /// Makes a state of a transition: a leaf below a node.
        fn add_state(&mut self, trie: &Trie, transition: usize, parent: u32) -> u32 {
            let (state, letter) = self.parts(transition);
            let leaf = self.push_node(parent, Content::State(self.access.len() as u16));
            self.access.push([self.access[state].as_slice(), &[letter]].concat());
            self.known.push(self.known(trie, transition));
            self.leaves.push(leaf);
            self.transitions[transition].node = leaf;
            self.transitions[transition].is_spanning = true;
            self.push_transitions();
            leaf
        }

        /// Moves the open transitions down, each to the next node, by what one batch tells of them.
        fn sift(&mut self, oracle: &mut Oracle<'_>) {
            let mut words = Words::default();
            for &one in &self.open {
                let (state, letter) = self.parts(one);
                let end = match &self.nodes[self.transitions[one].node as usize].content {
                    Content::State(_) => &[],
                    Content::Inner { word, .. } => word.as_slice(),
                };
                words.push(&[&self.access[state], &[letter], end]);
            }
            oracle.settle(words);
            let mut open = std::mem::take(&mut self.open);
            open.retain(|&one| self.go_down(&oracle.trie, one));
            open.append(&mut self.open);
            self.open = open;
        }

        /// Moves a transition to the next node, and answers whether it still has no target.
        fn go_down(&mut self, trie: &Trie, one: usize) -> bool {
            let known = self.known(trie, one);
            self.transitions[one].output = trie.output(known);
            let node = self.transitions[one].node;
            let Content::Inner { word, below, .. } = &self.nodes[node as usize].content else {
                return false;
            };
            let goes = |branch: &[u16]| trie.outputs(known, word).eq(branch.iter().copied());
            if let Some(&(_, next)) = below.iter().find(|(branch, _)| goes(branch)) {
                self.transitions[one].node = next;
                return self.state_at(next).is_none();
            }
            let branch = trie.outputs(known, word).collect();
            let leaf = self.add_state(trie, one, node);
            if let Content::Inner { below, .. } = &mut self.nodes[node as usize].content {
                below.push((branch, leaf));
            }
            false
        }

        /// Opens the transitions that stand at one of these leaves, but for spanning ones: they stand at this node then.
        fn reopen(&mut self, node: u32, is_left: impl Fn(u32) -> bool) {
            for (number, one) in self.transitions.iter_mut().enumerate() {
                if !one.is_spanning && is_left(one.node) {
                    one.node = node;
                    self.open.push(number);
                }
            }
            self.open.sort_unstable();
            self.open.dedup();
        }

        fn is_temporary(&self, node: u32) -> bool {
            matches!(self.nodes[node as usize].content, Content::Inner { is_final: false, .. })
        }

        /// The highest temporary node above a state, or its leaf.
        fn class_root(&self, state: usize) -> u32 {
            let mut root = self.leaves[state];
            loop {
                let parent = self.nodes[root as usize].parent;
                if parent == NONE || !self.is_temporary(parent) {
                    return root;
                }
                root = parent;
            }
        }

        fn path(&self, node: u32) -> Vec<u32> {
            let above = |&node: &u32| Some(self.nodes[node as usize].parent).filter(|&parent| parent != NONE);
            let mut path: Vec<u32> = std::iter::successors(Some(node), above).collect();
            path.reverse();
            path
        }

        /// The discriminator of the lowest node above the leaves of some states.
        fn fork(&self, states: &[u16]) -> &[u8] {
            let mut shared = self.path(self.leaves[usize::from(states[0])]);
            for &state in &states[1..] {
                let other = self.path(self.leaves[usize::from(state)]);
                let length = shared.iter().zip(&other).take_while(|(one, other)| one == other).count();
                shared.truncate(length);
            }
            match &self.nodes[shared[shared.len() - 1] as usize].content {
                Content::Inner { word, .. } => word,
                Content::State(_) => unreachable!("states that are apart"),
            }
        }

        /// The word that parts a block by a letter, where one does.
        fn parting_word(&self, roots: &[u32], members: &[u16], letter: u8) -> Option<Word> {
            let numbers = || members.iter().map(|&state| usize::from(state) * self.inputs + usize::from(letter));
            let output = |number: usize| self.transitions[number].output;
            let first = usize::from(members[0]) * self.inputs + usize::from(letter);
            if numbers().any(|number| output(number) != output(first)) {
                return Some(vec![letter]);
            }
            let root = |number: usize| roots[usize::from(self.target(number))];
            if numbers().all(|number| root(number) == root(first)) {
                return None;
            }
            let targets: Vec<u16> = numbers().map(|number| self.target(number)).collect();
            Some([&[letter], self.fork(&targets)].concat())
        }

        /// The first block that a letter parts, its states, and a word for its root.
        fn find_block(&self, roots: &[u32]) -> Option<(u32, Vec<u16>, Word)> {
            let mut members: Vec<Vec<u16>> = vec![Vec::new(); self.nodes.len()];
            let mut blocks = Vec::new();
            for (state, &root) in roots.iter().enumerate() {
                if members[root as usize].is_empty() && self.is_temporary(root) {
                    blocks.push(root);
                }
                members[root as usize].push(state as u16);
            }
            for root in blocks {
                let states = &members[root as usize];
                let word = (0..self.inputs).find_map(|letter| self.parting_word(roots, states, letter as u8));
                if let Some(word) = word {
                    return Some((root, states.clone(), word));
                }
            }
            None
        }

        /// What is left of a node for some states, below a new parent: without nodes that have one child left.
        fn restricted(&mut self, node: u32, is_member: &[bool]) -> Option<u32> {
            let (word, below) = match &self.nodes[node as usize].content {
                Content::State(state) => return is_member[usize::from(*state)].then_some(node),
                Content::Inner { word, below, .. } => (word.clone(), below.clone()),
            };
            let mut left = Vec::new();
            for (branch, child) in below {
                left.extend(self.restricted(child, is_member).map(|child| (branch, child)));
            }
            if left.len() < 2 {
                return left.pop().map(|(_, child)| child);
            }
            let children: Vec<u32> = left.iter().map(|&(_, child)| child).collect();
            let new = self.push_node(NONE, Content::Inner { word, is_final: false, below: left });
            for child in children {
                self.nodes[child as usize].parent = new;
            }
            Some(new)
        }

        /// Makes a block's root final, with a word whose answers are known.
        fn replace(&mut self, trie: &Trie, root: u32, members: &[u16], word: Word) {
            let mut groups: Vec<(Vec<u16>, Vec<bool>)> = Vec::new();
            for &state in members {
                let branch: Vec<u16> = trie.outputs(self.known[usize::from(state)], &word).collect();
                let place = groups.iter().position(|(other, _)| *other == branch).unwrap_or_else(|| {
                    groups.push((branch, vec![false; self.access.len()]));
                    groups.len() - 1
                });
                groups[place].1[usize::from(state)] = true;
            }
            let mut below = Vec::new();
            for (branch, is_member) in groups {
                let child = self.restricted(root, &is_member).expect("a state in each group");
                below.push((branch, child));
            }
            for &(_, child) in &below {
                self.nodes[child as usize].parent = root;
            }
            self.nodes[root as usize].content = Content::Inner { word, is_final: true, below };
        }
    }

    impl Learner for Tree {
        fn close(&mut self, oracle: &mut Oracle<'_>) {
            while !self.open.is_empty() {
                self.sift(oracle);
            }
        }

        fn machine(&self, _: &Oracle<'_>) -> Machine {
            let cells = (0..self.transitions.len()).map(|one| (self.target(one), self.transitions[one].output)).collect();
            Machine { inputs: self.inputs, cells }
        }

        fn access(&self, state: u16) -> &[u8] {
            &self.access[usize::from(state)]
        }

        fn refine(&mut self, oracle: &mut Oracle<'_>, cut: Cut) {
            let Cut { state, letter, suffix } = cut;
            let one = usize::from(state) * self.inputs + usize::from(letter);
            let target = self.target(one);
            let leaf = self.leaves[usize::from(target)];
            let trie = &oracle.trie;
            let own = trie.outputs(self.known[usize::from(target)], &suffix).collect();
            let other = trie.outputs(self.known(trie, one), &suffix).collect();
            let own_leaf = self.push_node(leaf, Content::State(target));
            self.leaves[usize::from(target)] = own_leaf;
            let other_leaf = self.add_state(trie, one, leaf);
            let below = vec![(own, own_leaf), (other, other_leaf)];
            self.nodes[leaf as usize].content = Content::Inner { word: suffix, is_final: false, below };
            self.move_spanning(leaf, own_leaf);
            self.reopen(leaf, |node| node == leaf);
            self.close(oracle);
        }

        fn settle_block(&mut self, oracle: &mut Oracle<'_>) -> bool {
            let roots: Vec<u32> = (0..self.access.len()).map(|state| self.class_root(state)).collect();
            let Some((root, members, word)) = self.find_block(&roots) else {
                return false;
            };
            let mut words = Words::default();
            for &state in &members {
                words.push(&[&self.access[usize::from(state)], &word]);
            }
            oracle.settle(words);
            self.replace(&oracle.trie, root, &members, word);
            let mut is_left = vec![false; self.nodes.len()];
            for &state in &members {
                is_left[self.leaves[usize::from(state)] as usize] = true;
            }
            self.reopen(root, |node| is_left[node as usize]);
            self.close(oracle);
            true
        }
    }

    impl Tree {
        /// The spanning transition of a state whose leaf was split goes to its new leaf.
        fn move_spanning(&mut self, leaf: u32, own_leaf: u32) {
            for one in &mut self.transitions {
                if one.is_spanning && one.node == leaf {
                    one.node = own_leaf;
                }
            }
        }
    }
}

/// Files: JSON, machines, answers and setups.
mod files {
    use crate::asking::Oracle;
    use crate::machine::Machine;
    use crate::trie::ROOT;
    use crate::words::Words;
    use std::borrow::Cow;
    use std::collections::HashMap;
    use std::fs::{self, File};
    use std::io::{self, BufWriter, Write};

    pub enum Json<'a> {
        Text(Cow<'a, str>),
        Number(u64),
        List(Vec<Json<'a>>),
        Object(Vec<(Cow<'a, str>, Json<'a>)>),
        Other,
    }

    impl<'a> Json<'a> {
        fn text(&self) -> Option<&str> {
            match self {
                Json::Text(text) => Some(text),
                _ => None,
            }
        }

        fn number(&self) -> Option<u64> {
            match self {
                Json::Number(number) => Some(*number),
                _ => None,
            }
        }

        fn list(&self) -> Option<&[Json<'a>]> {
            match self {
                Json::List(items) => Some(items),
                _ => None,
            }
        }

        /// The last member with this name.
        fn member(&self, name: &str) -> Option<&Json<'a>> {
            match self {
                Json::Object(members) => members.iter().rev().find(|(other, _)| other == name).map(|(_, value)| value),
                _ => None,
            }
        }

        fn texts(&self) -> Option<Vec<String>> {
            self.list()?.iter().map(|item| item.text().map(str::to_owned)).collect()
        }
    }

    struct Reader<'a> {
        text: &'a str,
        at: usize,
    }

    impl<'a> Reader<'a> {
        fn peek(&mut self) -> Option<u8> {
            let bytes = self.text.as_bytes();
            while matches!(bytes.get(self.at), Some(b' ' | b'\t' | b'\n' | b'\r')) {
                self.at += 1;
            }
            bytes.get(self.at).copied()
        }

        fn take(&mut self, byte: u8) -> Option<()> {
            (self.peek()? == byte).then(|| self.at += 1)
        }

        /// What stands between two brackets, with commas between.
        fn items<T>(&mut self, end: u8, item: impl Fn(&mut Self) -> Option<T>) -> Option<Vec<T>> {
            let mut items = Vec::new();
            self.at += 1;
            if self.take(end).is_some() {
                return Some(items);
            }
            loop {
                items.push(item(self)?);
                if self.take(b',').is_none() {
                    self.take(end)?;
                    return Some(items);
                }
            }
        }

        fn string(&mut self) -> Option<Cow<'a, str>> {
            self.take(b'"')?;
            let rest = &self.text[self.at..];
            let length = rest.bytes().position(|byte| byte == b'"' || byte == b'\\')?;
            self.at += length;
            if rest.as_bytes()[length] == b'"' {
                self.at += 1;
                return Some(Cow::Borrowed(&rest[..length]));
            }
            self.escaped(rest[..length].to_owned()).map(Cow::Owned)
        }

        /// The rest of a text that has escapes.
        fn escaped(&mut self, mut text: String) -> Option<String> {
            loop {
                let next = self.text[self.at..].chars().next()?;
                self.at += next.len_utf8();
                match next {
                    '"' => return Some(text),
                    '\\' => text.push(self.escape()?),
                    other => text.push(other),
                }
            }
        }

        fn escape(&mut self) -> Option<char> {
            let kind = *self.text.as_bytes().get(self.at)?;
            self.at += 1;
            Some(match kind {
                b'n' => '\n',
                b't' => '\t',
                b'r' => '\r',
                b'b' => '\u{8}',
                b'f' => '\u{c}',
                b'u' => {
                    let digits = self.text.get(self.at..self.at + 4)?;
                    self.at += 4;
                    char::from_u32(u32::from_str_radix(digits, 16).ok()?)?
                }
                b'"' | b'\\' | b'/' => char::from(kind),
                _ => return None,
            })
        }

        fn value(&mut self) -> Option<Json<'a>> {
            Some(match self.peek()? {
                b'"' => Json::Text(self.string()?),
                b'[' => Json::List(self.items(b']', Reader::value)?),
                b'{' => Json::Object(self.items(b'}', |reader| {
                    let name = reader.string()?;
                    reader.take(b':')?;
                    Some((name, reader.value()?))
                })?),
                _ => self.word()?,
            })
        }

        /// A number, or one of the three words.
        fn word(&mut self) -> Option<Json<'a>> {
            let rest = &self.text[self.at..];
            let length = rest.bytes().position(|byte| b",]} \t\r\n".contains(&byte)).unwrap_or(rest.len());
            self.at += length;
            let word = &rest[..length];
            let is_word = ["true", "false", "null"].contains(&word);
            word.parse().map(Json::Number).ok().or_else(|| (is_word || word.parse::<f64>().is_ok()).then_some(Json::Other))
        }
    }

    fn parse(text: &str) -> Option<Json<'_>> {
        let mut reader = Reader { text, at: 0 };
        let value = reader.value()?;
        reader.peek().is_none().then_some(value)
    }

    fn read(path: &str, role: &str) -> String {
        fs::read_to_string(path).unwrap_or_else(|_| crate::stop(8, &format!("file fault: {role}")))
    }

    /// What a file holds, by a reader of it.
    pub fn read_as<T>(path: &str, role: &str, from: impl Fn(&Json<'_>) -> Option<T>) -> T {
        let text = read(path, role);
        parse(&text).as_ref().and_then(from).unwrap_or_else(|| crate::stop(3, &format!("bad file {role}")))
    }

    /// A list of names, and the number of each.
    pub struct Names {
        pub list: Vec<String>,
        /// Those of one byte.
        short: [u16; 256],
        long: HashMap<String, u16>,
    }

    impl Names {
        pub fn new(list: Vec<String>) -> Names {
            let (mut short, mut long) = ([u16::MAX; 256], HashMap::new());
            for (number, name) in list.iter().enumerate() {
                match name.as_bytes() {
                    [byte] => short[usize::from(*byte)] = number as u16,
                    _ => drop(long.insert(name.clone(), number as u16)),
                }
            }
            Names { list, short, long }
        }

        pub fn number(&self, name: &str) -> Option<u16> {
            match name.as_bytes() {
                [byte] => Some(self.short[usize::from(*byte)]).filter(|&number| number != u16::MAX),
                _ => self.long.get(name).copied(),
            }
        }

        fn in_member(value: &Json<'_>, name: &str) -> Option<Names> {
            value.member(name)?.texts().map(Names::new)
        }

        /// The numbers of the names in a text, put behind these.
        fn spell<N>(&self, text: &str, word: &mut Vec<N>, number: impl Fn(u16) -> N) -> Option<()> {
            if text.is_empty() {
                return Some(());
            }
            for name in text.split(' ') {
                word.push(number(self.number(name)?));
            }
            Some(())
        }
    }

    /// A machine with its names.
    pub struct Named {
        pub machine: Machine,
        pub inputs: Names,
        pub outputs: Names,
    }

    pub fn machine(value: &Json<'_>) -> Option<Named> {
        let (inputs, outputs) = (Names::in_member(value, "inputs")?, Names::in_member(value, "outputs")?);
        let rows = value.member("states")?.list()?;
        let mut cells = Vec::with_capacity(rows.len() * inputs.list.len());
        for row in rows {
            let row = row.list().filter(|row| row.len() == inputs.list.len())?;
            for cell in row {
                let [target, output] = cell.list()? else { return None };
                let target = target.number().filter(|&target| target < rows.len() as u64)?;
                cells.push((target as u16, outputs.number(output.text()?)?));
            }
        }
        let machine = Machine { inputs: inputs.list.len(), cells };
        Some(Named { machine, inputs, outputs })
    }

    /// The recorded answers of a file: instances and runs, words, and outputs one behind the other.
    pub struct Answers {
        pub inputs: Vec<String>,
        pub outputs: Vec<String>,
        pub runs: Vec<(u64, u64)>,
        pub words: Words,
        outs: Vec<u16>,
        ends: Vec<usize>,
    }

    impl Answers {
        pub fn outs(&self, answer: usize) -> &[u16] {
            let start = if answer == 0 { 0 } else { self.ends[answer - 1] };
            &self.outs[start..self.ends[answer]]
        }
    }

    pub fn answers(value: &Json<'_>) -> Option<Answers> {
        let (inputs, outputs) = (Names::in_member(value, "inputs")?, Names::in_member(value, "outputs")?);
        let format = value.member("format")?.number()?;
        let list = value.member("answers")?.list()?;
        let (mut runs, mut words, mut outs, mut ends) = (Vec::new(), Words::default(), Vec::new(), Vec::new());
        let mut word = Vec::new();
        for (place, answer) in list.iter().enumerate() {
            let (run, texts) = match (format, answer.list()?) {
                (1, texts @ [_, _]) => ((0, place as u64), texts),
                (2, [instance, run, texts @ ..]) => ((instance.number()?, run.number()?), texts),
                _ => return None,
            };
            let [letters, given] = texts else { return None };
            word.clear();
            inputs.spell(letters.text()?, &mut word, |letter| letter as u8)?;
            let before = outs.len();
            outputs.spell(given.text()?, &mut outs, |output| output)?;
            if outs.len() - before != word.len() {
                return None;
            }
            runs.push(run);
            words.push(&[&word]);
            ends.push(outs.len());
        }
        Some(Answers { inputs: inputs.list, outputs: outputs.list, runs, words, outs, ends })
    }

    /// A command with the names of its letters and outputs.
    pub fn setup(value: &Json<'_>) -> Option<(Vec<String>, Names, Names)> {
        let command = value.member("command")?.texts().filter(|texts| !texts.is_empty())?;
        Some((command, Names::in_member(value, "inputs")?, Names::in_member(value, "outputs")?))
    }

    /// The text of a name, in quotes. Names are printable and have no blanks.
    fn quoted(name: &str) -> String {
        format!("\"{}\"", name.replace('\\', "\\\\").replace('"', "\\\""))
    }

    fn quoted_list(names: &[String]) -> String {
        names.iter().map(|name| quoted(name)).collect::<Vec<_>>().join(",")
    }

    pub fn put_machine(to: &mut impl Write, machine: &Machine, inputs: &[String], outputs: &[String]) -> io::Result<()> {
        write!(to, "{{\"inputs\":[{}],\"outputs\":[{}],\"states\":[", quoted_list(inputs), quoted_list(outputs))?;
        let names: Vec<String> = outputs.iter().map(|name| quoted(name)).collect();
        for (place, &(target, output)) in machine.cells.iter().enumerate() {
            let before = match (place, place % machine.inputs) {
                (0, _) => "[",
                (_, 0) => "],[",
                _ => ",",
            };
            write!(to, "{before}[{target},{}]", names[usize::from(output)])?;
        }
        to.write_all(b"]]}\n")
    }

    /// The answers in shortlex order, which is that of the nodes breadth first.
    pub fn put_answers(to: &mut impl Write, oracle: &Oracle<'_>, inputs: &[String], outputs: &[String]) -> io::Result<()> {
        let mut answer_at = vec![u32::MAX; oracle.trie.len()];
        for (number, answer) in oracle.answers.iter().enumerate() {
            answer_at[answer.node as usize] = number as u32;
        }
        let escaped = |names: &[String]| names.iter().map(|name| quoted(name)[1..quoted(name).len() - 1].to_owned()).collect();
        let (letter_names, output_names): (Vec<String>, Vec<String>) = (escaped(inputs), escaped(outputs));
        let (mut word, mut outs, mut before) = (Vec::new(), Vec::new(), "");
        to.write_all(b"{\"answers\":[")?;
        let (mut level, mut next) = (vec![ROOT], Vec::new());
        while !level.is_empty() {
            for &node in &level {
                next.extend(oracle.trie.children(node));
                if let Some(answer) = oracle.answers.get(answer_at[node as usize] as usize) {
                    oracle.trie.read(node, &mut word, &mut outs);
                    write!(to, "{before}[{},{},\"", answer.instance, answer.run)?;
                    put_word(to, &letter_names, &word)?;
                    to.write_all(b"\",\"")?;
                    put_word(to, &output_names, &outs)?;
                    to.write_all(b"\"]")?;
                    before = ",";
                }
            }
            std::mem::swap(&mut level, &mut next);
            next.clear();
        }
        writeln!(to, "],\"format\":2,\"inputs\":[{}],\"outputs\":[{}]}}", quoted_list(inputs), quoted_list(outputs))
    }

    fn put_word<N: Copy + Into<usize>>(to: &mut impl Write, names: &[String], word: &[N]) -> io::Result<()> {
        for (place, &number) in word.iter().enumerate() {
            if place > 0 {
                to.write_all(b" ")?;
            }
            to.write_all(names[number.into()].as_bytes())?;
        }
        Ok(())
    }

    /// Writes a file beside the old one, hands it to the disk, and puts it in the old one's place.
    pub fn write_file(path: &str, role: &str, put: impl Fn(&mut BufWriter<File>) -> io::Result<()>) {
        let part = format!("{path}.part0");
        let write = || {
            let mut to = BufWriter::new(File::create(&part)?);
            put(&mut to)?;
            to.into_inner()?.sync_all()?;
            fs::rename(&part, path)
        };
        if write().is_err() {
            crate::stop(8, &format!("file fault: {role}"));
        }
    }
}

/// The verdict of `check`.
mod checking {
    use crate::files::{Answers, Named};
    use crate::suite::{self, Suite};
    use crate::trie::Trie;
    use crate::words::spelled;

    /// Records the answers of a file, up to the first clash.
    fn filled(answers: &Answers) -> Trie {
        let mut trie = Trie::new();
        for (number, word) in answers.words.iter().enumerate() {
            let node = trie.insert(word).or_else(|| trie.walk(crate::trie::ROOT, word));
            if !trie.fill(node.expect("a word that is there"), answers.outs(number)) {
                crate::stop(4, &clash(answers, number));
            }
        }
        trie
    }

    /// The text of the first answer that clashes with this one.
    fn clash(answers: &Answers, number: usize) -> String {
        let (word, outs) = (answers.words.get(number), answers.outs(number));
        let line = |answer: usize| {
            let ((instance, run), outs) = (answers.runs[answer], answers.outs(answer));
            let (w, o) = (spelled(&answers.inputs, answers.words.get(answer)), spelled(&answers.outputs, outs));
            format!("instance {instance} run {run}: {w} / {o}")
        };
        for other in 0..number {
            let shared = word.iter().zip(answers.words.get(other)).take_while(|(one, other)| one == other).count();
            let place = (0..shared).find(|&place| outs[place] != answers.outs(other)[place]);
            if let Some(place) = place {
                return format!("nondeterministic at place {place}\n{}\n{}", line(other), line(number));
            }
        }
        unreachable!("an answer that clashes")
    }

    /// The line of a model and answers, and whether it is a yes.
    pub fn verdict(model: &Named, answers: &Answers, extra: u8) -> Result<String, String> {
        let trie = filled(answers);
        let machine = &model.machine;
        if let Some(state) = machine.access_words().iter().position(Option::is_none) {
            return Err(format!("no: state {state} is unreached"));
        }
        if let Some((p, q)) = machine.first_alike() {
            return Err(format!("no: states {p} and {q} are alike"));
        }
        for (number, word) in answers.words.iter().enumerate() {
            let differs = |(own, &out): (u16, &u16)| own != out;
            if let Some(place) = machine.outputs(0, word).zip(answers.outs(number)).position(differs) {
                return Err(format!("no: answer {number} differs at place {place}"));
            }
        }
        let size = suite::size(machine, extra);
        if size > suite::GREATEST {
            crate::stop(7, &format!("suite too large: states {}, extra {extra}, number {size}", machine.states()));
        }
        match Suite::new(machine, extra).first_missing(&trie) {
            Some(word) => Err(format!("no: word \"{}\" is missing", spelled(&model.inputs.list, &word))),
            None => Ok(format!("yes: states {}, extra {extra}, answers {}", machine.states(), answers.words.len())),
        }
    }
}

use asking::{Oracle, Session};
use machine::Machine;
use rounds::Learner;
use std::collections::HashMap;
use std::io::{self, BufWriter, Write};
use std::thread;

/// Ends with a line on standard error.
fn stop(status: i32, line: &str) -> ! {
    eprintln!("{line}");
    process::exit(status)
}

/// The arguments of a command: texts, and options with their values.
struct Arguments {
    texts: Vec<String>,
    options: HashMap<String, String>,
}

impl Arguments {
    fn read() -> Arguments {
        let (mut texts, mut options) = (Vec::new(), HashMap::new());
        let mut words = env::args().skip(1);
        while let Some(word) = words.next() {
            match word.strip_prefix("--").map(|option| option.split_once('=')) {
                None => texts.push(word),
                Some(Some((name, value))) => drop(options.insert(name.to_owned(), value.to_owned())),
                Some(None) => drop(options.insert(word[2..].to_owned(), words.next().unwrap_or_default())),
            }
        }
        Arguments { texts, options }
    }

    fn text(&self, name: &str) -> Option<&str> {
        self.options.get(name).map(String::as_str)
    }

    fn number(&self, name: &str, where_left_out: u64) -> u64 {
        let value = self.text(name).map(|text| text.parse().unwrap_or_else(|_| stop(2, "usage")));
        value.unwrap_or(where_left_out)
    }

    fn place(&self, place: usize) -> &str {
        self.texts.get(place).map(String::as_str).unwrap_or_else(|| stop(2, "usage"))
    }
}

/// Learns over sessions, and hands the model, the refinements and what is known to `then`.
fn learn_over<T>(
    arguments: &Arguments,
    inputs: usize,
    sessions: Vec<Session<'_>>,
    then: impl FnOnce(Machine, usize, &Oracle<'_>) -> T,
) -> T {
    if arguments.text("suite").is_some_and(|suite| suite != "w") {
        stop(2, "usage");
    }
    let extra = arguments.number("extra", 1) as u8;
    let mut learner: Box<dyn Learner> = match arguments.text("learner") {
        Some("ttt") => Box::new(tree::Tree::new(inputs)),
        _ => Box::new(table::Table::new(inputs)),
    };
    thread::scope(|scope| {
        let mut oracle = Oracle::new(scope, sessions);
        match rounds::learn(&mut oracle, &mut *learner, extra) {
            Ok((model, refinements)) => then(model, refinements, &oracle),
            Err(model) => {
                let (states, number) = (model.states(), suite::size(&model, extra));
                stop(7, &format!("suite too large: states {states}, extra {extra}, number {number}"))
            }
        }
    })
}

/// The number of workers, 1 to 16.
fn workers(arguments: &Arguments) -> usize {
    match arguments.number("workers", 1) {
        count @ 1..=16 => count as usize,
        _ => stop(2, "usage"),
    }
}

fn tables<'a>(machine: &'a Machine, arguments: &Arguments) -> Vec<Session<'a>> {
    (0..workers(arguments)).map(|_| Session::Table(machine)).collect()
}

fn trial(arguments: &Arguments) {
    let [states, inputs, seed] = ["states", "inputs", "seed"].map(|name| arguments.number(name, 1));
    let machine = drawing::drawn(states as usize, inputs as usize, seed);
    let sessions = tables(&machine, arguments);
    learn_over(arguments, machine.inputs, sessions, |model, refinements, oracle| {
        let equal = if machine.canonical() == model { "yes" } else { "no" };
        println!("trial: states {states}, inputs {inputs}, seed {seed}");
        println!("learned: states {}, refinements {refinements}, answers {}", model.states(), oracle.answers.len());
        println!("equal: {equal}");
    });
}

/// Writes what was learned: files, and a line.
fn tell(arguments: &Arguments, inputs: &[String], outputs: &[String], model: &Machine, refinements: usize, oracle: &Oracle<'_>) {
    if let Some(path) = arguments.text("model") {
        files::write_file(path, "model", |to| files::put_machine(to, model, inputs, outputs));
    }
    if let Some(path) = arguments.text("answers") {
        files::write_file(path, "answers", |to| files::put_answers(to, oracle, inputs, outputs));
    }
    if arguments.text("model").is_none() {
        let mut to = BufWriter::new(io::stdout().lock());
        if files::put_machine(&mut to, model, inputs, outputs).and_then(|()| to.flush()).is_err() {
            stop(8, "sink fault");
        }
    }
    let (states, extra, answers) = (model.states(), arguments.number("extra", 1), oracle.answers.len());
    eprintln!("learned: states {states}, refinements {refinements}, extra {extra}, answers {answers}");
}

fn learn(arguments: &Arguments) {
    if let Some(path) = arguments.text("table") {
        let files::Named { machine, inputs, outputs } = files::read_as(path, "table", files::machine);
        let sessions = tables(&machine, arguments);
        return learn_over(arguments, machine.inputs, sessions, |model, refinements, oracle| {
            tell(arguments, &inputs.list, &outputs.list, &model, refinements, oracle);
        });
    }
    let (command, inputs, outputs) = files::read_as(arguments.place(1), "setup", files::setup);
    let output_names = outputs.list.clone();
    let (links, children) = children::start(&command, &inputs, outputs, workers(arguments));
    let sessions = links.into_iter().map(Session::Child).collect();
    learn_over(arguments, inputs.list.len(), sessions, |model, refinements, oracle| {
        tell(arguments, &inputs.list, &output_names, &model, refinements, oracle);
    });
    for mut child in children {
        let _ = child.wait();
    }
}

fn check(arguments: &Arguments) {
    let model = files::read_as(arguments.place(1), "model", files::machine);
    let answers = files::read_as(arguments.place(2), "answers", files::answers);
    if answers.inputs != model.inputs.list || answers.outputs != model.outputs.list {
        stop(3, "bad file answers: names differ from the model");
    }
    match checking::verdict(&model, &answers, arguments.number("extra", 1) as u8) {
        Ok(line) => println!("{line}"),
        Err(line) => {
            println!("{line}");
            process::exit(1);
        }
    }
}

fn serve(arguments: &Arguments) {
    let files::Named { machine, inputs, outputs } = files::read_as(arguments.place(1), "model", files::machine);
    if children::serve(&machine, &inputs, &outputs).is_err() {
        process::exit(8);
    }
}

const OPTIONS: [&str; 10] = ["states", "inputs", "seed", "workers", "learner", "extra", "suite", "table", "model", "answers"];

fn main() {
    let arguments = Arguments::read();
    if !arguments.options.keys().all(|name| OPTIONS.contains(&name.as_str())) {
        stop(2, "usage");
    }
    match arguments.place(0) {
        "trial" => trial(&arguments),
        "learn" => learn(&arguments),
        "check" => check(&arguments),
        "serve" => serve(&arguments),
        _ => stop(2, "usage"),
    }
}
