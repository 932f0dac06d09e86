//! Document 01 in plain Rust, written from its text: tables and their checks, the cursor steps, both texts, the response; and
//! document 02's writing of a plant, count of the postings that moves pass over, second index and asks that say nothing about
//! level.
//! Nothing here is shared with the proved crates.

#[derive(Clone, Debug, Default, PartialEq)]
pub struct Tables {
    pub last: Vec<u16>,
    pub root: Vec<u16>,
    pub level: Vec<u8>,
    pub terms: Vec<u16>,
    pub starts: Vec<u32>,
    pub postings: Vec<u32>,
}

/// An index apart from device tables: the second of a search.
#[derive(Clone, Debug, Default, PartialEq)]
pub struct Index {
    pub terms: Vec<u16>,
    pub starts: Vec<u32>,
    pub postings: Vec<u32>,
}

/// The lowest term of the second index.
pub const LIMIT: u16 = 32_768;

/// The level codes that a query asks for: any, the true levels only, or those from low to high.
#[derive(Clone, Copy, Debug, PartialEq)]
pub enum Levels {
    Any,
    TrueOnly,
    Range(u32, u32),
}

impl Levels {
    /// Whether a device with this code is left out. Codes 0 and 255 are no true levels.
    pub fn leave_out(self, code: u8) -> bool {
        let untrue = code == 0 || code == 255;
        match self {
            Levels::Any => false,
            Levels::TrueOnly => untrue,
            Levels::Range(low, high) => untrue || (code as u32) < low || (code as u32) > high,
        }
    }

    /// As three numbers: 0 for any, 1 for true levels only, 2 for a range; then low and high, or zeros.
    pub fn numbers(self) -> [u32; 3] {
        match self {
            Levels::Any => [0, 0, 0],
            Levels::TrueOnly => [1, 0, 0],
            Levels::Range(low, high) => [2, low, high],
        }
    }
}

#[derive(Clone, Debug, PartialEq)]
pub struct Query {
    pub required: Vec<u32>,
    pub forbidden: Vec<u32>,
    pub levels: Levels,
    pub start: u32,
    pub budget: u32,
}

impl Query {
    pub fn empty() -> Query {
        Query { required: vec![], forbidden: vec![], levels: Levels::TrueOnly, start: 1, budget: u32::MAX }
    }
}

/// What a search gives: the refusal and zeros, or 0, the count, the position, the postings passed and the moves.
#[derive(Clone, Copy, Debug, Default, PartialEq)]
pub struct Answer {
    pub refusal: u32,
    pub count: u32,
    pub position: u32,
    pub passed: u32,
    pub moves: u32,
}

impl Tables {
    pub fn size(&self) -> usize {
        self.last.len()
    }

    /// The length of each table.
    pub fn lengths(&self) -> [usize; 6] {
        [self.last.len(), self.root.len(), self.level.len(), self.terms.len(), self.starts.len(), self.postings.len()]
    }

    /// The index alone.
    pub fn index(&self) -> Index {
        Index { terms: self.terms.clone(), starts: self.starts.clone(), postings: self.postings.clone() }
    }

    /// The device tables with another index.
    pub fn with(&self, index: &Index) -> Tables {
        let Index { terms, starts, postings } = index.clone();
        Tables { last: self.last.clone(), root: self.root.clone(), level: self.level.clone(), terms, starts, postings }
    }

    /// The last device of a device's branch.
    pub fn last_of(&self, device: usize) -> usize {
        self.last[device - 1] as usize
    }

    /// The last device that a posting carries its term to.
    pub fn reach(&self, posting: u32) -> usize {
        let device = device_of(posting);
        if posting % 2 == 1 {
            self.last_of(device)
        } else {
            device
        }
    }

    /// The list of the term at index k.
    pub fn list(&self, k: usize) -> &[u32] {
        list(&self.starts, &self.postings, k)
    }

    pub fn list_of(&self, term: u32) -> &[u32] {
        list_of(&self.terms, &self.starts, &self.postings, term)
    }

    /// The list of a term in two indexes: in the first for a term below the limit, else in the second.
    pub fn lookup<'a>(&'a self, second: &'a Index, term: u32) -> &'a [u32] {
        if term < LIMIT as u32 {
            self.list_of(term)
        } else {
            list_of(&second.terms, &second.starts, &second.postings, term)
        }
    }

    /// Refusals 1 to 9, lowest first; 0 for sound tables.
    pub fn check(&self) -> u32 {
        let n = self.size();
        if self.root.len() != n || self.level.len() != n || n > 65_535 {
            return 1;
        }
        if (1..=n).any(|d| self.last_of(d) < d || self.last_of(d) > n) {
            return 2;
        }
        let mut wrong_root = false;
        let mut open: Vec<usize> = vec![];
        for d in 1..=n {
            while open.last().is_some_and(|&e| self.last_of(e) < d) {
                open.pop();
            }
            if open.last().is_some_and(|&e| self.last_of(e) < self.last_of(d)) {
                return 3;
            }
            open.push(d);
            wrong_root |= self.root[d - 1] as usize != open[0];
        }
        if wrong_root {
            return 4;
        }
        self.check_index()
    }

    fn check_index(&self) -> u32 {
        if self.terms.len() != self.starts.len() || self.terms.len() > 8_192 || self.postings.len() > 1_048_576 {
            return 5;
        }
        if self.terms.first() == Some(&0) || self.terms.windows(2).any(|w| w[0] >= w[1]) {
            return 6;
        }
        let unordered = self.starts.windows(2).any(|w| w[0] > w[1]);
        let past = self.starts.iter().any(|&s| s as usize > self.postings.len());
        let first = self.starts.first().map_or(!self.postings.is_empty(), |&s| s != 0);
        if unordered || past || first {
            return 7;
        }
        let outside = |&q: &u32| device_of(q) == 0 || device_of(q) > self.size();
        if self.postings.iter().any(outside) {
            return 8;
        }
        let not_rising = |list: &[u32]| list.windows(2).any(|w| device_of(w[0]) >= device_of(w[1]));
        if (0..self.terms.len()).any(|k| not_rising(self.list(k))) {
            return 8;
        }
        if (0..self.terms.len()).any(|k| self.any_redundant(self.list(k))) {
            return 9;
        }
        0
    }

    fn any_redundant(&self, list: &[u32]) -> bool {
        let mut covered = 0;
        for &posting in list {
            if device_of(posting) <= covered {
                return true;
            }
            if posting % 2 == 1 {
                covered = covered.max(self.reach(posting));
            }
        }
        false
    }

    /// Refusals 55 to 59: those of the second index over accepted device tables.
    pub fn check_second(&self, second: &Index) -> u32 {
        match self.with(second).check_index() {
            0 => 0,
            refusal => 50 + refusal,
        }
    }

    /// Whether a term is in the wrong index.
    fn any_misplaced(&self, second: &Index) -> bool {
        self.terms.iter().any(|&t| t >= LIMIT) || second.terms.iter().any(|&t| t < LIMIT)
    }

    /// The refusals of a search: 1 to 9, 55 to 59, 15, then 10 to 14.
    pub fn refusal(&self, second: &Index, query: &Query, room: usize) -> u32 {
        let of_tables = self.check();
        if of_tables != 0 {
            return of_tables;
        }
        let of_second = self.check_second(second);
        if of_second != 0 {
            of_second
        } else if self.any_misplaced(second) {
            15
        } else {
            self.query_refusal(query, room)
        }
    }

    /// Refusals 10 to 14.
    pub fn query_refusal(&self, query: &Query, room: usize) -> u32 {
        let n = self.size() as u64;
        let mut named = query.required.iter().chain(&query.forbidden);
        if query.required.len() > 8 || query.forbidden.len() > 8 {
            10
        } else if named.any(|&t| !(1..=65_535).contains(&t)) {
            11
        } else if matches!(query.levels, Levels::Range(low, high) if low > high || high > 254 || low == 0) {
            12
        } else if query.start == 0 || query.start as u64 > n + 1 {
            13
        } else if (room as u64) < n {
            14
        } else {
            0
        }
    }

    pub fn search(&self, second: &Index, query: &Query, answer: &mut [u16]) -> Answer {
        match self.refusal(second, query, answer.len()) {
            0 => self.run(|term| self.lookup(second, term), query, answer),
            refusal => Answer { refusal, ..Answer::default() },
        }
    }

    /// The answer to an accepted query over the lists that are looked up.
    pub fn run<'a>(&'a self, lookup: impl Fn(u32) -> &'a [u32], query: &'a Query, answer: &mut [u16]) -> Answer {
        let run = Run::whole(self, lookup, query, answer);
        let passed = run.made.iter().map(Move::passed).sum::<usize>() as u32;
        Answer { refusal: 0, count: run.count as u32, position: run.position as u32, passed, moves: run.made.len() as u32 }
    }

    /// The moves of an accepted query, in the order in which they are made.
    pub fn moves(&self, second: &Index, query: &Query) -> Vec<Move> {
        self.moves_over(|term| self.lookup(second, term), query)
    }

    /// The moves over the lists that are looked up.
    pub fn moves_over<'a>(&'a self, lookup: impl Fn(u32) -> &'a [u32], query: &'a Query) -> Vec<Move> {
        Run::whole(self, lookup, query, &mut vec![0; self.size()]).made
    }

    /// How many branches end with each device.
    fn ends(&self) -> Vec<usize> {
        let mut ends = vec![0; self.size()];
        for &last in &self.last {
            ends[last as usize - 1] += 1;
        }
        ends
    }

    /// The most branches that a device lies in, its own counted, for sound tables.
    pub fn tiers(&self) -> usize {
        let (mut open, mut most) = (0, 0);
        for ends in self.ends() {
            open += 1;
            most = most.max(open);
            open -= ends;
        }
        most
    }

    /// The plant text of sound tables: a device closes after the last of its branch.
    pub fn text(&self) -> Vec<u8> {
        let mut out = String::from("(plant\n");
        for (level, ends) in self.level.iter().zip(self.ends()) {
            out += &format!("(dev {level}\n");
            out += &")\n".repeat(ends);
        }
        for (k, term) in self.terms.iter().enumerate() {
            out += &format!("(mark {term}\n");
            for &posting in self.list(k) {
                out += &format!("({} {})\n", if posting % 2 == 1 { "all" } else { "own" }, device_of(posting));
            }
            out += ")\n";
        }
        (out + ")\n").into_bytes()
    }

    /// The text at the front of a buffer: the refusal, of 1 to 9, 36 and 40, and the length.
    pub fn write(&self, buffer: &mut [u8]) -> (u32, usize) {
        let refusal = self.check();
        if refusal != 0 {
            return (refusal, 0);
        }
        if self.tiers() > 32 {
            return (36, 0);
        }
        let text = self.text();
        if text.len() > buffer.len() || text.len() > 65_536 {
            return (40, 0);
        }
        buffer[..text.len()].copy_from_slice(&text);
        (0, text.len())
    }
}

pub fn device_of(posting: u32) -> usize {
    (posting / 2) as usize
}

/// The list at index k: it ends where the next starts, or at the end.
fn list<'a>(starts: &[u32], postings: &'a [u32], k: usize) -> &'a [u32] {
    let end = starts.get(k + 1).map_or(postings.len(), |&s| s as usize);
    &postings[starts[k] as usize..end]
}

/// The list of a term; of one that is absent, an empty one.
fn list_of<'a>(terms: &[u16], starts: &[u32], postings: &'a [u32], term: u32) -> &'a [u32] {
    match terms.iter().position(|&t| t as u32 == term) {
        Some(k) => list(starts, postings, k),
        None => &[],
    }
}

struct Cursor<'a> {
    term: u32,
    list: &'a [u32],
    at: usize,
}

/// A move of a term's cursor, from one index of its list to a later one or to the length.
pub struct Move {
    pub term: u32,
    pub from: usize,
    pub to: usize,
}

impl Move {
    /// The postings that it goes over without landing.
    pub fn passed(&self) -> usize {
        self.to - self.from - 1
    }
}

struct Run<'a> {
    tables: &'a Tables,
    query: &'a Query,
    required: Vec<Cursor<'a>>,
    forbidden: Vec<Cursor<'a>>,
    position: usize,
    /// the moves made by all cursors together
    made: Vec<Move>,
    count: usize,
}

impl<'a> Run<'a> {
    fn new(tables: &'a Tables, lookup: impl Fn(u32) -> &'a [u32], query: &'a Query) -> Run<'a> {
        let cursor = |&term: &u32| Cursor { term, list: lookup(term), at: 0 };
        let cursors = |terms: &[u32]| -> Vec<Cursor<'a>> { terms.iter().map(cursor).collect() };
        Run {
            tables,
            query,
            required: cursors(&query.required),
            forbidden: cursors(&query.forbidden),
            position: query.start as usize,
            made: vec![],
            count: 0,
        }
    }

    /// A run that has ended. Moves and passed together are how far its cursors stand from the starts of their lists.
    fn whole(tables: &'a Tables, lookup: impl Fn(u32) -> &'a [u32], query: &'a Query, answer: &mut [u16]) -> Run<'a> {
        let mut run = Run::new(tables, lookup, query);
        while run.position <= tables.size() && run.round(answer) {}
        let gone: usize = run.required.iter().chain(&run.forbidden).map(|cursor| cursor.at).sum();
        assert_eq!(gone, run.made.iter().map(|made| 1 + made.passed()).sum());
        run
    }

    /// One round at the position; false: the next move would exceed the budget.
    fn round(&mut self, answer: &mut [u16]) -> bool {
        let p = self.position;
        for cursor in &mut self.required {
            if !cursor.bring(self.tables, p, &mut self.made, self.query.budget) {
                return false;
            }
            let c = cursor.device(self.tables);
            if c > p {
                self.position = c;
                return true;
            }
        }
        for cursor in &mut self.forbidden {
            if !cursor.bring(self.tables, p, &mut self.made, self.query.budget) {
                return false;
            }
            let c = cursor.device(self.tables);
            if c <= p {
                let shared = cursor.list[cursor.at] % 2 == 1;
                self.position = if shared { self.tables.last_of(c) + 1 } else { p + 1 };
                return true;
            }
        }
        if !self.query.levels.leave_out(self.tables.level[p - 1]) {
            answer[self.count] = p as u16;
            self.count += 1;
        }
        self.position = p + 1;
        true
    }
}

impl Cursor<'_> {
    fn device(&self, tables: &Tables) -> usize {
        self.list.get(self.at).map_or(tables.size() + 1, |&q| device_of(q))
    }

    fn bring(&mut self, tables: &Tables, p: usize, made: &mut Vec<Move>, budget: u32) -> bool {
        loop {
            let c = self.device(tables);
            if c > p || tables.reach(self.list[self.at]) >= p {
                return true;
            }
            if made.len() == budget as usize {
                return false;
            }
            let from = self.at;
            let root = tables.root[p - 1] as usize;
            self.at += 1;
            let target = if c < root {
                root
            } else if tables.last_of(c) < p {
                tables.last_of(c) + 1
            } else {
                0
            };
            while self.device(tables) < target && self.at < self.list.len() {
                self.at += 1;
            }
            made.push(Move { term: self.term, from, to: self.at });
        }
    }
}

/// A refused text: the number and the line.
pub type Refused = (u32, u32);

/// A number as the texts write it: 0, or digits without a leading zero. It stops growing past every limit.
fn number(word: &[u8]) -> Option<u64> {
    let well_formed = !word.is_empty() && word.iter().all(u8::is_ascii_digit) && (word == b"0" || word[0] != b'0');
    well_formed.then(|| word.iter().fold(0, |n: u64, &b| (n * 10 + (b - b'0') as u64).min(1 << 50)))
}

/// The number in `(word number` with `end` after it.
fn one_number(line: &[u8], opening: &[u8], end: &[u8]) -> Option<u64> {
    number(line.strip_prefix(opening)?.strip_suffix(end)?)
}

/// The next whole line, and what is left after its LF.
fn next_line(text: &[u8]) -> Option<(&[u8], &[u8])> {
    let end = text.iter().position(|&b| b == b'\n')?;
    Some((&text[..end], &text[end + 1..]))
}

struct PlantReader {
    tables: Tables,
    room: [usize; 6],
    open: Vec<usize>,
    in_term: bool,
    devices_ended: bool,
}

impl PlantReader {
    fn device(&mut self, level: u64) -> u32 {
        let count = self.tables.size();
        if self.devices_ended {
            return 21;
        } else if level > 255 {
            return 22;
        } else if self.open.len() == 32 {
            return 23;
        } else if self.room[..3].iter().any(|&r| r <= count) {
            return 27;
        }
        self.open.push(count);
        self.tables.last.push(count as u16 + 1);
        self.tables.root.push(self.open[0] as u16 + 1);
        self.tables.level.push(level as u8);
        0
    }

    fn term(&mut self, term: u64) -> u32 {
        let count = self.tables.terms.len();
        if self.in_term || !self.open.is_empty() {
            return 21;
        } else if !(1..=65_535).contains(&term) {
            return 22;
        } else if self.room[3..5].iter().any(|&r| r <= count) {
            return 27;
        } else if self.tables.terms.last().is_some_and(|&t| t as u64 >= term) {
            return 28;
        }
        self.in_term = true;
        self.devices_ended = true;
        self.tables.terms.push(term as u16);
        self.tables.starts.push(self.tables.postings.len() as u32);
        0
    }

    fn posting(&mut self, device: u64, shared: u32) -> u32 {
        if !self.in_term {
            return 21;
        } else if device == 0 || device > self.tables.size() as u64 {
            return 22;
        } else if self.room[5] <= self.tables.postings.len() {
            return 27;
        }
        let list = &self.tables.postings[*self.tables.starts.last().unwrap() as usize..];
        if list.last().is_some_and(|&q| device_of(q) as u64 >= device) {
            return 28;
        } else if list.iter().any(|&q| self.tables.reach(q) as u64 >= device) {
            return 29;
        }
        self.tables.postings.push(2 * device as u32 + shared);
        0
    }

    /// A closing bracket inside the plant; true: it closes the plant.
    fn close(&mut self) -> bool {
        if self.in_term {
            self.in_term = false;
            return false;
        }
        match self.open.pop() {
            Some(index) => {
                self.tables.last[index] = self.tables.size() as u16;
                false
            }
            None => true,
        }
    }

    fn line(&mut self, line: &[u8]) -> u32 {
        if let Some(level) = one_number(line, b"(dev ", b"") {
            self.device(level)
        } else if let Some(term) = one_number(line, b"(mark ", b"") {
            self.term(term)
        } else if let Some(device) = one_number(line, b"(all ", b")") {
            self.posting(device, 1)
        } else if let Some(device) = one_number(line, b"(own ", b")") {
            self.posting(device, 0)
        } else {
            21
        }
    }
}

/// The tables of a plant text, where each of the six has room for so many entries.
pub fn read_plant(text: &[u8], room: [usize; 6]) -> Result<Tables, Refused> {
    if text.len() > 65_536 {
        return Err((20, 0));
    }
    let mut reader = PlantReader { tables: Tables::default(), room, open: vec![], in_term: false, devices_ended: false };
    let mut rest = text;
    let mut closed = false;
    for k in 1.. {
        if closed {
            return if rest.is_empty() { Ok(reader.tables) } else { Err((25, k)) };
        }
        let Some((line, after)) = next_line(rest) else { return Err((24, k)) };
        rest = after;
        let refusal = if k == 1 {
            if line == b"(plant" {
                0
            } else {
                21
            }
        } else if line == b")" {
            closed = reader.close();
            0
        } else {
            reader.line(line)
        };
        if refusal != 0 {
            return Err((refusal, k));
        }
    }
    unreachable!()
}

/// The stage of an ask line, and its numbers: need, not, level, from and moves come in this order. `(level any)` has none.
fn query_line(line: &[u8]) -> Option<(u32, Vec<u64>)> {
    if line == b"(level any)" {
        return Some((2, vec![]));
    }
    let openings: [&[u8]; 5] = [b"(need ", b"(not ", b"(level ", b"(from ", b"(moves "];
    let stage = openings.iter().position(|o| line.starts_with(o))?;
    let inside = line[openings[stage].len()..].strip_suffix(b")")?;
    let numbers: Option<Vec<u64>> = inside.split(|&b| b == b' ').map(number).collect();
    let numbers = numbers.filter(|n| n.len() == if stage == 2 { 2 } else { 1 })?;
    Some((stage as u32, numbers))
}

pub fn read_query(text: &[u8]) -> Result<Query, Refused> {
    if text.len() > 4_096 {
        return Err((30, 0));
    }
    let mut query = Query::empty();
    let mut rest = text;
    let mut closed = false;
    let mut stage = 0;
    for k in 1.. {
        if closed {
            return if rest.is_empty() { Ok(query) } else { Err((34, k)) };
        }
        let Some((line, after)) = next_line(rest) else { return Err((33, k)) };
        rest = after;
        if k == 1 {
            if line != b"(ask" {
                return Err((31, k));
            }
            continue;
        }
        if line == b")" {
            closed = true;
            continue;
        }
        let Some((at, numbers)) = query_line(line) else { return Err((31, k)) };
        if at < stage {
            return Err((31, k));
        }
        if numbers.iter().any(|&n| n > u32::MAX as u64) {
            return Err((32, k));
        }
        if !set_line(&mut query, at, &numbers) {
            return Err((35, k));
        }
        stage = if at < 2 { at } else { at + 1 };
    }
    unreachable!()
}

/// Sets what a line of this stage says; false: there are eight such terms already.
fn set_line(query: &mut Query, at: u32, numbers: &[u64]) -> bool {
    let first = numbers.first().map_or(0, |&n| n as u32);
    let terms = if at == 0 { &mut query.required } else { &mut query.forbidden };
    match at {
        0 | 1 if terms.len() == 8 => return false,
        0 | 1 => terms.push(first),
        2 if numbers.is_empty() => query.levels = Levels::Any,
        2 => query.levels = Levels::Range(first, numbers[1] as u32),
        3 => query.start = first,
        _ => query.budget = first,
    }
    true
}

/// What the program has room for: devices, terms, postings.
pub const ROOM: [usize; 6] = [1_024, 1_024, 1_024, 256, 256, 4_096];

/// What the program prints for a plant text and an ask text: its second index is empty.
pub fn respond(plant: &[u8], query: &[u8]) -> Vec<u8> {
    respond_by(plant, query, |tables, query, answer| tables.search(&Index::default(), query, answer))
}

/// What is printed where the tables and the query that were read are searched in this way.
pub fn respond_by(plant: &[u8], query: &[u8], search: impl Fn(&Tables, &Query, &mut [u16]) -> Answer) -> Vec<u8> {
    let tables = match read_plant(plant, ROOM) {
        Ok(tables) => tables,
        Err((number, line)) => return format!("(refused plant {number} {line})\n").into_bytes(),
    };
    let query = match read_query(query) {
        Ok(query) => query,
        Err((number, line)) => return format!("(refused ask {number} {line})\n").into_bytes(),
    };
    let mut answer = vec![0; ROOM[0]];
    let end = search(&tables, &query, &mut answer);
    if end.refusal != 0 {
        return format!("(refused query {})\n", end.refusal).into_bytes();
    }
    let mut out = String::from("(answer\n");
    for device in &answer[..end.count as usize] {
        out += &format!("(device {device})\n");
    }
    out += &format!("(place {})\n(passed {})\n(moves {})\n)\n", end.position, end.passed, end.moves);
    out.into_bytes()
}
