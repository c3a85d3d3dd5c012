//! What crates/book_times does, in Rust, for a comparison of their times (tools/time-book.sh).

const CALLS: u32 = 1_000_000;
const PROJECTS: i64 = 20;
const MANY: u32 = 65_535;
const FEW: u32 = 40;
const MOST_KWH: u64 = 10_000_000_000;
const MOST_ROWS: usize = 64;

trait Journal {
    fn look(&self, participant: u32, month: u32) -> Option<u64>;
    fn put(&mut self, participant: u32, month: u32, kwh: u64) -> Result<(), u8>;
    fn wipe(&mut self);
}

fn in_range(participant: u32, month: u32) -> bool {
    (1..=65_535).contains(&participant) && (1..=12).contains(&month)
}

struct TableJournal {
    numbers: Vec<u64>,
}

fn spot(len: usize, participant: u32, month: u32) -> Option<usize> {
    let has_place = in_range(participant, month) && participant as usize <= len / 12;
    has_place.then(|| 12 * (participant as usize - 1) + (month as usize - 1))
}

impl Journal for TableJournal {
    fn look(&self, participant: u32, month: u32) -> Option<u64> {
        let kwh = self.numbers[spot(self.numbers.len(), participant, month)?];
        (kwh <= MOST_KWH).then_some(kwh)
    }

    fn put(&mut self, participant: u32, month: u32, kwh: u64) -> Result<(), u8> {
        let spot = spot(self.numbers.len(), participant, month).ok_or(12)?;
        self.numbers[spot] = kwh;
        Ok(())
    }

    fn wipe(&mut self) {
        self.numbers.fill(u64::MAX);
    }
}

#[derive(Clone, Copy)]
struct Entry {
    participant: u32,
    month: u8,
    kwh: u64,
}

const UNUSED: Entry = Entry { participant: 0, month: 0, kwh: 0 };

impl Entry {
    fn is_used(&self) -> bool {
        in_range(self.participant, u32::from(self.month)) && self.kwh <= MOST_KWH
    }

    fn is_of(&self, participant: u32, month: u32) -> bool {
        self.participant == participant && u32::from(self.month) == month && self.is_used()
    }
}

struct EntryJournal {
    entries: Vec<Entry>,
}

impl Journal for EntryJournal {
    fn look(&self, participant: u32, month: u32) -> Option<u64> {
        self.entries.iter().find(|entry| entry.is_of(participant, month)).map(|entry| entry.kwh)
    }

    fn put(&mut self, participant: u32, month: u32, kwh: u64) -> Result<(), u8> {
        let spot = self
            .entries
            .iter()
            .position(|entry| entry.is_of(participant, month))
            .or_else(|| self.entries.iter().position(|entry| !entry.is_used()))
            .ok_or(12)?;
        self.entries[spot] = Entry { participant, month: month as u8, kwh };
        Ok(())
    }

    fn wipe(&mut self) {
        self.entries.fill(UNUSED);
    }
}

#[derive(Clone, Copy)]
struct Row {
    project: u32,
    due_now: i64,
    due_next: i64,
    kept: i64,
    requirement: Option<i64>,
    actual: Option<i64>,
    paid: i64,
}

impl Row {
    fn column_16(&self) -> i64 {
        self.requirement.map_or(0, |requirement| requirement + self.due_now)
    }
}

#[derive(Clone, Copy)]
enum State {
    Draft,
    Posted(i64),
}

struct Book<J> {
    journal: J,
    year: u16,
    state: State,
    money: i64,
    rows: Vec<Row>,
}

fn rounded(n: i64, d: i64) -> i64 {
    let size = (n.unsigned_abs() + d as u64 / 2) / d as u64;
    if n < 0 { -(size as i64) } else { size as i64 }
}

fn charge(kwh: u64, rate: i64) -> i64 {
    rounded(kwh as i64 * rate, 100_000)
}

fn reading(participant: i64, month: i64, kwh: i64) -> Result<(u32, u32, u64), u8> {
    let in_range = (1..=65_535).contains(&participant)
        && (1..=12).contains(&month)
        && (0..=10_000_000_000).contains(&kwh);
    in_range.then_some((participant as u32, month as u32, kwh as u64)).ok_or(8)
}

impl<J: Journal> Book<J> {
    fn open(mut journal: J, year: u16) -> Self {
        journal.wipe();
        Book { journal, year, state: State::Draft, money: 0, rows: Vec::with_capacity(MOST_ROWS) }
    }

    fn file(&mut self, project: i64, requirement: i64) -> Result<(), u8> {
        if !(1..=99_999_999).contains(&project) {
            return Err(1);
        }
        if !matches!(self.state, State::Draft) {
            return Err(2);
        }
        let project = project as u32;
        let place = self.rows.iter().position(|row| row.project == project);
        if place.is_none() && self.rows.len() == MOST_ROWS {
            return Err(3);
        }
        let due = place.map_or(0, |place| self.rows[place].due_now);
        let dollars = 0..=100_000_000;
        if !dollars.contains(&requirement) || !dollars.contains(&(requirement + due)) {
            return Err(4);
        }
        match place {
            Some(place) => self.rows[place].requirement = Some(requirement),
            None => self.rows.push(Row {
                project,
                due_now: 0,
                due_next: 0,
                kept: 0,
                requirement: Some(requirement),
                actual: None,
                paid: 0,
            }),
        }
        Ok(())
    }

    fn total(&self) -> i64 {
        self.rows.iter().map(Row::column_16).sum()
    }

    fn post(&mut self, forecast: i64) -> Result<i64, u8> {
        if !matches!(self.state, State::Draft) {
            return Err(2);
        }
        if self.rows.is_empty() || self.rows.iter().any(|row| row.requirement.is_none()) {
            return Err(5);
        }
        if !(1..=1_000_000_000).contains(&forecast) {
            return Err(6);
        }
        let rate = rounded(self.total() * 10_000, forecast);
        if !(1..=1_000_000).contains(&rate) {
            return Err(7);
        }
        self.state = State::Posted(rate);
        Ok(rate)
    }

    fn rate(&self) -> Result<i64, u8> {
        match self.state {
            State::Draft => Err(9),
            State::Posted(rate) => Ok(rate),
        }
    }

    fn enter(&mut self, reading: (u32, u32, u64), change: i64) -> Result<i64, u8> {
        let money = self.money + change;
        if !(0..=90_000_000_000).contains(&money) {
            return Err(11);
        }
        self.journal.put(reading.0, reading.1, reading.2)?;
        self.money = money;
        Ok(change)
    }

    fn bill(&mut self, participant: i64, month: i64, kwh: i64) -> Result<i64, u8> {
        let reading = reading(participant, month, kwh)?;
        let rate = self.rate()?;
        if self.journal.look(reading.0, reading.1).is_some() {
            return Err(10);
        }
        self.enter(reading, charge(reading.2, rate))
    }

    fn resettle(&mut self, participant: i64, month: i64, kwh: i64) -> Result<i64, u8> {
        let reading = reading(participant, month, kwh)?;
        let rate = self.rate()?;
        let held = self.journal.look(reading.0, reading.1).ok_or(13)?;
        self.enter(reading, charge(reading.2, rate) - charge(held, rate))
    }

    fn sum_of_paid(&self) -> i64 {
        self.rows.iter().map(|row| row.paid).sum()
    }

    fn pay(&mut self) -> Result<(i64, i64), u8> {
        self.rate()?;
        let before = self.sum_of_paid();
        let total = self.total();
        for row in &mut self.rows {
            row.paid = (self.money * row.column_16()).div_euclid(total);
        }
        let after = self.sum_of_paid();
        Ok((after - before, self.money - after))
    }
}

fn next(number: u32) -> u32 {
    number.wrapping_mul(1_664_525).wrapping_add(1_013_904_223)
}

fn call<J: Journal>(book: &mut Book<J>, number: u32, kind: u32, participants: u32) -> Result<i64, u8> {
    if kind == 9 {
        return book.pay().map(|(paid, _till)| paid);
    }
    let participant = i64::from((number >> 8) % participants + 1);
    let month = i64::from((number >> 4) % 12 + 1);
    let kwh = i64::from(number % 10_000);
    if kind >= 6 {
        book.resettle(participant, month, kwh)
    } else {
        book.bill(participant, month, kwh)
    }
}

fn drive<J: Journal>(book: &mut Book<J>, participants: u32, rounds: u32) -> i64 {
    let mut number = 1;
    let mut sum = 0i64;
    for _ in 0..rounds {
        for kind in 0..CALLS {
            number = next(number);
            let answer = match call(book, number, kind % 10, participants) {
                Ok(cents) => cents,
                Err(refusal) => -i64::from(refusal),
            };
            sum = sum.wrapping_add(answer);
        }
    }
    sum
}

fn show<J: Journal>(journal: J, participants: u32, rounds: u32) {
    let mut book = Book::open(journal, 2026);
    for project in 1..=PROJECTS {
        book.file(project, 1_000_000 + project).unwrap();
    }
    book.post(1_000_000).unwrap();
    let sum = drive(&mut book, participants, rounds);
    let idle: i64 = book.rows.iter().map(|row| row.due_next + row.kept + row.actual.unwrap_or(0)).sum();
    assert_eq!((idle, book.year), (0, 2026));
    println!("{sum} {} {}", book.money, book.money - book.sum_of_paid());
}

fn main() {
    let arguments: Vec<String> = std::env::args().collect();
    let rounds = arguments.get(2).and_then(|argument| argument.parse().ok()).unwrap_or(1);
    if arguments.get(1).is_some_and(|word| word == "entries") {
        show(EntryJournal { entries: vec![UNUSED; 12 * FEW as usize] }, FEW, rounds);
    } else {
        show(TableJournal { numbers: vec![0; 12 * MANY as usize] }, MANY, rounds);
    }
}
