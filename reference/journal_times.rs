//! What crates/journal_times does, in Rust, for a comparison of their times (tools/time-journals.sh).

const FULL: usize = 786_420;
const CALLS: u32 = 1_000_000;
const MOST_KWH: u64 = 10_000_000_000;

struct TableJournal {
    numbers: Vec<u64>,
}

impl TableJournal {
    fn look(&self, participant: u32, month: u32) -> Option<u64> {
        let kwh = self.numbers[spot(self.numbers.len(), participant, month)?];
        (kwh <= MOST_KWH).then_some(kwh)
    }

    fn put(&mut self, participant: u32, month: u32, kwh: u64) -> Result<(), u8> {
        let spot = spot(self.numbers.len(), participant, month).ok_or(12)?;
        if kwh > MOST_KWH {
            return Err(12);
        }
        self.numbers[spot] = kwh;
        Ok(())
    }
}

fn spot(len: usize, participant: u32, month: u32) -> Option<usize> {
    let in_range = (1..=65_535).contains(&participant) && (1..=12).contains(&month);
    let has_place = in_range && participant as usize <= len / 12;
    has_place.then(|| 12 * (participant as usize - 1) + (month as usize - 1))
}

fn next(number: u32) -> u32 {
    number.wrapping_mul(1_664_525).wrapping_add(1_013_904_223)
}

fn participant(number: u32) -> u32 {
    (number >> 8) % 65_535 + 1
}

fn month(number: u32) -> u32 {
    (number >> 4) % 12 + 1
}

fn puts_and_looks(table: &mut TableJournal, rounds: u32) -> u64 {
    let mut number = 1;
    let mut sum = 0u64;
    for _ in 0..rounds {
        for _ in 0..CALLS {
            number = next(number);
            let put = table.put(participant(number), month(number), u64::from(number));
            number = next(number);
            let held = table.look(participant(number), month(number)).unwrap_or(0);
            sum = sum.wrapping_add(held).wrapping_add(u64::from(put.is_ok()));
        }
    }
    sum
}

fn main() {
    let rounds = std::env::args().nth(1).and_then(|argument| argument.parse().ok()).unwrap_or(1);
    let mut table = TableJournal { numbers: vec![0; FULL] };
    println!("{}", puts_and_looks(&mut table, rounds));
}
