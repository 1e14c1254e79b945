//! Cell files in plain Rust, written and read as `aso_cellfile` does it, timed as the program in cellfile.sh times that.
//! With the argument `rows` it prints the cells instead, a key and an amount a line.
use std::time::Instant;

#[derive(Clone, Copy, PartialEq, Eq, PartialOrd, Ord)]
struct Words<const W: usize> {
    words: [u64; W],
}

impl<const W: usize> Words<W> {
    fn zero() -> Self {
        Words { words: [0; W] }
    }

    fn from_u128(number: u128) -> Option<Self> {
        let mut words = [0; W];
        let mut rest = number;
        for back in 0..W {
            words[W - 1 - back] = rest as u64;
            rest >>= 64;
        }
        if rest == 0 { Some(Words { words }) } else { None }
    }

    fn to_u128(self) -> Option<u128> {
        let mut number = 0u128;
        for word in self.words {
            if number >= 1u128 << 64 {
                return None;
            }
            number = (number << 64) + u128::from(word);
        }
        Some(number)
    }

    fn minus(&self, low: &Self) -> Self {
        let mut words = [0; W];
        let mut borrow = false;
        for back in 0..W {
            let at = W - 1 - back;
            let (word, a) = self.words[at].overflowing_sub(low.words[at]);
            let (word, b) = word.overflowing_sub(u64::from(borrow));
            words[at] = word;
            borrow = a || b;
        }
        Words { words }
    }

    fn plus(&self, step: &Self) -> Option<Self> {
        let mut words = [0; W];
        let mut carry = false;
        for back in 0..W {
            let at = W - 1 - back;
            let (word, a) = self.words[at].overflowing_add(step.words[at]);
            let (word, b) = word.overflowing_add(u64::from(carry));
            words[at] = word;
            carry = a || b;
        }
        if carry { None } else { Some(Words { words }) }
    }
}

#[derive(Clone, Copy)]
struct Cell<const W: usize> {
    key: Words<W>,
    amount: i128,
}

const HEAVIEST: u128 = 10_000_000_000_000_000_000_000_000_000;

fn put_leb(out: &mut Vec<u8>, value: u128) {
    let mut rest = value;
    while rest >= 128 {
        out.push((rest % 128) as u8 + 128);
        rest /= 128;
    }
    out.push(rest as u8);
}

fn put_zig(out: &mut Vec<u8>, value: i128) {
    let twice = value.unsigned_abs() * 2;
    put_leb(out, if value < 0 { twice - 1 } else { twice });
}

fn take_leb(bytes: &[u8]) -> Option<(u128, usize)> {
    match bytes {
        [a, ..] if *a < 128 => Some((u128::from(*a), 1)),
        [a, b, ..] if *b < 128 && *b > 0 => Some((u128::from(u32::from(*a) - 128 + 128 * u32::from(*b)), 2)),
        [a, b, c, ..] if *b >= 128 && *c < 128 && *c > 0 => {
            Some((u128::from(u32::from(*a) - 128 + 128 * (u32::from(*b) - 128) + 16384 * u32::from(*c)), 3))
        }
        _ => take_long(bytes),
    }
}

fn take_long(bytes: &[u8]) -> Option<(u128, usize)> {
    let mut value = 0u128;
    for (at, byte) in bytes.iter().take(19).enumerate() {
        let part = u128::from(*byte % 128);
        if at == 18 && part > 3 {
            return None;
        }
        value += part << (7 * at);
        if *byte < 128 {
            return if *byte == 0 && at > 0 { None } else { Some((value, at + 1)) };
        }
    }
    None
}

fn take_zig(bytes: &[u8]) -> Option<(i128, usize)> {
    let (value, size) = take_leb(bytes)?;
    let half = (value / 2) as i128;
    Some((if value % 2 == 1 { -half - 1 } else { half }, size))
}

struct Entry<const W: usize> {
    place: u64,
    first: Words<W>,
}

struct Writer<const W: usize> {
    bytes: Vec<u8>,
    entries: Vec<Entry<W>>,
    total: u32,
    last: Words<W>,
    text: Vec<u8>,
    first: Words<W>,
    count: u32,
    room: u128,
}

impl<const W: usize> Writer<W> {
    fn new(bits: u16) -> Self {
        let mut bytes = b"ASOC\x01".to_vec();
        bytes.push(W as u8);
        bytes.extend_from_slice(&bits.to_be_bytes());
        Writer {
            bytes,
            entries: Vec::new(),
            total: 0,
            last: Words::zero(),
            text: Vec::new(),
            first: Words::zero(),
            count: 0,
            room: HEAVIEST,
        }
    }

    fn add(&mut self, cell: Cell<W>) -> Result<(), &'static str> {
        if self.total > 0 && cell.key <= self.last {
            return Err("order");
        }
        if self.total == u32::MAX {
            return Err("full");
        }
        let weight = cell.amount.unsigned_abs();
        if weight > self.room {
            return Err("heavy");
        }
        let before = if self.count == 0 { Words::zero() } else { self.last };
        put_leb(&mut self.text, cell.key.minus(&before).to_u128().ok_or("wide")?);
        put_zig(&mut self.text, cell.amount);
        if self.count == 0 {
            self.first = cell.key;
        }
        self.last = cell.key;
        self.room -= weight;
        self.count += 1;
        self.total += 1;
        if self.count == 4096 {
            self.close();
        }
        Ok(())
    }

    fn close(&mut self) {
        self.entries.push(Entry {
            place: self.bytes.len() as u64,
            first: self.first,
        });
        self.bytes.extend_from_slice(&self.text);
        self.text.clear();
        self.count = 0;
        self.room = HEAVIEST;
    }

    fn finish(mut self, bits: u16) -> File<W> {
        if self.count > 0 {
            self.close();
        }
        let place = self.bytes.len() as u64;
        for entry in &self.entries {
            self.bytes.extend_from_slice(&entry.place.to_be_bytes());
            for word in entry.first.words {
                self.bytes.extend_from_slice(&word.to_be_bytes());
            }
        }
        self.bytes.extend_from_slice(&u64::from(self.total).to_be_bytes());
        self.bytes.extend_from_slice(&place.to_be_bytes());
        self.bytes.extend_from_slice(b"ASOCEND1");
        File {
            bytes: self.bytes,
            bits,
            count: self.total,
            entries: self.entries,
            place,
        }
    }
}

struct File<const W: usize> {
    bytes: Vec<u8>,
    bits: u16,
    count: u32,
    entries: Vec<Entry<W>>,
    place: u64,
}

impl<const W: usize> File<W> {
    /// The cells of block `n`, or none where it is bad. The bytes are copied first, as from a file.
    fn block(&self, n: usize) -> Option<Vec<Cell<W>>> {
        let entry = &self.entries[n];
        let (end, most) = match self.entries.get(n + 1) {
            Some(next) => (next.place, next.first.minus(&Words::from_u128(1)?)),
            None => (self.place, Words::from_u128((1u128 << self.bits) - 1)?),
        };
        let bytes = self.bytes[entry.place as usize..end as usize].to_vec();
        let count = (u64::from(self.count) - 4096 * n as u64).min(4096) as u32;
        let mut cells = Vec::with_capacity(count as usize);
        let mut rest = bytes.as_slice();
        let mut before = Words::zero();
        let mut least = 0u128;
        let mut room = HEAVIEST;
        for _ in 0..count {
            let (step, size) = take_leb(rest)?;
            if step < least {
                return None;
            }
            let key = before.plus(&Words::from_u128(step)?)?;
            let (amount, more) = take_zig(&rest[size..])?;
            let weight = amount.unsigned_abs();
            if key > most || weight > room {
                return None;
            }
            room -= weight;
            rest = &rest[size + more..];
            before = key;
            least = 1;
            cells.push(Cell { key, amount });
        }
        let starts = cells.first().is_none_or(|cell| cell.key == entry.first);
        if starts && rest.is_empty() { Some(cells) } else { None }
    }

    /// Adds the cells of all blocks whose keys are in the range.
    fn scan(&self, from: Words<W>, to: Option<Words<W>>, into: &mut Vec<Cell<W>>) -> Option<()> {
        let stop = match to {
            Some(limit) => self.entries.partition_point(|entry| entry.first < limit),
            None => self.entries.len(),
        };
        let first = self.entries.partition_point(|entry| entry.first <= from).saturating_sub(1);
        for n in first..stop {
            for cell in &self.block(n)? {
                if cell.key >= from && to.is_none_or(|limit| cell.key < limit) {
                    into.push(*cell);
                }
            }
        }
        Some(())
    }
}

/// Records drawn as those of the sample cube; of each key the last one.
fn cells(count: u32) -> Vec<Cell<1>> {
    let mut x = 1u64;
    let mut draw = |n: u64| {
        x = x.wrapping_mul(6364136223846793005).wrapping_add(1442695040888963407);
        (x >> 33) % n
    };
    let mut records = Vec::new();
    for _ in 0..count {
        let key = draw(24) << 27 | draw(50) << 21 | draw(200) << 13 | draw(1000) << 3 | draw(8);
        let amount = i128::from(draw(2_000_001)) - 1_000_000;
        records.push(Cell {
            key: Words { words: [key] },
            amount,
        });
    }
    records.sort_by_key(|cell| cell.key);
    let mut cells: Vec<Cell<1>> = Vec::new();
    for record in records {
        match cells.last_mut() {
            Some(last) if last.key == record.key => *last = record,
            _ => cells.push(record),
        }
    }
    cells
}

fn added(total: u64, cells: &[Cell<1>]) -> u64 {
    let mut total = total;
    for cell in cells {
        total = total.rotate_left(5) ^ cell.key.words[0] ^ cell.amount as u64;
    }
    total
}

fn summed(bytes: &[u8]) -> u64 {
    bytes.iter().fold(0u64, |total, byte| total.rotate_left(5) ^ u64::from(*byte))
}

fn report(call: &str, start: &Instant, cells: u32, total: u64) {
    println!("{call} {} {cells} {total}", start.elapsed().as_nanos());
}

fn main() -> Result<(), &'static str> {
    let cells = cells(2_000_000);
    if std::env::args().nth(1).as_deref() == Some("rows") {
        for cell in &cells {
            println!("{},{}", cell.key.words[0], cell.amount);
        }
        return Ok(());
    }
    let most = Words { words: [0xffff_ffff] };
    let start = Instant::now();
    let mut writer = Writer::<1>::new(32);
    for cell in &cells {
        if cell.key > most {
            return Err("a key of more than 32 bits");
        }
        writer.add(*cell)?;
    }
    let file = writer.finish(32);
    report("write", &start, file.count, file.bytes.len() as u64);
    println!("bytes 0 0 {}", summed(&file.bytes));
    let mut total = 0u64;
    let start = Instant::now();
    for n in 0..file.entries.len() {
        total = added(total, &file.block(n).ok_or("a bad block")?);
    }
    report("blocks", &start, file.count, total);
    let mut into = Vec::new();
    let start = Instant::now();
    file.scan(Words::zero(), None, &mut into).ok_or("a bad block")?;
    report("scan", &start, file.count, into.len() as u64);
    if added(0, &into) != total {
        return Err("a scan of other cells");
    }
    Ok(())
}
