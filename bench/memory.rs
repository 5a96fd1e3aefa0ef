// The memory of crates/ec_memory, written in Rust as plainly: what a load, a store, a fill, a move of a pointer, and
// making and ending an object take. Build by `rustc --edition 2021 -O bench/memory.rs`; run as `memory load`, and so on.

#[derive(Clone, Copy, Debug, PartialEq)]
enum Trap {
    Outside,
    Dead,
    Null,
    Unset,
}

#[derive(Clone, Copy)]
struct Place {
    number: u32,
    start: u32,
    size: u32,
}

#[derive(Clone, Copy, PartialEq)]
enum Value {
    Int(i128),
    Ptr(u64),
}

#[derive(Clone, Copy)]
enum Kind {
    Char,
    Int,
    Long,
    Ptr,
}

struct Store {
    bytes: Vec<u8>,
    set: Vec<bool>,
    alive: Vec<Place>,
    made: u32,
}

impl Store {
    fn find(&self, number: u32) -> Result<Place, Trap> {
        if number == 0 {
            return Err(Trap::Null);
        }
        if let Some(place) = self.alive.get(number as usize - 1) {
            if place.number == number {
                return Ok(*place);
            }
        }
        match self.alive.binary_search_by_key(&number, |place| place.number) {
            Ok(index) => Ok(self.alive[index]),
            Err(_) => Err(Trap::Dead),
        }
    }

    fn reach(&self, ptr: u64, n: usize) -> Result<usize, Trap> {
        let place = self.find((ptr >> 32) as u32)?;
        let offset = (ptr & 0xffff_ffff) as usize;
        if offset + n > place.size as usize {
            return Err(Trap::Outside);
        }
        Ok(place.start as usize + offset)
    }

    fn read<const N: usize>(&self, ptr: u64) -> Result<[u8; N], Trap> {
        let at = self.reach(ptr, N)?;
        if !self.set[at..at + N].iter().all(|set| *set) {
            return Err(Trap::Unset);
        }
        Ok(self.bytes[at..at + N].try_into().unwrap())
    }

    fn write<const N: usize>(&mut self, ptr: u64, bytes: [u8; N]) -> Result<(), Trap> {
        let at = self.reach(ptr, N)?;
        self.bytes[at..at + N].copy_from_slice(&bytes);
        self.set[at..at + N].fill(true);
        Ok(())
    }

    fn fill(&mut self, ptr: u64, n: usize, byte: u8) -> Result<(), Trap> {
        let at = self.reach(ptr, n)?;
        self.bytes[at..at + n].fill(byte);
        self.set[at..at + n].fill(true);
        Ok(())
    }

    fn load(&self, ptr: u64, kind: Kind) -> Result<Value, Trap> {
        Ok(match kind {
            Kind::Char => Value::Int(i8::from_le_bytes(self.read(ptr)?) as i128),
            Kind::Int => Value::Int(i32::from_le_bytes(self.read(ptr)?) as i128),
            Kind::Long => Value::Int(i64::from_le_bytes(self.read(ptr)?) as i128),
            Kind::Ptr => Value::Ptr(u64::from_le_bytes(self.read(ptr)?)),
        })
    }

    fn store(&mut self, ptr: u64, kind: Kind, value: Value) -> Result<(), Trap> {
        let number = match value {
            Value::Int(number) => number,
            Value::Ptr(ptr) => ptr as i128,
        };
        match kind {
            Kind::Char => self.write(ptr, (number as i8).to_le_bytes()),
            Kind::Int => self.write(ptr, (number as i32).to_le_bytes()),
            Kind::Long => self.write(ptr, (number as i64).to_le_bytes()),
            Kind::Ptr => self.write(ptr, (number as u64).to_le_bytes()),
        }
    }

    fn move_ptr(&self, ptr: u64, by: i64, size: u64) -> Result<u64, Trap> {
        let place = self.find((ptr >> 32) as u32)?;
        let to = (ptr & 0xffff_ffff) as i128 + by as i128 * size as i128;
        if to < 0 || to > place.size as i128 {
            return Err(Trap::Outside);
        }
        Ok((ptr >> 32 << 32) + to as u64)
    }

    fn make(&mut self, size: u32) -> u64 {
        let start = self.bytes.len();
        self.bytes.resize(start + size as usize, 0);
        self.set.resize(start + size as usize, false);
        self.made += 1;
        self.alive.push(Place { number: self.made, start: start as u32, size });
        (self.made as u64) << 32
    }

    fn end_to(&mut self, mark: u32) {
        while let Some(place) = self.alive.last() {
            if place.number <= mark {
                break;
            }
            self.bytes.truncate(place.start as usize);
            self.set.truncate(place.start as usize);
            self.alive.pop();
        }
    }
}

fn main() {
    let what = std::env::args().nth(1).unwrap_or_default();
    let mut store = Store { bytes: Vec::new(), set: Vec::new(), alive: Vec::new(), made: 0 };
    let ptr = store.make(4096);
    for i in 0..4096 {
        store.store(ptr + i, Kind::Char, Value::Int(1)).unwrap();
    }
    let mut count = 0u64;
    match what.as_str() {
        "load" => {
            for i in 0..100_000_000u64 {
                count += (store.load(ptr + i % 1024 * 4, Kind::Int) == Ok(Value::Int(0x0101_0101))) as u64;
            }
        }
        "store" => {
            for i in 0..100_000_000u64 {
                count += store.store(ptr + i % 1024 * 4, Kind::Int, Value::Int(7)).is_ok() as u64;
            }
        }
        "move" => {
            for i in 0..100_000_000u64 {
                count += store.move_ptr(ptr, (i % 1024) as i64, 4).is_ok() as u64;
            }
        }
        "fill" => {
            for i in 0..10_000_000u64 {
                count += store.fill(ptr + i % 1024, 100, 1).is_ok() as u64;
            }
        }
        _ => {
            let size = if what == "make-many" { 100 } else { 8 };
            for _ in 0..10_000_000u64 {
                count += (store.make(size) > 0) as u64;
                store.end_to(1);
            }
        }
    }
    println!("{count}");
}
