// A ring and a line link written plainly, to measure those of crates/links against: run by links.sh.
use std::time::Instant;

#[derive(Clone, Copy, Debug, PartialEq, Eq)]
pub struct Fault {
    number: u8,
    layer: u8,
    place: Option<usize>,
}

fn fault(number: u8) -> Fault {
    Fault {
        number,
        layer: 2,
        place: None,
    }
}

trait Link {
    fn send(&mut self, frame: &[u8]) -> Result<(), Fault>;
    fn take(&mut self, out: &mut [u8]) -> Result<Option<usize>, Fault>;
}

struct ByteQueue {
    memory: Vec<u8>,
    head: usize,
    used: usize,
}

impl ByteQueue {
    fn new(memory: Vec<u8>) -> ByteQueue {
        ByteQueue {
            memory,
            head: 0,
            used: 0,
        }
    }

    fn free(&self) -> usize {
        self.memory.len() - self.used
    }

    fn push(&mut self, byte: u8) {
        let end = self.head + self.used;
        let size = self.memory.len();
        let at = if end < size { end } else { end - size };
        self.memory[at] = byte;
        self.used += 1;
    }

    fn pop(&mut self) -> u8 {
        let byte = self.memory[self.head];
        self.head += 1;
        if self.head == self.memory.len() {
            self.head = 0;
        }
        self.used -= 1;
        byte
    }
}

struct Ring(ByteQueue);

impl Link for Ring {
    fn send(&mut self, frame: &[u8]) -> Result<(), Fault> {
        if frame.is_empty() || frame.len() > 16 {
            return Err(fault(41));
        }
        if frame.len() + 1 > self.0.free() {
            return Err(fault(43));
        }
        self.0.push(frame.len() as u8);
        for b in frame {
            self.0.push(*b);
        }
        Ok(())
    }

    fn take(&mut self, out: &mut [u8]) -> Result<Option<usize>, Fault> {
        if out.len() < 32 {
            return Err(fault(42));
        }
        if self.0.used == 0 {
            return Ok(None);
        }
        let n = self.0.pop() as usize;
        for place in &mut out[..n] {
            *place = self.0.pop();
        }
        Ok(Some(n))
    }
}

struct Line(ByteQueue);

fn digit(value: u8) -> u8 {
    if value < 10 { b'0' + value } else { b'A' + (value - 10) }
}

fn value(digit: u8) -> u8 {
    match digit {
        b'0'..=b'9' => digit - b'0',
        b'A'..=b'F' => digit - b'A' + 10,
        _ => 0,
    }
}

impl Link for Line {
    fn send(&mut self, frame: &[u8]) -> Result<(), Fault> {
        if frame.is_empty() || frame.len() > 32 {
            return Err(fault(41));
        }
        if 2 * frame.len() + 1 > self.0.free() {
            return Err(fault(43));
        }
        for b in frame {
            self.0.push(digit(b / 16));
            self.0.push(digit(b % 16));
        }
        self.0.push(b'\n');
        Ok(())
    }

    fn take(&mut self, out: &mut [u8]) -> Result<Option<usize>, Fault> {
        if out.len() < 32 {
            return Err(fault(42));
        }
        if self.0.used == 0 {
            return Ok(None);
        }
        let mut n = 0;
        loop {
            let high = self.0.pop();
            if high == b'\n' {
                return Ok(Some(n));
            }
            let low = self.0.pop();
            out[n] = value(high) * 16 + value(low);
            n += 1;
        }
    }
}

fn receive<L: Link>(link: &mut L) -> u32 {
    let mut out = [0u8; 32];
    match link.take(&mut out) {
        Ok(Some(_)) => u32::from(out[5]),
        _ => 0,
    }
}

// Eight frames of 6 bytes in, and eight out, in each round.
fn pass<L: Link>(link: &mut L, rounds: u32) -> u32 {
    let mut sum = 0u32;
    for round in 0..rounds {
        let byte = (round % 256) as u8;
        for _ in 0..8 {
            let _ = link.send(&[0x10, 0, 5, 0x0B, 0x30, byte]);
        }
        for _ in 0..8 {
            sum = sum.wrapping_add(receive(link));
        }
    }
    sum
}

fn main() {
    let start = Instant::now();
    let sum = pass(&mut Ring(ByteQueue::new(vec![0; 100])), 250_000);
    eprintln!("ring {}", start.elapsed().as_nanos());
    println!("ring {sum}");
    let start = Instant::now();
    let sum = pass(&mut Line(ByteQueue::new(vec![0; 200])), 250_000);
    eprintln!("line {}", start.elapsed().as_nanos());
    println!("line {sum}");
}
