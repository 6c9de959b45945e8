// The rules of guards, layers, executive, records and runs written plainly in Rust, to compare the verified program with:
// the same log byte for byte, and the time of both. It shares no code with the library.
use std::env;
use std::fs;

type Box6 = ([i32; 3], [i32; 3]);

trait Machine {
    type S: Copy + PartialEq;
    const A: u8;
    const G: u8;
    fn after(&self, s: Self::S, a: u8, w: u8) -> Self::S;
    fn draw(&self, s: Self::S, a: u8) -> u16;
    fn cover(&self, s: Self::S) -> Box6;
    fn ticks(&self, s: Self::S) -> u16;
    fn fallback(&self, s: Self::S) -> u8;
    fn c(&self) -> u16;
    fn recoverable(&self, s: Self::S, q: u16) -> bool;
    fn numbers(&self, s: Self::S) -> [i32; 3];
    fn made(&self, n: [i32; 3]) -> Option<Self::S>;
}

fn inside((low, high): Box6, (l, h): Box6) -> bool {
    (0..3).all(|i| l[i] <= low[i] && high[i] <= h[i])
}

fn touch((l, h): Box6, (m, k): Box6) -> bool {
    (0..3).all(|i| l[i].max(m[i]) <= h[i].min(k[i]))
}

struct Cart {
    length: i32,
}

fn distance(u: i32) -> i32 {
    let k = u / 2;
    if u % 2 == 0 {
        k * (k - 1)
    } else {
        k * k
    }
}

impl Machine for Cart {
    type S = (i32, i32);
    const A: u8 = 8;
    const G: u8 = 3;
    fn after(&self, (x, v): (i32, i32), a: u8, w: u8) -> (i32, i32) {
        if a >= 8 || w >= 3 {
            return (x, v);
        }
        let v = if a < 7 {
            (v + a as i32 - 3 + w as i32 - 1).clamp(-40, 40)
        } else {
            v.signum() * (v.abs() - 2 - w as i32).max(0)
        };
        ((x + v).clamp(-1_000_000, 1_000_000), v)
    }
    fn draw(&self, (_, v): (i32, i32), a: u8) -> u16 {
        match a {
            0..=6 => 1 + (a as i32 - 3).unsigned_abs() as u16,
            7 => (v != 0) as u16,
            _ => 0,
        }
    }
    fn cover(&self, (x, v): (i32, i32)) -> Box6 {
        let d = distance(v.abs());
        if v >= 0 {
            ([x, 0, 0], [x + d, 0, 0])
        } else {
            ([x - d, 0, 0], [x, 0, 0])
        }
    }
    fn ticks(&self, (_, v): (i32, i32)) -> u16 {
        ((v.abs() + 1) / 2) as u16
    }
    fn fallback(&self, _: (i32, i32)) -> u8 {
        7
    }
    fn c(&self) -> u16 {
        1
    }
    fn recoverable(&self, s: (i32, i32), _: u16) -> bool {
        inside(self.cover(s), ([0, 0, 0], [self.length, 0, 0]))
    }
    fn numbers(&self, (x, v): (i32, i32)) -> [i32; 3] {
        [x, v, 0]
    }
    fn made(&self, [x, v, z]: [i32; 3]) -> Option<(i32, i32)> {
        (x.abs() <= 1_000_000 && v.abs() <= 40 && z == 0).then_some((x, v))
    }
}

struct Drone {
    hall: [i32; 3],
}

impl Machine for Drone {
    type S = [i32; 3];
    const A: u8 = 7;
    const G: u8 = 9;
    fn after(&self, [x, y, z]: [i32; 3], a: u8, w: u8) -> [i32; 3] {
        if a >= 7 || w >= 9 || (z == 0 && a != 5) {
            return [x, y, z];
        }
        if z == 0 {
            return [x, y, 1];
        }
        let (p, r) = (w as i32 / 3 - 1, w as i32 % 3 - 1);
        let m = [(0, 0, 0), (1, 0, 0), (-1, 0, 0), (0, 1, 0), (0, -1, 0), (0, 0, 1), (0, 0, -1)][a as usize];
        [
            (x + m.0 + p).clamp(-1000, 1000),
            (y + m.1 + r).clamp(-1000, 1000),
            (z + m.2).clamp(0, 1000),
        ]
    }
    fn draw(&self, s: [i32; 3], a: u8) -> u16 {
        match a {
            0 => 2,
            1..=4 => 3,
            5 => 4,
            6 => {
                if s[2] == 0 {
                    0
                } else {
                    2
                }
            }
            _ => 0,
        }
    }
    fn cover(&self, [x, y, z]: [i32; 3]) -> Box6 {
        ([x - z, y - z, 0], [x + z, y + z, z])
    }
    fn ticks(&self, s: [i32; 3]) -> u16 {
        s[2] as u16
    }
    fn fallback(&self, _: [i32; 3]) -> u8 {
        6
    }
    fn c(&self) -> u16 {
        2
    }
    fn recoverable(&self, s: [i32; 3], _: u16) -> bool {
        inside(self.cover(s), ([0, 0, 0], self.hall))
    }
    fn numbers(&self, s: [i32; 3]) -> [i32; 3] {
        s
    }
    fn made(&self, [x, y, z]: [i32; 3]) -> Option<[i32; 3]> {
        (x.abs() <= 1000 && y.abs() <= 1000 && (0..=1000).contains(&z)).then_some([x, y, z])
    }
}

struct Fence<M> {
    below: M,
    boxes: Vec<Box6>,
}

struct Battery<M> {
    below: M,
    reserve: u16,
}

macro_rules! passes_on {
    () => {
        const A: u8 = M::A;
        const G: u8 = M::G;
        fn after(&self, s: M::S, a: u8, w: u8) -> M::S {
            self.below.after(s, a, w)
        }
        fn draw(&self, s: M::S, a: u8) -> u16 {
            self.below.draw(s, a)
        }
        fn cover(&self, s: M::S) -> Box6 {
            self.below.cover(s)
        }
        fn ticks(&self, s: M::S) -> u16 {
            self.below.ticks(s)
        }
        fn fallback(&self, s: M::S) -> u8 {
            self.below.fallback(s)
        }
        fn c(&self) -> u16 {
            self.below.c()
        }
        fn numbers(&self, s: M::S) -> [i32; 3] {
            self.below.numbers(s)
        }
        fn made(&self, n: [i32; 3]) -> Option<M::S> {
            self.below.made(n)
        }
    };
}

impl<M: Machine> Machine for Fence<M> {
    type S = M::S;
    passes_on!();
    fn recoverable(&self, s: M::S, q: u16) -> bool {
        self.below.recoverable(s, q) && !self.boxes.iter().any(|b| touch(self.cover(s), *b))
    }
}

impl<M: Machine> Machine for Battery<M> {
    type S = M::S;
    passes_on!();
    fn recoverable(&self, s: M::S, q: u16) -> bool {
        self.below.recoverable(s, q) && q as u32 >= self.reserve as u32 + self.c() as u32 * self.ticks(s) as u32
    }
}

fn admissible<M: Machine>(m: &M, s: M::S, q: u16, a: u8) -> bool {
    let low = q.saturating_sub(m.draw(s, a));
    a < M::A && (0..M::G).all(|w| m.recoverable(m.after(s, a, w), low))
}

fn calm<M: Machine>(m: &M, s: M::S, q: u16) -> bool {
    (0..M::A).all(|a| admissible(m, s, q, a))
}

#[derive(Clone, Copy)]
enum Phase<S> {
    Parked,
    Ready(S, u16),
    Moving(S, u16, u8),
    Closed,
}

// An executive whose grants are spent at once.
struct Executive<M: Machine> {
    m: M,
    phase: Phase<M::S>,
    tick: u32,
    planner: bool,
    given: u32,
    gains: u32,
    losses: u32,
}

impl<M: Machine> Executive<M> {
    fn new(m: M) -> Self {
        Executive {
            m,
            phase: Phase::Parked,
            tick: 0,
            planner: false,
            given: 0,
            gains: 0,
            losses: 0,
        }
    }

    fn begin(&mut self, s: M::S, q: u16) -> Result<(), u8> {
        match self.phase {
            Phase::Parked if self.m.recoverable(s, q) => {
                self.phase = Phase::Ready(s, q);
                Ok(())
            }
            Phase::Parked => Err(7),
            _ => Err(6),
        }
    }

    // The tick, the reason, the granted action and the reading of the decision.
    fn act(&mut self, b: u8) -> Result<(u32, u8, u8, M::S, u16), u8> {
        let Phase::Ready(s, q) = self.phase else { return Err(6) };
        if self.tick >= 1_000_000 {
            return Err(11);
        }
        let (a, why) = if self.planner {
            if b >= M::A {
                (self.m.fallback(s), 1)
            } else if !admissible(&self.m, s, q, b) {
                (self.m.fallback(s), 2)
            } else {
                (b, 0)
            }
        } else if b < M::A && calm(&self.m, s, q) {
            (b, 3)
        } else {
            (self.m.fallback(s), 0)
        };
        self.given += 1;
        match why {
            3 => (self.planner, self.gains) = (true, self.gains + 1),
            1 | 2 => (self.planner, self.losses) = (false, self.losses + 1),
            _ => {}
        }
        self.phase = Phase::Moving(s, q, a);
        Ok((self.tick, why, a, s, q))
    }

    fn observe(&mut self, t: M::S, p: u16) -> Result<(), u8> {
        let Phase::Moving(s, q, a) = self.phase else { return Err(6) };
        if !(0..M::G).any(|w| self.m.after(s, a, w) == t) {
            return Err(9);
        }
        if p > q || p < q.saturating_sub(self.m.draw(s, a)) {
            return Err(10);
        }
        self.phase = Phase::Ready(t, p);
        self.tick += 1;
        Ok(())
    }

    fn close(&mut self) -> Result<[u32; 5], u8> {
        match self.phase {
            Phase::Ready(..) | Phase::Moving(..) => {
                self.phase = Phase::Closed;
                Ok([self.tick, self.given, self.given, self.gains, self.losses])
            }
            _ => Err(6),
        }
    }
}

fn i32_at(b: &[u8], at: usize) -> i32 {
    i32::from_le_bytes([b[at], b[at + 1], b[at + 2], b[at + 3]])
}

fn reading<M: Machine>(m: &M, b: &[u8]) -> Option<(M::S, u16)> {
    let s = m.made([i32_at(b, 0), i32_at(b, 4), i32_at(b, 8)])?;
    Some((s, u16::from_le_bytes([b[12], b[13]])))
}

fn refusal(place: u32, number: u8) -> Vec<u8> {
    let mut r = vec![0x4D, 0x4C, 6];
    r.extend(place.to_le_bytes());
    r.push(number);
    r
}

// What a record of the tape comes to: the bytes that are logged, the number that ends the run or 0, and how many bytes it has.
fn deal<M: Machine>(e: &mut Executive<M>, place: u32, t: &[u8]) -> (Vec<u8>, u8, usize) {
    if t.len() < 3 {
        return (refusal(place, 12), 12, 0);
    }
    let (mark, size) = match t[2] {
        1 | 3 => (0x54, 14),
        2 => (0x54, 1),
        4 => (0x54, 0),
        5 => (0x4C, 19),
        6 => (0x4C, 5),
        7 => (0x4C, 20),
        _ => return (refusal(place, 14), 14, 0),
    };
    if t[0] != 0x4D || t[1] != mark {
        return (refusal(place, 13), 13, 0);
    }
    let b = &t[3..];
    if b.len() < size {
        return (refusal(place, 12), 12, 0);
    }
    let done = match t[2] {
        1 => reading(&e.m, b).ok_or(5).and_then(|(s, q)| e.begin(s, q)).map(|_| vec![]),
        3 => reading(&e.m, b).ok_or(5).and_then(|(s, q)| e.observe(s, q)).map(|_| vec![]),
        2 => e.act(b[0]).map(|(tick, why, _, s, q)| {
            let mut r = vec![];
            if why != 0 {
                r.extend([0x4D, 0x4C, 5]);
                r.extend(tick.to_le_bytes());
                r.push(why);
                for n in e.m.numbers(s) {
                    r.extend(n.to_le_bytes());
                }
                r.extend(q.to_le_bytes());
            }
            r
        }),
        4 => e.close().map(|n| {
            let mut r = vec![0x4D, 0x4C, 7];
            for x in n {
                r.extend(x.to_le_bytes());
            }
            r
        }),
        _ => return (refusal(place, 15), 15, 0),
    };
    match done {
        Ok(r) => (r, 0, 3 + size),
        Err(x) => (refusal(place, x), 0, 3 + size),
    }
}

fn run<M: Machine>(m: M, tape: &[u8], room: usize) -> (Vec<u8>, u8) {
    let mut e = Executive::new(m);
    let (mut log, mut at, mut place) = (Vec::with_capacity(room.min(1 << 24)), 0, 0u32);
    while at < tape.len() {
        let (entry, ending, size) = deal(&mut e, place, &tape[at..]);
        if room - log.len() < entry.len() {
            return (log, 16);
        }
        log.extend(entry);
        if ending != 0 {
            return (log, ending);
        }
        at += size;
        place = place.wrapping_add(1);
    }
    (log, 0)
}

// A planner that mostly steers to the middle, and now and then proposes any byte; gusts at random, from a fixed seed.
fn tape<M: Machine>(m: M, start: M::S, decisions: u32, steer: fn(M::S) -> u8) -> Vec<u8> {
    let mut seed = 0x9E37_79B9_7F4A_7C15u64;
    let mut next = |n: u64| {
        seed ^= seed << 13;
        seed ^= seed >> 7;
        seed ^= seed << 17;
        seed % n
    };
    let mut e = Executive::new(m);
    let mut t = vec![];
    let put = |t: &mut Vec<u8>, kind: u8, n: [i32; 3], q: u16| {
        t.extend([0x4D, 0x54, kind]);
        n.iter().for_each(|x| t.extend(x.to_le_bytes()));
        t.extend(q.to_le_bytes());
    };
    put(&mut t, 1, e.m.numbers(start), 65_535);
    e.begin(start, 65_535).expect("a recoverable start");
    for _ in 0..decisions {
        let Phase::Ready(at, _) = e.phase else { unreachable!() };
        let b = match next(16) {
            0 => 255,
            1 | 2 => next(M::A as u64) as u8,
            _ => steer(at),
        };
        t.extend([0x4D, 0x54, 2, b]);
        let (_, _, a, s, q) = e.act(b).expect("a decision");
        let low = q.saturating_sub(e.m.draw(s, a));
        let q = if next(64) == 0 { low.max(q.saturating_sub(1)) } else { q };
        let s = e.m.after(s, a, next(M::G as u64) as u8);
        put(&mut t, 3, e.m.numbers(s), q);
        e.observe(s, q).expect("a reading that can follow");
    }
    t.extend([0x4D, 0x54, 4]);
    t
}

// Towards a speed of 15 to the middle of the rail.
fn steer_cart((x, v): (i32, i32)) -> u8 {
    let wanted = if x < 500 { 15 } else { -15 };
    (3 + (wanted - v).clamp(-3, 3)) as u8
}

// Back to the middle of the hall, and up to a height of 8.
fn steer_drone([x, y, z]: [i32; 3]) -> u8 {
    match (x, y) {
        (..=25, _) => 1,
        (37.., _) => 2,
        (_, ..=25) => 3,
        (_, 37..) => 4,
        _ if z < 8 => 5,
        _ => 0,
    }
}

fn boxes() -> Vec<Box6> {
    (0..16).map(|i| ([4 * i, 0, 40], [4 * i, 63, 40 + i % 3])).collect()
}

fn guarded() -> Battery<Fence<Drone>> {
    Battery {
        below: Fence {
            below: Drone { hall: [63, 63, 63] },
            boxes: boxes(),
        },
        reserve: 100,
    }
}

// plain fence | plain tape cart|drone DECISIONS FILE | plain run cart|drone TAPE LOG
fn main() {
    let words: Vec<String> = env::args().skip(1).collect();
    let words: Vec<&str> = words.iter().map(String::as_str).collect();
    match words[..] {
        ["fence"] => {
            let all: Vec<String> = boxes()
                .iter()
                .map(|(l, h)| format!("{},{},{},{},{},{}", l[0], l[1], l[2], h[0], h[1], h[2]))
                .collect();
            println!("fence:{}", all.join("+"));
        }
        ["tape", machine, n, file] => {
            let n = n.parse().expect("a number");
            let bytes = if machine == "cart" {
                tape(Cart { length: 1000 }, (500, 0), n, steer_cart)
            } else {
                tape(guarded(), [31, 31, 0], n, steer_drone)
            };
            fs::write(file, bytes).expect("a file");
        }
        ["run", machine, file, log] => {
            let bytes = fs::read(file).expect("a tape");
            let room = (bytes.len() / 3 + 1) * 23;
            let (out, number) = if machine == "cart" {
                run(Cart { length: 1000 }, &bytes, room)
            } else {
                run(guarded(), &bytes, room)
            };
            println!("ended {number} written {}", out.len());
            fs::write(log, out).expect("a file");
        }
        _ => eprintln!("usage: plain fence | plain tape cart|drone N FILE | plain run cart|drone TAPE LOG"),
    }
}
