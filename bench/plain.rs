//! The script program written the usual way: one mutable store, no proofs. It is what the proved program is measured against, so it
//! makes the same tests in the same order and writes the same lines. It reads the whole script at once and writes 65,536 bytes at a
//! time, where the proved program reads and writes 4,096. plain_directory.rs has the directory over this store. The first argument, if there is one, is the length of a half.
use std::convert::TryInto;
use std::io::{self, Read, Write};

const LEVELS: [u32; 13] = [0, 1, 2, 2, 2, 3, 4, 4, 5, 6, 6, 6, 0];
const HEADER: usize = 4;
const BIRTH_AT: usize = 3;
const MOST_BIRTHS: u32 = 4_294_967_295;
const SCRIPT_SHARE: u32 = 4_294_967_295;
const WHITE: u32 = 0;
const GREY: u32 = 1;
const BLACK: u32 = 2;

pub type Tested<T> = Result<T, u32>;

#[derive(Clone, Copy, Default)]
struct Session {
    registers: [u32; 8],
    share: u32,
    charge: u32,
    attached: bool,
    scanned: bool,
}

pub struct Store {
    half: [Vec<u32>; 2],
    list: Vec<u32>,
    frontier: [usize; 2],
    current: usize,
    phase: usize,
    place: usize,
    field: usize,
    head: usize,
    tail: usize,
    births: u32,
    globals: [u32; 32],
    levels: [u8; 16],
    sessions: [Session; 16],
}

fn test(ok: bool, number: u32) -> Tested<()> {
    if ok { Ok(()) } else { Err(number) }
}

impl Store {
    pub fn new(length: usize) -> Self {
        Store {
            half: [vec![0; length], vec![0; length]],
            // as long as the script program's for its halves; a quarter would do
            list: vec![0; length / 3],
            frontier: [0; 2],
            current: 0,
            phase: 0,
            place: 0,
            field: 0,
            head: 0,
            tail: 0,
            births: 0,
            globals: [0; 32],
            levels: [0; 16],
            sessions: [Session::default(); 16],
        }
    }

    // ---- memory

    fn at(&self, v: u32, j: usize) -> u32 {
        self.half[(v % 2) as usize][((v - 2) / 2) as usize + j]
    }

    fn put(&mut self, v: u32, j: usize, x: u32) {
        self.half[(v % 2) as usize][((v - 2) / 2) as usize + j] = x;
    }

    /// The record's words, header first, where v is sound by document 01's test.
    #[inline(always)]
    fn sound(&self, v: u32) -> Tested<&[u32]> {
        let h = (v % 2) as usize;
        let at = (v as usize / 2).wrapping_sub(1); // of 0 and 1: past every frontier
        let words = self.half[h][..self.frontier[h]].get(at..).ok_or(12u32)?;
        let &[shape, colour, _, _, ..] = words else { return Err(12) };
        let n = HEADER + (shape / 256 + shape % 256) as usize;
        test(shape <= 65535 && colour <= 2 && n <= words.len(), 12)?;
        Ok(words)
    }

    // sound, and a replica points back: it can then be followed too and has the same fields, so nobody follows it again
    fn follow(&self, v: u32) -> Tested<(usize, usize)> {
        let words = self.sound(v)?;
        let (shape, w) = (words[0], words[2]);
        if w != 0 {
            test(w % 2 != v % 2, 12)?;
            let copy = self.sound(w)?;
            test(copy[0] == shape && copy[2] == v, 12)?;
        }
        Ok(((shape / 256) as usize, (shape % 256) as usize))
    }

    fn from(&self) -> usize {
        if self.phase == 12 { 1 - self.current } else { self.current }
    }

    fn is_in(&self, half: usize, v: u32) -> bool {
        v >= 2 && (v % 2) as usize == half
    }

    fn copy_of(&self, v: u32) -> Tested<u32> {
        self.follow(v)?;
        let t = self.at(v, 2);
        Ok(if t == 0 { v } else { t })
    }

    fn forward(&self, v: u32) -> Tested<u32> {
        if v == 0 || self.is_in(1 - self.from(), v) { Ok(v) } else { self.copy_of(v) }
    }

    fn append(&mut self, h: usize, shape: u32, colour: u32, replica: u32, birth: u32) {
        let at = self.frontier[h];
        let end = at + HEADER + (shape / 256 + shape % 256) as usize;
        self.half[h][at..end].fill(0);
        self.half[h][at] = shape;
        self.half[h][at + 1] = colour;
        self.half[h][at + 2] = replica;
        self.half[h][at + BIRTH_AT] = birth;
        self.frontier[h] = end;
    }

    fn next_reference(&self, h: usize) -> u32 {
        (2 * self.frontier[h] + 2 + h) as u32
    }

    // ---- shading

    fn to_shade(&self, v: u32) -> Tested<u32> {
        if v == 0 {
            return Ok(0);
        }
        self.follow(v)?;
        Ok(if self.at(v, 1) == WHITE { v } else { 0 })
    }

    fn shading(&self, v: u32) -> Tested<u32> {
        let w = self.to_shade(v)?;
        test(w == 0 || self.tail < self.list.len(), 12)?;
        Ok(w)
    }

    fn unmark(&mut self) {
        for session in &mut self.sessions {
            session.scanned = false;
        }
    }

    fn shade(&mut self, v: u32) {
        if v != 0 {
            self.put(v, 1, GREY);
            self.list[self.tail] = v;
            self.tail += 1;
        }
    }

    // what a store or a put of q over old shades: at most two records, each once
    fn barrier(&self, level: u32, old: u32, q: u32) -> Tested<(u32, u32)> {
        if !(1..=3).contains(&level) {
            return Ok((0, 0));
        }
        let first = if level >= 2 { self.to_shade(old)? } else { 0 };
        let mut second = self.to_shade(q)?;
        if second == first {
            second = 0;
        }
        let count = (first != 0) as usize + (second != 0) as usize;
        test(self.tail + count <= self.list.len(), 12)?;
        Ok((first, second))
    }

    // ---- session calls

    /// Test 4: every number in its range.
    fn in_range(&self) -> Tested<()> {
        let n = self.half[0].len();
        let roots = self.phase == 3 || self.phase == 10;
        test(
            (16..=1_048_576).contains(&n)
                && n == self.half[1].len()
                && n / HEADER <= self.list.len()
                && self.current <= 1
                && self.frontier.iter().all(|&f| f <= n)
                && self.phase <= 12
                && self.place <= (if roots { 32 } else { n })
                && self.field <= 510
                && self.head <= self.tail
                && self.tail <= self.list.len()
                && self.levels.iter().fold(0, |m, &l| m.max(l)) <= 6,
            4,
        )
    }

    fn session(&self, s: u32) -> Tested<usize> {
        self.in_range()?;
        test(s <= 15, 5)?;
        test(self.sessions[s as usize].attached, 6)?;
        Ok(s as usize)
    }

    fn record(&self, s: usize, k: u32) -> Tested<(u32, usize, usize)> {
        let v = self.sessions[s].registers[k as usize];
        test(v != 0, 11)?;
        let (r, p) = self.follow(v)?;
        Ok((v, r, p))
    }

    pub fn call(&mut self, kind: u8, a: &[u32]) -> Tested<u32> {
        match kind {
            1 => {
                self.in_range()?;
                test(a[0] <= 15, 5)?;
                test(!self.sessions[a[0] as usize].attached, 7)?;
                let s = a[0] as usize;
                self.levels[s] = LEVELS[self.phase] as u8;
                self.sessions[s] = Session {
                    registers: [0; 8],
                    share: SCRIPT_SHARE,
                    attached: true,
                    scanned: self.phase == 4,
                    ..self.sessions[s]
                };
            }
            2 => {
                let s = self.session(a[0])?;
                self.levels[s] = 0;
                self.sessions[s] = Session { registers: [0; 8], attached: false, ..self.sessions[s] };
            }
            3 => {
                let s = self.session(a[0])?;
                self.levels[s] = LEVELS[self.phase] as u8;
            }
            4 => self.allocate(a)?,
            5 => {
                let s = self.session(a[0])?;
                test(a[1] <= 7 && a[2] <= 7, 8)?;
                let (v, r, _) = self.record(s, a[2])?;
                test((a[3] as usize) < r, 13)?;
                self.sessions[s].registers[a[1] as usize] = self.at(v, HEADER + a[3] as usize);
            }
            6 => self.store(a)?,
            7 => {
                let s = self.session(a[0])?;
                test(a[1] <= 7, 8)?;
                let (v, r, p) = self.record(s, a[1])?;
                test((a[2] as usize) < p, 13)?;
                return Ok(self.at(v, HEADER + r + a[2] as usize));
            }
            8 => self.write(a)?,
            9 => {
                let s = self.session(a[0])?;
                test(a[1] <= 7 && a[2] <= 7, 8)?;
                self.sessions[s].registers[a[1] as usize] = self.sessions[s].registers[a[2] as usize];
            }
            10 => {
                let s = self.session(a[0])?;
                test(a[1] <= 7, 8)?;
                self.sessions[s].registers[a[1] as usize] = 0;
            }
            11 => {
                let s = self.session(a[0])?;
                test(a[1] <= 7 && a[2] <= 7, 8)?;
                let registers = &self.sessions[s].registers;
                return self.same(self.levels[s] as u32, registers[a[1] as usize], registers[a[2] as usize]);
            }
            12 => {
                let s = self.session(a[0])?;
                test(a[1] <= 7, 8)?;
                test(a[2] <= 31, 9)?;
                self.sessions[s].registers[a[1] as usize] = self.globals[a[2] as usize];
            }
            13 => {
                let s = self.session(a[0])?;
                test(a[2] <= 7, 8)?;
                test(a[1] <= 31, 9)?;
                let (level, q) = (self.levels[s] as u32, self.sessions[s].registers[a[2] as usize]);
                let (first, second) = self.barrier(level, self.globals[a[1] as usize], q)?;
                let own = self.own_word(level, 0, q)?;
                self.shade(first);
                self.shade(second);
                self.globals[a[1] as usize] = own;
            }
            _ => {
                self.in_range()?;
                self.step()?;
                return Ok(self.phase as u32);
            }
        }
        Ok(0)
    }

    fn allocate(&mut self, a: &[u32]) -> Tested<()> {
        let s = self.session(a[0])?;
        test(a[1] <= 7, 8)?;
        test(a[2] <= 255 && a[3] <= 255, 10)?;
        let (level, size) = (self.levels[s] as u32, HEADER + (a[2] + a[3]) as usize);
        let charge = self.sessions[s].charge as usize + size;
        test(charge <= self.sessions[s].share as usize, 17)?;
        let room = |h: usize| self.frontier[h] + size <= self.half[h].len();
        test(if level <= 2 { room(self.current) } else { room(0) && room(1) }, 14)?;
        test(self.births < MOST_BIRTHS, 16)?;
        self.births += 1;
        self.sessions[s].charge = charge as u32;
        let shape = 256 * a[2] + a[3];
        let refs = [self.next_reference(0), self.next_reference(1)];
        let from = self.from();
        if level <= 2 {
            self.append(self.current, shape, if level == 2 { BLACK } else { WHITE }, 0, self.births);
            self.sessions[s].registers[a[1] as usize] = refs[self.current];
        } else {
            self.append(from, shape, BLACK, refs[1 - from], self.births);
            self.append(1 - from, shape, WHITE, refs[from], self.births);
            self.sessions[s].registers[a[1] as usize] = if level <= 5 { refs[from] } else { refs[1 - from] };
        }
        Ok(())
    }

    fn own_word(&self, level: u32, v: u32, q: u32) -> Tested<u32> {
        if level == 6 {
            self.forward(q)
        } else if level == 5 && self.is_in(1 - self.from(), v) && self.is_in(self.from(), q) {
            self.copy_of(q)
        } else {
            Ok(q)
        }
    }

    fn store(&mut self, a: &[u32]) -> Tested<()> {
        let s = self.session(a[0])?;
        test(a[1] <= 7 && a[3] <= 7, 8)?;
        let (v, r, _) = self.record(s, a[1])?;
        let i = a[2] as usize;
        test(i < r, 13)?;
        let (level, q) = (self.levels[s] as u32, self.sessions[s].registers[a[3] as usize]);
        let (first, second) = self.barrier(level, self.at(v, HEADER + i), q)?;
        let t = if level >= 4 { self.at(v, 2) } else { 0 };
        let own = self.own_word(level, v, q)?;
        let copy = if t == 0 {
            0
        } else if level == 5 {
            if self.is_in((v % 2) as usize, q) { self.copy_of(q)? } else { q }
        } else if level == 6 {
            own
        } else {
            self.forward(q)?
        };
        self.shade(first);
        self.shade(second);
        self.put(v, HEADER + i, own);
        if t != 0 {
            self.put(t, HEADER + i, copy);
        }
        Ok(())
    }

    fn write(&mut self, a: &[u32]) -> Tested<()> {
        let s = self.session(a[0])?;
        test(a[1] <= 7, 8)?;
        let (v, r, p) = self.record(s, a[1])?;
        let i = a[2] as usize;
        test(i < p, 13)?;
        let t = if self.levels[s] >= 4 { self.at(v, 2) } else { 0 };
        self.put(v, HEADER + r + i, a[3]);
        if t != 0 {
            self.put(t, HEADER + r + i, a[3]);
        }
        Ok(())
    }

    fn same(&self, level: u32, p: u32, q: u32) -> Tested<u32> {
        if level <= 4 || p == q {
            return Ok((p == q) as u32);
        }
        for (x, y) in [(p, q), (q, p)] {
            if self.is_in(self.from(), x) {
                self.follow(x)?;
                return Ok((self.at(x, 2) == y) as u32);
            }
        }
        Ok(0)
    }

    // ---- the collector step

    fn have_level(&self) -> bool {
        self.sessions.iter().zip(&self.levels).all(|(s, &l)| !s.attached || l as u32 == LEVELS[self.phase])
    }

    fn move_on(&mut self) {
        self.phase = (self.phase + 1) % 13;
        self.place = 0;
        self.field = 0;
        self.unmark();
    }

    fn handshake(&mut self) {
        if self.have_level() {
            self.move_on();
        }
    }

    fn unmarked(&self) -> Option<usize> {
        (0..16).find(|&n| self.sessions[n].attached && !self.sessions[n].scanned)
    }

    fn walked(&self) -> Tested<(u32, usize, usize)> {
        let v = (2 * self.place + 2 + self.current) as u32;
        let (r, p) = self.follow(v)?;
        Ok((v, r, p))
    }

    fn past(&mut self, r: usize, p: usize) {
        self.place += HEADER + r + p;
        self.field = 0;
    }

    fn step(&mut self) -> Tested<()> {
        match self.phase {
            0 => {
                self.head = 0;
                self.tail = 0;
                self.move_on();
            }
            3 if self.place < 32 => {
                let w = self.shading(self.globals[self.place])?;
                self.shade(w);
                self.place += 1;
            }
            4 if self.head < self.tail => {
                let v = self.list[self.head];
                let (r, _) = self.follow(v)?;
                if self.field < r {
                    let w = self.shading(self.at(v, HEADER + self.field))?;
                    self.shade(w);
                    self.field += 1;
                } else {
                    self.put(v, 1, BLACK);
                    self.head += 1;
                    self.field = 0;
                }
            }
            4 => match self.unmarked() {
                None => self.move_on(),
                Some(n) => self.scan(n)?,
            },
            5 if self.place < self.frontier[self.current] => {
                let (v, r, p) = self.walked()?;
                if self.at(v, 1) != WHITE && self.at(v, 2) == 0 {
                    let other = 1 - self.current;
                    test(self.frontier[other] + HEADER + r + p <= self.half[other].len(), 12)?;
                    let shell = self.next_reference(other);
                    self.append(other, self.at(v, 0), WHITE, v, self.at(v, BIRTH_AT));
                    self.put(v, 2, shell);
                }
                self.past(r, p);
            }
            7 if self.place < self.frontier[self.current] => self.copy()?,
            10 if self.place < 32 => {
                self.globals[self.place] = self.forward(self.globals[self.place])?;
                self.place += 1;
            }
            11 => match self.unmarked() {
                None => {
                    let to = 1 - self.from();
                    self.move_on();
                    self.current = to;
                }
                Some(n) => {
                    let mut registers = self.sessions[n].registers;
                    for v in &mut registers {
                        *v = self.forward(*v)?;
                    }
                    self.sessions[n].registers = registers;
                    self.sessions[n].scanned = true;
                }
            },
            12 if !self.have_level() => {}
            12 if self.place < self.frontier[self.current] => {
                let (v, r, p) = self.walked()?;
                self.put(v, 2, 0);
                self.past(r, p);
            }
            12 => {
                self.frontier[1 - self.current] = 0;
                self.move_on();
                self.sessions.iter_mut().for_each(|s| s.charge = 0);
            }
            3 | 7 | 10 => self.move_on(),
            _ => self.handshake(),
        }
        Ok(())
    }

    fn scan(&mut self, n: usize) -> Tested<()> {
        let mut whites = [0; 8];
        let mut count = 0;
        for v in self.sessions[n].registers {
            let w = self.to_shade(v)?;
            if w != 0 && !whites[..count].contains(&w) {
                whites[count] = w;
                count += 1;
            }
        }
        test(self.tail + count <= self.list.len(), 12)?;
        self.sessions[n].scanned = true;
        for &w in &whites[..count] {
            self.shade(w);
        }
        Ok(())
    }

    fn copy(&mut self) -> Tested<()> {
        let (v, r, p) = self.walked()?;
        let t = self.at(v, 2);
        if t == 0 || self.field >= r + p {
            self.past(r, p);
            return Ok(());
        }
        let x = self.at(v, HEADER + self.field);
        let q = if self.field < r { self.forward(x)? } else { x };
        self.put(t, HEADER + self.field, q);
        self.field += 1;
        Ok(())
    }
}

pub const ARGUMENTS: [usize; 15] = [0, 1, 1, 1, 4, 4, 4, 3, 7, 3, 2, 3, 3, 3, 0];

/// The bytes of the longest line: a number of 64 bits, two of 32 bits, two spaces and the line's end.
const LINE: usize = 43;

/// Writes n in decimal so that it ends just before `end`, and answers where it starts. By hand, two digits at a time, as the proved
/// program has it: the standard library's formatter takes over 400 instructions more for a line, more than all the rest of an entry.
#[inline(always)]
fn digits(line: &mut [u8; LINE], end: usize, mut n: u64) -> usize {
    let mut at = end;
    while n >= 100 {
        let pair = 2 * (n % 100) as usize;
        n /= 100;
        at -= 2;
        line[at..at + 2].copy_from_slice(&PAIRS[pair..pair + 2]);
    }
    if n >= 10 {
        at -= 2;
        let pair = 2 * n as usize;
        line[at..at + 2].copy_from_slice(&PAIRS[pair..pair + 2]);
        return at;
    }
    at -= 1;
    line[at] = b'0' + n as u8;
    at
}
const PAIRS: [u8; 200] = {
    let mut t = [0u8; 200];
    let mut i = 0;
    while i < 100 {
        t[2 * i] = b'0' + (i / 10) as u8;
        t[2 * i + 1] = b'0' + (i % 10) as u8;
        i += 1;
    }
    t
};

/// Writes a number and one byte after it, for the directory program.
pub fn decimal(out: &mut impl Write, n: u64, after: u8) -> io::Result<()> {
    let mut line = [after; LINE];
    let start = digits(&mut line, LINE - 1, n);
    out.write_all(&line[start..])
}

/// Appends the line of entry n: its number, the refusal number or 0, the value.
fn write_line(out: &mut Vec<u8>, n: u64, refusal: u32, value: u32) {
    let mut line = [b' '; LINE];
    line[LINE - 1] = b'\n';
    let value_at = digits(&mut line, LINE - 1, value.into());
    let refusal_at = digits(&mut line, value_at - 1, refusal.into());
    let start = digits(&mut line, refusal_at - 1, n);
    out.extend_from_slice(&line[start..]);
}

fn main() -> io::Result<()> {
    let length = std::env::args().nth(1).map_or(4096, |a| a.parse().expect("a length"));
    let mut input = Vec::new();
    io::stdin().lock().read_to_end(&mut input)?;
    let mut stdout = io::stdout().lock();
    let mut out = Vec::with_capacity(65536 + LINE);
    if input.first() != Some(&1) {
        return writeln!(stdout, "0 15 0");
    }
    let mut store = Store::new(length);
    let (mut at, mut n) = (1, 1u64);
    while at < input.len() {
        let size = input[at] as usize;
        let body = input.get(at + 1..at + 1 + size);
        let entry = body.and_then(|b| b.split_first()).filter(|(k, b)| {
            (1..=14).contains(*k) && b.len() == ARGUMENTS[**k as usize]
        });
        let (kind, bytes) = match entry {
            Some(entry) => entry,
            None => {
                write_line(&mut out, n, 15, 0);
                break;
            }
        };
        let mut args = [0u32; 4];
        match *bytes {
            [] => {}
            [a] => args[0] = a as u32,
            [a, b] => args = [a as u32, b as u32, 0, 0],
            [a, b, c] => args = [a as u32, b as u32, c as u32, 0],
            [a, b, c, d] => args = [a as u32, b as u32, c as u32, d as u32],
            [a, b, c, ref value @ ..] => args = [a as u32, b as u32, c as u32, value.try_into().map_or(0, u32::from_be_bytes)],
        }
        let (refusal, value) = match store.call(*kind, &args) {
            Ok(value) => (0, value),
            Err(number) => (number, 0),
        };
        write_line(&mut out, n, refusal, value);
        if out.len() >= 65536 {
            stdout.write_all(&out)?;
            out.clear();
        }
        at += 1 + size;
        n += 1;
    }
    stdout.write_all(&out)
}
