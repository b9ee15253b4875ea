//! The directory program written the usual way, over the store of plain.rs: one mutable store, no proofs. It makes the same store calls
//! in the same order and writes the same lines. The first argument, if there is one, is the length of a half.
#[allow(dead_code)]
mod plain;

use plain::{decimal, Store, Tested, ARGUMENTS};
use std::io::{self, BufWriter, Read, Write};

const MINE: u32 = 15;
const ROOT: u32 = 31;
const LAST: u32 = 99_999_999;
const MARK: u32 = LAST + 1;
const GROUP: u32 = 2;
const BEFORE: u32 = 3;
const PERSON: u32 = 4;
/// How many registers each call uses, and the bytes of its arguments, from open on.
const REGISTERS: [u32; 7] = [0, 2, 5, 3, 3, 3, 3];
const BYTES: [usize; 7] = [0, 4, 4, 4, 8, 8, 5];

/// What names the record at hand: the one before it, the group in its register, or the global.
#[derive(Clone, Copy, PartialEq)]
enum Via {
    Next,
    First,
    Top,
}

struct Place {
    found: bool,
    at: u32,
    via: Via,
    left: usize,
}

fn test(ok: bool, number: u32) -> Tested<()> {
    if ok { Ok(()) } else { Err(number) }
}

struct Directory {
    store: Store,
    half: usize,
    members: Vec<u32>,
}

impl Directory {
    fn new(length: usize) -> Self {
        Directory { store: Store::new(length), half: length, members: Vec::new() }
    }

    // ---- store calls

    fn load(&mut self, to: u32, k: u32, i: u32) -> Tested<u32> {
        self.store.call(5, &[MINE, to, k, i])
    }

    fn store_link(&mut self, k: u32, i: u32, from: u32) -> Tested<u32> {
        self.store.call(6, &[MINE, k, i, from])
    }

    fn moved(&mut self, to: u32, from: u32) -> Tested<u32> {
        self.store.call(9, &[MINE, to, from])
    }

    fn get(&mut self, to: u32) -> Tested<u32> {
        self.store.call(12, &[MINE, to, ROOT])
    }

    fn put(&mut self, from: u32) -> Tested<u32> {
        self.store.call(13, &[MINE, ROOT, from])
    }

    fn fresh(&mut self, k: u32, links: u32, word: u32) -> Tested<u32> {
        self.store.call(4, &[MINE, k, links, 1])?;
        self.store.call(8, &[MINE, k, 0, word])
    }

    /// The word of the record in a register, or None at the end of a chain.
    fn word(&mut self, at: u32) -> Tested<Option<u32>> {
        match self.store.call(7, &[MINE, at, 0]) {
            Ok(word) => Ok(Some(word)),
            Err(11) => Ok(None),
            Err(number) => Err(number),
        }
    }

    // ---- walks

    /// The first record whose word is the key, or one below `least`, or the end.
    fn seek(&mut self, from: Place, key: u32, least: u32) -> Tested<Place> {
        let Place { mut left, mut at, mut via, .. } = from;
        while let Some(word) = self.word(at)? {
            test(left > 0, 26)?;
            if word == key || word < least {
                return Ok(Place { found: word == key, at, via, left });
            }
            self.load(1 - at, at, 0)?;
            left -= 1;
            at = 1 - at;
            via = Via::Next;
        }
        Ok(Place { found: false, at, via, left })
    }

    fn entries(&mut self, key: u32, least: u32) -> Tested<Place> {
        self.get(0)?;
        self.seek(Place { found: false, at: 0, via: Via::Top, left: self.half }, key, least)
    }

    fn member(&mut self, person: u32) -> Tested<Place> {
        self.load(0, GROUP, 1)?;
        self.seek(Place { found: false, at: 0, via: Via::First, left: self.half }, person, 0)
    }

    fn link(&mut self, place: &Place, from: u32) -> Tested<u32> {
        match place.via {
            Via::Next => self.store_link(1 - place.at, 0, from),
            Via::First => self.store_link(GROUP, 1, from),
            Via::Top => self.put(from),
        }
    }

    fn append(&mut self, place: &Place, number: u32) -> Tested<u32> {
        self.fresh(place.at, 1, number)?;
        self.link(place, place.at)
    }

    fn cut(&mut self, place: &Place) -> Tested<u32> {
        self.load(place.at, place.at, 0)?;
        self.link(place, place.at)
    }

    // ---- the calls

    fn add(&mut self, person: u32) -> Tested<u32> {
        test(person <= LAST, 23)?;
        let place = self.entries(person, 0)?;
        test(!place.found, 24)?;
        self.append(&place, person)
    }

    fn make(&mut self, group: u32) -> Tested<u32> {
        test(group <= LAST, 23)?;
        let place = self.entries(MARK + group, MARK)?;
        test(!place.found, 24)?;
        self.fresh(GROUP, 2, MARK + group)?;
        self.store_link(GROUP, 0, place.at)?;
        self.link(&place, GROUP)
    }

    /// The group in its register, and where the walk found it.
    fn group(&mut self, group: u32) -> Tested<Place> {
        test(group <= LAST, 23)?;
        let place = self.entries(MARK + group, MARK)?;
        test(place.found, 23)?;
        self.moved(GROUP, place.at)?;
        Ok(place)
    }

    /// Where the person stands among the members of the group.
    fn pair(&mut self, person: u32, group: u32) -> Tested<Place> {
        test(person <= LAST && group <= LAST, 23)?;
        let place = self.group(group)?;
        let known = self.seek(place, person, 0)?;
        test(known.found, 23)?;
        self.member(person)
    }

    fn join(&mut self, person: u32, group: u32) -> Tested<u32> {
        let place = self.pair(person, group)?;
        test(!place.found, 24)?;
        self.append(&place, person)
    }

    fn leave(&mut self, person: u32, group: u32) -> Tested<u32> {
        let place = self.pair(person, group)?;
        test(place.found, 25)?;
        self.cut(&place)
    }

    fn remove(&mut self, person: u32) -> Tested<u32> {
        test(person <= LAST, 23)?;
        let place = self.entries(person, 0)?;
        test(place.found, 23)?;
        if place.via == Via::Next {
            self.moved(BEFORE, 1 - place.at)?;
        }
        self.moved(PERSON, place.at)?;
        self.get(GROUP)?;
        self.leave_all(person)?;
        self.load(PERSON, PERSON, 0)?;
        if place.via == Via::Next { self.store_link(BEFORE, 0, PERSON) } else { self.put(PERSON) }
    }

    fn leave_all(&mut self, person: u32) -> Tested<()> {
        let mut left = self.half;
        while let Some(word) = self.word(GROUP)? {
            test(left > 0, 26)?;
            if word < MARK {
                break;
            }
            let place = self.member(person)?;
            if place.found {
                self.cut(&place)?;
            }
            self.load(GROUP, GROUP, 0)?;
            left -= 1;
        }
        Ok(())
    }

    /// How many members there are; the first of them, as many as are lent, stand in `members` afterwards.
    fn list(&mut self, group: u32, lent: usize) -> Tested<u32> {
        self.group(group)?;
        self.load(0, GROUP, 1)?;
        let mut count = 0;
        while self.word(0)?.is_some() {
            test(count < self.half, 26)?;
            self.load(0, 0, 0)?;
            count += 1;
        }
        let written = count.min(lent);
        if written > 0 {
            self.load(0, GROUP, 1)?;
        }
        for _ in 0..written {
            let word = self.store.call(7, &[MINE, 0, 0])?;
            self.members.push(word);
            self.load(0, 0, 0)?;
        }
        Ok(count as u32)
    }

    fn call(&mut self, kind: u8, bytes: &[u8]) -> Tested<u32> {
        let number = |at: usize| u32::from_be_bytes([bytes[at], bytes[at + 1], bytes[at + 2], bytes[at + 3]]);
        self.members.clear();
        if kind == 16 {
            return self.store.call(1, &[MINE]);
        }
        self.store.call(3, &[MINE])?;
        let done = match kind {
            17 => self.add(number(0)),
            18 => self.remove(number(0)),
            19 => self.make(number(0)),
            20 => self.join(number(0), number(4)),
            21 => self.leave(number(0), number(4)),
            _ => self.list(number(0), bytes[4] as usize),
        };
        for register in 0..REGISTERS[(kind - 16) as usize] {
            let _ = self.store.call(10, &[MINE, register]);
        }
        done.map(|value| if kind == 22 { value } else { 0 })
    }
}

/// Does one entry with these argument bytes.
fn entry(directory: &mut Directory, kind: u8, bytes: &[u8]) -> Tested<u32> {
    if kind >= 16 {
        return directory.call(kind, bytes);
    }
    directory.members.clear();
    let mut args = [0u32; 7];
    for (arg, &byte) in args.iter_mut().zip(bytes) {
        *arg = byte as u32;
    }
    if kind == 8 {
        args[3] = u32::from_be_bytes([bytes[3], bytes[4], bytes[5], bytes[6]]);
    }
    directory.store.call(kind, &args)
}

fn has_length(kind: u8, length: usize) -> bool {
    match kind {
        1..=14 => length == ARGUMENTS[kind as usize],
        16..=22 => length == BYTES[(kind - 16) as usize],
        _ => false,
    }
}

fn main() -> io::Result<()> {
    let length = std::env::args().nth(1).map_or(4096, |a| a.parse().expect("a length"));
    let mut input = Vec::new();
    io::stdin().lock().read_to_end(&mut input)?;
    let mut out = BufWriter::with_capacity(65536, io::stdout().lock());
    if input.first() != Some(&2) {
        return writeln!(out, "0 15 0");
    }
    let mut directory = Directory::new(length);
    let (mut at, mut n) = (1, 1u64);
    while at < input.len() {
        let size = input[at] as usize;
        let body = input.get(at + 1..at + 1 + size).and_then(|b| b.split_first());
        let (kind, bytes) = match body.filter(|(k, b)| has_length(**k, b.len())) {
            Some(entry) => entry,
            None => return writeln!(out, "{n} 15 0"),
        };
        let (refusal, value) = match entry(&mut directory, *kind, bytes) {
            Ok(value) => (0, value),
            Err(number) => {
                directory.members.clear();
                (number, 0)
            }
        };
        decimal(&mut out, n, b' ')?;
        decimal(&mut out, refusal.into(), b' ')?;
        decimal(&mut out, value.into(), if directory.members.is_empty() { b'\n' } else { b' ' })?;
        for (i, &member) in directory.members.iter().enumerate() {
            decimal(&mut out, member.into(), if i + 1 == directory.members.len() { b'\n' } else { b' ' })?;
        }
        at += 1 + size;
        n += 1;
    }
    out.flush()
}
