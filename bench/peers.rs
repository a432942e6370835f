// The same work as dory_bench's on the same inputs, in plain Rust over the packages sha2, hmac and rand_chacha.
//
//   peers check            prints a checksum for each piece of work, as `dory_bench check` does
//   peers time             prints a table, as `dory_bench time` does
//   peers limits           prints the machine's read and copy speed
//   peers ratios A B ..    prints the least of the tables in A and B, and their ratio
//   peers picture A FILE   writes a picture of where the time of a search goes, from the table in A

use hmac::{Hmac, Mac};
use rand_chacha::ChaCha20Rng;
use rand_chacha::rand_core::{RngCore, SeedableRng};
use sha2::Sha256;
use std::collections::BTreeMap;
use std::hint::black_box;
use std::time::Instant;

type HmacSha256 = Hmac<Sha256>;

const ROUNDS: u32 = 15;
const FEW: u32 = 3;
const MASTER: [u8; 32] = [7; 32];
const FOLDER: u32 = 1;

/// 64-bit FNV-1a over all bytes, or over the last byte of each part where time is taken.
struct Checksum {
    value: u64,
    whole: bool,
}

impl Checksum {
    fn byte(&mut self, byte: u8) {
        self.value = (self.value ^ u64::from(byte)).wrapping_mul(0x0100_0000_01b3);
    }

    fn bytes(&mut self, bytes: &[u8]) {
        if self.whole {
            bytes.iter().for_each(|b| self.byte(*b));
        } else if let Some(b) = bytes.last() {
            self.byte(*b);
        }
    }

    fn number(&mut self, n: u64) {
        self.bytes(&n.to_be_bytes());
    }

    fn words(&mut self, words: &[u64]) {
        if self.whole {
            words.iter().for_each(|w| self.number(*w));
        } else if let Some(w) = words.last() {
            self.number(*w);
        }
    }

    fn bit(&mut self, bit: bool) {
        self.byte(u8::from(bit));
    }

    fn node(&mut self, seed: &[u8; 16], bit: bool) {
        if self.whole {
            self.bytes(seed);
            self.bit(bit);
        } else {
            self.byte(seed[15] ^ u8::from(bit));
        }
    }

    fn tags(&mut self, tags: &[[u8; 16]]) {
        if self.whole {
            tags.iter().for_each(|t| self.bytes(t));
        } else if let Some(t) = tags.last() {
            self.bytes(t);
        }
    }

    fn mask(&mut self, mask: &[u8; 32]) {
        if self.whole {
            (0..256).for_each(|r| self.bit(mask[r / 8] >> (r % 8) & 1 == 1));
        } else {
            self.bit(mask[31] >> 7 == 1);
        }
    }
}

struct Run {
    full: bool,
    turns: u32,
    sum: Checksum,
    spent: u128,
}

impl Run {
    fn new(full: bool, turns: u32) -> Run {
        let sum = Checksum {
            value: 0xcbf2_9ce4_8422_2325,
            whole: !full,
        };
        Run {
            full,
            turns,
            sum,
            spent: 0,
        }
    }

    fn timed(&mut self, mut turn: impl FnMut(&mut Checksum, u32)) {
        let start = Instant::now();
        for t in 0..self.turns {
            turn(&mut self.sum, t);
        }
        self.spent += start.elapsed().as_nanos();
    }
}

// HMAC

fn keyed(key: &[u8]) -> HmacSha256 {
    HmacSha256::new_from_slice(key).unwrap()
}

fn tag_of(key: &HmacSha256, message: &[u8]) -> [u8; 32] {
    let mut mac = key.clone();
    mac.update(message);
    mac.finalize().into_bytes().into()
}

fn folder_key(label: &[u8]) -> HmacSha256 {
    key_of(label, FOLDER)
}

fn key_of(label: &[u8], folder: u32) -> HmacSha256 {
    let mut mac = keyed(&MASTER);
    mac.update(label);
    mac.update(&folder.to_be_bytes());
    keyed(&mac.finalize().into_bytes())
}

fn cell_message(doc: u32, serial: u64, column: u32, cell: bool) -> [u8; 21] {
    let mut m = [0; 21];
    m[..4].copy_from_slice(&doc.to_be_bytes());
    m[4..8].copy_from_slice(&3u32.to_be_bytes());
    m[8..16].copy_from_slice(&serial.to_be_bytes());
    m[16..20].copy_from_slice(&column.to_be_bytes());
    m[20] = u8::from(cell);
    m
}

fn cell_tag(key: &HmacSha256, doc: u32, serial: u64, column: u32, cell: bool) -> [u8; 16] {
    let digest = tag_of(key, &cell_message(doc, serial, column, cell));
    digest[..16].try_into().unwrap()
}

fn mask_block(key: &HmacSha256, doc: u32, serial: u64, block: u32) -> [u8; 32] {
    tag_of(key, &cell_message(doc, serial, block, false)[..20])
}

fn mask_bit(mask: &[u8; 32], column: usize) -> bool {
    mask[column % 256 / 8] >> (column % 8) & 1 == 1
}

fn whole(run: &mut Run) {
    run.timed(|sum, t| {
        let mut message = [0; 21];
        message[..4].copy_from_slice(&t.to_be_bytes());
        let mut mac = keyed(black_box(&MASTER));
        mac.update(&message);
        sum.bytes(&mac.finalize().into_bytes());
    });
}

fn tag(run: &mut Run) {
    let key = folder_key(b"dory tag");
    run.timed(|sum, t| sum.bytes(&cell_tag(&key, t, 5, 300, t % 2 == 1)));
}

fn tags(run: &mut Run) {
    let key = folder_key(b"dory tag");
    run.timed(|sum, _| {
        let mut tags = [[0; 16]; 64];
        for i in 0..64 {
            tags[i as usize] = cell_tag(&key, 7, 5, i, i % 3 == 0);
        }
        sum.tags(&tags);
    });
}

fn one_mask(run: &mut Run) {
    let key = folder_key(b"dory mask");
    run.timed(|sum, t| sum.mask(&mask_block(&key, t, 5, 1)));
}

fn masks(run: &mut Run) {
    let key = folder_key(b"dory mask");
    run.timed(|sum, _| (0..64).for_each(|i| sum.mask(&mask_block(&key, i, 5, i % 8))));
}

// Rows

fn positions(key: &HmacSha256, depth: u32, word: &[u8]) -> [usize; 8] {
    let digest = tag_of(key, word);
    std::array::from_fn(|p| {
        u32::from_be_bytes(digest[4 * p..4 * p + 4].try_into().unwrap()) as usize % (1 << depth)
    })
}

fn set_bit(words: &mut [u64], place: usize) {
    words[place / 64] |= 1 << (place % 64);
}

fn bit(words: &[u64], place: usize) -> bool {
    words[place / 64] >> (place % 64) & 1 == 1
}

fn row_of<'a>(depth: u32, words: impl Iterator<Item = &'a [u8]>) -> Vec<u64> {
    row_under(&folder_key(b"dory word"), depth, words)
}

fn row_under<'a>(key: &HmacSha256, depth: u32, words: impl Iterator<Item = &'a [u8]>) -> Vec<u64> {
    let mut row = vec![0; (1 << depth) / 64];
    for word in words {
        for p in positions(key, depth, word) {
            set_bit(&mut row, p);
        }
    }
    row
}

fn sealed(row: &[u64], serial: u64) -> (Vec<u64>, Vec<[u8; 16]>) {
    let (mask_key, tag_key) = (folder_key(b"dory mask"), folder_key(b"dory tag"));
    let mut cells = row.to_vec();
    let mut tags = Vec::with_capacity(64 * row.len());
    for block in 0..row.len() / 4 {
        let mask = mask_block(&mask_key, 7, serial, block as u32);
        for (w, bytes) in mask.chunks(8).enumerate() {
            cells[4 * block + w] ^= u64::from_le_bytes(bytes.try_into().unwrap());
        }
    }
    for column in 0..64 * row.len() {
        tags.push(cell_tag(&tag_key, 7, serial, column as u32, bit(&cells, column)));
    }
    (cells, tags)
}

fn seal(run: &mut Run, depth: u32) {
    let row = row_of(depth, [&b"alpha"[..]].into_iter());
    run.timed(|sum, t| {
        let (cells, tags) = sealed(&row, u64::from(t) + 1);
        sum.words(&cells);
        sum.tags(&tags);
    });
}

fn check(run: &mut Run, depth: u32) {
    let row = row_of(depth, [&b"alpha"[..]].into_iter());
    let (cells, tags) = sealed(&row, 5);
    run.timed(|sum, _| {
        let key = folder_key(b"dory tag");
        let right = |(j, tag): (usize, &[u8; 16])| *tag == cell_tag(&key, 7, 5, j as u32, bit(&cells, j));
        sum.bit(tags.iter().enumerate().all(right));
    });
}

// The tree of point functions, over a plain ChaCha20 block

fn quarter(x: &mut [u32; 16], a: usize, b: usize, c: usize, d: usize) {
    x[a] = x[a].wrapping_add(x[b]);
    x[d] = (x[d] ^ x[a]).rotate_left(16);
    x[c] = x[c].wrapping_add(x[d]);
    x[b] = (x[b] ^ x[c]).rotate_left(12);
    x[a] = x[a].wrapping_add(x[b]);
    x[d] = (x[d] ^ x[a]).rotate_left(8);
    x[c] = x[c].wrapping_add(x[d]);
    x[b] = (x[b] ^ x[c]).rotate_left(7);
}

fn seed_block(seed: &[u8; 16]) -> [u32; 16] {
    let mut state = [0; 16];
    state[..4].copy_from_slice(&[0x6170_7865, 0x3320_646e, 0x7962_2d32, 0x6b20_6574]);
    for i in 0..4 {
        state[4 + i] = u32::from_le_bytes(seed[4 * i..4 * i + 4].try_into().unwrap());
    }
    let mut x = state;
    for _ in 0..10 {
        quarter(&mut x, 0, 4, 8, 12);
        quarter(&mut x, 1, 5, 9, 13);
        quarter(&mut x, 2, 6, 10, 14);
        quarter(&mut x, 3, 7, 11, 15);
        quarter(&mut x, 0, 5, 10, 15);
        quarter(&mut x, 1, 6, 11, 12);
        quarter(&mut x, 2, 7, 8, 13);
        quarter(&mut x, 3, 4, 9, 14);
    }
    std::array::from_fn(|i| x[i].wrapping_add(state[i]))
}

type Node = ([u8; 16], bool);

fn bytes_of(words: &[u32]) -> [u8; 16] {
    let mut bytes = [0; 16];
    for (i, w) in words.iter().enumerate() {
        bytes[4 * i..4 * i + 4].copy_from_slice(&w.to_le_bytes());
    }
    bytes
}

fn double(seed: &[u8; 16]) -> (Node, Node) {
    let w = seed_block(seed);
    ((bytes_of(&w[..4]), w[8] & 1 == 1), (bytes_of(&w[4..8]), w[9] & 1 == 1))
}

fn double_by_generator(seed: &[u8; 16]) -> (Node, Node) {
    let mut key = [0; 32];
    key[..16].copy_from_slice(seed);
    let mut generator = ChaCha20Rng::from_seed(key);
    let w: [u32; 10] = std::array::from_fn(|_| generator.next_u32());
    ((bytes_of(&w[..4]), w[8] & 1 == 1), (bytes_of(&w[4..8]), w[9] & 1 == 1))
}

fn xor16(a: &[u8; 16], b: &[u8; 16]) -> [u8; 16] {
    std::array::from_fn(|i| a[i] ^ b[i])
}

fn seed(first: u8, number: u32) -> [u8; 16] {
    let mut seed = [0; 16];
    seed[0] = first;
    seed[1..5].copy_from_slice(&number.to_le_bytes());
    seed
}

fn doubled(run: &mut Run, double: fn(&[u8; 16]) -> (Node, Node)) {
    run.timed(|sum, t| {
        let (left, right) = double(&seed(0, t));
        sum.node(&left.0, left.1);
        sum.node(&right.0, right.1);
    });
}

#[derive(Clone, Copy, Default)]
struct Correction {
    seed: [u8; 16],
    left: bool,
    right: bool,
}

struct Key {
    root: Node,
    levels: usize,
    corrections: [Correction; 11],
    last: Option<[u8; 16]>,
}

fn pair(long: bool, depth: usize, number: u32) -> (Key, Key) {
    let place = number.wrapping_mul(77) as usize % (1 << depth);
    keys_of(long, depth, place, seed(1, number), seed(2, number))
}

fn keys_of(long: bool, depth: usize, place: usize, lead: [u8; 16], follow: [u8; 16]) -> (Key, Key) {
    let (levels, leaf) = if long { (depth, place) } else { (depth - 7, place / 128) };
    let roots = [(lead, false), (follow, true)];
    let mut nodes = roots;
    let mut corrections = [Correction::default(); 11];
    for level in 0..levels {
        let right = leaf >> (levels - 1 - level) & 1 == 1;
        let (a, b) = (double(&nodes[0].0), double(&nodes[1].0));
        let (lost_a, lost_b) = if right { (a.0, b.0) } else { (a.1, b.1) };
        let (kept_a, kept_b) = if right { (a.1, b.1) } else { (a.0, b.0) };
        let c = Correction {
            seed: xor16(&lost_a.0, &lost_b.0),
            left: a.0.1 ^ b.0.1 ^ right ^ true,
            right: a.1.1 ^ b.1.1 ^ right,
        };
        let bit = if right { c.right } else { c.left };
        let next = |node: &Node, kept: Node| match node.1 {
            true => (xor16(&kept.0, &c.seed), kept.1 ^ bit),
            false => kept,
        };
        nodes = [next(&nodes[0], kept_a), next(&nodes[1], kept_b)];
        corrections[level] = c;
    }
    let last = (!long).then(|| {
        let mut word = xor16(&nodes[0].0, &nodes[1].0);
        word[place % 128 / 8] ^= 1 << (place % 8);
        word
    });
    let key = |root| Key {
        root,
        levels,
        corrections,
        last,
    };
    (key(roots[0]), key(roots[1]))
}

fn keys(run: &mut Run, long: bool, depth: usize) {
    run.timed(|sum, t| {
        let (lead, follow) = pair(long, depth, t);
        for key in [&lead, &follow] {
            sum.bytes(&key.root.0);
            for c in &key.corrections[..key.levels] {
                sum.node(&c.seed, c.left);
                sum.bit(c.right);
            }
            if let Some(last) = &key.last {
                sum.bytes(last);
            }
        }
    });
}

fn below(node: &Node, corrections: &[Correction], last: Option<&[u8; 16]>, leaf: usize, into: &mut [u64]) {
    let Some((c, rest)) = corrections.split_first() else {
        match last {
            None => into[leaf / 64] |= u64::from(node.1) << (leaf % 64),
            Some(last) => {
                let end = if node.1 { xor16(&node.0, last) } else { node.0 };
                into[2 * leaf] = u64::from_le_bytes(end[..8].try_into().unwrap());
                into[2 * leaf + 1] = u64::from_le_bytes(end[8..].try_into().unwrap());
            }
        }
        return;
    };
    let (mut left, mut right) = double(&node.0);
    if node.1 {
        left = (xor16(&left.0, &c.seed), left.1 ^ c.left);
        right = (xor16(&right.0, &c.seed), right.1 ^ c.right);
    }
    below(&left, rest, last, 2 * leaf, into);
    below(&right, rest, last, 2 * leaf + 1, into);
}

fn expanded(key: &Key) -> [u64; 32] {
    let mut words = [0; 32];
    below(&key.root, &key.corrections[..key.levels], key.last.as_ref(), 0, &mut words);
    words
}

fn shares(run: &mut Run, long: bool, depth: usize) {
    let (key, _) = pair(long, depth, 5);
    run.timed(|sum, _| sum.words(&expanded(&key)));
}

// Words

fn text(full: bool) -> Vec<u8> {
    let letters = b"etaoinshrdlucmfwypvbgkETAS,.    ";
    let mut state = 1u32;
    let next = |_| {
        state = state.wrapping_mul(1_664_525).wrapping_add(1_013_904_223);
        letters[(state >> 27) as usize]
    };
    (0..if full { 1_048_576 } else { 1000 }).map(next).collect()
}

#[derive(Clone, Copy)]
struct Word {
    bytes: [u8; 64],
    len: u8,
}

fn words_of(text: &[u8]) -> Vec<Word> {
    let is_word = |b: &u8| b.is_ascii_alphanumeric() || *b >= 0x80;
    let mut words = Vec::new();
    for run in text.split(|b| !is_word(b)).filter(|run| !run.is_empty()) {
        let len = run.len().min(64);
        let mut bytes = [0; 64];
        bytes[..len].copy_from_slice(&run[..len]);
        bytes[..len].make_ascii_lowercase();
        words.push(Word { bytes, len: len as u8 });
    }
    words
}

fn words(run: &mut Run) {
    let text = text(run.full);
    run.timed(|sum, _| {
        let words = words_of(&text);
        sum.number(words.len() as u64);
        words.iter().for_each(|w| sum.bytes(&w.bytes[..w.len as usize]));
    });
}

fn row(run: &mut Run) {
    let words = words_of(&text(run.full));
    run.timed(|sum, _| sum.words(&row_of(11, words.iter().map(|w| &w.bytes[..w.len as usize]))));
}

// Messages

fn filling(count: usize) -> Vec<u8> {
    let mut state = 1u32;
    let next = |_| {
        state = state.wrapping_mul(1_664_525).wrapping_add(1_013_904_223);
        (state >> 24) as u8
    };
    (0..count).map(next).collect()
}

fn begun(kind: u8, step: u32) -> Vec<u8> {
    let mut frame = vec![0, 0, 0, 0, kind, 0, 0, 0, 0];
    frame.extend(2u64.to_be_bytes());
    frame.extend(step.to_be_bytes());
    frame
}

fn ended(mut frame: Vec<u8>) -> Vec<u8> {
    let len = frame.len() as u32 - 4;
    frame[..4].copy_from_slice(&len.to_be_bytes());
    frame
}

fn put_lines(frame: &mut Vec<u8>, count: u16) {
    frame.extend(u32::from(count).to_be_bytes());
    frame.extend(count.to_be_bytes());
    for line in 0..count {
        frame.extend(line.to_be_bytes());
        frame.extend((u32::from(line) + 1).to_be_bytes());
        frame.extend(3u32.to_be_bytes());
        frame.extend((u64::from(line) + 1).to_be_bytes());
    }
}

fn stage_frame(full: bool) -> Vec<u8> {
    let columns = if full { 2048 } else { 256 };
    let mut frame = begun(4, 0);
    frame.extend(FOLDER.to_be_bytes());
    frame.extend(3u32.to_be_bytes());
    frame.extend(5u64.to_be_bytes());
    frame.extend(7u32.to_be_bytes());
    frame.extend([1, if full { 11 } else { 8 }, 8]);
    frame.extend(filling(columns / 8));
    frame.extend(filling(16 * columns));
    ended(frame)
}

fn found_frame(full: bool) -> Vec<u8> {
    let lines = if full { 4096 } else { 96 };
    let mut frame = begun(0x82, 0);
    put_lines(&mut frame, lines);
    frame.push(8);
    for _ in 0..8 {
        frame.extend(filling(lines as usize / 8));
        frame.extend(filling(16));
    }
    ended(frame)
}

fn take<'a>(bytes: &mut &'a [u8], n: usize) -> Option<&'a [u8]> {
    let (front, rest) = bytes.split_at_checked(n)?;
    *bytes = rest;
    Some(front)
}

fn two(bytes: &mut &[u8]) -> Option<u16> {
    Some(u16::from_be_bytes(take(bytes, 2)?.try_into().ok()?))
}

fn four(bytes: &mut &[u8]) -> Option<u32> {
    Some(u32::from_be_bytes(take(bytes, 4)?.try_into().ok()?))
}

fn eight(bytes: &mut &[u8]) -> Option<u64> {
    Some(u64::from_be_bytes(take(bytes, 8)?.try_into().ok()?))
}

fn bits(bytes: &mut &[u8], count: usize) -> Option<Vec<u64>> {
    let mut words = vec![0; count.div_ceil(64)];
    for (i, byte) in take(bytes, count.div_ceil(8))?.iter().enumerate() {
        words[i / 8] |= u64::from(*byte) << (i % 8 * 8);
    }
    Some(words)
}

fn put_bits(frame: &mut Vec<u8>, words: &[u64], count: usize) {
    for i in 0..count.div_ceil(8) {
        frame.push((words[i / 8] >> (i % 8 * 8)) as u8);
    }
}

struct Stage {
    ask: (u32, u64, u32),
    folder: u32,
    id: (u32, u64),
    doc: u32,
    depth: u8,
    probes: u8,
    row: Vec<u64>,
    tags: Vec<[u8; 16]>,
}

fn read_stage(frame: &[u8]) -> Option<Stage> {
    let b = &mut &frame[4..];
    let kind = take(b, 1)?;
    let ask = (four(b)?, eight(b)?, four(b)?);
    let (folder, id, doc) = (four(b)?, (four(b)?, eight(b)?), four(b)?);
    let [change, depth, probes] = take(b, 3)?.try_into().ok()?;
    if kind != [4] || id.1 == 0 || change != 1 || !(8..=11).contains(&depth) || !(1..=8).contains(&probes) {
        return None;
    }
    let row = bits(b, 1 << depth)?;
    let tags = take(b, 16 << depth)?.chunks(16).map(|t| t.try_into().unwrap()).collect();
    b.is_empty().then_some(Stage {
        ask,
        folder,
        id,
        doc,
        depth,
        probes,
        row,
        tags,
    })
}

fn write_stage(s: &Stage) -> Vec<u8> {
    let mut f = vec![0, 0, 0, 0, 4];
    f.extend(s.ask.0.to_be_bytes());
    f.extend(s.ask.1.to_be_bytes());
    f.extend(s.ask.2.to_be_bytes());
    f.extend(s.folder.to_be_bytes());
    f.extend(s.id.0.to_be_bytes());
    f.extend(s.id.1.to_be_bytes());
    f.extend(s.doc.to_be_bytes());
    f.extend([1, s.depth, s.probes]);
    put_bits(&mut f, &s.row, 1 << s.depth);
    s.tags.iter().for_each(|t| f.extend(t));
    ended(f)
}

struct Place {
    slot: u16,
    doc: u32,
    member: u32,
    serial: u64,
}

struct Found {
    ask: (u32, u64, u32),
    version: u32,
    places: Vec<Place>,
    sums: Vec<(Vec<u64>, [u8; 16])>,
}

fn read_found(frame: &[u8]) -> Option<Found> {
    let b = &mut &frame[4..];
    let kind = take(b, 1)?;
    let ask = (four(b)?, eight(b)?, four(b)?);
    let (version, count) = (four(b)?, two(b)?);
    if kind != [0x82] || version > 1_048_576 || count > 4096 {
        return None;
    }
    let mut places = Vec::new();
    let mut least = 0;
    for _ in 0..count {
        let (slot, doc, member, serial) = (two(b)?, four(b)?, four(b)?, eight(b)?);
        if slot < least || slot > 4095 || serial == 0 {
            return None;
        }
        least = slot + 1;
        places.push(Place {
            slot,
            doc,
            member,
            serial,
        });
    }
    let probes = take(b, 1)?[0];
    if probes > 8 {
        return None;
    }
    let mut sums = Vec::new();
    for _ in 0..probes {
        sums.push((bits(b, count as usize)?, take(b, 16)?.try_into().unwrap()));
    }
    b.is_empty().then_some(Found {
        ask,
        version,
        places,
        sums,
    })
}

fn write_found(found: &Found) -> Vec<u8> {
    let mut f = vec![0, 0, 0, 0, 0x82];
    f.extend(found.ask.0.to_be_bytes());
    f.extend(found.ask.1.to_be_bytes());
    f.extend(found.ask.2.to_be_bytes());
    f.extend(found.version.to_be_bytes());
    f.extend((found.places.len() as u16).to_be_bytes());
    for p in &found.places {
        f.extend(p.slot.to_be_bytes());
        f.extend(p.doc.to_be_bytes());
        f.extend(p.member.to_be_bytes());
        f.extend(p.serial.to_be_bytes());
    }
    f.push(found.sums.len() as u8);
    for (bits, tag) in &found.sums {
        put_bits(&mut f, bits, found.places.len());
        f.extend(tag);
    }
    ended(f)
}

/// The rows of a folder one after another, and the XOR of the tags of each column.
struct Folder {
    width: usize,
    rows: Vec<u64>,
    tags: Vec<[u8; 16]>,
}

/// One pass over the rows: for each selector a parity for each row, and the XOR of the tags of its columns.
fn scan(folder: &Folder, selectors: &[&[u64]]) -> Vec<(Vec<u64>, [u8; 16])> {
    let lines = folder.rows.len() / folder.width;
    let mut sums = vec![(vec![0u64; lines.div_ceil(64)], [0; 16]); selectors.len()];
    for (line, row) in folder.rows.chunks_exact(folder.width).enumerate() {
        for (selector, sum) in selectors.iter().zip(&mut sums) {
            let common = row.iter().zip(*selector).fold(0, |x, (a, b)| x ^ (a & b));
            sum.0[line / 64] |= u64::from(common.count_ones() & 1) << (line % 64);
        }
    }
    for (selector, sum) in selectors.iter().zip(&mut sums) {
        for (column, tag) in folder.tags.iter().enumerate() {
            if bit(selector, column) {
                sum.1 = xor16(&sum.1, tag);
            }
        }
    }
    sums
}

fn add_found(sum: &mut Checksum, found: &Found) {
    if sum.whole {
        for p in &found.places {
            sum.number(u64::from(p.slot));
            sum.number(u64::from(p.doc));
            sum.number(p.serial);
        }
    }
    for (bits, tag) in &found.sums {
        sum.words(bits);
        sum.bytes(tag);
    }
}

fn scans(run: &mut Run, count: u32) {
    let (depth, documents) = if run.full { (11, 4096u16) } else { (8, 130) };
    let row = row_of(depth, [&b"alpha"[..]].into_iter());
    let byte = (0..documents).fold(0, |x, doc| x ^ (doc % 256) as u8);
    let folder = Folder {
        width: row.len(),
        rows: row.repeat(documents as usize),
        tags: vec![[byte; 16]; 1 << depth],
    };
    let words = words_of(&text(false));
    let selector = |n| {
        let words = words.iter().map(|w| &w.bytes[..w.len as usize]);
        row_under(&key_of(b"dory word", n), depth, words)
    };
    let selectors: Vec<Vec<u64>> = (0..count).map(selector).collect();
    let selectors: Vec<&[u64]> = selectors.iter().map(|s| &s[..]).collect();
    run.timed(|sum, _| {
        let place = |doc| Place {
            slot: doc,
            doc: u32::from(doc),
            member: 3,
            serial: 5,
        };
        let found = Found {
            ask: (0, 2, 0),
            version: u32::from(documents),
            places: (0..documents).map(place).collect(),
            sums: scan(&folder, &selectors),
        };
        add_found(sum, &found);
    });
}

fn encode_stage(run: &mut Run) {
    let stage = read_stage(&stage_frame(run.full)).unwrap();
    run.timed(|sum, _| sum.bytes(&write_stage(&stage)));
}

fn decode_stage(run: &mut Run) {
    let frame = stage_frame(run.full);
    run.timed(|sum, _| {
        let stage = read_stage(&frame).unwrap();
        sum.number(stage.id.1);
        sum.words(&stage.row);
        sum.tags(&stage.tags);
    });
}

fn encode_found(run: &mut Run) {
    let found = read_found(&found_frame(run.full)).unwrap();
    run.timed(|sum, _| sum.bytes(&write_found(&found)));
}

fn decode_found(run: &mut Run) {
    let frame = found_frame(run.full);
    run.timed(|sum, _| {
        add_found(sum, &read_found(&frame).unwrap());
    });
}

// The checks of a pair of replies

fn plain(line: u16, probe: u16) -> bool {
    line % 64 == 0 || line % 3 == probe % 3
}

fn replies(columns: &[usize; 8], lines: u16) -> (Vec<u8>, Vec<u8>) {
    let (mask_key, tag_key) = (folder_key(b"dory mask"), folder_key(b"dory tag"));
    let (mut lead, mut follow) = (begun(0x82, 0), begun(0x82, 1));
    for frame in [&mut lead, &mut follow] {
        put_lines(frame, lines);
        frame.push(8);
    }
    for probe in 0..8u16 {
        let column = columns[probe as usize];
        let mut tag = [9; 16];
        for group in 0..lines / 8 {
            let mut cells = 0u8;
            for i in 0..8 {
                let line = 8 * group + i;
                let (doc, serial) = (u32::from(line) + 1, u64::from(line) + 1);
                let mask = mask_block(&mask_key, doc, serial, column as u32 / 256);
                let cell = plain(line, probe) ^ mask_bit(&mask, column);
                tag = xor16(&tag, &cell_tag(&tag_key, doc, serial, column as u32, cell));
                cells |= u8::from(cell) << i;
            }
            let share = (group % 251) as u8;
            lead.push(share);
            follow.push(share ^ cells);
        }
        lead.extend([9; 16]);
        follow.extend(tag);
    }
    (ended(lead), ended(follow))
}

fn same_places(lead: &Found, follow: &Found) -> bool {
    let line = |p: &Place| (p.slot, p.doc, p.member, p.serial);
    lead.places.iter().map(line).eq(follow.places.iter().map(line))
}

fn accepted(columns: &[usize; 8], lead: &[u8], follow: &[u8]) -> Option<Vec<u32>> {
    let (mask_key, tag_key) = (folder_key(b"dory mask"), folder_key(b"dory tag"));
    let (lead, follow) = (read_found(lead)?, read_found(follow)?);
    if lead.version != follow.version || !same_places(&lead, &follow) {
        return None;
    }
    let mut cells = Vec::new();
    for (probe, column) in columns.iter().enumerate() {
        let (a, b) = (&lead.sums[probe], &follow.sums[probe]);
        let bits: Vec<u64> = a.0.iter().zip(&b.0).map(|(a, b)| a ^ b).collect();
        let mut sum = xor16(&a.1, &b.1);
        for (i, p) in lead.places.iter().enumerate() {
            sum = xor16(&sum, &cell_tag(&tag_key, p.doc, p.serial, *column as u32, bit(&bits, i)));
        }
        if sum != [0; 16] {
            return None;
        }
        cells.push(bits);
    }
    let mut docs = Vec::new();
    'lines: for (i, p) in lead.places.iter().enumerate() {
        let mut masks = [None; 8];
        for (probe, column) in columns.iter().enumerate() {
            let block = column / 256;
            let mask = masks[block]
                .get_or_insert_with(|| mask_block(&mask_key, p.doc, p.serial, block as u32));
            if bit(&cells[probe], i) == mask_bit(mask, *column) {
                continue 'lines;
            }
        }
        docs.push(p.doc);
    }
    docs.sort_unstable();
    docs.dedup();
    Some(docs)
}

fn verify(run: &mut Run) {
    let lines = if run.full { 4096 } else { 96 };
    let columns = positions(&folder_key(b"dory word"), 11, b"alpha");
    let (lead, follow) = replies(&columns, lines);
    run.timed(|sum, _| {
        let docs = accepted(&columns, &lead, &follow).unwrap();
        sum.number(u64::from(lines));
        docs.iter().for_each(|doc| sum.number(u64::from(*doc)));
    });
}

// A search: the keys, both domains' sums, their frames, and the checks

/// A folder whose cells are sealed at the columns of a word, and zero else.
fn sealed_folder(depth: u32, columns: &[usize; 8], lines: u16) -> Folder {
    let (mask_key, tag_key) = (folder_key(b"dory mask"), folder_key(b"dory tag"));
    let width = (1 << depth) / 64;
    let mut rows = vec![0; width * lines as usize];
    let mut tags = vec![[0; 16]; 1 << depth];
    for line in 0..lines {
        let (doc, serial) = (u32::from(line) + 1, u64::from(line) + 1);
        for (probe, column) in columns.iter().enumerate() {
            let mask = mask_block(&mask_key, doc, serial, *column as u32 / 256);
            let cell = plain(line, probe as u16) ^ mask_bit(&mask, *column);
            let tag = cell_tag(&tag_key, doc, serial, *column as u32, cell);
            tags[*column] = xor16(&tags[*column], &tag);
            if cell {
                set_bit(&mut rows[width * line as usize..], *column);
            }
        }
    }
    Folder { width, rows, tags }
}

/// One domain's frame to its keys.
fn answered(folder: &Folder, step: u32, keys: &[Key]) -> Vec<u8> {
    let selectors: Vec<[u64; 32]> = keys.iter().map(expanded).collect();
    let selectors: Vec<&[u64]> = selectors.iter().map(|s| &s[..folder.width]).collect();
    let lines = folder.rows.len() / folder.width;
    let place = |line| Place {
        slot: line,
        doc: u32::from(line) + 1,
        member: 3,
        serial: u64::from(line) + 1,
    };
    write_found(&Found {
        ask: (0, 2, step),
        version: lines as u32,
        places: (0..lines as u16).map(place).collect(),
        sums: scan(folder, &selectors),
    })
}

fn search(run: &mut Run) {
    let (depth, lines) = if run.full { (11, 4096) } else { (8, 96) };
    let columns = positions(&folder_key(b"dory word"), depth, b"alpha");
    let folder = sealed_folder(depth, &columns, lines);
    run.timed(|sum, _| {
        let columns = positions(&folder_key(b"dory word"), depth, b"alpha");
        let mut generator = ChaCha20Rng::from_seed([5; 32]);
        generator.set_stream(2);
        let mut seeds = || {
            let words: [u32; 4] = std::array::from_fn(|_| generator.next_u32());
            bytes_of(&words)
        };
        let (mut lead, mut follow) = (Vec::new(), Vec::new());
        for column in columns {
            let (first, second) = (seeds(), seeds());
            let (a, b) = keys_of(false, depth as usize, column, first, second);
            lead.push(a);
            follow.push(b);
        }
        let frames = (answered(&folder, 2, &lead), answered(&folder, 3, &follow));
        let docs = accepted(&columns, &frames.0, &frames.1).unwrap();
        sum.number(u64::from(lines));
        docs.iter().for_each(|doc| sum.number(u64::from(*doc)));
    });
}

// The table

type Line = (&'static str, u32, u32, fn(&mut Run));

/// The name, the operations of a turn, the turns of a round, and the work.
const TABLE: [Line; 29] = [
    ("mac", 1, 2000, whole),
    ("tag", 1, 6000, tag),
    ("tags", 64, 200, tags),
    ("mask-block", 1, 6000, one_mask),
    ("mask-blocks", 64, 200, masks),
    ("seal-8", 1, 40, |run| seal(run, 8)),
    ("seal-11", 1, 6, |run| seal(run, 11)),
    ("check-8", 1, 40, |run| check(run, 8)),
    ("check-11", 1, 6, |run| check(run, 11)),
    ("double", 1, 20_000, |run| doubled(run, double)),
    ("double-generator", 1, 10_000, |run| doubled(run, double_by_generator)),
    ("gen-long-8", 1, 1000, |run| keys(run, true, 8)),
    ("gen-long-11", 1, 800, |run| keys(run, true, 11)),
    ("gen-short-8", 1, 6000, |run| keys(run, false, 8)),
    ("gen-short-11", 1, 2000, |run| keys(run, false, 11)),
    ("expand-long-8", 1, 80, |run| shares(run, true, 8)),
    ("expand-long-11", 1, 10, |run| shares(run, true, 11)),
    ("expand-short-8", 1, 10_000, |run| shares(run, false, 8)),
    ("expand-short-11", 1, 1000, |run| shares(run, false, 11)),
    ("words", 1, 1, words),
    ("row", 1, 1, row),
    ("encode-stage", 1, 60, encode_stage),
    ("decode-stage", 1, 60, decode_stage),
    ("encode-found", 1, 20, encode_found),
    ("decode-found", 1, 20, decode_found),
    ("scan-1", 1, 10, |run| scans(run, 1)),
    ("scan-8", 1, 4, |run| scans(run, 8)),
    ("verify", 1, 1, verify),
    ("search", 1, 1, search),
];

fn print_checks() {
    for (name, _, _, work) in TABLE {
        let mut run = Run::new(false, FEW);
        work(&mut run);
        println!("{name} {:016x}", run.sum.value);
    }
}

fn print_times() {
    let mut least = [f64::MAX; TABLE.len()];
    let mut seen = 0;
    for _ in 0..ROUNDS {
        for ((_, operations, turns, work), least) in TABLE.iter().zip(&mut least) {
            let mut run = Run::new(true, *turns);
            work(&mut run);
            seen ^= run.sum.value;
            *least = least.min(run.spent as f64 / f64::from(turns * operations));
        }
    }
    black_box(seen);
    for ((name, ..), least) in TABLE.iter().zip(least) {
        println!("{name} {least:.1} 0 peer 0");
    }
}

/// Gigabytes a second, as the best of several passes.
fn speed(bytes: usize, mut pass: impl FnMut()) -> f64 {
    let mut best = f64::MAX;
    for _ in 0..20 {
        let start = Instant::now();
        pass();
        best = best.min(start.elapsed().as_nanos() as f64);
    }
    bytes as f64 / best
}

fn print_limits() {
    for (name, len) in [("in cache, 256 KiB", 1 << 15), ("in memory, 128 MiB", 1 << 24)] {
        let from: Vec<u64> = (0..len as u64).collect();
        let mut into = vec![0u64; len];
        let read = speed(8 * len, || {
            black_box(black_box(&from).iter().fold(0, |a, b| a ^ b));
        });
        let copied = speed(8 * len, || {
            black_box(&mut into).copy_from_slice(black_box(&from));
        });
        println!("{name}: read {read:.1} GB/s, copied {copied:.1} GB/s");
    }
}

/// The times in a table: the first field of a line is the name, and the fourth from its end the nanoseconds.
fn times(path: &str) -> BTreeMap<String, f64> {
    let mut times: BTreeMap<String, f64> = BTreeMap::new();
    for line in std::fs::read_to_string(path).unwrap().lines() {
        let fields: Vec<&str> = line.split_whitespace().collect();
        if fields.len() < 5 {
            continue;
        }
        if let Ok(time) = fields[fields.len() - 4].parse::<f64>() {
            let least = times.entry(fields[0].to_string()).or_insert(f64::MAX);
            *least = least.min(time);
        }
    }
    times
}

fn print_ratios(ours: &str, peers: &str) {
    let (ours, peers) = (times(ours), times(peers));
    println!("| work | dory ns | plain Rust ns | ratio |\n|---|---|---|---|");
    for (name, ..) in TABLE {
        if let (Some(a), Some(b)) = (ours.get(name), peers.get(name)) {
            println!("| {name} | {a:.1} | {b:.1} | {:.2} |", a / b);
        }
    }
    let names: Vec<&str> = TABLE.iter().map(|line| line.0).collect();
    for (name, a) in ours.iter().filter(|(name, _)| !names.contains(&name.as_str())) {
        println!("| {name} | {a:.1} | | |");
    }
}

fn main() {
    let words: Vec<String> = std::env::args().skip(1).collect();
    let words: Vec<&str> = words.iter().map(String::as_str).collect();
    match words[..] {
        ["check"] => print_checks(),
        ["time"] => print_times(),
        ["limits"] => print_limits(),
        ["ratios", ours, peers] => print_ratios(ours, peers),
        ["picture", ours, file] => picture::write(&times(ours), file),
        _ => std::process::exit(2),
    }
}

mod picture {
    use std::collections::BTreeMap;

    /// The parts of a search, each with the milliseconds that it takes: of 4,096 documents at 8 probes and 2,048 columns,
    /// where both domains scan a version that stands. The mask blocks are what is left of the check.
    fn parts(times: &BTreeMap<String, f64>) -> Vec<(&'static str, f64)> {
        let of = |name: &str| times.get(name).copied().unwrap_or(0.0) / 1e6;
        let tags = 32_768.0 * of("tags");
        let masks = (of("verify") - tags - 2.0 * of("decode-found")).max(0.0);
        vec![
            ("cell tags of the check: HMACs", tags),
            ("mask blocks of the check: HMACs", masks),
            ("scans at both domains", 2.0 * of("scan-8")),
            ("messages written and read", 2.0 * (of("encode-found") + of("decode-found"))),
            ("keys made and expanded", 8.0 * of("gen-short-11") + 16.0 * of("expand-short-11")),
        ]
    }

    /// Writes a bar for each part.
    pub fn write(times: &BTreeMap<String, f64>, file: &str) {
        let parts = parts(times);
        let whole: f64 = parts.iter().map(|part| part.1).sum();
        let mut svg = String::new();
        let height = 60 + 40 * parts.len();
        svg += &format!("<svg xmlns=\"http://www.w3.org/2000/svg\" width=\"760\" height=\"{height}\" font-family=\"sans-serif\" font-size=\"14\">\n");
        svg += "<rect width=\"100%\" height=\"100%\" fill=\"white\"/>\n";
        svg += &format!("<text x=\"16\" y=\"28\" font-size=\"16\">Where the {whole:.1} ms of a search go: 4,096 documents, 2,048 columns, 8 probes</text>\n");
        for (i, (name, time)) in parts.iter().enumerate() {
            let y = 48 + 40 * i;
            let part = time / whole;
            let width = (part * 320.0).max(1.0);
            svg += &format!("<text x=\"16\" y=\"{}\">{name}</text>\n", y + 18);
            svg += &format!("<rect x=\"270\" y=\"{y}\" width=\"{width:.1}\" height=\"26\" fill=\"#3b6ea5\"/>\n");
            svg += &format!("<text x=\"{:.1}\" y=\"{}\">{time:.2} ms, {:.1} %</text>\n", 278.0 + width, y + 18, 100.0 * part);
        }
        svg += "</svg>\n";
        std::fs::write(file, svg).unwrap();
    }
}
