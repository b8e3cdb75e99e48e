// The work of crates/bench in plain Rust, with no contracts and nothing proved: the same commands, bytes, digests and levels, the same output,
// and a SHA-256 of the same structure, in eights. Here the eights are written out; there they are a fold and a loop that clang unrolls to the same.
use std::env;
use std::process::ExitCode;
use std::time::Instant;

const K: [u32; 64] = [
    0x428a2f98, 0x71374491, 0xb5c0fbcf, 0xe9b5dba5, 0x3956c25b, 0x59f111f1, 0x923f82a4, 0xab1c5ed5,
    0xd807aa98, 0x12835b01, 0x243185be, 0x550c7dc3, 0x72be5d74, 0x80deb1fe, 0x9bdc06a7, 0xc19bf174,
    0xe49b69c1, 0xefbe4786, 0x0fc19dc6, 0x240ca1cc, 0x2de92c6f, 0x4a7484aa, 0x5cb0a9dc, 0x76f988da,
    0x983e5152, 0xa831c66d, 0xb00327c8, 0xbf597fc7, 0xc6e00bf3, 0xd5a79147, 0x06ca6351, 0x14292967,
    0x27b70a85, 0x2e1b2138, 0x4d2c6dfc, 0x53380d13, 0x650a7354, 0x766a0abb, 0x81c2c92e, 0x92722c85,
    0xa2bfe8a1, 0xa81a664b, 0xc24b8b70, 0xc76c51a3, 0xd192e819, 0xd6990624, 0xf40e3585, 0x106aa070,
    0x19a4c116, 0x1e376c08, 0x2748774c, 0x34b0bcb5, 0x391c0cb3, 0x4ed8aa4a, 0x5b9cca4f, 0x682e6ff3,
    0x748f82ee, 0x78a5636f, 0x84c87814, 0x8cc70208, 0x90befffa, 0xa4506ceb, 0xbef9a3f7, 0xc67178f2,
];

type State = [u32; 8];

const INITIAL: State = [
    0x6a09e667, 0xbb67ae85, 0x3c6ef372, 0xa54ff53a, 0x510e527f, 0x9b05688c, 0x1f83d9ab, 0x5be0cd19,
];

fn message_word(block: &[u8], t: usize) -> u32 {
    u32::from_be_bytes([block[4 * t], block[4 * t + 1], block[4 * t + 2], block[4 * t + 3]])
}

fn put_word(w: &mut [u32; 64], t: usize) {
    let s0 = w[t - 15].rotate_right(7) ^ w[t - 15].rotate_right(18) ^ (w[t - 15] >> 3);
    let s1 = w[t - 2].rotate_right(17) ^ w[t - 2].rotate_right(19) ^ (w[t - 2] >> 10);
    w[t] = s1.wrapping_add(w[t - 7]).wrapping_add(s0).wrapping_add(w[t - 16]);
}

fn put_eight(w: &mut [u32; 64], t: usize) {
    put_word(w, t);
    put_word(w, t + 1);
    put_word(w, t + 2);
    put_word(w, t + 3);
    put_word(w, t + 4);
    put_word(w, t + 5);
    put_word(w, t + 6);
    put_word(w, t + 7);
}

fn schedule(block: &[u8]) -> [u32; 64] {
    let mut w = [0u32; 64];
    for t in 0..16 {
        w[t] = message_word(block, t);
    }
    for i in 0..6 {
        put_eight(&mut w, 16 + 8 * i);
    }
    w
}

fn round([a, b, c, d, e, f, g, h]: State, w: &[u32; 64], t: usize) -> State {
    let s1 = e.rotate_right(6) ^ e.rotate_right(11) ^ e.rotate_right(25);
    let ch = (e & f) ^ (!e & g);
    let t1 = h.wrapping_add(s1).wrapping_add(ch).wrapping_add(K[t]).wrapping_add(w[t]);
    let s0 = a.rotate_right(2) ^ a.rotate_right(13) ^ a.rotate_right(22);
    let maj = (a & b) ^ (a & c) ^ (b & c);
    let t2 = s0.wrapping_add(maj);
    [t1.wrapping_add(t2), a, b, c, d.wrapping_add(t1), e, f, g]
}

fn eight_rounds(s: State, w: &[u32; 64], t: usize) -> State {
    let s = round(s, w, t);
    let s = round(s, w, t + 1);
    let s = round(s, w, t + 2);
    let s = round(s, w, t + 3);
    let s = round(s, w, t + 4);
    let s = round(s, w, t + 5);
    let s = round(s, w, t + 6);
    round(s, w, t + 7)
}

fn compress(hash: &mut State, block: &[u8]) {
    let w = schedule(block);
    let mut s = *hash;
    for i in 0..8 {
        s = eight_rounds(s, &w, 8 * i);
    }
    for (old, new) in hash.iter_mut().zip(s) {
        *old = old.wrapping_add(new);
    }
}

fn digest(bytes: &[u8]) -> [u8; 32] {
    let mut hash = INITIAL;
    let blocks = bytes.chunks_exact(64);
    let tail = blocks.remainder();
    for block in blocks {
        compress(&mut hash, block);
    }
    let mut end = [0u8; 128];
    end[..tail.len()].copy_from_slice(tail);
    end[tail.len()] = 0x80;
    let size = if tail.len() <= 55 { 64 } else { 128 };
    end[size - 8..size].copy_from_slice(&(bytes.len() as u64).wrapping_mul(8).to_be_bytes());
    for block in end[..size].chunks_exact(64) {
        compress(&mut hash, block);
    }
    let mut out = [0u8; 32];
    for (place, word) in out.chunks_exact_mut(4).zip(hash) {
        place.copy_from_slice(&word.to_be_bytes());
    }
    out
}

enum Action {
    Set { channel: u16, level: u16 },
    Move { channel: u16, step: i32 },
    Scene { first: u16, count: u8, levels: [u16; 32] },
}

struct Command {
    view: u32,
    member: u8,
    number: u32,
    stamp: u32,
    action: Action,
}

impl Command {
    fn apply(&self, levels: &mut [u16]) {
        match &self.action {
            Action::Set { channel, level } => {
                if let Some(place) = levels.get_mut(*channel as usize) {
                    *place = *level;
                }
            }
            Action::Move { channel, step } => {
                if let Some(place) = levels.get_mut(*channel as usize) {
                    *place = (*place as i64 + *step as i64).clamp(0, 65535) as u16;
                }
            }
            Action::Scene { first, count, levels: new } => {
                for (place, level) in levels.iter_mut().skip(*first as usize).zip(&new[..*count as usize]) {
                    *place = *level;
                }
            }
        }
    }

    // Writes the command's bytes to the front of `out` and says how many.
    fn write(&self, out: &mut [u8]) -> usize {
        out[0..4].copy_from_slice(&self.view.to_be_bytes());
        out[4] = self.member;
        out[5..9].copy_from_slice(&self.number.to_be_bytes());
        out[9..13].copy_from_slice(&self.stamp.to_be_bytes());
        match &self.action {
            Action::Set { channel, level } => {
                out[13] = 1;
                out[14..16].copy_from_slice(&channel.to_be_bytes());
                out[16..18].copy_from_slice(&level.to_be_bytes());
                18
            }
            Action::Move { channel, step } => {
                out[13] = 2;
                out[14..16].copy_from_slice(&channel.to_be_bytes());
                out[16..20].copy_from_slice(&((*step as i64 + (1 << 31)) as u32).to_be_bytes());
                20
            }
            Action::Scene { first, count, levels } => {
                out[13] = 3;
                out[14..16].copy_from_slice(&first.to_be_bytes());
                out[16] = *count;
                let count = *count as usize;
                for (place, level) in out[17..].chunks_exact_mut(2).zip(&levels[..count]) {
                    place.copy_from_slice(&level.to_be_bytes());
                }
                17 + 2 * count
            }
        }
    }
}

struct Record {
    count: u64,
    digest: [u8; 32],
}

impl Record {
    fn deliver(self, levels: &mut [u16], command: &Command) -> Record {
        command.apply(levels);
        let mut out = [0u8; 114];
        out[0..32].copy_from_slice(&self.digest);
        out[32] = 1;
        let size = 33 + command.write(&mut out[33..]);
        Record {
            count: self.count.wrapping_add(1),
            digest: digest(&out[..size]),
        }
    }
}

struct Draws {
    last: u32,
}

impl Draws {
    fn draw(&mut self) -> u16 {
        self.last = self.last.wrapping_mul(1664525).wrapping_add(1013904223);
        (self.last / 65536) as u16
    }
}

fn action(turn: u32, draws: &mut Draws) -> Action {
    let channel = draws.draw() % 512;
    match turn % 3 {
        0 => Action::Set { channel, level: draws.draw() },
        1 => Action::Move { channel, step: draws.draw() as i32 - 32768 },
        _ => {
            let count = draws.draw() % 32 + 1;
            let mut levels = [0; 32];
            for level in &mut levels[..count as usize] {
                *level = draws.draw();
            }
            Action::Scene { first: channel, count: count as u8, levels }
        }
    }
}

fn command(turn: u32, draws: &mut Draws) -> Command {
    Command {
        view: 0,
        member: (turn % 8) as u8,
        number: turn / 8 + 1,
        stamp: turn.saturating_add(1),
        action: action(turn, draws),
    }
}

fn deliver_all(commands: &[Command], levels: &mut [u16]) -> Record {
    let mut record = Record { count: 0, digest: [0; 32] };
    for command in commands {
        record = record.deliver(levels, command);
    }
    record
}

fn hex(digest: [u8; 32]) -> String {
    digest.iter().map(|byte| format!("{byte:02x}")).collect()
}

fn sha(mebibytes: u32) {
    let message = vec![b'a'; mebibytes as usize * 1048576];
    let start = Instant::now();
    let digest = digest(&message);
    let nanoseconds = start.elapsed().as_nanos();
    println!("{mebibytes} MiB, digest {}, {nanoseconds} ns", hex(digest));
}

fn history(count: u32) {
    let mut draws = Draws { last: 1 };
    let commands: Vec<Command> = (0..count).map(|turn| command(turn, &mut draws)).collect();
    let mut levels = [0u16; 512];
    let start = Instant::now();
    let record = deliver_all(&commands, &mut levels);
    let nanoseconds = start.elapsed().as_nanos();
    let sum = levels.iter().fold(0u32, |sum, level| sum.wrapping_mul(31).wrapping_add(*level as u32));
    println!("{} commands, digest {}, levels {sum}, {nanoseconds} ns", record.count, hex(record.digest));
}

fn main() -> ExitCode {
    let args: Vec<String> = env::args().collect();
    match (args.get(1).map(String::as_str), args.get(2).and_then(|size| size.parse().ok())) {
        (Some("sha"), Some(mebibytes)) => sha(mebibytes),
        (Some("history"), Some(count)) => history(count),
        _ => {
            eprintln!("usage: plain sha MEBIBYTES | history COMMANDS");
            return ExitCode::FAILURE;
        }
    }
    ExitCode::SUCCESS
}
