//! One table of medians: the port, the original, plain C. See README.md.

mod sides;

use bytes::BytesMut;
use mysql_common::{
    io::{BufMutExt, ParseBuf},
    proto::codec::{Compression, PacketCodec},
    value::Value,
};
use sides::*;
use std::{hint::black_box, process::ExitCode};

const PIECE: usize = 64 * 1024;
#[cfg(packets)]
const STATE: usize = 128;
#[cfg(packets)]
const STREAM: usize = 64;

/// A side of a comparison: one timed run, in nanoseconds for each item.
type Side<'a> = Option<Box<dyn FnMut() -> f64 + 'a>>;

struct Row {
    name: String,
    unit: &'static str,
    ours: Option<f64>,
    rust: Option<f64>,
    c: Option<f64>,
    note: String,
}

fn median(mut v: Vec<f64>) -> f64 {
    v.sort_by(f64::total_cmp);
    v[v.len() / 2]
}

/// Runs the sides in turn, each time beginning with another one, after one run of each that isn't counted.
fn measure<const N: usize>(runs: usize, sides: &mut [Side; N]) -> [Option<f64>; N] {
    let mut times: [Vec<f64>; N] = std::array::from_fn(|_| Vec::new());
    for run in 0..=runs {
        for k in 0..N {
            let i = (run + k) % N;
            if let Some(side) = &mut sides[i] {
                let t = side();
                if run > 0 {
                    times[i].push(t);
                }
            }
        }
    }
    times.map(|t| if t.is_empty() { None } else { Some(median(t)) })
}

// ---- Packets ---------------------------------------------------------------------------------------------------------------

fn put_u24(out: &mut Vec<u8>, n: usize) {
    out.extend_from_slice(&[n as u8, (n >> 8) as u8, (n >> 16) as u8]);
}

#[derive(Clone, Copy, PartialEq)]
enum Framing {
    Plain,
    /// Each packet in frames of its own.
    Each,
    /// The chunk stream cut every 16,384 bytes, as a server does.
    Bundled,
}

/// What the original writes for so many packets of n bytes.
fn wire(n: usize, count: usize, limit: usize, framing: Framing) -> Vec<u8> {
    let packet = payload(n);
    let mut codec = PacketCodec::default();
    codec.max_allowed_packet = limit;
    let mut out = BytesMut::new();
    if framing == Framing::Each {
        codec.compress(Compression::none());
    }
    for _ in 0..count {
        codec.encode(&mut &packet[..], &mut out).expect("within the limit");
    }
    let mut out = out.to_vec();
    if framing == Framing::Bundled {
        let stream = std::mem::take(&mut out);
        for (i, part) in stream.chunks(16_384).enumerate() {
            put_u24(&mut out, part.len());
            out.push(i as u8);
            put_u24(&mut out, 0);
            out.extend_from_slice(part);
        }
    }
    out
}

fn payload(n: usize) -> Vec<u8> {
    (0..n).map(|i| (i * 7 + i / 251) as u8).collect()
}

/// Lends the wire in pieces of 64 KiB: a call sees what is unread and has come in so far. Answers the packets read.
fn pump(wire: &[u8], mut read: impl FnMut(&[u8], &mut usize) -> bool) -> usize {
    let (mut at, mut end, mut got) = (0, PIECE.min(wire.len()), 0);
    loop {
        let mut used = 0;
        let packet = read(&wire[at..end], &mut used);
        at += used;
        if packet {
            got += 1;
        } else if end == wire.len() {
            return got;
        } else {
            end = (end + PIECE).min(wire.len());
        }
    }
}

/// The thread's processor time: what others do on the machine doesn't count.
#[derive(Clone, Copy)]
struct Instant(f64);

#[repr(C)]
struct Timespec {
    seconds: i64,
    nanos: i64,
}

unsafe extern "C" {
    fn clock_gettime(clock: std::ffi::c_int, time: *mut Timespec) -> std::ffi::c_int;
}

impl Instant {
    fn now() -> Self {
        const THREAD_CPUTIME: std::ffi::c_int = 3;
        let mut t = Timespec { seconds: 0, nanos: 0 };
        assert!(unsafe { clock_gettime(THREAD_CPUTIME, &mut t) } == 0);
        Self(t.seconds as f64 * 1e9 + t.nanos as f64)
    }

    fn nanos(self) -> f64 {
        Self::now().0 - self.0
    }
}

fn per(start: Instant, items: usize) -> f64 {
    start.nanos() / items as f64
}

struct Buffers {
    staging: Vec<u8>,
    packet: Vec<u8>,
}

impl Buffers {
    fn new(limit: usize, framed: bool) -> Self {
        // Every page touched before the first run.
        let staging = vec![1; if framed { 2 * limit + 4 } else { 0 }];
        Self { staging, packet: vec![1; limit] }
    }
}

/// How many packets of n bytes are read in a turn.
fn packets_of(n: usize) -> usize {
    let count = (2 << 20) / (n + 11) + 1;
    let count = if n >= 60_000 { count.max(32) } else { count };
    if n > 1 << 20 { 1 } else { count }
}

fn reading(n: usize, framing: Framing, runs: usize) -> Row {
    let limit = if n > 1 << 20 { n } else { 1 << 20 };
    let framed = framing != Framing::Plain;
    let count = packets_of(n);
    // In many frames of one packet the plain numbers of two ends part: the corner that the rules name. One packet is read then.
    let bytes = wire(n, count, limit, framing);
    let turns = if n > 1 << 20 { 1 } else { 4 };
    let items = count * turns;
    let check = |got: usize| assert_eq!(got, count, "packets read");

    let mut mine = Buffers::new(limit, framed);
    #[cfg(packets)]
    let ours: Side = Some(Box::new(|| {
        let mut state = [0u8; STATE];
        let start = Instant::now();
        for _ in 0..turns {
            unsafe {
                mk_open(state.as_mut_ptr(), STATE, limit);
                if framed {
                    mk_frames_on(state.as_mut_ptr(), STATE);
                }
            }
            check(pump(&bytes, |src, used| {
                let mut len = 0;
                let no = unsafe {
                    mk_read(
                        state.as_mut_ptr(),
                        STATE,
                        src.as_ptr(),
                        src.len(),
                        mine.staging.as_mut_ptr(),
                        mine.staging.len(),
                        mine.packet.as_mut_ptr(),
                        mine.packet.len(),
                        used,
                        &mut len,
                    )
                };
                black_box(&mine.packet);
                no == 0
            }));
        }
        per(start, items)
    }));
    #[cfg(not(packets))]
    let ours: Side = {
        mine.packet.clear();
        None
    };

    let rust: Side = Some(Box::new(original(&bytes, n, limit, framed, turns, count, false)));
    let copied: Side = Some(Box::new(original(&bytes, n, limit, framed, turns, count, true)));

    let c: Side = Some(Box::new(plain_c(&bytes, limit, framed, turns, count)));
    let [ours, rust, c, copied] = measure(runs, &mut [ours, rust, c, copied]);
    let how = match framing {
        Framing::Plain => "plain reading",
        Framing::Each => "framed reading, own frames",
        Framing::Bundled => "framed reading, frames of 16,384",
    };
    let note = format!("Rust with its pieces copied in {}", time(copied));
    Row { name: format!("{how}, {} bytes", grouped(n)), unit: "packet", ours, rust, c, note }
}

/// The reader of plain.c.
fn plain_c(bytes: &[u8], limit: usize, framed: bool, turns: usize, count: usize) -> impl FnMut() -> f64 {
    let mut theirs = Buffers::new(limit, framed);
    move || {
        let mut state = [0u64; 16];
        let s = state.as_mut_ptr().cast::<u8>();
        let start = Instant::now();
        for _ in 0..turns {
            unsafe {
                pc_open(s, limit);
                if framed {
                    pc_frames_on(s);
                }
            }
            let got = pump(bytes, |src, used| {
                let mut len = 0;
                let no = unsafe {
                    pc_read(
                        s,
                        src.as_ptr(),
                        src.len(),
                        theirs.staging.as_mut_ptr(),
                        theirs.staging.len(),
                        theirs.packet.as_mut_ptr(),
                        theirs.packet.len(),
                        used,
                        &mut len,
                    )
                };
                black_box(&theirs.packet);
                no == 0
            });
            assert_eq!(got, count, "packets read");
        }
        per(start, turns * count)
    }
}

/// The straight-through reader on the same bytes in the same pieces, beside the plain reading of the others. It copies nothing; the last
/// column has it with each part copied to where its packet stands, for who wants it there.
fn through(n: usize, runs: usize) -> Row {
    let limit = if n > 1 << 20 { n } else { 1 << 20 };
    let count = packets_of(n);
    let bytes = wire(n, count, limit, Framing::Plain);
    let turns = if n > 1 << 20 { 1 } else { 4 };
    #[cfg(packets)]
    let side = |joined: bool| -> Side {
        let mut packet = vec![1u8; limit];
        let bytes = &bytes;
        Some(Box::new(move || {
            let mut state = [0u8; STREAM];
            let start = Instant::now();
            for _ in 0..turns {
                let (mut got, mut sofar) = (0, 0);
                unsafe { mk_stream_open(state.as_mut_ptr(), STREAM, limit) };
                for piece in bytes.chunks(PIECE) {
                    let mut at = 0;
                    while at < piece.len() {
                        let (src, mut used, mut place, mut len, mut ends) = (&piece[at..], 0, 0, 0, 0);
                        let no = unsafe {
                            mk_stream_read(state.as_mut_ptr(), STREAM, src.as_ptr(), src.len(), &mut used, &mut place, &mut len, &mut ends)
                        };
                        at += used;
                        if no != 0 {
                            assert_eq!(no, 255, "no refusal");
                            continue;
                        }
                        let part = black_box(&src[place..place + len]);
                        if joined {
                            packet[sofar..sofar + len].copy_from_slice(part);
                        }
                        sofar += len;
                        if ends == 1 {
                            assert_eq!(sofar, n, "bytes of a packet");
                            black_box(&packet);
                            (got, sofar) = (got + 1, 0);
                        }
                    }
                }
                assert_eq!(got, count, "packets read");
            }
            per(start, turns * count)
        }))
    };
    #[cfg(not(packets))]
    let side = |_: bool| -> Side { None };
    let rust: Side = Some(Box::new(original(&bytes, n, limit, false, turns, count, false)));
    let c: Side = Some(Box::new(plain_c(&bytes, limit, false, turns, count)));
    let [ours, rust, c, joined] = measure(runs, &mut [side(false), rust, c, side(true)]);
    let note = format!("ours with its parts copied together {}; Rust and C: plain reading", time(joined));
    Row { name: format!("straight through, {} bytes", grouped(n)), unit: "packet", ours, rust, c, note }
}

/// The original's reader. All bytes lie in one BytesMut, and a piece that comes in is joined to the unread rest without a copy; or,
/// `copied`, each piece is appended to a BytesMut that is kept, and the copy counts.
fn original(bytes: &[u8], n: usize, limit: usize, framed: bool, turns: usize, count: usize, copied: bool) -> impl FnMut() -> f64 {
    let mut dst = BytesMut::with_capacity(n + 64);
    let mut kept = BytesMut::with_capacity(4 * PIECE);
    let mut codec = PacketCodec::default();
    codec.max_allowed_packet = limit;
    if framed {
        codec.compress(Compression::none());
    }
    move || {
        let mut nanos = 0.0;
        for _ in 0..turns {
            codec.reset_seq_id();
            let mut rest = BytesMut::from(bytes);
            let mut got = 0;
            let start = Instant::now();
            let mut src = if copied { std::mem::take(&mut kept) } else { BytesMut::new() };
            src.clear();
            loop {
                if codec.decode(&mut src, &mut dst).expect("no refusal") {
                    got += 1;
                    black_box(&dst);
                    dst.clear();
                } else if rest.is_empty() {
                    break;
                } else {
                    let more = rest.split_to(PIECE.min(rest.len()));
                    if copied {
                        src.extend_from_slice(&more);
                    } else if src.is_empty() {
                        src = more;
                    } else {
                        src.unsplit(more);
                    }
                }
            }
            nanos += start.nanos();
            kept = src;
            assert_eq!(got, count, "packets read");
        }
        nanos / (turns * count) as f64
    }
}

fn writing(n: usize, framed: bool, runs: usize) -> Row {
    let limit = if n > 1 << 20 { n } else { 1 << 20 };
    let packet = payload(n);
    let room = n + 4 * (n / 16_777_215 + 1) + 7 * (n / 1_000_000 + 8);
    let items = if n > 1 << 20 { 1 } else { ((8 << 20) / (n + 200)).max(100) };

    let mut mine = vec![1u8; room];
    #[cfg(packets)]
    let ours: Side = Some(Box::new(|| {
        let mut state = [0u8; STATE];
        unsafe {
            mk_open(state.as_mut_ptr(), STATE, limit);
            if framed {
                mk_frames_on(state.as_mut_ptr(), STATE);
            }
        }
        let start = Instant::now();
        for _ in 0..items {
            let mut written = 0;
            let no =
                unsafe { mk_write(state.as_mut_ptr(), STATE, packet.as_ptr(), packet.len(), mine.as_mut_ptr(), mine.len(), &mut written) };
            assert!(no == 0);
            black_box(&mine);
        }
        per(start, items)
    }));
    #[cfg(not(packets))]
    let ours: Side = {
        mine.clear();
        None
    };

    let mut dst = BytesMut::with_capacity(room);
    let mut codec = PacketCodec::default();
    codec.max_allowed_packet = limit;
    if framed {
        codec.compress(Compression::none());
    }
    let rust: Side = Some(Box::new(|| {
        let start = Instant::now();
        for _ in 0..items {
            dst.clear();
            codec.encode(&mut &packet[..], &mut dst).expect("within the limit");
            black_box(&dst);
        }
        per(start, items)
    }));

    let mut theirs = vec![1u8; room];
    let c: Side = Some(Box::new(|| {
        let mut state = [0u64; 16];
        let s = state.as_mut_ptr().cast::<u8>();
        unsafe {
            pc_open(s, limit);
            if framed {
                pc_frames_on(s);
            }
        }
        let start = Instant::now();
        for _ in 0..items {
            let mut written = 0;
            let no = unsafe { pc_write(s, packet.as_ptr(), packet.len(), theirs.as_mut_ptr(), theirs.len(), &mut written) };
            assert!(no == 0);
            black_box(&theirs);
        }
        per(start, items)
    }));
    let [ours, rust, c] = measure(runs, &mut [ours, rust, c]);
    let how = if framed { "framed writing" } else { "plain writing" };
    Row { name: format!("{how}, {} bytes", grouped(n)), unit: "packet", ours, rust, c, note: String::new() }
}

// ---- Integers, names, rows ---------------------------------------------------------------------------------------------------

/// One call for each integer, as from C: what the other sides have too.
#[inline(never)]
fn eat_int(buf: &mut ParseBuf) -> Option<u64> {
    buf.checked_eat_lenenc_int()
}

#[inline(never)]
fn put_int(out: &mut Vec<u8>, v: u64) {
    out.put_lenenc_int(v);
}

/// How long the original takes where the compiler draws it into the caller's loop, which no C program has.
fn inlined(ns: Option<f64>) -> String {
    format!("the original drawn into a Rust loop {:.1}", ns.expect("it was run"))
}

fn integers(runs: usize, rows: &mut Vec<Row>) {
    // Mostly lengths of short strings, some of each longer form.
    let numbers: Vec<u64> = (0..4096u64)
        .map(|i| match i * 2_654_435_761 % 16 {
            0 => 1 << (32 + i % 30),
            1 => 65_536 + i,
            2 | 3 => 300 + i,
            _ => i % 251,
        })
        .collect();
    let mut s = Vec::new();
    for v in &numbers {
        s.put_lenenc_int(*v);
    }
    let (count, turns) = (numbers.len(), 60);
    let sum: u64 = numbers.iter().fold(0, |a, b| a.wrapping_add(*b));

    #[cfg(archive)]
    let ours: Side = Some(Box::new(|| {
        let start = Instant::now();
        for _ in 0..turns {
            let (mut at, mut total, mut v) = (0, 0u64, 0);
            for _ in 0..count {
                assert!(unsafe { mk_lenenc_int(s.as_ptr(), s.len(), at, &mut v, &mut at) } == 0);
                total = total.wrapping_add(v);
            }
            assert_eq!(black_box(total), sum);
        }
        per(start, count * turns)
    }));
    #[cfg(not(archive))]
    let ours: Side = None;
    let rust: Side = Some(Box::new(|| {
        let start = Instant::now();
        for _ in 0..turns {
            let (mut buf, mut total) = (ParseBuf(black_box(&s)), 0u64);
            for _ in 0..count {
                total = total.wrapping_add(eat_int(&mut buf).expect("whole"));
            }
            assert_eq!(black_box(total), sum);
        }
        per(start, count * turns)
    }));
    let drawn_in: Side = Some(Box::new(|| {
        let start = Instant::now();
        for _ in 0..turns {
            let (mut buf, mut total) = (ParseBuf(black_box(&s)), 0u64);
            for _ in 0..count {
                total = total.wrapping_add(buf.checked_eat_lenenc_int().expect("whole"));
            }
            assert_eq!(black_box(total), sum);
        }
        per(start, count * turns)
    }));
    let c: Side = Some(Box::new(|| {
        let start = Instant::now();
        for _ in 0..turns {
            let (mut at, mut total, mut v) = (0, 0u64, 0);
            for _ in 0..count {
                assert!(unsafe { pc_lenenc_int(s.as_ptr(), s.len(), at, &mut v, &mut at) } == 0);
                total = total.wrapping_add(v);
            }
            assert_eq!(black_box(total), sum);
        }
        per(start, count * turns)
    }));
    let [ours, rust, c, drawn_in] = measure(runs, &mut [ours, rust, c, drawn_in]);
    rows.push(Row { name: "length-encoded integers read".into(), unit: "integer", ours, rust, c, note: inlined(drawn_in) });

    let mut mine = vec![1u8; 9 * count];
    #[cfg(archive)]
    let ours: Side = Some(Box::new(|| {
        let start = Instant::now();
        for _ in 0..turns {
            let mut at = 0;
            for v in &numbers {
                assert!(unsafe { mk_put_lenenc_int(mine.as_mut_ptr(), mine.len(), at, *v, &mut at) } == 0);
            }
            assert_eq!(black_box(at), s.len());
        }
        per(start, count * turns)
    }));
    #[cfg(not(archive))]
    let ours: Side = {
        mine.clear();
        None
    };
    let mut out: Vec<u8> = Vec::with_capacity(9 * count);
    let rust: Side = Some(Box::new(|| {
        let start = Instant::now();
        for _ in 0..turns {
            out.clear();
            for v in &numbers {
                put_int(&mut out, *v);
            }
            assert_eq!(black_box(&out).len(), s.len());
        }
        per(start, count * turns)
    }));
    let mut again: Vec<u8> = Vec::with_capacity(9 * count);
    let drawn_in: Side = Some(Box::new(|| {
        let start = Instant::now();
        for _ in 0..turns {
            again.clear();
            for v in &numbers {
                again.put_lenenc_int(*v);
            }
            assert_eq!(black_box(&again).len(), s.len());
        }
        per(start, count * turns)
    }));
    let mut theirs = vec![1u8; 9 * count];
    let c: Side = Some(Box::new(|| {
        let start = Instant::now();
        for _ in 0..turns {
            let mut at = 0;
            for v in &numbers {
                assert!(unsafe { pc_put_lenenc_int(theirs.as_mut_ptr(), theirs.len(), at, *v, &mut at) } == 0);
            }
            assert_eq!(black_box(at), s.len());
        }
        per(start, count * turns)
    }));
    let [ours, rust, c, drawn_in] = measure(runs, &mut [ours, rust, c, drawn_in]);
    rows.push(Row { name: "length-encoded integers written".into(), unit: "integer", ours, rust, c, note: inlined(drawn_in) });
}

fn quoting(path: &str, runs: usize, rows: &mut Vec<Row>) {
    let text = match std::fs::read_to_string(path) {
        Ok(text) => text,
        Err(why) => return eprintln!("bench: {path}: {why}: names are left out"),
    };
    let names: Vec<&str> = text.lines().collect();
    let clean: String = (0..1 << 20).map(|i| (b'a' + (i % 26) as u8) as char).collect();
    let some: String = (0..1 << 20).map(|i| if i % 40 == 39 { '\'' } else { (b'a' + (i % 26) as u8) as char }).collect();
    let alone = "'".repeat(1 << 20);
    let count = grouped(names.len());
    for doubled in [false, true] {
        let mode = if doubled { ", quotes doubled" } else { "" };
        quoting_of(&format!("quoting {count} station names{mode}"), "name", &names, doubled, runs, rows);
        quoting_of(&format!("quoting 1 MiB of clean text{mode}"), "text", &[&clean], doubled, runs, rows);
        quoting_of(&format!("quoting 1 MiB, a quote every 40 bytes{mode}"), "text", &[&some], doubled, runs, rows);
        quoting_of(&format!("quoting 1 MiB of quotes alone{mode}"), "text", &[&alone], doubled, runs, rows);
    }
}

/// Plain C and libmariadb in the mode with backslashes alone: the second takes the mode from a server.
fn quoting_of(name: &str, unit: &'static str, names: &[&str], doubled: bool, runs: usize, rows: &mut Vec<Row>) {
    let bytes: usize = names.iter().map(|n| n.len()).sum();
    let count = names.len();
    let turns = if count > 1 { 4 } else { 1 };
    let wanted: usize = names.iter().map(|n| Value::Bytes(n.as_bytes().to_vec()).as_sql(doubled).len()).sum();
    let longest = names.iter().map(|n| n.len()).max().unwrap_or(0);
    let mut mine = vec![1u8; 2 * longest + 2];
    #[cfg(archive)]
    let ours: Side = Some(Box::new(|| {
        let start = Instant::now();
        for _ in 0..turns {
            let mut total = 0;
            for n in names {
                let mut next = 0;
                assert!(unsafe { mk_escaped(mine.as_mut_ptr(), mine.len(), 0, n.as_ptr(), n.len(), doubled as u8, &mut next) } == 0);
                black_box(&mine);
                total += next;
            }
            assert_eq!(total, wanted);
        }
        per(start, count * turns)
    }));
    #[cfg(not(archive))]
    let ours: Side = {
        mine.clear();
        None
    };
    let values: Vec<Value> = names.iter().map(|n| Value::Bytes(n.as_bytes().to_vec())).collect();
    let rust: Side = Some(Box::new(|| {
        let start = Instant::now();
        for _ in 0..turns {
            let mut total = 0;
            for v in &values {
                total += black_box(v.as_sql(doubled)).len();
            }
            assert_eq!(total, wanted);
        }
        per(start, count * turns)
    }));
    let mut theirs = vec![1u8; 2 * longest + 2];
    let mut c: Side = Some(Box::new(|| {
        let start = Instant::now();
        for _ in 0..turns {
            let mut total = 0;
            for n in names {
                total += unsafe { pc_escaped(theirs.as_mut_ptr(), n.as_ptr(), n.len()) };
                black_box(&theirs);
            }
            assert_eq!(total, wanted);
        }
        per(start, count * turns)
    }));
    if doubled {
        c = None;
    }
    let [ours, rust, c] = measure(runs, &mut [ours, rust, c]);
    let speed = |t: Option<f64>| t.map_or("-".into(), |t| format!("{:.0}", bytes as f64 / count as f64 / t * 1000.0));
    let note = format!("MB/s: ours {}, Rust {} (a new String each), C byte by byte {}", speed(ours), speed(rust), speed(c));
    rows.push(Row { name: name.into(), unit, ours, rust, c, note });
    if doubled {
        return;
    }
    #[cfg(mariadb)]
    {
        let handle = unsafe { mysql_init(std::ptr::null_mut()) };
        let charset = unsafe { std::ffi::CStr::from_ptr(mysql_character_set_name(handle)) }.to_string_lossy().into_owned();
        let mut mine = vec![1u8; 2 * longest + 2];
        #[cfg(archive)]
        let ours: Side = Some(Box::new(|| {
            let start = Instant::now();
            for _ in 0..turns {
                for n in names {
                    let mut next = 0;
                    assert!(unsafe { mk_escaped(mine.as_mut_ptr(), mine.len(), 0, n.as_ptr(), n.len(), doubled as u8, &mut next) } == 0);
                    black_box(&mine);
                }
            }
            per(start, count * turns)
        }));
        #[cfg(not(archive))]
        let ours: Side = {
            mine.clear();
            None
        };
        let mut theirs = vec![1u8; 2 * longest + 2];
        let mut copied = vec![1u8; 2 * longest + 2];
        let mariadb: Side = Some(Box::new(|| {
            let start = Instant::now();
            for _ in 0..turns {
                let mut total = 0;
                for n in names {
                    total += unsafe { mysql_real_escape_string(handle, theirs.as_mut_ptr(), n.as_ptr(), n.len() as _) } as usize;
                    black_box(&theirs);
                }
                assert_eq!(total + 2 * count, wanted);
            }
            per(start, count * turns)
        }));
        let copy: Side = Some(Box::new(|| {
            let start = Instant::now();
            for _ in 0..turns {
                for n in names {
                    copied[..n.len()].copy_from_slice(n.as_bytes());
                    black_box(&copied);
                }
            }
            per(start, count * turns)
        }));
        let [ours, mariadb, copy] = measure(runs, &mut [ours, mariadb, copy]);
        let note =
            format!("MB/s: libmariadb {} (in the C column, charset {charset}, no quotes around), memcpy {}", speed(mariadb), speed(copy));
        let name = format!("{name}, mysql_real_escape_string");
        rows.push(Row { name, unit, ours, rust: None, c: mariadb, note });
    }
}

struct Night {
    types: Vec<u8>,
    signs: Vec<u8>,
    rows: Vec<Vec<u8>>,
}

/// The rows of the night's load out of the capture, read by the original.
fn night(prefix: &str) -> Result<Night, String> {
    let wire = std::fs::read(format!("{prefix}.s2c.bin")).map_err(|why| format!("{prefix}.s2c.bin: {why}"))?;
    let index = std::fs::read_to_string(format!("{prefix}.index.json")).map_err(|why| format!("{prefix}.index.json: {why}"))?;
    let line = index.lines().find(|l| l.contains("\"EXECUTE")).ok_or("no EXECUTE in the index")?;
    let numbers: Vec<usize> = line
        .split("\"s2c\": [")
        .nth(1)
        .and_then(|s| s.split(']').next())
        .ok_or("no s2c in the index")?
        .split(',')
        .filter_map(|n| n.trim().parse().ok())
        .collect();
    let [from, len] = numbers[..] else { return Err("no s2c in the index".into()) };
    let mut codec = PacketCodec::default();
    if line.contains("\"framed\": true") {
        codec.compress(Compression::none());
    }
    // The command moved the numbers to 1.
    codec.encode(&mut &b"x"[..], &mut BytesMut::new()).map_err(|e| e.to_string())?;
    let mut src = BytesMut::from(wire.get(from..from + len).ok_or("the capture is too short")?);
    let mut dst = BytesMut::new();
    let mut packets = Vec::new();
    while codec.decode(&mut src, &mut dst).map_err(|e| e.to_string())? {
        packets.push(dst.to_vec());
        dst.clear();
    }
    let mut packets = packets.into_iter();
    let columns = packets.next().and_then(|p| ParseBuf(&p).checked_eat_lenenc_int()).ok_or("no column count")? as usize;
    let (mut types, mut signs) = (Vec::new(), Vec::new());
    for _ in 0..columns {
        let p = packets.next().ok_or("no column definition")?;
        let mut b = ParseBuf(&p);
        for _ in 0..6 {
            b.checked_eat_lenenc_str().ok_or("a short column definition")?;
        }
        let tail = b.checked_eat(13).ok_or("a short column definition")?;
        types.push(tail[7]);
        signs.push((tail[8] & 0x20 != 0) as u8);
    }
    packets.next();
    let rows: Vec<Vec<u8>> = packets.filter(|p| p.first() == Some(&0)).collect();
    Ok(Night { types, signs, rows })
}

fn loading(prefix: &str, runs: usize, rows: &mut Vec<Row>) {
    let night = match night(prefix) {
        Ok(night) => night,
        Err(why) => return eprintln!("bench: {why}: rows are left out"),
    };
    let n = night.types.len();
    for count in [night.rows.len(), 60.min(night.rows.len())] {
        let some = &night.rows[..count];
        let turns = 18_000usize.div_ceil(count);
        let (mut a, mut b) = (vec![0usize; n], vec![0usize; n]);
        let (mut nulls, mut used) = (0usize, 0usize);
        let mut wanted = 0usize;
        for r in some {
            let no = unsafe { pc_read_row(r.as_ptr(), r.len(), night.types.as_ptr(), n, b.as_mut_ptr(), &mut nulls, &mut used) };
            assert!(no == 0 && used == r.len(), "the walk in C takes every row whole");
            wanted += nulls + used;
            #[cfg(archive)]
            {
                let (mut nulls2, mut used2) = (0, 0);
                let no = unsafe {
                    mk_read_row(
                        r.as_ptr(),
                        r.len(),
                        night.types.as_ptr(),
                        n,
                        night.signs.as_ptr(),
                        n,
                        a.as_mut_ptr(),
                        n,
                        &mut nulls2,
                        &mut used2,
                    )
                };
                assert!(no == 0 && (nulls2, used2) == (nulls, used) && a == b, "both walks agree");
            }
        }
        #[cfg(archive)]
        let ours: Side = Some(Box::new(|| {
            let (mut nulls, mut used) = (0, 0);
            let start = Instant::now();
            for _ in 0..turns {
                let mut total = 0;
                for r in some {
                    let no = unsafe {
                        mk_read_row(
                            r.as_ptr(),
                            r.len(),
                            night.types.as_ptr(),
                            n,
                            night.signs.as_ptr(),
                            n,
                            a.as_mut_ptr(),
                            n,
                            &mut nulls,
                            &mut used,
                        )
                    };
                    assert!(no == 0);
                    total += nulls + used;
                }
                assert_eq!(black_box(total), wanted);
            }
            per(start, count * turns)
        }));
        #[cfg(not(archive))]
        let ours: Side = {
            a.clear();
            let _ = &night.signs;
            None
        };
        let c: Side = Some(Box::new(|| {
            let (mut nulls, mut used) = (0, 0);
            let start = Instant::now();
            for _ in 0..turns {
                let mut total = 0;
                for r in some {
                    let no = unsafe { pc_read_row(r.as_ptr(), r.len(), night.types.as_ptr(), n, b.as_mut_ptr(), &mut nulls, &mut used) };
                    assert!(no == 0);
                    total += nulls + used;
                }
                assert_eq!(black_box(total), wanted);
            }
            per(start, count * turns)
        }));
        let [ours, _, c] = measure(runs, &mut [ours, None, c]);
        let size: usize = some.iter().map(Vec::len).sum();
        let name = if count == 60 {
            format!("rows of {n} columns, 60 in turn")
        } else {
            format!("rows of {n} columns, {} real ones", grouped(count))
        };
        let note = format!("{} bytes of rows, each in its own allocation", grouped(size));
        rows.push(Row { name, unit: "row", ours, rust: None, c, note });
    }
}

// ---- The table ---------------------------------------------------------------------------------------------------------------

fn grouped(n: usize) -> String {
    let s = n.to_string();
    let mut out = String::new();
    for (i, c) in s.chars().enumerate() {
        if i > 0 && (s.len() - i) % 3 == 0 {
            out.push(',');
        }
        out.push(c);
    }
    out
}

fn time(t: Option<f64>) -> String {
    match t {
        None => "-".into(),
        Some(t) if t >= 10_000.0 => grouped(t as usize),
        Some(t) => format!("{t:.1}"),
    }
}

fn ratio(a: Option<f64>, b: Option<f64>) -> String {
    match (a, b) {
        (Some(a), Some(b)) => format!("{:.2}", a / b),
        _ => "-".into(),
    }
}

fn machine() -> String {
    let info = std::fs::read_to_string("/proc/cpuinfo").unwrap_or_default();
    let find = |key: &str| info.lines().find(|l| l.starts_with(key)).and_then(|l| l.split(':').nth(1)).unwrap_or("?").trim().to_string();
    let cores = info.lines().filter(|l| l.starts_with("processor")).count();
    let load = std::fs::read_to_string("/proc/loadavg").unwrap_or_default();
    let load = load.split(' ').next().unwrap_or("?").to_string();
    format!("{} ({} MHz, cache {}), {cores} cores, load {load} at the start", find("model name"), find("cpu MHz"), find("cache size"))
}

fn main() -> ExitCode {
    let mut runs = 15;
    let env = |key: &str, other: &str| std::env::var(key).unwrap_or_else(|_| other.into());
    let mut names = env("MISHKELDUR_NAMES", "../../data/station-names.txt");
    let mut prefix = env("MISHKELDUR_NIGHT", "../../data/stored-eof-binary-rows.full");
    let mut only: Option<String> = None;
    let mut args = std::env::args().skip(1);
    while let Some(arg) = args.next() {
        match (arg.as_str(), args.next()) {
            ("--runs", Some(v)) if v.parse::<usize>().is_ok_and(|n| n >= 11) => runs = v.parse().expect("tested"),
            ("--names", Some(v)) => names = v,
            ("--night", Some(v)) => prefix = v,
            ("--only", Some(v)) => only = Some(v),
            _ => {
                eprintln!("bench [--runs N, 11 or more] [--names FILE] [--night PREFIX] [--only packets|integers|names|rows]");
                return ExitCode::from(2);
            }
        }
    }
    assert!(unsafe { pc_size() } <= 128);
    let wants = |kind: &str| only.as_ref().is_none_or(|o| o == kind);
    let machine = machine();
    let big = 64 << 20;
    let mut rows = Vec::new();
    if wants("packets") {
        let sizes = [20, 200, 1_000, 60_000, big];
        rows.extend(sizes.iter().map(|n| reading(*n, Framing::Plain, runs)));
        rows.extend(sizes.iter().map(|n| through(*n, runs)));
        rows.extend(sizes.iter().map(|n| writing(*n, false, runs)));
        rows.extend(sizes.iter().map(|n| reading(*n, Framing::Each, runs)));
        rows.extend(sizes[..4].iter().map(|n| reading(*n, Framing::Bundled, runs)));
        rows.extend(sizes.iter().map(|n| writing(*n, true, runs)));
    }
    if wants("integers") {
        integers(runs, &mut rows);
    }
    if wants("names") {
        quoting(&names, runs, &mut rows);
    }
    if wants("rows") {
        loading(&prefix, runs, &mut rows);
    }

    println!("Machine: {machine}.");
    println!(
        "Built by: {}, opt-level 3; {}, -O2; the archive as it is{}.",
        env!("RUSTC_SAYS"),
        env!("GCC_SAYS"),
        if cfg!(packets) { "" } else { " (NO ARCHIVE WITH PACKETS: our column is empty)" }
    );
    println!(
        "Command: `{}`.",
        std::env::args()
            .enumerate()
            .map(|(i, a)| if i == 0 { a.rsplit('/').next().unwrap_or("bench").to_string() } else { a })
            .collect::<Vec<_>>()
            .join(" ")
    );
    println!(
        "Medians of {runs} runs, the sides in turn, one run of each before that is not counted. Times in nanoseconds of the thread's processor time."
    );
    println!();
    println!("Buffers: each side has its own, made once and reused; every page was touched before. Packet buffer and, framed, staging of");
    println!(
        "2 x limit + 4 bytes; the original's BytesMut is cleared and not made anew, and its source is one BytesMut, of which pieces are"
    );
    println!(
        "joined to the unread rest without a copy. Sources come in pieces of 64 KiB out of some 2 MiB (60,000: 32 packets or more; 64 MiB:"
    );
    println!("one packet), so they are warm in the last cache and not in the first; written packets are warm.");
    println!();
    println!("| what | per | ours | Rust | C | ours/Rust | ours/C | |");
    println!("|---|---|--:|--:|--:|--:|--:|---|");
    for r in &rows {
        println!(
            "| {} | {} | {} | {} | {} | {} | {} | {} |",
            r.name,
            r.unit,
            time(r.ours),
            time(r.rust),
            time(r.c),
            ratio(r.ours, r.rust),
            ratio(r.ours, r.c),
            r.note
        );
    }
    ExitCode::SUCCESS
}
