//! Connections chosen by hand, all shapes of headers, packets of several full chunks, and the marked examples at small m.

use crate::{
    count::Counts,
    model::{M, Model},
    original::{Original, Published, Seven, Three},
    ours::{Codec, Ours},
    rng::Rng,
    session::{Live, Op},
    text::hex,
};
use bytes::BytesMut;

fn bytes(text: &str) -> Vec<u8> {
    let digits: Vec<u8> = text.bytes().filter(|b| *b != b' ').collect();
    digits.chunks(2).map(|d| u8::from_str_radix(str::from_utf8(d).expect("ascii"), 16).expect("hex")).collect()
}

fn feed(text: &str) -> Op {
    Op::Feed(bytes(text))
}

const ALL: Op = Op::Read(usize::MAX);

/// The calls of a connection, and what its reads and writes must answer in turn.
fn case(ours: &Ours, name: &str, limit: usize, ops: &[Op], wanted: &[u8], counts: &mut Counts) -> Result<(), String> {
    let mut live = Live::<Published>::open(ours, limit);
    let mut answers = Vec::new();
    for op in ops {
        live.step(op, counts).map_err(|why| {
            let lines: Vec<String> = ops.iter().map(Op::show).collect();
            format!("{name}: limit {limit}\n    {}\n  {why}", lines.join("\n    "))
        })?;
        if matches!(op, Op::Read(_) | Op::Write(_)) {
            answers.push(live.answered.status);
        }
        if live.over {
            break;
        }
    }
    counts.note("directed cases");
    if answers == wanted { Ok(()) } else { Err(format!("{name}: wanted {wanted:?}, both sides answered {answers:?}")) }
}

pub fn cases(ours: &Ours, counts: &mut Counts) -> Result<(), String> {
    use Op::*;
    let mut run = |name: &str, limit: usize, ops: &[Op], wanted: &[u8]| case(ours, name, limit, ops, wanted, counts);
    let on = || FramesOn;
    let write = |n: usize| Write(vec![0x57; n]);

    run("0/n at the limit is 4", 10, &[on(), feed("00000000 0A0000"), ALL], &[4])?;
    run("0/n above the limit is 2", 10, &[on(), feed("00000000 0B0000"), ALL], &[2])?;
    run("E4: 4 whatever the number", 10, &[on(), feed("00000007 010000"), ALL], &[4])?;
    run("n above the limit beside 0 is 2", 10, &[on(), feed("0B000000 000000"), ALL], &[2])?;
    run("2 before 3 at a chunk", 3, &[feed("04000009"), ALL], &[2])?;
    run("2 before 3 at a frame", 3, &[on(), feed("04000009 000000"), ALL], &[2])?;
    run("2 with the header alone", 3, &[feed("040000"), ALL, feed("00"), ALL], &[255, 2])?;
    run("3 only with the whole chunk", 9, &[feed("0300000541"), ALL, feed("42"), ALL, feed("43"), ALL], &[255, 255, 3])?;
    run("3 on an empty chunk", 9, &[feed("00000005"), ALL], &[3])?;
    run("3 with the byte taken by the original", 9, &[feed("0100000541"), ALL], &[3])?;
    run("a wrong-numbered frame", 20, &[on(), feed("05000007000000 01000000 41"), ALL], &[3])?;
    run("a wrong-numbered empty frame", 20, &[on(), feed("00000007000000"), ALL], &[3])?;

    run(
        "a header is kept through frames-on",
        20,
        &[feed("03000000"), ALL, on(), Drop(4), feed("07000000000000 FFFFFFFF 414243"), ALL, ALL],
        &[255, 0, 255],
    )?;
    run("a header is kept through a reset", 20, &[feed("03000000"), ALL, Reset, Alter(0, 0xff), feed("414243"), ALL], &[255, 0])?;
    run("a header is not looked at again", 20, &[feed("0300000041"), ALL, Alter(0, 0xff), Alter(3, 0xff), feed("4243"), ALL], &[255, 0])?;
    run(
        "a frame's header is not looked at again",
        20,
        &[on(), feed("0500000000000001"), ALL, Alter(0, 0xff), Alter(3, 0xff), Alter(4, 0xff), feed("000000 41"), ALL],
        &[255, 0],
    )?;
    run("a wrong number is remembered too", 20, &[feed("03000005"), ALL, Alter(3, 5), feed("414243"), ALL], &[255, 3])?;
    run("a limit met exactly", 3, &[feed("03000000414243"), ALL, ALL], &[0, 255])?;

    run(
        "sync with staging empty",
        20,
        &[on(), feed("05000000000000 01000000 41 00000001000000 00000002000000"), ALL, ALL, Sync, write(1)],
        &[0, 255, 0],
    )?;
    run(
        "sync with staging not empty does nothing",
        20,
        &[on(), feed("02000000000000 0100 05000001000000 0000 41 0100"), ALL, Sync, feed("03000002000000 000142"), ALL],
        &[0, 0],
    )?;
    run("sync without frames does nothing", 20, &[feed("0000000000000001"), ALL, ALL, Sync, write(0)], &[0, 0, 0])?;
    run(
        "on again does nothing",
        20,
        &[on(), feed("07000000000000 01000000 410200"), ALL, on(), feed("00000001000000"), ALL, on(), write(2)],
        &[0, 255, 0],
    )?;

    run("the tolerance in one frame", 20, &[on(), feed("0A000000000000 0100000041 0100000042"), ALL, ALL, ALL], &[0, 0, 255])?;
    run("a packet with 0 bytes used", 20, &[on(), feed("0A000000000000 0100000041 0100000142"), ALL, ALL, ALL], &[0, 0, 255])?;
    run(
        "the tolerance after a write",
        20,
        &[on(), write(1), feed("05000001000000 0100000141"), ALL, feed("05000002000000 0100000242"), ALL],
        &[0, 0, 0],
    )?;
    run("own number after a write in two frames", 6, &[on(), write(5), feed("05000002000000 0100000241"), ALL], &[0, 0])?;
    run("the tolerance after a write, other number", 20, &[on(), write(1), feed("05000001000000 0100000041"), ALL], &[0, 3])?;
    run(
        "the tolerance after a reset",
        20,
        &[on(), feed("05000000000000 0100000041"), ALL, Reset, feed("00000000000000 05000001000000 0100000142"), ALL],
        &[0, 0],
    )?;
    run(
        "after a reset the last frame is 255",
        20,
        &[on(), feed("07000000000000 0100000041 0100"), ALL, Reset, feed("03000000000000 000042"), ALL],
        &[0, 0],
    )?;
    run(
        "after a reset a chunk numbered 255 in staging passes",
        20,
        &[on(), feed("0A000000000000 0100000041 010000FF42"), ALL, Reset, ALL],
        &[0, 0],
    )?;
    run("the last frame's number 255 before frame 0", 20, &[on(), Reset, feed("04000000000000 000000FF"), ALL], &[3])?;
    run("empty frames are numbered", 20, &[on(), feed("00000000000000 00000001000000 05000002000000 0100000041"), ALL], &[0])?;
    run(
        "a chunk over many frames",
        1,
        &[on(), feed("01000000000000 01 01000001000000 00 01000002000000 00 01000003000000 00 01000004000000 41"), ALL],
        &[0],
    )?;
    run("a write above the limit changes nothing", 2, &[write(3), write(2), write(1), feed("0100000241"), ALL], &[2, 0, 0, 0])?;
    run(
        "a framed write above the limit changes nothing",
        2,
        &[on(), write(3), write(2), write(0), feed("00000005000000"), ALL, feed("00000005000000"), ALL],
        &[2, 0, 0, 255, 3],
    )?;
    run(
        "writing moves the number that reading expects",
        9,
        &[write(0), feed("0100000141"), ALL, write(0), feed("0100000042"), ALL],
        &[0, 0, 0, 3],
    )?;
    run("no bytes", 9, &[ALL, on(), ALL], &[255, 255])?;
    let mut wrap = vec![write(0); 255];
    wrap.extend([feed("010000FF41 0100000042 0100000143"), ALL, ALL, ALL]);
    run("255 goes to 0", 9, &wrap, &[vec![0; 255], vec![0, 0, 0]].concat())?;

    corner(ours, counts)
}

/// Two ends of the original's own: a one-chunk packet that fills two frames, twice, without and with sync.
fn corner(ours: &Ours, counts: &mut Counts) -> Result<(), String> {
    for sync in [false, true] {
        let mut sender = Published::open(6);
        sender.frames_on();
        let mut wire = BytesMut::new();
        let mut ops = vec![Op::FramesOn];
        for _ in 0..2 {
            wire.clear();
            sender.encode(b"train", &mut wire).map_err(|no| format!("corner: the original's writer answers {no}"))?;
            ops.extend([Op::Feed(wire.to_vec()), ALL]);
            if sync {
                ops.push(Op::Sync);
            }
        }
        let name = if sync { "the known corner, with sync" } else { "the known corner" };
        case(ours, name, 6, &ops, if sync { &[0, 0] } else { &[0, 3] }, counts)?;
    }
    Ok(())
}

// ---- All shapes of headers ---------------------------------------------------------------------------------------------------

fn head(len: usize, number: u8) -> Vec<u8> {
    vec![len as u8, (len >> 8) as u8, (len >> 16) as u8, number]
}

fn around(limit: usize) -> Vec<usize> {
    let mut all = vec![0, 1, 2, limit.wrapping_sub(1), limit, limit + 1, 65_536, M - 1, M];
    all.retain(|n| *n <= M);
    all.sort();
    all.dedup();
    all
}

pub fn headers(ours: &Ours, counts: &mut Counts, mut tell: impl FnMut(&str)) -> Result<(), String> {
    for limit in [1, 2, 3, 4, 5, 7, 8, 11, 250, 65_535, M - 1, M, M + 1, 1 << 30] {
        let starts: &[usize] = if limit == 5 { &[0, 1, 255] } else { &[0, 1] };
        for &writes in starts {
            chunk_headers(ours, limit, writes, counts)?;
            frame_headers(ours, limit, writes, counts)?;
        }
        tell("headers");
    }
    Ok(())
}

fn run(ours: &Ours, limit: usize, framed: bool, writes: usize, ops: &[Op], counts: &mut Counts) -> Result<(), String> {
    let mut all = Vec::new();
    if framed {
        all.push(Op::FramesOn);
    }
    all.extend((0..writes).map(|_| Op::Write(Vec::new())));
    all.extend_from_slice(ops);
    counts.note("header shapes");
    crate::session::replay::<Published>(ours, limit, &all, counts).map_err(|(at, why)| {
        let lines: Vec<String> = all[writes..=at].iter().map(Op::show).collect();
        format!("header shape: limit {limit} framed {framed} after {writes} empty writes\n    {}\n  {why}", lines.join("\n    "))
    })
}

fn chunk_headers(ours: &Ours, limit: usize, writes: usize, counts: &mut Counts) -> Result<(), String> {
    let base = writes as u8;
    for len in around(limit) {
        for number in [base, base.wrapping_add(1), base.wrapping_sub(1), base ^ 0x80] {
            let mut whole = head(len, number);
            whole.extend((0..len.min(70_000)).map(|i| i as u8));
            whole.extend(head(1, number.wrapping_add(1)));
            whole.push(9);
            for n in [0, 3, 4, 5, 3 + len, 4 + len, whole.len()] {
                if n <= whole.len() {
                    let one = [Op::Feed(whole[..n].to_vec()), ALL, ALL, ALL];
                    run(ours, limit, false, writes, &one, counts)?;
                    let two = [Op::Feed(whole[..n.min(4)].to_vec()), ALL, Op::Feed(whole[n.min(4)..].to_vec()), ALL, ALL, ALL];
                    run(ours, limit, false, writes, &two, counts)?;
                }
            }
        }
    }
    Ok(())
}

fn frame_headers(ours: &Ours, limit: usize, writes: usize, counts: &mut Counts) -> Result<(), String> {
    let per_write = 4usize.div_ceil(limit.min(M));
    let base = (writes * per_write) as u8;
    for len in around(limit) {
        for plain in around(limit) {
            for number in [base, base.wrapping_add(1), base.wrapping_sub(1)] {
                let mut whole = head(len, number);
                whole.extend(&head(plain, 0)[..3]);
                if len > 0 && plain == 0 && len <= 70_000 {
                    // A chunk that fills the frame: its own number, the frame's, or another.
                    for chunk in [base, base.wrapping_sub(1), base.wrapping_add(7)] {
                        let mut w = whole.clone();
                        w.extend(head(len.saturating_sub(4), chunk));
                        w.extend((4..len).map(|i| i as u8));
                        w.truncate(7 + len);
                        for n in [7, 8, 6 + len, 7 + len] {
                            run(ours, limit, true, writes, &[Op::Feed(w[..n.min(w.len())].to_vec()), ALL, ALL, ALL], counts)?;
                        }
                        let two = [Op::Feed(w[..7].to_vec()), ALL, Op::Feed(w[7..].to_vec()), ALL, Op::Sync, ALL];
                        run(ours, limit, true, writes, &two, counts)?;
                    }
                } else {
                    for n in [0, 6, 7] {
                        run(ours, limit, true, writes, &[Op::Feed(whole[..n].to_vec()), ALL, ALL], counts)?;
                    }
                }
            }
        }
    }
    Ok(())
}

// ---- Packets of full chunks --------------------------------------------------------------------------------------------------

/// Packets around M and 2M, written by both, and read back from what the original wrote.
pub fn big(ours: &Ours, counts: &mut Counts, mut tell: impl FnMut(&str)) -> Result<(), String> {
    let mut rng = Rng::new(99);
    for (limit, framed, sizes) in [
        (1 << 30, false, &[M - 1, M, M + 1, 2 * M, 2 * M + 3][..]),
        (M, false, &[M - 1, M, M + 1]),
        (M + 1, true, &[M - 4, M - 3, M, M + 1]),
        (M - 1, true, &[M - 1, M]),
        (5_000_000, true, &[4_999_996, 4_999_997, 5_000_000]),
    ] {
        let mut live = Live::<Published>::open(ours, limit);
        let mut sender = Published::open(limit);
        if framed {
            live.step(&Op::FramesOn, counts)?;
            sender.frames_on();
        }
        for &n in sizes {
            let name = format!("packet of {n} bytes, limit {limit}, framed {framed}");
            let packet = rng.bytes(n);
            let mut wire = BytesMut::new();
            let whole = sender.encode(&packet, &mut wire).is_ok();
            let mut end = Live::<Published>::open(ours, limit);
            if framed {
                end.step(&Op::FramesOn, counts)?;
            }
            end.step(&Op::Write(packet), counts).map_err(|why| format!("{name}: {}", short(&why)))?;
            if !whole {
                continue;
            }
            let mut fed = 0;
            let cut = [5, M, wire.len() - wire.len().min(3), wire.len()];
            for to in cut {
                if to <= fed || to > wire.len() {
                    continue;
                }
                live.step(&Op::Feed(wire[fed..to].to_vec()), counts)?;
                fed = to;
                live.step(&ALL, counts).map_err(|why| format!("{name}: {}", short(&why)))?;
            }
            if live.answered.status != 0 {
                return Err(format!("{name}: both sides answered {} at the end", live.answered.status));
            }
            // The known corner: a packet in several frames leaves the plain numbers apart.
            live.step(&Op::Sync, counts)?;
            counts.note("packets around M");
            tell("packets around M");
        }
    }
    Ok(())
}

fn short(why: &str) -> String {
    why.chars().take(600).collect()
}

// ---- Small m -----------------------------------------------------------------------------------------------------------------

/// E1, E2 and E3: the original at m = 3 and the definition, byte for byte.
pub fn marked(wrong: u32, counts: &mut Counts) -> Result<(), String> {
    for (name, start, packet, wanted, next) in [
        ("E1", 254, &b"ABCDEFG"[..], "03 00 00 FE 41 42 43 03 00 00 FF 44 45 46 01 00 00 00 47", 1),
        ("E2", 254, b"ABC", "03 00 00 FE 41 42 43 00 00 00 FF", 0),
        ("E3", 5, b"", "00 00 00 05", 6),
    ] {
        let mut rust = Three::open(100);
        let mut ours = Model::new(100, 3, wrong);
        let (mut a, mut b) = (BytesMut::new(), Vec::new());
        for _ in 0..start {
            rust.encode(&[], &mut a).map_err(|no| format!("{name}: {no}"))?;
            ours.write(&[], usize::MAX, &mut b);
        }
        a.clear();
        b.clear();
        rust.encode(packet, &mut a).map_err(|no| format!("{name}: {no}"))?;
        ours.write(packet, usize::MAX, &mut b);
        let mut look = Default::default();
        rust.look(&mut String::new(), &mut look);
        counts.op("marked examples");
        if a[..] != bytes(wanted) || b != bytes(wanted) || look.number != next || ours.number != next {
            return Err(format!(
                "{name}: wanted {wanted} next {next}; the original {} next {}; the definition {} next {}",
                hex(&a),
                look.number,
                hex(&b),
                ours.number
            ));
        }
    }
    Ok(())
}

/// Every length up to 30 at each m, plain and framed at small limits: written by the original and by the definition.
pub fn small_writes(wrong: u32, counts: &mut Counts) -> Result<(), String> {
    fn one<O: Original>(wrong: u32, counts: &mut Counts) -> Result<(), String> {
        let side = Ours::definition(wrong);
        for limit in 1..=30 {
            for framed in [false, true] {
                let mut ops = vec![];
                if framed {
                    ops.push(Op::FramesOn);
                }
                for n in 0..=limit + 1 {
                    ops.push(Op::Write((0..n as u8).collect()));
                }
                crate::session::replay::<O>(&side, limit, &ops, counts)
                    .map_err(|(i, why)| format!("m {} limit {limit} framed {framed} {}: {why}", O::M, ops[i].show()))?;
            }
        }
        Ok(())
    }
    one::<Three>(wrong, counts)?;
    one::<Seven>(wrong, counts)
}

// ---- What lies outside the original's domain --------------------------------------------------------------------------------

/// Ours against the definition where the original has no say: short buffers, packed frames, refused limits, calls after a refusal.
pub fn outside(ours: &Ours, rng: &mut Rng, counts: &mut Counts) -> Result<(), String> {
    let limit = match rng.below(30) {
        0 => 0,
        1 => (1 << 30) + rng.from_to(1, 9),
        _ => rng.from_to(1, 24),
    };
    let most = limit.min(64);
    let (staging, packet) = (rng.below(2 * most + 6), rng.below(most + 2));
    let definition = Ours::definition(0);
    let mut a = Codec::open_with(ours, limit, M, staging, packet);
    let mut b = Codec::open_with(&definition, limit, M, staging, packet);
    let mut log = vec![format!("open limit {limit} staging {staging} packet {packet}")];
    let mut src: Vec<u8> = Vec::new();
    let (mut x, mut y) = (Vec::new(), Vec::new());
    let tell = |log: &[String], what: String| Err(format!("outside: {}\n  {what}", log.join("\n    ")));
    if a.opened != b.opened {
        return tell(&log, format!("opening answers {}, wanted {}", a.opened, b.opened));
    }
    for _ in 0..rng.from_to(3, 40) {
        let look = b.look();
        if look.closed && rng.chance(1, 3) {
            break;
        }
        counts.op("outside");
        match rng.below(16) {
            0 => {
                log.push("frames on".into());
                a.frames_on();
                b.frames_on();
            }
            1 => {
                log.push("reset".into());
                a.reset_seq_id();
                b.reset_seq_id();
            }
            2 => {
                log.push("sync".into());
                a.sync_seq_id();
                b.sync_seq_id();
            }
            3..=5 => {
                let n = rng.below(most + 2);
                let p = rng.bytes(n);
                let room = rng.below(3 * n + 30);
                log.push(format!("write {} into {room}", hex(&p)));
                let (no, wanted) = (a.write(&p, room, &mut x), b.write(&p, room, &mut y));
                counts.answer("outside", no);
                if no != wanted || no == 0 && x != y {
                    return tell(&log, format!("ours {no} {}, wanted {wanted} {}", hex(&x), hex(&y)));
                }
            }
            6..=9 => {
                let n = rng.below(most + 1);
                let mut bytes = head(n, if rng.chance(1, 20) { rng.byte() } else { look.number });
                rng.fill(&mut bytes, n);
                if look.framed {
                    let mut frame = look.frame;
                    for part in bytes.chunks(limit.max(1)) {
                        src.extend(head(part.len(), frame));
                        src.extend(if rng.chance(1, 25) { [1, 0, 0] } else { [0; 3] });
                        src.extend_from_slice(part);
                        frame = frame.wrapping_add(1);
                    }
                } else {
                    src.extend(bytes);
                }
            }
            10 => {
                let (s, p) = (rng.below(2 * most + 6).max(look.unread), rng.from_to(packet, most.max(packet)));
                log.push(format!("buffers of {s} and {p}"));
                a.resize(s, p);
                b.resize(s, p);
            }
            _ => {
                let n = if rng.chance(1, 2) { src.len() } else { rng.below(src.len() + 1) };
                log.push(format!("read {}", hex(&src[..n])));
                let (got, wanted) = (a.read(&src[..n]), b.read(&src[..n]));
                counts.answer("outside", got.0);
                let k = b.look().unread;
                if got != wanted || a.packet != b.packet || a.look().unread != k || a.staging[..k] != b.staging[..k] {
                    return tell(
                        &log,
                        format!(
                            "ours {got:?} packet {} {:?}, wanted {wanted:?} packet {} {:?}",
                            hex(&a.packet),
                            a.look(),
                            hex(&b.packet),
                            b.look()
                        ),
                    );
                }
                src.drain(..got.1);
            }
        }
        let (p, q) = (a.look(), b.look());
        if p.closed != q.closed || !p.closed && p != q || p.closed && a.opened == 0 && (p.number, p.framed) != (q.number, q.framed) {
            return tell(&log, format!("ours {p:?}, wanted {q:?}"));
        }
    }
    Ok(())
}
