//! Vectors for replaying elsewhere: what the original answered, a line each. README.md says the format.

use crate::{
    count::Counts,
    model::Val,
    original::Published,
    ours::{Codec, Ours, room_for},
    rng::Rng,
    session::{Live, Op, Peer},
    values,
};
use mysql_common::{io::ParseBuf, value::Value};
use std::{fmt::Write, process::ExitCode};

/// A line: the operation's number and its fields, each a string of bytes in hex, `-` for none.
struct Line(String);

impl Line {
    fn new(op: u8) -> Self {
        Self(format!("{op:02X}"))
    }

    fn bytes(mut self, b: &[u8]) -> Self {
        self.0.push(' ');
        if b.is_empty() {
            self.0.push('-');
        }
        for x in b {
            write!(self.0, "{x:02X}").expect("a string takes it");
        }
        self
    }

    fn byte(self, b: u8) -> Self {
        self.bytes(&[b])
    }

    /// A place or a length.
    fn size(self, n: usize) -> Self {
        self.bytes(&(n as u32).to_le_bytes())
    }
}

fn payload(v: &Value, place: usize) -> (u8, Vec<u8>) {
    match v {
        Value::NULL => (0, vec![]),
        Value::Bytes(b) => (1, [(place as u32).to_le_bytes(), (b.len() as u32).to_le_bytes()].concat()),
        Value::Int(x) => (2, x.to_le_bytes().to_vec()),
        Value::UInt(x) => (3, x.to_le_bytes().to_vec()),
        Value::Float(x) => (4, x.to_bits().to_le_bytes().to_vec()),
        Value::Double(x) => (5, x.to_bits().to_le_bytes().to_vec()),
        Value::Date(y, mo, d, h, mi, s, us) => (6, [&y.to_le_bytes()[..], &[*mo, *d, *h, *mi, *s], &us.to_le_bytes()[..]].concat()),
        Value::Time(neg, d, h, mi, s, us) => (7, [&[*neg as u8][..], &d.to_le_bytes()[..], &[*h, *mi, *s], &us.to_le_bytes()[..]].concat()),
    }
}

fn val_payload(v: &Val, text: &[u8]) -> (u8, Vec<u8>) {
    match *v {
        Val::Null => (0, vec![]),
        Val::Bytes(..) => (1, text.to_vec()),
        Val::Int(x) => (2, x.to_le_bytes().to_vec()),
        Val::UInt(x) => (3, x.to_le_bytes().to_vec()),
        Val::Float(x) => (4, x.to_le_bytes().to_vec()),
        Val::Double(x) => (5, x.to_le_bytes().to_vec()),
        Val::Date(y, mo, d, h, mi, s, us) => (6, [&y.to_le_bytes()[..], &[mo, d, h, mi, s], &us.to_le_bytes()[..]].concat()),
        Val::Time(neg, d, h, mi, s, us) => (7, [&[neg as u8][..], &d.to_le_bytes()[..], &[h, mi, s], &us.to_le_bytes()[..]].concat()),
    }
}

/// A value, an integer, a string or a quoted text; None where the original's answer is a known difference.
fn single(rng: &mut Rng) -> Option<Line> {
    let at = if rng.chance(1, 2) { 0 } else { rng.below(6) };
    let mut s = rng.bytes(at);
    let kind = rng.below(20);
    let column_type = if rng.chance(1, 20) { rng.byte() } else { *rng.pick(values::LISTED) };
    match kind {
        0..=1 => mysql_common::io::BufMutExt::put_lenenc_int(&mut s, values::number(rng)),
        2..=3 => values::value_bytes(253, &mut s, rng),
        4..=11 => values::value_bytes(column_type, &mut s, rng),
        _ => {}
    }
    match rng.below(5) {
        0 if s.len() > at => s.truncate(rng.from_to(at, s.len() - 1)),
        1 => s.push(rng.byte()),
        _ => {}
    }
    if s.len() > 400 || kind < 4 && matches!(s.get(at), Some(0xfb | 0xff)) {
        return None;
    }
    let rest = &s[at..];
    Some(match kind {
        0..=1 => {
            let line = Line::new(1).bytes(&s).size(at);
            let mut buf = ParseBuf(rest);
            match buf.checked_eat_lenenc_int() {
                Some(v) => line.byte(0).bytes(&v.to_le_bytes()).size(s.len() - buf.len()),
                None => line.byte(8).bytes(&[]).bytes(&[]),
            }
        }
        2..=3 => {
            let line = Line::new(2).bytes(&s).size(at);
            let mut buf = ParseBuf(rest);
            match buf.checked_eat_lenenc_str() {
                Some(v) => line.byte(0).size(s.len() - buf.len() - v.len()).size(v.len()),
                None => line.byte(8).bytes(&[]).bytes(&[]),
            }
        }
        4..=11 => {
            let is_unsigned = rng.chance(1, 2) as u8;
            if values::is_string(column_type) && matches!(rest.first(), Some(0xfb | 0xff)) {
                return None;
            }
            let line = Line::new(3).bytes(&s).size(at).byte(column_type).byte(is_unsigned);
            match values::rust_value(rest, column_type, is_unsigned == 1) {
                Ok((v, used)) => {
                    let len = if let Value::Bytes(b) = &v { b.len() } else { 0 };
                    let (kind, p) = payload(&v, at + used - len);
                    line.byte(0).byte(kind).bytes(&p).size(at + used)
                }
                Err(no) => line.byte(no).bytes(&[]).bytes(&[]).bytes(&[]),
            }
        }
        12 => {
            // The original's text reader runs on nothing and on 0xFB alone.
            let null = rng.chance(1, 2);
            s.truncate(at);
            if null {
                s.push(0xfb);
            }
            let line = Line::new(4).bytes(&s).size(at);
            if null { line.byte(0).byte(0).bytes(&[]).size(at + 1) } else { line.byte(8).bytes(&[]).bytes(&[]).bytes(&[]) }
        }
        13..=14 => {
            let v = values::number(rng);
            let mut out = Vec::new();
            mysql_common::io::BufMutExt::put_lenenc_int(&mut out, v);
            Line::new(5).bytes(&v.to_le_bytes()).bytes(&out)
        }
        15..=17 => {
            let (v, text) = values::random_val(rng);
            if text.len() > 300 {
                return None;
            }
            let (kind, p) = val_payload(&v, &text);
            Line::new(6).byte(kind).bytes(&p).bytes(&values::rust_put(&v, &text))
        }
        _ => {
            let text = values::utf8(rng);
            let flag = rng.chance(1, 2);
            if text.len() > 300 {
                return None;
            }
            Line::new(7).bytes(text.as_bytes()).byte(flag as u8).bytes(&values::rust_escaped(&text, flag))
        }
    })
}

/// The calls of a connection. The definition runs beside the original, so that a list never holds what the two disagree on.
fn connection(rng: &mut Rng, out: &mut Vec<String>) -> Result<(), String> {
    let limit = if rng.chance(1, 8) { rng.from_to(60, 200) } else { rng.from_to(1, 30) };
    let mut counts = Counts::default();
    let mut live = Live::<Published>::open(&Ours::definition(0), limit);
    let mut peer = Peer::new(limit, crate::model::M, rng);
    out.push(Line::new(0x10).size(limit).0);
    let framed = rng.chance(3, 5);
    for i in 0..rng.from_to(4, 24) {
        let op = if i == 0 && framed { Op::FramesOn } else { peer.op(&live, rng) };
        let turned_on = op == Op::FramesOn && !live.look.framed;
        live.step(&op, &mut counts)?;
        let a = &live.answered;
        let line = match &op {
            Op::FramesOn => Line::new(0x11),
            Op::Reset => Line::new(0x12),
            Op::Sync => Line::new(0x13),
            Op::Write(p) => Line::new(0x14).bytes(p).byte(a.status).bytes(&a.bytes),
            // A packed frame: outside, so the connection ends before it.
            Op::Read(_) if live.over && a.lent.is_empty() && a.status == 0 => return Ok(()),
            Op::Read(_) => Line::new(0x15).bytes(&a.lent).byte(a.status).size(a.used).bytes(&a.bytes),
            _ => continue,
        };
        let look = &live.look;
        let line = line.byte(look.number).byte(look.frame);
        // After a refusal the original's unread bytes are not ours.
        let line = if live.over { line.bytes(&[]) } else { line.bytes(&look.unread) };
        out.push(line.0);
        if turned_on {
            live.step(&Op::Drop(live.src.len()), &mut counts)?;
            peer.framed_now(&live.look, rng);
        }
        if live.over {
            return Ok(());
        }
    }
    Ok(())
}

pub fn print(n: u64, seed: u64) -> ExitCode {
    let mut rng = Rng::new(seed.wrapping_mul(31).wrapping_add(5));
    let mut out = Vec::new();
    while (out.len() as u64) < n {
        if rng.chance(1, 12) {
            if let Err(why) = connection(&mut rng, &mut out) {
                eprintln!("the original and the definition differ: {why}");
                return ExitCode::FAILURE;
            }
        } else if let Some(line) = single(&mut rng) {
            out.push(line.0);
        }
    }
    out.truncate(n as usize);
    let mut text = out.join("\n");
    text.push('\n');
    print!("{text}");
    ExitCode::SUCCESS
}

// ---- A list again, against our side ------------------------------------------------------------------------------------------

fn field(text: &str) -> Option<Vec<u8>> {
    if text == "-" {
        return Some(Vec::new());
    }
    if text.len() % 2 != 0 || !text.is_ascii() {
        return None;
    }
    (0..text.len() / 2).map(|i| u8::from_str_radix(&text[2 * i..2 * i + 2], 16).ok()).collect()
}

fn number(b: &[u8]) -> u64 {
    b.iter().rev().fold(0, |v, x| v << 8 | *x as u64)
}

/// The line that our side's answers make of a line's inputs.
fn again(ours: &Ours, codec: &mut Option<(Codec, usize)>, op: u8, f: &[Vec<u8>]) -> Option<String> {
    let shown = |codec: &Codec, line: Line| {
        let look = codec.look();
        let line = line.byte(look.number).byte(if look.framed { look.frame } else { 0 });
        if look.closed { line.bytes(&[]) } else { line.bytes(&codec.staging[..look.unread]) }
    };
    let value = |line: Line, answer: Result<(Val, usize), u8>, s: &[u8]| match answer {
        Ok((v, next)) => {
            let (kind, mut p) = val_payload(&v, &[]);
            if let Val::Bytes(place, len) = v {
                assert!(place + len <= s.len());
                p = [(place as u32).to_le_bytes(), (len as u32).to_le_bytes()].concat();
            }
            line.byte(0).byte(kind).bytes(&p).size(next)
        }
        Err(no) => line.byte(no).bytes(&[]).bytes(&[]).bytes(&[]),
    };
    let line = Line::new(op);
    Some(
        match op {
            1 => {
                let line = line.bytes(&f[0]).bytes(&f[1]);
                match ours.lenenc_int(&f[0], number(&f[1]) as usize) {
                    Ok((v, next)) => line.byte(0).bytes(&v.to_le_bytes()).size(next),
                    Err(no) => line.byte(no).bytes(&[]).bytes(&[]),
                }
            }
            2 => {
                let line = line.bytes(&f[0]).bytes(&f[1]);
                match ours.lenenc_str(&f[0], number(&f[1]) as usize) {
                    Ok(((place, len), _)) => line.byte(0).size(place).size(len),
                    Err(no) => line.byte(no).bytes(&[]).bytes(&[]),
                }
            }
            3 => {
                let line = line.bytes(&f[0]).bytes(&f[1]).bytes(&f[2]).bytes(&f[3]);
                value(line, ours.read_value(&f[0], number(&f[1]) as usize, f[2][0], f[3][0]), &f[0])
            }
            4 => value(line.bytes(&f[0]).bytes(&f[1]), ours.read_text(&f[0], number(&f[1]) as usize), &f[0]),
            5 => {
                let mut dst = [0; 9];
                let n = ours.put_lenenc_int(number(&f[0]), &mut dst, 0).ok()?;
                line.bytes(&f[0]).bytes(&dst[..n])
            }
            6 => {
                let p = &f[1];
                let v = match f[0][0] {
                    0 => Val::Null,
                    1 => Val::Bytes(0, p.len()),
                    2 => Val::Int(number(p) as i64),
                    3 => Val::UInt(number(p)),
                    4 => Val::Float(number(p) as u32),
                    5 => Val::Double(number(p)),
                    6 => Val::Date(number(&p[..2]) as u16, p[2], p[3], p[4], p[5], p[6], number(&p[7..]) as u32),
                    7 => Val::Time(p[0] == 1, number(&p[1..5]) as u32, p[5], p[6], p[7], number(&p[8..]) as u32),
                    _ => return None,
                };
                let mut dst = vec![0; p.len() + 20];
                let n = ours.put_value(&v, p, &mut dst, 0).ok()?;
                line.bytes(&f[0]).bytes(p).bytes(&dst[..n])
            }
            7 => {
                let mut dst = vec![0; 2 * f[0].len() + 2];
                let n = ours.escaped(&f[0], f[1][0], &mut dst, 0).ok()?;
                line.bytes(&f[0]).bytes(&f[1]).bytes(&dst[..n])
            }
            0x10 => {
                let limit = number(&f[0]) as usize;
                *codec = Some((Codec::open(ours, limit, crate::model::M), limit));
                line.bytes(&f[0])
            }
            _ => {
                let (c, limit) = codec.as_mut()?;
                let line = match op {
                    0x11 => {
                        c.frames_on();
                        line
                    }
                    0x12 => {
                        c.reset_seq_id();
                        line
                    }
                    0x13 => {
                        c.sync_seq_id();
                        line
                    }
                    0x14 => {
                        let mut out = Vec::new();
                        let room = room_for(f[0].len(), *limit, crate::model::M, c.look().framed);
                        let no = c.write(&f[0], room, &mut out);
                        line.bytes(&f[0]).byte(no).bytes(&out)
                    }
                    0x15 => {
                        let (no, used, len) = c.read(&f[0]);
                        let packet = c.packet[..len].to_vec();
                        line.bytes(&f[0]).byte(no).size(used).bytes(&packet)
                    }
                    _ => return None,
                };
                shown(c, line)
            }
        }
        .0,
    )
}

pub fn replay(path: &str, ours: &Ours) -> ExitCode {
    let text = match std::fs::read_to_string(path) {
        Ok(text) => text,
        Err(why) => {
            eprintln!("{path}: {why}");
            return ExitCode::from(2);
        }
    };
    let mut codec = None;
    let mut per = [0u64; 256];
    for (i, line) in text.lines().enumerate() {
        let mut words = line.split(' ');
        let op = words.next().and_then(|w| u8::from_str_radix(w, 16).ok());
        let fields: Option<Vec<Vec<u8>>> = words.map(field).collect();
        let (Some(op), Some(fields)) = (op, fields) else {
            println!("line {}: not a vector: {line}", i + 1);
            return ExitCode::FAILURE;
        };
        per[op as usize] += 1;
        match again(ours, &mut codec, op, &fields) {
            Some(mine) if mine == line => {}
            mine => {
                println!("line {}: wanted {line}\n        ours {}", i + 1, mine.unwrap_or("nothing".into()));
                return ExitCode::FAILURE;
            }
        }
    }
    let counts: Vec<String> = (0..256).filter(|i| per[*i] > 0).map(|i| format!("{i:02X}: {}", per[i])).collect();
    println!("{} lines replayed, no difference ({})", text.lines().count(), counts.join(", "));
    ExitCode::SUCCESS
}
