//! The rules as a plain definition, over a piece size m: what small m is compared with, what says the answer where the original has
//! none (room, packed, closed), and, with one rule changed (`wrong`), what shows that the comparison can fail.

use crate::wrong::*;

pub const M: usize = 16_777_215;
pub const MAX_LIMIT: usize = 1_073_741_824;
pub const NEED_MORE: u8 = 255;

fn u24(s: &[u8]) -> usize {
    s[0] as usize | (s[1] as usize) << 8 | (s[2] as usize) << 16
}

fn put_u24(out: &mut Vec<u8>, n: usize) {
    out.extend_from_slice(&[n as u8, (n >> 8) as u8, (n >> 16) as u8]);
}

// ---- Chunks and frames -----------------------------------------------------------------------------------------------------

/// The chunks of a packet, and the number after them.
pub fn chunks(m: usize, mut number: u8, packet: &[u8], wrong: u32, out: &mut Vec<u8>) -> u8 {
    let mut rest = packet;
    loop {
        let n = rest.len().min(m);
        if n == 0 && !packet.is_empty() && wrong == NO_EMPTY_LAST_CHUNK {
            return number;
        }
        put_u24(out, n);
        out.push(number);
        out.extend_from_slice(&rest[..n]);
        number = number.wrapping_add(1);
        rest = &rest[n..];
        if n < m {
            return number;
        }
    }
}

#[derive(Clone, Debug, PartialEq)]
pub struct Model {
    pub m: usize,
    pub limit: usize,
    pub closed: bool,
    pub framed: bool,
    pub number: u8,
    pub frame: u8,
    pub taken: usize,
    pub chunk_head: Option<(usize, u8)>,
    pub frame_head: Option<(usize, u8)>,
    pub unread: Vec<u8>,
    pub wrong: u32,
}

enum Turn {
    Packet,
    More,
    Refused(u8),
}

impl Model {
    pub fn new(limit: usize, m: usize, wrong: u32) -> Self {
        Self {
            m,
            limit,
            closed: limit == 0 || limit > MAX_LIMIT,
            framed: false,
            number: 0,
            frame: 0,
            taken: 0,
            chunk_head: None,
            frame_head: None,
            unread: Vec::new(),
            wrong,
        }
    }

    pub fn frames_on(&mut self) {
        if !self.framed || self.wrong == ON_AGAIN_RESTARTS {
            self.framed = true;
            self.frame = 0;
            self.unread.clear();
            if self.wrong == FRAMES_ON_FORGETS_HEADER {
                self.chunk_head = None;
            }
        }
    }

    pub fn reset_seq_id(&mut self) {
        self.number = 0;
        if self.wrong != RESET_KEEPS_FRAME_NUMBER {
            self.frame = 0;
        }
        if self.wrong == RESET_FORGETS_HEADER {
            self.chunk_head = None;
            self.frame_head = None;
        }
    }

    pub fn sync_seq_id(&mut self) {
        if self.framed && (self.unread.is_empty() || self.wrong == SYNC_WITH_UNREAD) {
            self.number = self.frame;
        }
    }

    /// The plain reader on `src` from `at` on.
    fn plain(&mut self, src: &[u8], at: &mut usize, last_frame: Option<u8>, packet: &mut [u8]) -> Turn {
        loop {
            let rest = &src[*at..];
            let held = self.chunk_head.is_some();
            let (len, number) = match self.chunk_head {
                Some(h) if self.wrong != HEADER_LOOKED_AT_AGAIN || rest.len() < 4 => h,
                _ if rest.len() < 4 => return Turn::More,
                _ => (u24(rest), rest[3]),
            };
            let fits = self.number == number
                || last_frame == Some(number) && self.wrong != NO_TOLERANCE
                || last_frame.is_some() && self.wrong == TOLERANCE_ANY_NUMBER;
            if len > 0 && !held {
                if !fits && self.wrong == SYNC_BEFORE_LARGE {
                    return Turn::Refused(3);
                }
                let most = self.limit + (self.wrong == LIMIT_ONE_HIGHER) as usize;
                if self.taken + len > most {
                    return Turn::Refused(2);
                }
                self.chunk_head = Some((len, number));
            }
            if rest.len() < 4 + len {
                return Turn::More;
            }
            if !fits {
                return Turn::Refused(3);
            }
            if self.taken + len > packet.len() {
                return Turn::Refused(6);
            }
            packet[self.taken..self.taken + len].copy_from_slice(&rest[4..4 + len]);
            *at += 4 + len;
            self.chunk_head = None;
            self.taken += len;
            self.number = if self.wrong == TOLERANCE_KEEPS_NUMBER { self.number.wrapping_add(1) } else { number.wrapping_add(1) };
            if len != self.m || self.wrong == FULL_CHUNK_IS_LAST {
                return Turn::Packet;
            }
            if *at == src.len() {
                return Turn::More;
            }
        }
    }

    /// One frame of `src` from `at` on; true if it was taken.
    fn frame(&mut self, src: &[u8], at: &mut usize, staging: usize) -> Result<bool, u8> {
        let rest = &src[*at..];
        let (len, number) = match self.frame_head {
            Some(h) => h,
            None if rest.len() < 7 => return Ok(false),
            None => {
                let (len, plain) = (u24(rest), u24(&rest[4..]));
                let bad = len == 0 && plain > 0;
                if bad && self.wrong == BAD_HEADER_BEFORE_LARGE {
                    return Err(4);
                }
                if len > self.limit || plain > self.limit {
                    return Err(2);
                }
                if bad {
                    return Err(if self.wrong == BAD_HEADER_IS_SYNC { 3 } else { 4 });
                }
                if plain > 0 {
                    return Err(5);
                }
                if len > 0 {
                    self.frame_head = Some((len, rest[3]));
                }
                (len, rest[3])
            }
        };
        if rest.len() < 7 + len {
            return Ok(false);
        }
        if number != self.frame {
            return Err(3);
        }
        if self.unread.len() + len > staging {
            return Err(6);
        }
        self.unread.extend_from_slice(&rest[7..7 + len]);
        *at += 7 + len;
        self.frame_head = None;
        if len > 0 || self.wrong != EMPTY_FRAME_NOT_COUNTED {
            self.frame = self.frame.wrapping_add(1);
        }
        Ok(true)
    }

    /// The status, the bytes used and, for a packet, its length.
    pub fn read(&mut self, src: &[u8], staging: usize, packet: &mut [u8]) -> (u8, usize, usize) {
        if self.closed {
            return (7, 0, 0);
        }
        if self.framed && staging < self.unread.len() {
            return (6, 0, 0);
        }
        let mut used = 0;
        let turn = if self.framed { self.rounds(src, &mut used, staging, packet) } else { self.plain(src, &mut used, None, packet) };
        match turn {
            Turn::Packet => {
                let len = self.taken;
                self.taken = 0;
                (0, used, len)
            }
            Turn::More => (NEED_MORE, used, 0),
            Turn::Refused(no) => {
                self.closed = no != 6;
                (no, used, 0)
            }
        }
    }

    fn rounds(&mut self, src: &[u8], used: &mut usize, staging: usize, packet: &mut [u8]) -> Turn {
        loop {
            if !self.unread.is_empty() {
                let unread = std::mem::take(&mut self.unread);
                let mut at = 0;
                let turn = self.plain(&unread, &mut at, Some(self.frame.wrapping_sub(1)), packet);
                self.unread = unread;
                self.unread.drain(..at);
                if !matches!(turn, Turn::More) {
                    return turn;
                }
            }
            match self.frame(src, used, staging) {
                Ok(true) => {}
                Ok(false) => return Turn::More,
                Err(no) => return Turn::Refused(no),
            }
        }
    }

    pub fn write(&mut self, packet: &[u8], room: usize, out: &mut Vec<u8>) -> u8 {
        if self.closed {
            return 7;
        }
        if packet.len() > self.limit {
            return 2;
        }
        let mut stream = Vec::new();
        let number = chunks(self.m, self.number, packet, self.wrong, &mut stream);
        let start = out.len();
        if !self.framed {
            if stream.len() > room {
                return 6;
            }
            out.extend_from_slice(&stream);
            self.number = number;
            return 0;
        }
        let piece = if self.wrong == PIECES_OF_M { self.m } else { self.m.min(self.limit) };
        let mut frame = self.frame;
        for part in stream.chunks(piece) {
            put_u24(out, part.len());
            out.push(frame);
            put_u24(out, 0);
            out.extend_from_slice(part);
            frame = frame.wrapping_add(1);
        }
        if out.len() - start > room {
            out.truncate(start);
            return 6;
        }
        self.frame = frame;
        self.number = if self.wrong == WRITE_KEEPS_PLAIN_NUMBER { number } else { frame };
        0
    }
}

// ---- Values ----------------------------------------------------------------------------------------------------------------

#[derive(Clone, Copy, PartialEq, Debug)]
pub enum Val {
    Null,
    /// Place and length.
    Bytes(usize, usize),
    Int(i64),
    UInt(u64),
    Float(u32),
    Double(u64),
    Date(u16, u8, u8, u8, u8, u8, u32),
    Time(bool, u32, u8, u8, u8, u32),
}

/// A value and the place behind it, or a refusal.
pub type Answer<T> = Result<(T, usize), u8>;

fn le(s: &[u8], at: usize, n: usize) -> Answer<u64> {
    if at > s.len() || s.len() - at < n {
        return Err(8);
    }
    Ok((s[at..at + n].iter().rev().fold(0, |v, b| v << 8 | *b as u64), at + n))
}

pub fn lenenc_int(wrong: u32, s: &[u8], at: usize) -> Answer<u64> {
    let (lead, next) = le(s, at, 1)?;
    match lead {
        0xfb if wrong == LENENC_FB_IS_ZERO => Ok((0, next)),
        0xfb | 0xff => Err(9),
        0xfc => le(s, next, 2),
        0xfd => le(s, next, 3),
        0xfe => le(s, next, if wrong == LENENC_FE_IS_FOUR { 4 } else { 8 }),
        _ => Ok((lead, next)),
    }
}

pub fn lenenc_str(wrong: u32, s: &[u8], at: usize) -> Answer<(usize, usize)> {
    let (len, place) = lenenc_int(wrong, s, at)?;
    if len > (s.len() - place) as u64 {
        return Err(8);
    }
    Ok(((place, len as usize), place + len as usize))
}

pub fn put_lenenc_int(wrong: u32, v: u64, out: &mut Vec<u8>) {
    let small = if wrong == LENENC_251_IN_ONE { 251 } else { 250 };
    if v <= small {
        return out.push(v as u8);
    }
    let (lead, n) = match v {
        0..=0xffff => (0xfc, 2),
        0x1_0000..=0xff_ffff => (0xfd, 3),
        _ => (0xfe, 8),
    };
    out.push(lead);
    out.extend_from_slice(&v.to_le_bytes()[..n]);
}

pub fn read_text(wrong: u32, s: &[u8], at: usize) -> Answer<Val> {
    if at < s.len() && s[at] == 0xfb {
        return if wrong == TEXT_FB_IS_EMPTY { Ok((Val::Bytes(at + 1, 0), at + 1)) } else { Ok((Val::Null, at + 1)) };
    }
    let ((place, len), next) = lenenc_str(wrong, s, at)?;
    Ok((Val::Bytes(place, len), next))
}

fn field(s: &[u8], at: usize, n: usize) -> u64 {
    s[at..at + n].iter().rev().fold(0, |v, b| v << 8 | *b as u64)
}

fn date(wrong: u32, s: &[u8], at: usize) -> Answer<Val> {
    let (len, p) = le(s, at, 1)?;
    let len = len as usize;
    if s.len() - p < len {
        return Err(8);
    }
    let (mut y, mut mo, mut d, mut h, mut mi, mut se, mut us) = (0, 0, 0, 0, 0, 0, 0);
    if len >= 4 {
        (y, mo, d) = (field(s, p, 2) as u16, s[p + 2], s[p + 3]);
    }
    if len >= 7 {
        (h, mi, se) = (s[p + 4], s[p + 5], s[p + 6]);
    }
    if len == 11 || len > 11 && wrong == DATE_MICROS_FROM_11_UP {
        us = field(s, p + 7, 4) as u32;
    }
    let next = if wrong == DATE_USES_KNOWN_LENGTHS && len == 5 { p + 4 } else { p + len };
    Ok((Val::Date(y, mo, d, h, mi, se, us), next))
}

fn time(wrong: u32, s: &[u8], at: usize) -> Answer<Val> {
    let (len, p) = le(s, at, 1)?;
    let len = len as usize;
    if s.len() - p < len {
        return Err(8);
    }
    let (mut neg, mut d, mut h, mut mi, mut se, mut us) = (false, 0, 0, 0, 0, 0);
    if len >= 8 {
        neg = if wrong == SIGN_ANY_NON_ZERO { s[p] != 0 } else { s[p] == 1 };
        (d, h, mi, se) = (field(s, p + 1, 4) as u32, s[p + 5], s[p + 6], s[p + 7]);
    }
    if len == 12 || len > 12 && wrong == TIME_MICROS_FROM_12_UP {
        us = field(s, p + 8, 4) as u32;
    }
    Ok((Val::Time(neg, d, h, mi, se, us), p + len))
}

pub fn read_value(wrong: u32, s: &[u8], at: usize, column_type: u8, is_unsigned: bool) -> Answer<Val> {
    let int = |n: usize| -> Answer<Val> {
        let (v, next) = le(s, at, n)?;
        let shift = 64 - 8 * n as u32;
        let signed = (v << shift) as i64 >> shift;
        Ok((
            match (is_unsigned, n) {
                (false, _) => Val::Int(signed),
                (true, 8) if v >= 1 << 63 || v == i64::MAX as u64 && wrong == UNSIGNED_FROM_MAX => Val::UInt(v),
                (true, 1) if wrong == TINY_ALWAYS_SIGNED => Val::Int(signed),
                (true, _) => Val::Int(v as i64),
            },
            next,
        ))
    };
    match column_type {
        0 | 15 | 16 | 242 | 245..=255 => {
            let ((place, len), next) = lenenc_str(wrong, s, at)?;
            Ok((Val::Bytes(place, len), next))
        }
        1 => int(1),
        2 | 13 => int(2),
        3 => int(4),
        9 => int(if wrong == INT24_IN_THREE { 3 } else { 4 }),
        8 => int(8),
        4 => le(s, at, 4).map(|(v, n)| (Val::Float(v as u32), n)),
        5 => le(s, at, 8).map(|(v, n)| {
            let quiet = wrong == NAN_MADE_QUIET && f64::from_bits(v).is_nan();
            (Val::Double(if quiet { f64::NAN.to_bits() } else { v }), n)
        }),
        6 => Ok((Val::Null, at)),
        7 | 10 | 12 | 14 => date(wrong, s, at),
        11 => time(wrong, s, at),
        _ => Err(10),
    }
}

/// A value as a parameter; a string's bytes come beside it.
pub fn put_value(wrong: u32, v: &Val, text: &[u8], out: &mut Vec<u8>) {
    match *v {
        Val::Null => {}
        Val::Bytes(..) => {
            put_lenenc_int(wrong, text.len() as u64, out);
            out.extend_from_slice(text);
        }
        Val::Int(x) => out.extend_from_slice(&x.to_le_bytes()),
        Val::UInt(x) => out.extend_from_slice(&x.to_le_bytes()),
        Val::Float(x) => out.extend_from_slice(&x.to_le_bytes()),
        Val::Double(x) => out.extend_from_slice(&x.to_le_bytes()),
        Val::Date(y, mo, d, h, mi, se, us) => {
            let n: usize = if us > 0 {
                11
            } else if h > 0 || mi > 0 || se > 0 {
                7
            } else if y > 0 || mo > 0 || d > 0 {
                4
            } else {
                0
            };
            let mut all = y.to_le_bytes().to_vec();
            all.extend_from_slice(&[mo, d, h, mi, se]);
            all.extend_from_slice(&us.to_le_bytes());
            out.push(n as u8);
            out.extend_from_slice(&all[..n]);
        }
        Val::Time(neg, d, h, mi, se, us) => {
            let n: usize = if us > 0 {
                12
            } else if d > 0 || h > 0 || mi > 0 || se > 0 || neg && wrong == NEGATIVE_ZERO_KEPT {
                8
            } else {
                0
            };
            let mut all = vec![neg as u8];
            all.extend_from_slice(&d.to_le_bytes());
            all.extend_from_slice(&[h, mi, se]);
            all.extend_from_slice(&us.to_le_bytes());
            out.push(n as u8);
            out.extend_from_slice(&all[..n]);
        }
    }
}

/// Signed microseconds, or 11.
pub fn duration(neg: bool, d: u32, h: u8, mi: u8, se: u8, us: u32) -> Result<i64, u8> {
    let seconds = ((d as i128 * 24 + h as i128) * 60 + mi as i128) * 60 + se as i128;
    let size = seconds * 1_000_000 + us as i128;
    match i64::try_from(size) {
        Ok(v) => Ok(if neg { -v } else { v }),
        Err(_) => Err(11),
    }
}

pub fn escaped(wrong: u32, input: &[u8], no_backslash: bool, out: &mut Vec<u8>) {
    out.push(b'\'');
    for &b in input {
        match b {
            b'\'' if no_backslash => out.extend_from_slice(b"''"),
            _ if no_backslash => out.push(b),
            0 => out.extend_from_slice(b"\\0"),
            b'\n' => out.extend_from_slice(b"\\n"),
            b'\r' => out.extend_from_slice(b"\\r"),
            0x1a if wrong != NO_ESCAPE_OF_1A => out.extend_from_slice(b"\\Z"),
            b'"' if wrong == NO_ESCAPE_OF_DOUBLE => out.push(b),
            b'\\' | b'\'' | b'"' => out.extend_from_slice(&[b'\\', b]),
            _ => out.push(b),
        }
    }
    out.push(b'\'');
}
