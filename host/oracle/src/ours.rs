//! Our side: the archive's entries behind safe calls, or, where it is asked for, the plain definition.
//!
//! Answers above 200 are not the port's: they say that a call broke its own promise.

use crate::model::{self, Answer, M, Model, Val};

/// A number that must stay was changed.
#[cfg(archive)]
pub const TOUCHED: u8 = 201;
/// The kind named a date or time and the reader of its fields disagreed.
pub const NO_FIELDS: u8 = 202;
/// A byte outside what may be written was changed.
pub const OUTSIDE: u8 = 203;

#[derive(Clone, Copy)]
pub struct Ours {
    /// Values from the archive, not from the definition.
    pub values: bool,
    /// Packets from the archive.
    pub packets: bool,
    /// The rule that is wrong on purpose, 0 for none. Only the definition can be wrong.
    pub wrong: u32,
}

impl Ours {
    pub fn archive() -> Self {
        Self { values: cfg!(archive), packets: cfg!(packets), wrong: 0 }
    }

    pub fn definition(wrong: u32) -> Self {
        Self { values: false, packets: false, wrong }
    }
}

/// No pointer where there are no bytes: that is allowed, and the hardest case.
#[cfg(archive)]
fn ptr(s: &[u8]) -> *const u8 {
    if s.is_empty() { std::ptr::null() } else { s.as_ptr() }
}

#[cfg(archive)]
mod archive {
    use super::*;
    use crate::face::*;

    const N: u64 = 0xa5a5_5a5a_c3c3_3c3c;

    pub fn read_value(s: &[u8], at: usize, column_type: u8, is_unsigned: u8) -> Answer<Val> {
        let (mut kind, mut integer, mut bits) = (99u8, N as i64, N);
        let (mut place, mut len, mut next) = (N as usize, N as usize, N as usize);
        let no = unsafe {
            mk_read_value(
                ptr(s),
                s.len(),
                at,
                column_type,
                is_unsigned,
                &mut kind,
                &mut integer,
                &mut bits,
                &mut place,
                &mut len,
                &mut next,
            )
        };
        let stays = (integer == N as i64, bits == N, place == N as usize && len == N as usize);
        if no != 0 {
            let all = kind == 99 && next == N as usize && stays == (true, true, true);
            return Err(if all { no } else { TOUCHED });
        }
        let (value, named) = match kind {
            0 => (Val::Null, (true, true, true)),
            1 => (Val::Bytes(place, len), (true, true, stays.2)),
            2 => (Val::Int(integer), (stays.0, true, true)),
            3 => (Val::UInt(bits), (true, stays.1, true)),
            4 => (Val::Float(bits as u32), (true, stays.1, true)),
            5 => (Val::Double(bits), (true, stays.1, true)),
            6 => match read_date(s, at) {
                Ok((v, n)) if n == next => (v, (true, true, true)),
                _ => return Err(NO_FIELDS),
            },
            7 => match read_time(s, at) {
                Ok((v, n)) if n == next => (v, (true, true, true)),
                _ => return Err(NO_FIELDS),
            },
            _ => return Err(NO_FIELDS),
        };
        if stays != named || kind == 4 && bits >> 32 != 0 {
            return Err(TOUCHED);
        }
        Ok((value, next))
    }

    pub fn read_date(s: &[u8], at: usize) -> Answer<Val> {
        let (mut y, mut mo, mut d, mut h, mut mi, mut se, mut us, mut next) = (7777u16, 77u8, 77u8, 77u8, 77u8, 77u8, 7777u32, N as usize);
        let no = unsafe { mk_read_date(ptr(s), s.len(), at, &mut y, &mut mo, &mut d, &mut h, &mut mi, &mut se, &mut us, &mut next) };
        if no != 0 {
            let stays = (y, mo, d, h, mi, se, us, next) == (7777, 77, 77, 77, 77, 77, 7777, N as usize);
            return Err(if stays { no } else { TOUCHED });
        }
        Ok((Val::Date(y, mo, d, h, mi, se, us), next))
    }

    pub fn read_time(s: &[u8], at: usize) -> Answer<Val> {
        let (mut neg, mut d, mut h, mut mi, mut se, mut us, mut next) = (77u8, 7777u32, 77u8, 77u8, 77u8, 7777u32, N as usize);
        let no = unsafe { mk_read_time(ptr(s), s.len(), at, &mut neg, &mut d, &mut h, &mut mi, &mut se, &mut us, &mut next) };
        if no != 0 {
            let stays = (neg, d, h, mi, se, us, next) == (77, 7777, 77, 77, 77, 7777, N as usize);
            return Err(if stays { no } else { TOUCHED });
        }
        if neg > 1 {
            return Err(TOUCHED);
        }
        Ok((Val::Time(neg == 1, d, h, mi, se, us), next))
    }

    pub fn read_duration(s: &[u8], at: usize) -> Answer<i64> {
        let (mut v, mut next) = (N as i64, N as usize);
        let no = unsafe { mk_read_duration(ptr(s), s.len(), at, &mut v, &mut next) };
        if no != 0 {
            return Err(if v == N as i64 && next == N as usize { no } else { TOUCHED });
        }
        Ok((v, next))
    }

    pub fn duration(neg: u8, d: u32, h: u8, mi: u8, se: u8, us: u32) -> Result<i64, u8> {
        let mut v = N as i64;
        let no = unsafe { mk_duration_of(neg, d, h, mi, se, us, &mut v) };
        if no != 0 {
            return Err(if v == N as i64 { no } else { TOUCHED });
        }
        Ok(v)
    }

    pub fn lenenc_int(s: &[u8], at: usize) -> Answer<u64> {
        let (mut v, mut next) = (N, N as usize);
        let no = unsafe { mk_lenenc_int(ptr(s), s.len(), at, &mut v, &mut next) };
        if no != 0 {
            return Err(if v == N && next == N as usize { no } else { TOUCHED });
        }
        Ok((v, next))
    }

    pub fn lenenc_str(s: &[u8], at: usize) -> Answer<(usize, usize)> {
        let (mut place, mut len) = (N as usize, N as usize);
        let no = unsafe { mk_lenenc_str(ptr(s), s.len(), at, &mut place, &mut len) };
        if no != 0 {
            return Err(if place == N as usize && len == N as usize { no } else { TOUCHED });
        }
        Ok(((place, len), place.wrapping_add(len)))
    }

    pub fn read_text(s: &[u8], at: usize) -> Answer<Val> {
        let (mut kind, mut place, mut len, mut next) = (99u8, N as usize, N as usize, N as usize);
        let no = unsafe { mk_read_text(ptr(s), s.len(), at, &mut kind, &mut place, &mut len, &mut next) };
        let stays = place == N as usize && len == N as usize;
        match (no, kind) {
            (0, 0) if stays => Ok((Val::Null, next)),
            (0, 1) => Ok((Val::Bytes(place, len), next)),
            (0, _) => Err(TOUCHED),
            _ if stays && kind == 99 && next == N as usize => Err(no),
            _ => Err(TOUCHED),
        }
    }

    pub fn put_value(v: &Val, text: &[u8], dst: &mut [u8], at: usize) -> Result<usize, u8> {
        let mut next = N as usize;
        let (d, n) = (dst.as_mut_ptr(), dst.len());
        let no = unsafe {
            match *v {
                Val::Null => {
                    next = at;
                    0
                }
                Val::Bytes(..) => mk_put_lenenc_str(d, n, at, ptr(text), text.len(), &mut next),
                Val::Int(x) => mk_put_int(d, n, at, x, &mut next),
                Val::UInt(x) => mk_put_uint(d, n, at, x, &mut next),
                Val::Float(x) => mk_put_float(d, n, at, x, &mut next),
                Val::Double(x) => mk_put_double(d, n, at, x, &mut next),
                Val::Date(y, mo, da, h, mi, se, us) => mk_put_date(d, n, at, y, mo, da, h, mi, se, us, &mut next),
                Val::Time(neg, da, h, mi, se, us) => mk_put_time(d, n, at, neg as u8, da, h, mi, se, us, &mut next),
            }
        };
        put_answer(no, next)
    }

    fn put_answer(no: u8, next: usize) -> Result<usize, u8> {
        match no {
            0 => Ok(next),
            _ if next == N as usize => Err(no),
            _ => Err(TOUCHED),
        }
    }

    pub fn put_lenenc_int(v: u64, dst: &mut [u8], at: usize) -> Result<usize, u8> {
        let mut next = N as usize;
        let no = unsafe { mk_put_lenenc_int(dst.as_mut_ptr(), dst.len(), at, v, &mut next) };
        if no == 0 && next - at != unsafe { mk_lenenc_int_len(v) } {
            return Err(TOUCHED);
        }
        put_answer(no, next)
    }

    pub fn escaped(input: &[u8], no_backslash: u8, dst: &mut [u8], at: usize) -> Result<usize, u8> {
        let mut next = N as usize;
        let no = unsafe { mk_escaped(dst.as_mut_ptr(), dst.len(), at, ptr(input), input.len(), no_backslash, &mut next) };
        put_answer(no, next)
    }

    pub fn escaped_len(input: &[u8], no_backslash: u8) -> Result<usize, u8> {
        let mut len = N as usize;
        let no = unsafe { mk_escaped_len(ptr(input), input.len(), no_backslash, &mut len) };
        put_answer(no, len)
    }

    /// NULL count and bytes used; the starts go to the list.
    pub fn read_row(row: &[u8], types: &[u8], signs: &[u8], starts: &mut [usize]) -> Result<(usize, usize), u8> {
        let (mut nulls, mut used) = (N as usize, N as usize);
        let no = unsafe {
            mk_read_row(
                ptr(row),
                row.len(),
                types.as_ptr(),
                types.len(),
                signs.as_ptr(),
                signs.len(),
                starts.as_mut_ptr(),
                starts.len(),
                &mut nulls,
                &mut used,
            )
        };
        match no {
            0 => Ok((nulls, used)),
            _ if nulls == N as usize && used == N as usize => Err(no),
            _ => Err(TOUCHED),
        }
    }
}

/// Without an archive every call goes to the definition.
macro_rules! either {
    ($side:expr, $archive:expr, $definition:expr) => {{
        #[cfg(archive)]
        if $side.values {
            return $archive;
        }
        $definition
    }};
}

/// Copies what the definition wrote to a place of a lent buffer, or says 6.
fn place_at(out: &[u8], dst: &mut [u8], at: usize) -> Result<usize, u8> {
    if at > dst.len() || dst.len() - at < out.len() {
        return Err(6);
    }
    dst[at..at + out.len()].copy_from_slice(out);
    Ok(at + out.len())
}

impl Ours {
    pub fn read_value(&self, s: &[u8], at: usize, column_type: u8, is_unsigned: u8) -> Answer<Val> {
        either!(
            self,
            archive::read_value(s, at, column_type, is_unsigned),
            model::read_value(self.wrong, s, at, column_type, is_unsigned != 0)
        )
    }

    /// The fields of a date (type 12) or a time (type 11) by their own readers.
    pub fn read_fields(&self, s: &[u8], at: usize, column_type: u8) -> Answer<Val> {
        either!(
            self,
            if column_type == 11 { archive::read_time(s, at) } else { archive::read_date(s, at) },
            model::read_value(self.wrong, s, at, column_type, false)
        )
    }

    pub fn read_duration(&self, s: &[u8], at: usize) -> Answer<i64> {
        either!(self, archive::read_duration(s, at), {
            match model::read_value(self.wrong, s, at, 11, false)? {
                (Val::Time(neg, d, h, mi, se, us), next) => Ok((model::duration(neg, d, h, mi, se, us)?, next)),
                _ => Err(NO_FIELDS),
            }
        })
    }

    pub fn duration(&self, neg: u8, d: u32, h: u8, mi: u8, se: u8, us: u32) -> Result<i64, u8> {
        either!(self, archive::duration(neg, d, h, mi, se, us), model::duration(neg != 0, d, h, mi, se, us))
    }

    pub fn lenenc_int(&self, s: &[u8], at: usize) -> Answer<u64> {
        either!(self, archive::lenenc_int(s, at), model::lenenc_int(self.wrong, s, at))
    }

    pub fn lenenc_str(&self, s: &[u8], at: usize) -> Answer<(usize, usize)> {
        either!(self, archive::lenenc_str(s, at), model::lenenc_str(self.wrong, s, at))
    }

    pub fn read_text(&self, s: &[u8], at: usize) -> Answer<Val> {
        either!(self, archive::read_text(s, at), model::read_text(self.wrong, s, at))
    }

    pub fn put_value(&self, v: &Val, text: &[u8], dst: &mut [u8], at: usize) -> Result<usize, u8> {
        either!(self, archive::put_value(v, text, dst, at), {
            let mut out = Vec::new();
            model::put_value(self.wrong, v, text, &mut out);
            place_at(&out, dst, at)
        })
    }

    pub fn put_lenenc_int(&self, v: u64, dst: &mut [u8], at: usize) -> Result<usize, u8> {
        either!(self, archive::put_lenenc_int(v, dst, at), {
            let mut out = Vec::new();
            model::put_lenenc_int(self.wrong, v, &mut out);
            place_at(&out, dst, at)
        })
    }

    pub fn escaped(&self, input: &[u8], no_backslash: u8, dst: &mut [u8], at: usize) -> Result<usize, u8> {
        either!(self, archive::escaped(input, no_backslash, dst, at), {
            let mut out = Vec::new();
            model::escaped(self.wrong, input, no_backslash != 0, &mut out);
            place_at(&out, dst, at)
        })
    }

    pub fn escaped_len(&self, input: &[u8], no_backslash: u8) -> Result<usize, u8> {
        either!(self, archive::escaped_len(input, no_backslash), {
            let mut out = Vec::new();
            model::escaped(self.wrong, input, no_backslash != 0, &mut out);
            Ok(out.len())
        })
    }

    pub fn read_row(&self, row: &[u8], types: &[u8], signs: &[u8], starts: &mut [usize]) -> Result<(usize, usize), u8> {
        either!(self, archive::read_row(row, types, signs, starts), {
            let n = types.len();
            if n == 0 || n > 4096 || signs.len() != n {
                return Err(13);
            }
            if starts.len() < n {
                return Err(6);
            }
            if row.is_empty() {
                return Err(8);
            }
            if row[0] != 0 {
                return Err(12);
            }
            let map = (n + 9) / 8;
            if row.len() - 1 < map {
                return Err(8);
            }
            let (mut at, mut nulls) = (1 + map, 0);
            let mut found = vec![0; n];
            for i in 0..n {
                found[i] = at;
                if row[1 + (i + 2) / 8] >> ((i + 2) % 8) & 1 == 1 {
                    nulls += 1;
                } else {
                    at = model::read_value(self.wrong, row, at, types[i], signs[i] != 0)?.1;
                }
            }
            starts[..n].copy_from_slice(&found);
            Ok((nulls, at))
        })
    }
}

// ---- A connection ----------------------------------------------------------------------------------------------------------

#[derive(Debug, Default, Clone, PartialEq)]
pub struct OurLook {
    pub number: u8,
    pub frame: u8,
    pub unread: usize,
    pub framed: bool,
    pub closed: bool,
}

enum End {
    #[cfg(packets)]
    Archive([u8; crate::face::STATE_SIZE]),
    Definition(Box<Model>),
}

/// One end of a connection with the buffers lent to it. Behind each buffer stand bytes that no call may touch.
pub struct Codec {
    end: End,
    pub staging: Vec<u8>,
    pub packet: Vec<u8>,
    pub staging_len: usize,
    pub packet_len: usize,
    shadow: Vec<u8>,
    framed: bool,
    pub opened: u8,
}

const GUARD: [u8; 8] = [0xa5, 0x5a, 0xc3, 0x3c, 0x99, 0x66, 0xf0, 0x0f];
/// Up to this many bytes the whole packet buffer is watched.
const WATCHED: usize = 4096;

fn buffer(n: usize) -> Vec<u8> {
    let mut v = vec![0; n + 8];
    if n <= WATCHED {
        v.fill(0xee);
    }
    v[n..].copy_from_slice(&GUARD);
    v
}

impl Codec {
    /// Buffers that are large enough: 6 is then a fault.
    pub fn open(ours: &Ours, limit: usize, m: usize) -> Self {
        Self::open_with(ours, limit, m, 2 * limit + 4, limit)
    }

    pub fn open_with(ours: &Ours, limit: usize, m: usize, staging_len: usize, packet_len: usize) -> Self {
        let bad = limit == 0 || limit > model::MAX_LIMIT;
        let mut opened = if bad { 1 } else { 0 };
        #[cfg(packets)]
        let end = if ours.packets && m == M {
            let mut state = [0x77; crate::face::STATE_SIZE];
            opened = unsafe { crate::face::mk_open(state.as_mut_ptr(), state.len(), limit) };
            End::Archive(state)
        } else {
            End::Definition(Box::new(Model::new(limit, m, ours.wrong)))
        };
        #[cfg(not(packets))]
        let end = {
            opened += 0;
            let _ = M;
            End::Definition(Box::new(Model::new(limit, m, ours.wrong)))
        };
        let packet = buffer(packet_len);
        let shadow = if packet_len <= WATCHED { packet.clone() } else { Vec::new() };
        Self { end, staging: buffer(staging_len), packet, staging_len, packet_len, shadow, framed: false, opened }
    }

    pub fn frames_on(&mut self) -> u8 {
        self.framed = true;
        match &mut self.end {
            #[cfg(packets)]
            End::Archive(s) => unsafe { crate::face::mk_frames_on(s.as_mut_ptr(), s.len()) },
            End::Definition(d) => {
                d.frames_on();
                0
            }
        }
    }

    pub fn reset_seq_id(&mut self) -> u8 {
        match &mut self.end {
            #[cfg(packets)]
            End::Archive(s) => unsafe { crate::face::mk_reset_seq_id(s.as_mut_ptr(), s.len()) },
            End::Definition(d) => {
                d.reset_seq_id();
                0
            }
        }
    }

    pub fn sync_seq_id(&mut self) -> u8 {
        match &mut self.end {
            #[cfg(packets)]
            End::Archive(s) => unsafe { crate::face::mk_sync_seq_id(s.as_mut_ptr(), s.len()) },
            End::Definition(d) => {
                d.sync_seq_id();
                0
            }
        }
    }

    pub fn look(&self) -> OurLook {
        match &self.end {
            #[cfg(packets)]
            End::Archive(s) => {
                let (mut number, mut frame, mut unread, mut framed, mut closed) = (0, 0, 0, 0, 0);
                let no =
                    unsafe { crate::face::mk_look(s.as_ptr(), s.len(), &mut number, &mut frame, &mut unread, &mut framed, &mut closed) };
                assert!(no == 0 && framed < 2 && closed < 2, "mk_look answers {no}, {framed}, {closed}");
                OurLook { number, frame, unread, framed: framed == 1, closed: closed == 1 }
            }
            End::Definition(d) => OurLook { number: d.number, frame: d.frame, unread: d.unread.len(), framed: d.framed, closed: d.closed },
        }
    }

    /// The status, the bytes used, the packet's length.
    pub fn read(&mut self, src: &[u8]) -> (u8, usize, usize) {
        let (no, used, len) = match &mut self.end {
            #[cfg(packets)]
            End::Archive(s) => {
                let (mut used, mut len) = (usize::MAX, usize::MAX);
                // Without frames staging may be missing.
                let without = !self.framed && src.len() % 2 == 1;
                let staging = if without { (std::ptr::null_mut(), 0) } else { (self.staging.as_mut_ptr(), self.staging_len) };
                let no = unsafe {
                    crate::face::mk_read(
                        s.as_mut_ptr(),
                        s.len(),
                        ptr(src),
                        src.len(),
                        staging.0,
                        staging.1,
                        self.packet.as_mut_ptr(),
                        self.packet_len,
                        &mut used,
                        &mut len,
                    )
                };
                if !self.framed && self.staging_len <= WATCHED && self.staging[..self.staging_len].iter().any(|b| *b != 0xee) {
                    return (OUTSIDE, used, len);
                }
                if no != 0 && len != usize::MAX {
                    return (TOUCHED, used, len);
                }
                (no, used, if no == 0 { len } else { 0 })
            }
            End::Definition(d) => {
                let answer = d.read(src, self.staging_len, &mut self.packet[..self.packet_len]);
                let n = d.unread.len().min(self.staging_len);
                self.staging[..n].copy_from_slice(&d.unread[..n]);
                answer
            }
        };
        if self.staging[self.staging_len..] != GUARD || self.packet[self.packet_len..] != GUARD {
            return (OUTSIDE, used, len);
        }
        (no, used, len)
    }

    /// Whether the packet buffer holds `front` and else what it held before. (Large ones: the front alone.)
    pub fn packet_is(&mut self, front: &[u8]) -> bool {
        if self.shadow.is_empty() {
            return self.packet[..front.len()] == *front;
        }
        self.shadow[..front.len()].copy_from_slice(front);
        self.shadow == self.packet
    }

    /// The status and what was written into a buffer of `room` bytes.
    pub fn write(&mut self, packet: &[u8], room: usize, out: &mut Vec<u8>) -> u8 {
        out.clear();
        match &mut self.end {
            #[cfg(packets)]
            End::Archive(s) => {
                out.resize(room + 8, 0xee);
                out[room..].copy_from_slice(&GUARD);
                let mut written = usize::MAX;
                let no = unsafe {
                    crate::face::mk_write(s.as_mut_ptr(), s.len(), ptr(packet), packet.len(), out.as_mut_ptr(), room, &mut written)
                };
                if out[room..] != GUARD {
                    return OUTSIDE;
                }
                if no != 0 {
                    let stays = written == usize::MAX && out[..room].iter().all(|b| *b == 0xee);
                    out.clear();
                    return if stays { no } else { TOUCHED };
                }
                if written > room || out[written..room].iter().any(|b| *b != 0xee) {
                    return OUTSIDE;
                }
                out.truncate(written);
                0
            }
            End::Definition(d) => d.write(packet, room, out),
        }
    }
}

/// The bytes that writing a packet of n bytes needs.
pub fn room_for(n: usize, limit: usize, m: usize, framed: bool) -> usize {
    let plain = n + 4 * (n / m + 1);
    if framed { plain + 7 * plain.div_ceil(m.min(limit).max(1)) } else { plain }
}

impl Codec {
    /// Buffers of other lengths, their contents kept.
    pub fn resize(&mut self, staging_len: usize, packet_len: usize) {
        let fit = |old: &[u8], n: usize| {
            let mut new = buffer(n);
            let k = old.len().min(n);
            new[..k].copy_from_slice(&old[..k]);
            new
        };
        self.staging = fit(&self.staging[..self.staging_len], staging_len);
        self.packet = fit(&self.packet[..self.packet_len], packet_len);
        (self.staging_len, self.packet_len) = (staging_len, packet_len);
        self.shadow = Vec::new();
    }
}
