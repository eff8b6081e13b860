//! Connections: the original and our side are given the same calls, and after each one the answer, the bytes used, the packet, the
//! numbers and the unread bytes are held against each other, up to and with the first reading refusal.

use crate::{
    count::Counts,
    original::{Look, Original},
    ours::{Codec, Ours, room_for},
    rng::Rng,
    text::hex,
};
use bytes::BytesMut;

#[derive(Clone, Debug, PartialEq)]
pub enum Op {
    FramesOn,
    Reset,
    Sync,
    /// A packet is written.
    Write(Vec<u8>),
    /// Bytes come in from the peer.
    Feed(Vec<u8>),
    /// A call to read, lent at most so many of the bytes that came in.
    Read(usize),
    /// A byte that came in and is unread is changed (place, by exclusive or).
    Alter(usize, u8),
    /// The caller throws away so many bytes that came in.
    Drop(usize),
}

impl Op {
    pub fn name(&self) -> &'static str {
        match self {
            Op::FramesOn => "frames on",
            Op::Reset => "reset",
            Op::Sync => "sync",
            Op::Write(_) => "write",
            Op::Feed(_) => "feed",
            Op::Read(_) => "read",
            Op::Alter(..) => "alter",
            Op::Drop(_) => "drop",
        }
    }

    pub fn show(&self) -> String {
        match self {
            Op::Write(b) | Op::Feed(b) => format!("{} {}", self.name(), hex(b)),
            Op::Read(n) => format!("read {n}"),
            Op::Alter(at, x) => format!("alter {at} {x:02X}"),
            Op::Drop(n) => format!("drop {n}"),
            _ => self.name().into(),
        }
    }
}

/// What a step answered, for lists of vectors.
#[derive(Clone, Debug, Default, PartialEq)]
pub struct Answered {
    pub status: u8,
    pub used: usize,
    /// The packet read, or the bytes written.
    pub bytes: Vec<u8>,
    pub lent: Vec<u8>,
}

/// Both ends under way.
pub struct Live<O: Original> {
    pub limit: usize,
    pub rust: O,
    pub ours: Codec,
    pub src: Vec<u8>,
    pub look: Look,
    pub answered: Answered,
    lent: BytesMut,
    written: BytesMut,
    dst: Vec<u8>,
    out: Vec<u8>,
    text: String,
    pub over: bool,
}

fn u24(s: &[u8]) -> usize {
    s[0] as usize | (s[1] as usize) << 8 | (s[2] as usize) << 16
}

impl<O: Original> Live<O> {
    pub fn open(ours: &Ours, limit: usize) -> Self {
        let mut live = Self {
            limit,
            rust: O::open(limit),
            ours: Codec::open(ours, limit, O::M),
            src: Vec::new(),
            look: Look::default(),
            answered: Answered::default(),
            lent: BytesMut::new(),
            written: BytesMut::new(),
            dst: Vec::new(),
            out: Vec::new(),
            text: String::new(),
            over: false,
        };
        live.rust.look(&mut live.text, &mut live.look);
        live
    }

    /// One call on both sides. Err says how they differ.
    pub fn step(&mut self, op: &Op, counts: &mut Counts) -> Result<(), String> {
        if matches!(op, Op::Feed(_) | Op::Alter(..) | Op::Drop(_)) {
            counts.made(op.name())
        } else {
            counts.op(op.name())
        }
        self.answered = Answered::default();
        match op {
            Op::Feed(b) => {
                self.src.extend_from_slice(b);
                return Ok(());
            }
            Op::Alter(at, x) => {
                if let Some(b) = self.src.get_mut(*at) {
                    *b ^= x;
                }
                return Ok(());
            }
            Op::Drop(n) => {
                self.src.drain(..(*n).min(self.src.len()));
                return Ok(());
            }
            Op::FramesOn => {
                self.rust.frames_on();
                self.done(Codec::frames_on)?
            }
            Op::Reset => {
                self.rust.reset_seq_id();
                self.done(Codec::reset_seq_id)?
            }
            Op::Sync => {
                self.rust.sync_seq_id();
                self.done(Codec::sync_seq_id)?
            }
            Op::Write(packet) => self.write(packet, counts)?,
            Op::Read(n) => return self.read((*n).min(self.src.len()), counts),
        }
        self.same_look(false)
    }

    fn done(&mut self, call: impl Fn(&mut Codec) -> u8) -> Result<(), String> {
        match call(&mut self.ours) {
            0 => Ok(()),
            no => Err(format!("ours answers {no}, wanted 0")),
        }
    }

    fn write(&mut self, packet: &[u8], counts: &mut Counts) -> Result<(), String> {
        self.written.clear();
        let theirs = self.rust.encode(packet, &mut self.written);
        let room = room_for(packet.len(), self.limit, O::M, self.look.framed);
        // Room to spare on every second length: what lies behind must stay.
        let no = self.ours.write(packet, room + packet.len() % 2 * 5, &mut self.out);
        let wanted = theirs.err().unwrap_or(0);
        counts.answer("write", no);
        self.answered = Answered { status: wanted, used: 0, bytes: self.written.to_vec(), lent: Vec::new() };
        if no != wanted {
            return Err(format!("write of {} bytes: the original {wanted}, ours {no}", packet.len()));
        }
        if no == 0 && self.out[..] != self.written[..] {
            return Err(format!("written: the original {}, ours {}", hex(&self.written), hex(&self.out)));
        }
        Ok(())
    }

    fn read(&mut self, n: usize, counts: &mut Counts) -> Result<(), String> {
        let given = &self.src[..n];
        self.lent.clear();
        self.lent.extend_from_slice(given);
        let theirs = self.rust.decode(&mut self.lent, &mut self.dst);
        let their_used = n - self.lent.len();
        let (no, used, len) = self.ours.read(given);
        counts.answer("read", no);
        self.notes(no, used, counts);
        let tell = |what: &str| {
            Err(format!("read: {what}: the original {} with {their_used} used, ours {no} with {used} used, length {len}", said(&theirs)))
        };
        if no == 5 {
            // Packed frames lie outside. It must be one: both lengths, neither above the limit.
            let is = self.look.framed && used + 7 <= n && {
                let h = &given[used..];
                let (a, b) = (u24(h), u24(&h[4..]));
                a > 0 && b > 0 && a <= self.limit && b <= self.limit
            };
            self.over = true;
            return if is { Ok(()) } else { tell("no packed frame") };
        }
        if used > n {
            return tell("more used than lent");
        }
        let status = match theirs {
            Ok(true) => 0,
            Ok(false) => 255,
            Err(no) => no,
        };
        if status != no {
            return tell("answer");
        }
        self.answered = Answered { status, used, bytes: Vec::new(), lent: given.to_vec() };
        if theirs.is_ok() {
            if their_used != used {
                return tell("bytes used");
            }
            if status == 0 && len != self.dst.len() {
                return tell(&format!("packet's length, wanted {}", self.dst.len()));
            }
            if !self.ours.packet_is(&self.dst) {
                let front = &self.ours.packet[..self.dst.len()];
                return Err(format!("packet buffer: the original {}, ours {} (or bytes behind it)", hex(&self.dst), hex(front)));
            }
            if status == 0 {
                self.answered.bytes = self.dst.clone();
                self.dst.clear();
            }
            self.src.drain(..used);
            return self.same_look(false);
        }
        // The first reading refusal. The original has taken a wrong-numbered chunk or frame before it complains.
        self.over = true;
        let more = their_used - used.min(their_used);
        let unit = match (self.look.framed, used) {
            (false, 0) => self.look.chunk_head.map(|h| 4 + h.0),
            (true, 0) => self.look.frame_head.map(|h| 7 + h.0),
            _ => None,
        };
        let head = if self.look.framed { 7 } else { 4 };
        let unit = unit.or_else(|| given.get(used..used + head).map(|h| head + u24(h)));
        let right = match status {
            3 => Some(more) == unit || self.look.framed && more == 0,
            _ => more == 0,
        };
        if !right || their_used < used {
            return tell("bytes used at the refusal");
        }
        // What complete chunks it took earlier stays, and nothing of the refused one is written.
        let kept = match (status, self.look.framed, more) {
            (3, false, _) => Some(self.dst.len() - (more - 4)),
            (3, true, 0) if self.limit < O::M => Some(0),
            (3, true, 0) => None,
            _ => Some(self.dst.len()),
        };
        if let Some(kept) = kept
            && !self.ours.packet_is(&self.dst[..kept])
        {
            return Err("a refused read wrote of the refused chunk".into());
        }
        self.same_look(true)?;
        match (self.ours.read(&[]), self.ours.write(&[], 64, &mut self.out)) {
            ((7, 0, _), 7) => Ok(()),
            (r, w) => Err(format!("after a refusal: reading answers {r:?}, writing {w}; wanted 7 and 7")),
        }
    }

    /// What the reads met, so that a run shows what it has covered.
    fn notes(&self, no: u8, used: usize, counts: &mut Counts) {
        let before = &self.look;
        for (is, name) in [
            (no == 0 && used == 0, "packets with 0 bytes used"),
            (before.chunk_head.is_some(), "reads with a chunk header remembered"),
            (before.frame_head.is_some(), "reads with a frame header remembered"),
            (!before.unread.is_empty(), "reads with bytes unread in staging"),
        ] {
            if is {
                counts.note(name);
            }
        }
        let number = self.ours.look().number;
        if no == 0 && O::M > 100 && before.number.wrapping_add(1) != number {
            counts.note("packets by the last frame's number");
        }
        if no == 0 && number == 0 {
            counts.note("packets after which the number is 0 again");
        }
    }

    fn same_look(&mut self, refused: bool) -> Result<(), String> {
        self.rust.look(&mut self.text, &mut self.look);
        let (r, o) = (&self.look, self.ours.look());
        let same = r.number == o.number && r.framed == o.framed && (!r.framed || r.frame == o.frame) && o.closed == refused;
        let unread = refused || r.unread.len() == o.unread && r.unread[..] == self.ours.staging[..o.unread];
        if same && unread {
            return Ok(());
        }
        Err(format!(
            "numbers: the original {} / {} unread {}, ours {} / {} unread {} {} closed {}",
            r.number,
            if r.framed { r.frame.to_string() } else { "-".into() },
            hex(&r.unread),
            o.number,
            if o.framed { o.frame.to_string() } else { "-".into() },
            o.unread,
            hex(&self.ours.staging[..o.unread.min(self.ours.staging_len)]),
            o.closed
        ))
    }
}

fn said(answer: &Result<bool, u8>) -> String {
    match answer {
        Ok(true) => "a packet".into(),
        Ok(false) => "need more".into(),
        Err(0) => "an unpacking error".into(),
        Err(no) => format!("refusal {no}"),
    }
}

/// The same calls again. Err says at which one the sides differ and how.
pub fn replay<O: Original>(ours: &Ours, limit: usize, ops: &[Op], counts: &mut Counts) -> Result<(), (usize, String)> {
    let mut live = Live::<O>::open(ours, limit);
    for (i, op) in ops.iter().enumerate() {
        if live.over {
            break;
        }
        live.step(op, counts).map_err(|why| (i, why))?;
    }
    Ok(())
}

/// Fewer and shorter calls that still differ.
pub fn smallest<O: Original>(ours: &Ours, limit: usize, ops: &[Op]) -> (Vec<Op>, String) {
    let mut counts = Counts::default();
    let mut why = String::new();
    let mut best = ops.to_vec();
    let mut tries = 20_000;
    let mut fails = |ops: &[Op], why: &mut String, tries: &mut usize| -> Option<usize> {
        *tries = tries.saturating_sub(1);
        match replay::<O>(ours, limit, ops, &mut counts) {
            Err((at, w)) => {
                *why = w;
                Some(at)
            }
            Ok(()) => None,
        }
    };
    if let Some(at) = fails(&best, &mut why, &mut tries) {
        best.truncate(at + 1);
    }
    let mut again = true;
    while again && tries > 0 {
        again = false;
        let mut i = 0;
        while i < best.len() && tries > 0 {
            let mut t = best.clone();
            t.remove(i);
            if let Some(at) = fails(&t, &mut why, &mut tries) {
                t.truncate(at + 1);
                best = t;
                again = true;
            } else {
                i += 1;
            }
        }
        for i in 0..best.len() {
            let mut step = match best.get(i) {
                Some(Op::Feed(b) | Op::Write(b)) => b.len().div_ceil(2),
                _ => 0,
            };
            while step > 0 && tries > 0 && i < best.len() {
                let mut from = 0;
                loop {
                    let mut t = best.clone();
                    match &mut t[i] {
                        Op::Feed(b) | Op::Write(b) if from + step <= b.len() => {
                            b.drain(from..from + step);
                        }
                        _ => break,
                    }
                    if let Some(at) = fails(&t, &mut why, &mut tries) {
                        t.truncate(at + 1);
                        best = t;
                        again = true;
                        if i >= best.len() {
                            break;
                        }
                    } else {
                        from += step;
                    }
                    if tries == 0 {
                        break;
                    }
                }
                step = if step == 1 { 0 } else { step.div_ceil(2) };
            }
        }
    }
    let _ = fails(&best, &mut why, &mut 1);
    (best, why)
}

// ---- What the peer sends ---------------------------------------------------------------------------------------------------

/// Makes the calls of a connection up, knowing what the original expects next.
pub struct Peer {
    plain: u8,
    frame: u8,
    /// Chunk bytes that no frame has taken yet.
    stream: Vec<u8>,
    most: usize,
    /// At small m chunks are held to m bytes and the stream is never put out of step: the original asks there whether the bytes so
    /// far divide by m, and not whether the chunk is full.
    m: usize,
    /// Sends nothing that is refused.
    tame: bool,
}

fn put_u24(out: &mut Vec<u8>, n: usize) {
    out.extend_from_slice(&[n as u8, (n >> 8) as u8, (n >> 16) as u8]);
}

impl Peer {
    pub fn new(limit: usize, m: usize, rng: &mut Rng) -> Self {
        Self { plain: 0, frame: 0, stream: Vec::new(), most: limit.min(m), m, tame: rng.chance(1, 3) }
    }

    /// A chunk's length: mostly one that can pass.
    fn length(&self, limit: usize, rng: &mut Rng) -> usize {
        let wild = !self.tame && self.m > 100;
        match rng.below(40) {
            0..=5 => 0,
            6..=8 => self.most,
            9 if wild => limit + 1,
            10 if wild && rng.chance(1, 4) => rng.below(1 << 24),
            9 | 10 => 1.min(self.most),
            11..=30 => rng.below(self.most.min(12) + 1),
            _ => {
                let most = if rng.chance(1, 30) { 70_000 } else { 300 };
                rng.below(self.most.min(most) + 1)
            }
        }
    }

    /// The number of a chunk; sometimes a wrong one.
    fn numbered(&mut self, rng: &mut Rng) -> u8 {
        if !self.tame && rng.chance(1, 40) {
            return match rng.below(3) {
                0 => self.plain.wrapping_add(1),
                1 => self.plain.wrapping_sub(1),
                _ => rng.byte(),
            };
        }
        self.plain
    }

    /// A packet's chunks behind the stream: one unless its first chunk is full.
    fn chunks(&mut self, limit: usize, number: Option<u8>, rng: &mut Rng) {
        let mut taken = 0;
        loop {
            let mut len = self.length(limit, rng);
            if self.m < 100 && self.tame {
                len = len.min(limit - taken);
            }
            let no = match number {
                Some(no) if taken == 0 => no,
                _ => self.numbered(rng),
            };
            self.plain = no.wrapping_add(1);
            put_u24(&mut self.stream, len);
            self.stream.push(no);
            // A length that can't pass needs no payload.
            let n = if len > 100_000 { rng.below(20) } else { len };
            rng.fill(&mut self.stream, n);
            taken += len;
            if len != self.m {
                return;
            }
        }
    }

    /// All of the stream in frames of the given lengths.
    fn frames(&mut self, limit: usize, cuts: &[usize], out: &mut Vec<u8>, rng: &mut Rng) {
        let stream = std::mem::take(&mut self.stream);
        let mut rest = &stream[..];
        for &n in cuts {
            let number = if !self.tame && rng.chance(1, 150) { rng.byte() } else { self.frame };
            self.frame = number.wrapping_add(1);
            put_u24(out, n);
            out.push(number);
            put_u24(out, 0);
            out.extend_from_slice(&rest[..n]);
            rest = &rest[n..];
            if rng.chance(1, 25) {
                self.odd_frame(limit, out, rng);
            }
        }
    }

    /// A frame with nothing in it, or (not from a tame peer) a header that is refused.
    fn odd_frame(&mut self, limit: usize, out: &mut Vec<u8>, rng: &mut Rng) {
        let (a, b) = match rng.below(if self.tame { 12 } else { 24 }) {
            0..=11 => (0, 0),
            12..=14 => (0, rng.from_to(1, limit.min(0xff_ffff))),
            15..=16 => (0, (limit + 1).min(0xff_ffff)),
            17..=18 => ((limit + 1).min(0xff_ffff), 0),
            19 => (1, (limit + 1).min(0xff_ffff)),
            20 => (rng.from_to(1, limit.min(0xff_ffff)), rng.from_to(1, limit.min(0xff_ffff))),
            _ => (0, 0),
        };
        put_u24(out, a);
        out.push(self.frame);
        put_u24(out, b);
        self.frame = self.frame.wrapping_add(1);
    }

    fn cuts(total: usize, limit: usize, rng: &mut Rng) -> Vec<usize> {
        let mut cuts = Vec::new();
        let mut left = total;
        let most = limit.min(0xff_ffff);
        let style = rng.below(3);
        while left > 0 {
            let n = match style {
                _ if cuts.len() > 2_000 => left.min(most),
                0 => left.min(most),
                1 => rng.from_to(1, left.min(most)),
                _ => rng.from_to(1, left.min(most).min(9)),
            };
            cuts.push(n);
            left -= n;
        }
        cuts
    }

    /// The next bytes of the peer.
    fn bytes(&mut self, limit: usize, look: &Look, idle: bool, rng: &mut Rng) -> Vec<u8> {
        if idle {
            self.frame = look.frame;
            if look.unread.is_empty() && self.stream.is_empty() && (self.tame || !rng.chance(1, 30)) {
                self.plain = look.number;
            }
        }
        let mut out = Vec::new();
        for _ in 0..rng.from_to(1, 4) {
            if !look.framed {
                self.chunks(limit, None, rng);
                continue;
            }
            if rng.chance(1, 3) {
                // The number of the frame in which the chunk will end, as servers do after a flush.
                let cuts = Self::cuts(self.stream.len(), limit, rng);
                self.frames(limit, &cuts, &mut out, rng);
                let before = self.plain;
                self.chunks(limit, Some(before), rng);
                let cuts = Self::cuts(self.stream.len(), limit, rng);
                let last = self.frame.wrapping_add(cuts.len() as u8).wrapping_sub(1);
                if self.stream[..3] != [self.m as u8, (self.m >> 8) as u8, (self.m >> 16) as u8] {
                    self.stream[3] = last;
                    self.plain = last.wrapping_add(1);
                }
                self.frames(limit, &cuts, &mut out, rng);
            } else {
                self.chunks(limit, None, rng);
                if rng.chance(1, 2) {
                    let keep = if rng.chance(1, 4) { rng.below(self.stream.len()) } else { 0 };
                    let tail = self.stream.split_off(self.stream.len() - keep);
                    let cuts = Self::cuts(self.stream.len(), limit, rng);
                    self.frames(limit, &cuts, &mut out, rng);
                    self.stream = tail;
                }
            }
        }
        if !look.framed {
            out = std::mem::take(&mut self.stream);
        } else if rng.chance(3, 4) {
            let cuts = Self::cuts(self.stream.len(), limit, rng);
            self.frames(limit, &cuts, &mut out, rng);
        }
        if !self.tame && self.m > 100 && rng.chance(1, 12) {
            damage(&mut out, rng);
        }
        out
    }

    /// The next call.
    pub fn op<O: Original>(&mut self, live: &Live<O>, rng: &mut Rng) -> Op {
        let have = live.src.len();
        let limit = live.limit;
        let r = rng.below(100);
        let feed = if have == 0 { 55 } else { 8 };
        if r < feed {
            return Op::Feed(self.bytes(limit, &live.look, have == 0, rng));
        }
        let quiet = have == 0 || rng.chance(1, 3);
        match rng.below(if quiet { 30 } else { 200 }) {
            0..=1 => Op::FramesOn,
            2..=3 => Op::Reset,
            4..=8 => Op::Sync,
            9..=13 => {
                let n = match rng.below(12) {
                    0 => limit.min(70_000),
                    1 if limit < 70_000 => limit + 1,
                    2 => 0,
                    3 => rng.below(limit.min(2_000) + 1),
                    _ => rng.below(limit.min(30) + 1),
                };
                Op::Write(rng.bytes(n))
            }
            14 if have > 0 && self.m > 100 => Op::Alter(rng.below(have.min(8)), rng.byte() | 1),
            15 if have > 0 && !self.tame && self.m > 100 => Op::Drop(rng.from_to(1, have)),
            _ if rng.chance(2, 3) => Op::Read(have),
            _ => Op::Read(rng.below(have + 1)),
        }
    }

    /// After frames were turned on while a chunk's header was remembered: its bytes come in the first frames.
    pub fn framed_now(&mut self, look: &Look, rng: &mut Rng) {
        self.stream.clear();
        self.frame = 0;
        if let Some((len, number)) = look.chunk_head {
            if len <= 100_000 {
                self.stream = rng.bytes(4 + len);
                self.plain = number.wrapping_add(1);
            }
        }
    }
}

/// A byte changed, a part lost, repeated or moved, or a header made up.
fn damage(b: &mut Vec<u8>, rng: &mut Rng) {
    let n = b.len();
    if n == 0 {
        return;
    }
    let from = rng.below(n);
    let to = rng.from_to(from, n.min(from + 12));
    match rng.below(6) {
        0 => b[from] ^= rng.byte() | 1,
        1 => {
            b.drain(from..to);
        }
        2 => {
            let part = b[from..to].to_vec();
            b.splice(to..to, part);
        }
        3 => {
            let part: Vec<u8> = b.drain(from..to).collect();
            let at = rng.below(b.len() + 1);
            b.splice(at..at, part);
        }
        4 => {
            let k = rng.from_to(1, 8);
            let head = rng.bytes(k);
            b.splice(from..from, head);
        }
        _ => {
            let at = from.min(n.saturating_sub(7));
            for i in at..n.min(at + 3) {
                b[i] = if rng.chance(1, 2) { 0 } else { rng.byte() & 3 };
            }
        }
    }
}

pub fn limit(m: usize, rng: &mut Rng) -> usize {
    match rng.below(100) {
        0..=44 => rng.from_to(1, 12),
        45..=69 => rng.from_to(1, 60),
        70..=89 => rng.from_to(1, 300),
        90..=97 => rng.from_to(200, 5_000),
        98 if m > 100 && rng.chance(1, 4) => rng.from_to(16_000, 70_000),
        99 if m > 100 && rng.chance(1, 50) => rng.from_to(1_000_000, 20_000_000),
        _ => rng.from_to(1, 40),
    }
}

/// One connection of at most so many calls. A difference comes back as its smallest reproduction.
pub fn random<O: Original>(ours: &Ours, rng: &mut Rng, counts: &mut Counts) -> Result<(), String> {
    let limit = limit(O::M, rng);
    let mut live = Live::<O>::open(ours, limit);
    let mut peer = Peer::new(limit, O::M, rng);
    let mut ops: Vec<Op> = Vec::new();
    let steps = if rng.chance(1, 50) { 600 } else { rng.from_to(4, 60) };
    let framed = rng.chance(3, 5);
    // Some begin with numbers shortly before they go from 255 to 0.
    let mut before = if rng.chance(1, 60) { rng.from_to(235, 255) } else { 0 };
    if framed {
        before /= 4usize.div_ceil(limit.min(O::M));
    }
    let mut read_on = false;
    for i in 0..steps + before {
        let op = if i == 0 && framed {
            Op::FramesOn
        } else if i <= before && before > 0 {
            Op::Write(Vec::new())
        } else if read_on && rng.chance(9, 10) {
            // A packet may come without a byte used: callers call again.
            Op::Read(live.src.len())
        } else {
            peer.op(&live, rng)
        };
        let turned_on = op == Op::FramesOn && !live.look.framed;
        ops.push(op);
        let op = ops.last().expect("one was pushed");
        if let Err(why) = live.step(op, counts) {
            let (small, say) = smallest::<O>(ours, limit, &ops);
            let lines: Vec<String> = small.iter().map(Op::show).collect();
            let say = if say.is_empty() { why } else { say };
            return Err(format!("m {} limit {limit}\n    {}\n  {say}", O::M, lines.join("\n    ")));
        }
        read_on = matches!(op, Op::Read(_)) && live.answered.status == 0;
        if turned_on {
            let drop = Op::Drop(live.src.len());
            if rng.chance(2, 3) || O::M < 100 {
                let _ = live.step(&drop, counts);
                ops.push(drop);
                peer.framed_now(&live.look, rng);
            }
        }
        if live.over {
            break;
        }
    }
    counts.note("connections");
    Ok(())
}
