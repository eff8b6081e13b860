//! The original, held so that its answers and numbers can be compared. Its numbers, remembered headers and staging are private;
//! what it derives for Debug shows them.

use bytes::BytesMut;
use std::fmt::Write;

/// What a codec holds.
#[derive(Clone, Debug, Default, PartialEq)]
pub struct Look {
    pub number: u8,
    pub frame: u8,
    pub framed: bool,
    pub unread: Vec<u8>,
    pub chunk_head: Option<(usize, u8)>,
    pub frame_head: Option<(usize, u8)>,
    pub packed: bool,
}

pub trait Original {
    const M: usize;
    fn open(limit: usize) -> Self;
    fn frames_on(&mut self);
    fn reset_seq_id(&mut self);
    fn sync_seq_id(&mut self);
    /// A whole packet or not; or a refusal's number (0 for a failed unpacking).
    fn decode(&mut self, src: &mut BytesMut, dst: &mut Vec<u8>) -> Result<bool, u8>;
    fn encode(&mut self, packet: &[u8], dst: &mut BytesMut) -> Result<(), u8>;
    fn debug(&self, text: &mut String);

    fn look(&self, text: &mut String, look: &mut Look) {
        text.clear();
        self.debug(text);
        parse(text, look);
    }
}

macro_rules! original {
    ($name:ident, $from:ident, $m:expr) => {
        pub struct $name(pub $from::proto::codec::PacketCodec);

        impl Original for $name {
            const M: usize = $m;

            fn open(limit: usize) -> Self {
                assert_eq!($from::constants::MAX_PAYLOAD_LEN, $m);
                let mut codec = $from::proto::codec::PacketCodec::default();
                codec.max_allowed_packet = limit;
                Self(codec)
            }

            fn frames_on(&mut self) {
                self.0.compress($from::proto::codec::Compression::none())
            }

            fn reset_seq_id(&mut self) {
                self.0.reset_seq_id()
            }

            fn sync_seq_id(&mut self) {
                self.0.sync_seq_id()
            }

            fn decode(&mut self, src: &mut BytesMut, dst: &mut Vec<u8>) -> Result<bool, u8> {
                use $from::proto::codec::error::PacketCodecError::*;
                self.0.decode(src, dst).map_err(|e| match e {
                    PacketTooLarge => 2,
                    PacketsOutOfSync => 3,
                    BadCompressedPacketHeader => 4,
                    Io(_) => 0,
                })
            }

            fn encode(&mut self, packet: &[u8], dst: &mut BytesMut) -> Result<(), u8> {
                use $from::proto::codec::error::PacketCodecError::*;
                let mut packet = packet;
                self.0.encode(&mut packet, dst).map_err(|e| match e {
                    PacketTooLarge => 2,
                    PacketsOutOfSync => 3,
                    BadCompressedPacketHeader => 4,
                    Io(_) => 0,
                })
            }

            fn debug(&self, text: &mut String) {
                write!(text, "{:?}", self.0).expect("a string takes it")
            }
        }
    };
}

original!(Published, mysql_common, 16_777_215);
original!(Three, mysql_common_m3, 3);
original!(Seven, mysql_common_m7, 7);

/// Reads what Debug wrote, from left to right: staging may hold bytes that look like a field's name.
struct Words<'a>(&'a [u8]);

impl Words<'_> {
    fn has(&mut self, word: &str) -> bool {
        let is = self.0.starts_with(word.as_bytes());
        if is {
            self.0 = &self.0[word.len()..];
        }
        is
    }

    fn word(&mut self, word: &str) {
        if !self.has(word) {
            panic!("Debug of the original is not as known: wanted {word:?} at {:?}", String::from_utf8_lossy(self.0));
        }
    }

    fn number(&mut self) -> usize {
        let n = self.0.iter().take_while(|b| b.is_ascii_digit()).count();
        let v = self.0[..n].iter().fold(0, |v, b| v * 10 + (b - b'0') as usize);
        assert!(n > 0, "Debug of the original is not as known: wanted a number");
        self.0 = &self.0[n..];
        v
    }

    /// The inside of b"..." up to and with the closing quote.
    fn bytes(&mut self, out: &mut Vec<u8>) {
        out.clear();
        loop {
            let (byte, n) = match *self.0 {
                [b'"', ..] => break,
                [b'\\', b'x', a, b, ..] => ((hex(a) << 4) | hex(b), 4),
                [b'\\', b'n', ..] => (b'\n', 2),
                [b'\\', b'r', ..] => (b'\r', 2),
                [b'\\', b't', ..] => (b'\t', 2),
                [b'\\', b'0', ..] => (0, 2),
                [b'\\', c, ..] => (c, 2),
                [c, ..] => (c, 1),
                [] => panic!("Debug of the original is not as known: bytes don't end"),
            };
            out.push(byte);
            self.0 = &self.0[n..];
        }
        self.0 = &self.0[1..];
    }
}

fn hex(c: u8) -> u8 {
    (c as char).to_digit(16).expect("a hex digit") as u8
}

fn parse(text: &str, look: &mut Look) {
    let mut w = Words(text.as_bytes());
    w.word("PacketCodec { max_allowed_packet: ");
    w.number();
    w.word(", inner: ");
    look.framed = w.has("Comp(CompPacketCodec { level: Compression(");
    look.frame = 0;
    look.unread.clear();
    look.frame_head = None;
    look.packed = false;
    if look.framed {
        w.number();
        w.word("), comp_seq_id: ");
        look.frame = w.number() as u8;
        w.word(", in_buf: b\"");
        w.bytes(&mut look.unread);
        w.word(", out_buf: b\"\", comp_decoder: ");
        if !w.has("Idle") {
            w.word("Packet { seq_id: ");
            let number = w.number() as u8;
            w.word(", needed: ");
            if w.has("Uncompressed(") {
                look.frame_head = Some((w.number(), number));
            } else {
                w.word("Compressed(");
                look.packed = true;
                w.number();
                w.word(", ");
                w.number();
            }
            w.word(") }");
        }
        w.word(", plain_codec: PlainPacketCodec { seq_id: ");
    } else {
        w.word("Plain(PlainPacketCodec { seq_id: ");
    }
    look.number = w.number() as u8;
    w.word(", chunk_decoder: ");
    look.chunk_head = if w.has("Idle") {
        None
    } else {
        w.word("Chunk { seq_id: ");
        let number = w.number() as u8;
        w.word(", needed: ");
        let len = w.number();
        w.word(" }");
        Some((len, number))
    };
    w.word(if look.framed { " } }) }" } else { " }) }" });
}
