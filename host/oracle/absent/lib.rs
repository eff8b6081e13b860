// Holds the original files together. proto, io, constants and value are the original's, byte for byte; the rest stands in.
#![allow(dead_code)]

#[macro_use]
pub mod bitflags_ext;

pub mod constants;
pub mod io;
pub mod misc;
pub mod proto;
pub mod value;

// `self.parse(size)` in io.rs needs that a part of a buffer can be parsed out of it; the original has this beside its raw types.
impl<'de> proto::MyDeserialize<'de> for io::ParseBuf<'de> {
    const SIZE: Option<usize> = None;
    type Ctx = usize;

    fn deserialize(size: Self::Ctx, buf: &mut io::ParseBuf<'de>) -> std::io::Result<Self> {
        buf.checked_eat_buf(size).ok_or_else(misc::unexpected_buf_eof)
    }
}
