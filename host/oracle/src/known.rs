//! Where the original is known to differ, or was found to behave in a way that the rules lean on: each one run, so that the list of
//! differences stays true of it.

use crate::{
    count::Counts,
    original::{Look, Original, Published},
    values,
};
use bytes::BytesMut;
use mysql_common::{
    constants::ColumnType,
    io::ParseBuf,
    proto::codec::{Compression, compress},
    value::Value,
};

fn quietly<T>(call: impl FnOnce() -> T + std::panic::UnwindSafe) -> std::thread::Result<T> {
    let hook = std::panic::take_hook();
    std::panic::set_hook(Box::new(|_| ()));
    let answer = std::panic::catch_unwind(call);
    std::panic::set_hook(hook);
    answer
}

fn look(codec: &Published) -> Look {
    let mut look = Look::default();
    codec.look(&mut String::new(), &mut look);
    look
}

fn framed(limit: usize) -> Published {
    let mut codec = Published::open(limit);
    codec.frames_on();
    codec
}

pub fn all(counts: &mut Counts) -> Result<(), String> {
    let mut is = |name: &str, right: bool| {
        counts.op("known differences");
        if right { Ok(()) } else { Err(format!("the original is not as known: {name}")) }
    };

    for lead in [0xfb, 0xff] {
        let s = [lead, 0x41];
        let mut buf = ParseBuf(&s);
        is("a string led by FB or FF is empty, one byte used", buf.checked_eat_lenenc_str() == Some(&[][..]) && buf.len() == 1)?;
        let mut buf = ParseBuf(&s);
        is("an integer led by FB or FF is 0, one byte used", buf.checked_eat_lenenc_int() == Some(0) && buf.len() == 1)?;
    }
    let mut buf = ParseBuf(&[0x05, 0x41]);
    is("05 41 as a string: nothing, and the cursor has moved", buf.checked_eat_lenenc_str().is_none() && buf.len() == 1)?;
    let mut buf = ParseBuf(&[0xfc, 0x05]);
    is("FC 05 as an integer: nothing, and the cursor has moved", buf.checked_eat_lenenc_int().is_none() && buf.len() == 1)?;
    is("a date 04 E8 07: an error", values::rust_value(&[0x04, 0xe8, 0x07], 12, false).is_err())?;
    let two = values::rust_value(&[8, 2, 0, 0, 0, 0, 0, 1, 0], 11, false);
    is("sign byte 2 is not negative", matches!(two, Ok((Value::Time(false, 0, 0, 1, 0, 0), 9))))?;
    let nameless = (0..=255u8).filter(|t| ColumnType::try_from(*t).is_err()).collect::<Vec<_>>();
    is("types 21 to 241 and 244 have no name", nameless == (21..=241).chain([244]).collect::<Vec<_>>())?;
    is("bytes that are no UTF-8 are quoted as 0x", Value::Bytes(vec![0x41, 0xff]).as_sql(false) == "0x41FF")?;

    let mut codec = Published::open(100);
    let (mut src, mut dst) = (BytesMut::from(&[1, 0, 0, 5, 0x41][..]), Vec::new());
    let first = codec.decode(&mut src, &mut dst);
    is("a wrong-numbered chunk is used and appended", first == Err(3) && src.is_empty() && dst == [0x41])?;
    src.extend_from_slice(&[1, 0, 0, 0, 0x42]);
    is("and the next one is delivered behind it", codec.decode(&mut src, &mut dst) == Ok(true) && dst == [0x41, 0x42])?;

    let mut codec = Published::open(2);
    let mut src = BytesMut::from(&[3, 0, 0, 0][..]);
    let (a, b) = (codec.decode(&mut src, &mut Vec::new()), codec.decode(&mut src, &mut Vec::new()));
    is("too large, and again", a == Err(2) && b == Err(2) && src.len() == 4)?;
    is("and writing goes on", codec.encode(&[1], &mut BytesMut::new()) == Ok(()))?;

    let mut codec = framed(100);
    let mut src = BytesMut::from(&[5, 0, 0, 7, 0, 0, 0, 1, 0, 0, 0, 0x41][..]);
    let mut dst = Vec::new();
    is("a wrong-numbered frame is an error", codec.decode(&mut src, &mut dst) == Err(3) && src.is_empty())?;
    is("and the next call delivers it", codec.decode(&mut src, &mut dst) == Ok(true) && dst == [0x41])?;

    let mut codec = framed(100);
    let mut src = BytesMut::from(&[1, 0, 0, 9, 1, 0, 0][..]);
    let waits = codec.decode(&mut src, &mut Vec::new()) == Ok(false) && src.len() == 7 && look(&codec).packed;
    is("a packed frame is waited for, whatever its number", waits)?;

    let mut codec = framed(0);
    let died = quietly(std::panic::AssertUnwindSafe(|| codec.encode(&[], &mut BytesMut::new()))).is_err();
    is("limit 0, framed: writing an empty packet panics", died)?;
    let (mut none, mut out) = (BytesMut::new(), BytesMut::new());
    let empty = compress(9, Compression::none(), 100, &mut none, &mut out);
    is("compress() of nothing answers number 0", matches!(empty, Ok(0)))?;

    let mut codec = framed(100);
    let mut src = BytesMut::from(&[10, 0, 0, 0, 0, 0, 0, 1, 0, 0, 0, 0x41, 1, 0, 0, 0, 0x42][..]);
    let (mut a, mut b) = (Vec::new(), Vec::new());
    let both = codec.decode(&mut src, &mut a) == Ok(true) && codec.decode(&mut src, &mut b) == Ok(true);
    is("the tolerance delivers a repeated number inside one frame", both && a == [0x41] && b == [0x42])
}
