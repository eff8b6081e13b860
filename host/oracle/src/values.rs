//! Values, length-encoded integers and strings, quoting, durations and rows.

use crate::{
    count::Counts,
    model::{self, Answer, Val},
    ours::Ours,
    rng::Rng,
    text::hex,
};
use mysql_common::{
    constants::{ColumnFlags, ColumnType},
    io::{BufMutExt, ParseBuf, ReadMysqlExt, WriteMysqlExt},
    proto::{MyDeserialize, MySerialize},
    value::{BinValue, TextValue, Value, ValueDeserializer},
};

// ---- The original's answers -------------------------------------------------------------------------------------------------

/// Types for which the original has a name and no reader: it panics.
pub fn panics(column_type: u8) -> bool {
    matches!(column_type, 17..=20 | 243)
}

pub fn is_string(column_type: u8) -> bool {
    matches!(column_type, 0 | 15 | 16 | 242 | 245..=255)
}

/// The value and the bytes used, or the refusal that its failure stands for.
pub fn rust_value(s: &[u8], column_type: u8, is_unsigned: bool) -> Result<(Value, usize), u8> {
    let Ok(column) = ColumnType::try_from(column_type) else { return Err(10) };
    if panics(column_type) {
        return Err(10);
    }
    let flags = if is_unsigned { ColumnFlags::UNSIGNED_FLAG } else { ColumnFlags::empty() };
    let mut buf = ParseBuf(s);
    match ValueDeserializer::<BinValue>::deserialize((column, flags), &mut buf) {
        Ok(v) => Ok((v.0, s.len() - buf.len())),
        Err(_) => Err(8),
    }
}

pub fn same(s: &[u8], theirs: &Value, ours: &Val) -> bool {
    match (theirs, *ours) {
        (Value::NULL, Val::Null) => true,
        (Value::Bytes(b), Val::Bytes(place, len)) => place <= s.len() && len <= s.len() - place && s[place..place + len] == b[..],
        (Value::Int(a), Val::Int(b)) => *a == b,
        (Value::UInt(a), Val::UInt(b)) => *a == b,
        (Value::Float(a), Val::Float(b)) => a.to_bits() == b,
        (Value::Double(a), Val::Double(b)) => a.to_bits() == b,
        (Value::Date(a, b, c, d, e, f, g), v) => v == Val::Date(*a, *b, *c, *d, *e, *f, *g),
        (Value::Time(a, b, c, d, e, f), v) => v == Val::Time(*a, *b, *c, *d, *e, *f),
        _ => false,
    }
}

/// Debug of a Time overflows on many days; this doesn't.
pub fn show(v: &Value) -> String {
    match v {
        Value::NULL => "NULL".into(),
        Value::Bytes(b) => format!("Bytes {}", hex(b)),
        Value::Int(x) => format!("Int {x}"),
        Value::UInt(x) => format!("UInt {x}"),
        Value::Float(x) => format!("Float {:08X}", x.to_bits()),
        Value::Double(x) => format!("Double {:016X}", x.to_bits()),
        Value::Date(a, b, c, d, e, f, g) => format!("Date {a} {b} {c} {d} {e} {f} {g}"),
        Value::Time(a, b, c, d, e, f) => format!("Time {a} {b} {c} {d} {e} {f}"),
    }
}

// ---- One comparison each ----------------------------------------------------------------------------------------------------

/// A string's lead is 0xFB or 0xFF: the original answers an empty string and uses one byte, we answer 9. Known, and checked as known.
fn bad_lead(s: &[u8]) -> bool {
    matches!(s.first(), Some(0xfb | 0xff))
}

pub fn value(ours: &Ours, s: &[u8], at: usize, column_type: u8, is_unsigned: u8) -> Result<u8, String> {
    let theirs = rust_value(&s[at..], column_type, is_unsigned != 0);
    let mine = ours.read_value(s, at, column_type, is_unsigned);
    let right = match (&theirs, &mine) {
        (Ok((Value::Bytes(b), 1)), Err(9)) if bad_lead(&s[at..]) => b.is_empty(),
        (Ok(_), Ok(_)) if is_string(column_type) && bad_lead(&s[at..]) => false,
        (Ok((v, used)), Ok((w, next))) => same(s, v, w) && at + used == *next,
        (Err(a), Err(b)) => a == b,
        _ => false,
    };
    if !right {
        let t = theirs.as_ref().map(|(v, n)| format!("{} used {n}", show(v)));
        return Err(format!("value type {column_type} unsigned {is_unsigned} at {at} of {}: the original {t:?}, ours {mine:?}", hex(s)));
    }
    if matches!(column_type, 11 | 12) {
        let fields = ours.read_fields(s, at, column_type);
        if fields != mine {
            return Err(format!("fields of type {column_type} at {at} of {}: {fields:?}, the value was {mine:?}", hex(s)));
        }
    }
    if column_type == 11 {
        let wanted = match mine {
            Ok((Val::Time(neg, d, h, mi, se, us), next)) => model::duration(neg, d, h, mi, se, us).map(|v| (v, next)),
            Ok(_) => Err(0),
            Err(no) => Err(no),
        };
        let got = ours.read_duration(s, at);
        if got != wanted {
            return Err(format!("duration at {at} of {}: wanted {wanted:?}, ours {got:?}", hex(s)));
        }
    }
    Ok(mine.err().unwrap_or(0))
}

pub fn lenenc_int(ours: &Ours, s: &[u8], at: usize) -> Result<u8, String> {
    let mut buf = ParseBuf(&s[at..]);
    let first = buf.checked_eat_lenenc_int().map(|v| (v, s.len() - buf.len()));
    let mut reader = &s[at..];
    let second = reader.read_lenenc_int().ok().map(|v| (v, s.len() - reader.len()));
    let mine = ours.lenenc_int(s, at);
    let right = match (first, second, mine) {
        (Some((0, n)), None, Err(9)) => bad_lead(&s[at..]) && n == at + 1,
        (Some(a), Some(b), Ok(c)) => a == b && b == c && !bad_lead(&s[at..]),
        (None, None, Err(8)) => true,
        _ => false,
    };
    if !right {
        return Err(format!("integer at {at} of {}: the original {first:?} and {second:?}, ours {mine:?}", hex(s)));
    }
    Ok(mine.err().unwrap_or(0))
}

pub fn lenenc_str(ours: &Ours, s: &[u8], at: usize) -> Result<u8, String> {
    let mut buf = ParseBuf(&s[at..]);
    let theirs = buf.checked_eat_lenenc_str().map(|v| (v, s.len() - buf.len()));
    let mine = ours.lenenc_str(s, at);
    if !same_string(s, at, &theirs, &mine) {
        return Err(format!("string at {at} of {}: the original {theirs:?}, ours {mine:?}", hex(s)));
    }
    Ok(mine.err().unwrap_or(0))
}

fn same_string(s: &[u8], at: usize, theirs: &Option<(&[u8], usize)>, mine: &Answer<(usize, usize)>) -> bool {
    match (theirs, mine) {
        (Some((b, n)), Err(9)) => bad_lead(&s[at..]) && b.is_empty() && *n == at + 1,
        (Some((b, n)), Ok(((place, len), next))) => !bad_lead(&s[at..]) && n == next && place + len == *n && s[*place..place + len] == **b,
        (None, Err(8)) => true,
        _ => false,
    }
}

/// The original's text reader on nothing and on 0xFB; all else against its length-encoded string, for the reader that it leans on is
/// absent.
pub fn text(ours: &Ours, s: &[u8], at: usize) -> Result<u8, String> {
    let mine = ours.read_text(s, at);
    let rest = &s[at..];
    let right = match rest.first() {
        None | Some(0xfb) => {
            let mut buf = ParseBuf(rest);
            let theirs = ValueDeserializer::<TextValue>::deserialize((), &mut buf);
            match (theirs, mine) {
                (Err(_), Err(8)) => true,
                (Ok(v), Ok((w, next))) => same(s, &v.0, &w) && next == s.len() - buf.len(),
                _ => false,
            }
        }
        _ => {
            let mut buf = ParseBuf(rest);
            let theirs = buf.checked_eat_lenenc_str().map(|v| (v, s.len() - buf.len()));
            let mine = match mine {
                Ok((Val::Bytes(place, len), next)) => Ok(((place, len), next)),
                Ok(_) => Err(0),
                Err(no) => Err(no),
            };
            same_string(s, at, &theirs, &mine)
        }
    };
    if !right {
        return Err(format!("text at {at} of {}: ours {mine:?}", hex(s)));
    }
    Ok(mine.err().unwrap_or(0))
}

fn rust_of(v: &Val, text: &[u8]) -> Value {
    match *v {
        Val::Null => Value::NULL,
        Val::Bytes(..) => Value::Bytes(text.to_vec()),
        Val::Int(x) => Value::Int(x),
        Val::UInt(x) => Value::UInt(x),
        Val::Float(x) => Value::Float(f32::from_bits(x)),
        Val::Double(x) => Value::Double(f64::from_bits(x)),
        Val::Date(a, b, c, d, e, f, g) => Value::Date(a, b, c, d, e, f, g),
        Val::Time(a, b, c, d, e, f) => Value::Time(a, b, c, d, e, f),
    }
}

pub fn rust_put(v: &Val, text: &[u8]) -> Vec<u8> {
    let mut out = Vec::new();
    rust_of(v, text).serialize(&mut out);
    out
}

/// What a writer leaves: its bytes at the place, all others as they were; and 6 with nothing changed where it doesn't fit.
fn put(what: &str, wanted: &[u8], at: usize, spare: usize, call: impl Fn(&mut [u8], usize) -> Result<usize, u8>) -> Result<(), String> {
    let mut dst = vec![0xee; at + wanted.len() + spare];
    let got = call(&mut dst, at);
    let right = got == Ok(at + wanted.len())
        && dst[at..at + wanted.len()] == *wanted
        && dst[..at].iter().chain(&dst[at + wanted.len()..]).all(|b| *b == 0xee);
    if !right {
        return Err(format!("{what} at {at}: the original {}, ours {got:?} {}", hex(wanted), hex(&dst[at..])));
    }
    if !wanted.is_empty() {
        let mut dst = vec![0xee; at + wanted.len() - 1];
        let got = call(&mut dst, at);
        if got != Err(6) || dst.iter().any(|b| *b != 0xee) {
            return Err(format!("{what} at {at} into one byte less than {}: wanted 6 and nothing changed, ours {got:?}", wanted.len()));
        }
    }
    Ok(())
}

pub fn put_value(ours: &Ours, v: &Val, text: &[u8], at: usize, spare: usize) -> Result<(), String> {
    let wanted = rust_put(v, text);
    let shown = if matches!(v, Val::Bytes(..)) { format!("put of string {}", hex(text)) } else { format!("put of {v:?}") };
    put(&shown, &wanted, at, spare, |dst, at| ours.put_value(v, text, dst, at))?;
    if !matches!(v, Val::Bytes(..)) && rust_of(v, text).bin_len() != wanted.len() as u64 {
        return Err(format!("{shown}: the original's own lengths differ"));
    }
    Ok(())
}

pub fn put_lenenc_int(ours: &Ours, v: u64, at: usize, spare: usize) -> Result<(), String> {
    let mut wanted = Vec::new();
    wanted.put_lenenc_int(v);
    let mut second = Vec::new();
    let n = second.write_lenenc_int(v).expect("a vector takes it");
    if wanted != second || n != wanted.len() as u64 {
        return Err(format!("integer {v}: the original's two writers differ"));
    }
    put(&format!("integer {v}"), &wanted, at, spare, |dst, at| ours.put_lenenc_int(v, dst, at))
}

pub fn rust_escaped(input: &str, no_backslash: bool) -> Vec<u8> {
    Value::Bytes(input.as_bytes().to_vec()).as_sql(no_backslash).into_bytes()
}

pub fn escaped(ours: &Ours, input: &str, no_backslash: u8, at: usize, spare: usize) -> Result<(), String> {
    let wanted = rust_escaped(input, no_backslash != 0);
    let shown = format!("quoting {} flag {no_backslash}", hex(input.as_bytes()));
    put(&shown, &wanted, at, spare, |dst, at| ours.escaped(input.as_bytes(), no_backslash, dst, at))?;
    let len = ours.escaped_len(input.as_bytes(), no_backslash);
    if len != Ok(wanted.len()) {
        return Err(format!("{shown}: length wanted {}, ours {len:?}", wanted.len()));
    }
    Ok(())
}

/// A row walked by the original's value reader.
pub fn rust_row(row: &[u8], types: &[u8], signs: &[u8], starts: &mut [usize]) -> Result<(usize, usize), u8> {
    let n = types.len();
    if row.is_empty() {
        return Err(8);
    }
    if row[0] != 0 {
        return Err(12);
    }
    let map = (n + 9) / 8;
    if row.len() - 1 < map {
        return Err(8);
    }
    let (mut at, mut nulls) = (1 + map, 0);
    for i in 0..n {
        starts[i] = at;
        if row[1 + (i + 2) / 8] >> ((i + 2) % 8) & 1 == 1 {
            nulls += 1;
            continue;
        }
        if is_string(types[i]) && bad_lead(&row[at..]) {
            return Err(9);
        }
        at += rust_value(&row[at..], types[i], signs[i] != 0)?.1;
    }
    Ok((nulls, at))
}

pub fn row(ours: &Ours, row: &[u8], types: &[u8], signs: &[u8]) -> Result<u8, String> {
    let n = types.len();
    let (mut a, mut b) = (vec![0; n], vec![7_777_777; n + 1]);
    let theirs = rust_row(row, types, signs, &mut a);
    let mine = ours.read_row(row, types, signs, &mut b);
    let right = theirs == mine
        && b[n] == 7_777_777
        && match mine {
            Ok(_) => a[..] == b[..n],
            Err(_) => b.iter().all(|x| *x == 7_777_777),
        };
    if !right {
        return Err(format!(
            "row {} types {} signs {}: walked by the original {theirs:?}, ours {mine:?}",
            hex(row),
            hex(types),
            hex(signs)
        ));
    }
    Ok(mine.err().unwrap_or(0))
}

// ---- Inputs made up ---------------------------------------------------------------------------------------------------------

pub const LISTED: &[u8] =
    &[0, 1, 2, 3, 4, 5, 6, 7, 8, 9, 10, 11, 12, 13, 14, 15, 16, 242, 245, 246, 247, 248, 249, 250, 251, 252, 253, 254, 255];

const EDGES: &[u64] = &[
    0,
    1,
    127,
    128,
    250,
    251,
    252,
    253,
    254,
    255,
    256,
    32767,
    32768,
    65535,
    65536,
    0xff_fffe,
    0xff_ffff,
    0x100_0000,
    0x7fff_ffff,
    0x8000_0000,
    0xffff_ffff,
    0x1_0000_0000,
    0x7ff0_0000_0000_0001,
    0x7fff_ffff_ffff_fffe,
    0x7fff_ffff_ffff_ffff,
    0x8000_0000_0000_0000,
    0x8000_0000_0000_0001,
    0xfff8_0000_0000_0000,
    0xffff_ffff_ffff_fffe,
    0xffff_ffff_ffff_ffff,
];

pub fn number(rng: &mut Rng) -> u64 {
    match rng.below(4) {
        0 => *rng.pick(EDGES),
        1 => rng.pick(EDGES).wrapping_add(rng.below(5) as u64).wrapping_sub(2),
        2 => rng.next() >> rng.below(64),
        _ => rng.next(),
    }
}

fn put_length(n: usize, out: &mut Vec<u8>, rng: &mut Rng) {
    match rng.below(12) {
        0 => {
            out.push(0xfc);
            out.extend_from_slice(&(n as u16).to_le_bytes());
        }
        1 => {
            out.push(0xfd);
            out.extend_from_slice(&(n as u32).to_le_bytes()[..3]);
        }
        2 => {
            out.push(0xfe);
            out.extend_from_slice(&(n as u64).to_le_bytes());
        }
        3 if rng.chance(1, 4) => {
            out.push(0xfe);
            out.extend_from_slice(&number(rng).to_le_bytes());
        }
        4 if rng.chance(1, 3) => out.push(*rng.pick(&[0xfb, 0xff])),
        _ => out.put_lenenc_int(n as u64),
    }
}

/// The bytes of a value of a type: mostly whole, fields often at their edges.
pub fn value_bytes(column_type: u8, out: &mut Vec<u8>, rng: &mut Rng) {
    match column_type {
        1 => out.extend_from_slice(&number(rng).to_le_bytes()[..1]),
        2 | 13 => out.extend_from_slice(&number(rng).to_le_bytes()[..2]),
        3 | 9 | 4 => out.extend_from_slice(&number(rng).to_le_bytes()[..4]),
        8 | 5 => out.extend_from_slice(&number(rng).to_le_bytes()),
        6 => {}
        7 | 10 | 12 | 14 => {
            let len = match rng.below(8) {
                0 => rng.below(16),
                1 => rng.below(256),
                _ => *rng.pick(&[0, 4, 7, 11]),
            };
            out.push(len as u8);
            rng.fill(out, len);
        }
        11 => {
            let len = match rng.below(8) {
                0 => rng.below(18),
                1 => rng.below(256),
                _ => *rng.pick(&[0, 8, 12]),
            };
            out.push(len as u8);
            let start = out.len();
            rng.fill(out, len);
            if len >= 8 {
                out[start] = *rng.pick(&[0, 1, 1, 2, 255, 128]);
                if rng.chance(2, 3) {
                    // Around the largest duration.
                    let days = 106_751_988 + rng.below(6) as u32;
                    out[start + 1..start + 5].copy_from_slice(&days.to_le_bytes());
                }
            }
        }
        _ => {
            let n = match rng.below(30) {
                0 => rng.from_to(245, 260),
                1 => rng.below(3_000),
                _ => rng.below(12),
            };
            put_length(n, out, rng);
            rng.fill(out, n);
        }
    }
}

fn any_type(rng: &mut Rng) -> u8 {
    if rng.chance(1, 30) { rng.byte() } else { *rng.pick(LISTED) }
}

/// Bytes before, the value, bytes behind or some missing.
fn around(rng: &mut Rng, make: impl Fn(&mut Vec<u8>, &mut Rng)) -> (Vec<u8>, usize) {
    let at = if rng.chance(1, 2) { 0 } else { rng.below(20) };
    let mut s = rng.bytes(at);
    make(&mut s, rng);
    match rng.below(4) {
        0 => {
            let n = rng.below(6);
            rng.fill(&mut s, n);
        }
        1 => {
            let cut = rng.below(s.len() - at + 1);
            s.truncate(s.len() - cut.min(if rng.chance(1, 2) { 2 } else { cut }));
        }
        _ => {}
    }
    (s, at)
}

pub fn random_value(ours: &Ours, rng: &mut Rng, counts: &mut Counts) -> Result<(), String> {
    let column_type = any_type(rng);
    let (s, at) = around(rng, |s, rng| value_bytes(column_type, s, rng));
    let is_unsigned = *rng.pick(&[0, 0, 1, 1, 2, 255]);
    counts.op("value");
    let no = smaller(s, at, |s, at| value(ours, s, at, column_type, is_unsigned))?;
    counts.answer("value", no);
    Ok(())
}

/// A difference is tried again on fewer bytes, and on plainer ones.
fn smaller(s: Vec<u8>, at: usize, check: impl Fn(&[u8], usize) -> Result<u8, String>) -> Result<u8, String> {
    let mut why = match check(&s, at) {
        Ok(no) => return Ok(no),
        Err(why) => why,
    };
    let (mut s, mut at) = (s, at);
    let mut again = true;
    while again {
        again = false;
        if at > 0
            && let Err(w) = check(&s[at..], 0)
        {
            (s, at, why, again) = (s[at..].to_vec(), 0, w, true);
        }
        for i in (at..s.len()).rev() {
            let mut t = s.clone();
            t.remove(i);
            if at <= t.len()
                && let Err(w) = check(&t, at)
            {
                (s, why, again) = (t, w, true);
                break;
            }
        }
        for i in at..s.len() {
            if s[i] != 0 {
                let mut t = s.clone();
                t[i] = 0;
                if let Err(w) = check(&t, at) {
                    (s, why, again) = (t, w, true);
                }
            }
        }
    }
    Err(why)
}

pub fn random_lenenc(ours: &Ours, rng: &mut Rng, counts: &mut Counts) -> Result<(), String> {
    let as_string = rng.chance(1, 2);
    let (s, at) = around(rng, |s, rng| {
        if as_string {
            value_bytes(253, s, rng)
        } else if rng.chance(1, 8) {
            let n = rng.below(10);
            rng.fill(s, n);
        } else {
            s.put_lenenc_int(number(rng));
        }
    });
    counts.op(if as_string { "string" } else { "integer" });
    let no = if as_string { smaller(s, at, |s, at| lenenc_str(ours, s, at))? } else { smaller(s, at, |s, at| lenenc_int(ours, s, at))? };
    counts.answer(if as_string { "string" } else { "integer" }, no);
    Ok(())
}

pub fn random_text(ours: &Ours, rng: &mut Rng, counts: &mut Counts) -> Result<(), String> {
    let (s, at) = around(rng, |s, rng| if rng.chance(1, 4) { s.push(0xfb) } else { value_bytes(253, s, rng) });
    counts.op("text");
    let no = smaller(s, at, |s, at| text(ours, s, at))?;
    counts.answer("text", no);
    Ok(())
}

pub fn random_val(rng: &mut Rng) -> (Val, Vec<u8>) {
    let z = |rng: &mut Rng| if rng.chance(1, 2) { 0 } else { number(rng) };
    let v = match rng.below(8) {
        0 => Val::Int(number(rng) as i64),
        1 => Val::UInt(number(rng)),
        2 => Val::Float(if rng.chance(1, 3) { 0x7f80_0000 | number(rng) as u32 } else { number(rng) as u32 }),
        3 => Val::Double(if rng.chance(1, 3) { 0x7ff0_0000_0000_0000 | number(rng) } else { number(rng) }),
        4 | 5 => {
            let k = rng.below(4);
            let f = |on: bool, rng: &mut Rng| if on { z(rng) } else { 0 };
            Val::Date(
                f(k > 0, rng) as u16,
                f(k > 0, rng) as u8,
                f(k > 0, rng) as u8,
                f(k > 1, rng) as u8,
                f(k > 1, rng) as u8,
                f(k > 1, rng) as u8,
                f(k > 2, rng) as u32,
            )
        }
        6 => {
            let k = rng.below(3);
            let f = |on: bool, rng: &mut Rng| if on { z(rng) } else { 0 };
            Val::Time(
                rng.chance(1, 2),
                f(k > 0, rng) as u32,
                f(k > 0, rng) as u8,
                f(k > 0, rng) as u8,
                f(k > 0, rng) as u8,
                f(k > 1, rng) as u32,
            )
        }
        _ => {
            let n = match rng.below(60) {
                0 => rng.from_to(248, 256),
                1 => rng.from_to(65_533, 65_540),
                2 => rng.below(5_000),
                _ => rng.below(20),
            };
            return (Val::Bytes(0, n), rng.bytes(n));
        }
    };
    (v, Vec::new())
}

pub fn random_put(ours: &Ours, rng: &mut Rng, counts: &mut Counts) -> Result<(), String> {
    let (at, spare) = (rng.below(9), rng.below(4));
    if rng.chance(1, 5) {
        counts.op("put integer");
        return put_lenenc_int(ours, number(rng), at, spare);
    }
    let (v, text) = random_val(rng);
    counts.op("put value");
    put_value(ours, &v, &text, at, spare)
}

pub fn utf8(rng: &mut Rng) -> String {
    let mut s = String::new();
    let n = if rng.chance(1, 40) { rng.below(2_000) } else { rng.below(24) };
    for _ in 0..n {
        s.push(match rng.below(10) {
            0..=2 => *rng.pick(&['\0', '\n', '\r', '\x1a', '\\', '\'', '"']),
            3 => char::from(rng.byte() & 0x7f),
            4 => char::from_u32(rng.next() as u32 % 0x11_0000).unwrap_or('ß'),
            5 => *rng.pick(&['ü', 'é', 'ł', '東', '駅', '🚆', '\u{5c27}', '\u{275c}']),
            _ => (b'a' + rng.byte() % 26) as char,
        });
    }
    s
}

/// Text of some hundred bytes with few bytes that change, or none: long inputs are quoted in blocks.
fn calm(rng: &mut Rng) -> String {
    let rare = 1 + rng.below(200);
    (0..rng.below(600))
        .map(|_| {
            if rng.chance(1, rare) {
                *rng.pick(&['\0', '\n', '\r', '\x1a', '\\', '\'', '"', 'ü'])
            } else {
                (b'a' + rng.byte() % 26) as char
            }
        })
        .collect()
}

pub fn random_escape(ours: &Ours, rng: &mut Rng, counts: &mut Counts) -> Result<(), String> {
    let s = if rng.chance(1, 10) { calm(rng) } else { utf8(rng) };
    let flag = *rng.pick(&[0, 0, 1, 255]);
    counts.op("escape");
    let Err(mut why) = escaped(ours, &s, flag, rng.below(5), rng.below(4)) else { return Ok(()) };
    // One character that differs is enough, if one does.
    for c in s.chars() {
        if let Err(w) = escaped(ours, &c.to_string(), flag, 0, 0) {
            why = w;
            break;
        }
    }
    Err(why)
}

pub fn random_duration(ours: &Ours, rng: &mut Rng, counts: &mut Counts) -> Result<(), String> {
    let days = if rng.chance(1, 2) { 106_751_980 + rng.below(14) as u32 } else { number(rng) as u32 };
    let (neg, h, mi, se, us) = (*rng.pick(&[0, 1, 2, 255]), number(rng) as u8, number(rng) as u8, number(rng) as u8, number(rng) as u32);
    counts.op("duration");
    let (wanted, got) = (model::duration(neg != 0, days, h, mi, se, us), ours.duration(neg, days, h, mi, se, us));
    if wanted != got {
        return Err(format!("duration of {neg} {days} {h} {mi} {se} {us}: wanted {wanted:?}, ours {got:?}"));
    }
    counts.answer("duration", got.err().unwrap_or(0));
    Ok(())
}

pub fn random_row(ours: &Ours, rng: &mut Rng, counts: &mut Counts) -> Result<(), String> {
    let n = match rng.below(20) {
        0 => rng.from_to(30, 70),
        _ => rng.from_to(1, 20),
    };
    let types: Vec<u8> = (0..n).map(|_| if rng.chance(1, 200) { rng.byte() } else { *rng.pick(LISTED) }).collect();
    let signs: Vec<u8> = (0..n).map(|_| *rng.pick(&[0, 0, 1, 255])).collect();
    let mut row = vec![if rng.chance(1, 40) { rng.byte() } else { 0 }];
    let map = (n + 9) / 8;
    for _ in 0..map {
        row.push(if rng.chance(1, 2) { rng.byte() } else { 0 });
    }
    for i in 0..n {
        if row[1 + (i + 2) / 8] >> ((i + 2) % 8) & 1 == 0 {
            value_bytes(types[i], &mut row, rng);
        }
    }
    match rng.below(8) {
        0 => {
            let k = rng.below(8);
            rng.fill(&mut row, k);
        }
        1 => row.truncate(rng.below(row.len() + 1)),
        _ => {}
    }
    counts.op("row");
    let no = self::row(ours, &row, &types, &signs)?;
    counts.answer("row", no);
    Ok(())
}

// ---- All short inputs -------------------------------------------------------------------------------------------------------

fn all_short(mut check: impl FnMut(&[u8]) -> Result<(), String>) -> Result<u64, String> {
    check(&[])?;
    for a in 0..=255 {
        check(&[a])?;
        for b in 0..=255 {
            check(&[a, b])?;
        }
    }
    Ok(1 + 256 + 65_536)
}

/// All inputs of up to 2 bytes for each reader, for all 256 types at both signs, and for quoting.
pub fn exhaustive(ours: &Ours, counts: &mut Counts, mut tell: impl FnMut(&str)) -> Result<(), String> {
    for column_type in 0..=255u8 {
        for is_unsigned in [0, 1] {
            let mut answers = [0u64; 256];
            let n = all_short(|s| {
                answers[value(ours, s, 0, column_type, is_unsigned)? as usize] += 1;
                Ok(())
            })?;
            counts.ops_of("all short: values", n);
            for (no, k) in answers.iter().enumerate().filter(|(_, k)| **k > 0) {
                *counts.answers.entry(("all short: values", no as u8)).or_default() += k;
            }
        }
        if column_type % 64 == 63 {
            tell("all short values");
        }
    }
    counts.ops_of("all short: integers", all_short(|s| lenenc_int(ours, s, 0).map(drop))?);
    counts.ops_of("all short: strings", all_short(|s| lenenc_str(ours, s, 0).map(drop))?);
    counts.ops_of("all short: text", all_short(|s| text(ours, s, 0).map(drop))?);
    let mut n = 0;
    all_short(|s| {
        if let Ok(t) = str::from_utf8(s) {
            n += 2;
            escaped(ours, t, 0, 0, 0)?;
            escaped(ours, t, 1, 0, 0)?;
        }
        Ok(())
    })?;
    counts.ops_of("all short: quoting", n);
    // The types that the original names and can't read do panic.
    for column_type in [17, 18, 19, 20, 243] {
        let column = ColumnType::try_from(column_type).expect("it has a name");
        let quiet = std::panic::take_hook();
        std::panic::set_hook(Box::new(|_| ()));
        let died = std::panic::catch_unwind(|| {
            let _ = ValueDeserializer::<BinValue>::deserialize((column, ColumnFlags::empty()), &mut ParseBuf(&[0; 16]));
        });
        std::panic::set_hook(quiet);
        if died.is_ok() {
            return Err(format!("the original reads type {column_type}; it was known to panic"));
        }
    }
    Ok(())
}
