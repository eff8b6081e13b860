//! Bytes as hex.

pub fn hex(b: &[u8]) -> String {
    if b.is_empty() {
        return "-".into();
    }
    if b.len() > 4096 {
        return format!("{}.. ({} bytes)", hex(&b[..64]), b.len());
    }
    b.iter().map(|b| format!("{b:02X}")).collect()
}
