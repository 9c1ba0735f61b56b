//! Document 01, "The 28 bytes": the house rule on names.

/// The 16 bytes that hold a name.
pub type Field = [u8; 16];

/// The characters of a name: the bytes before the first zero, or all 16.
pub fn characters(field: &Field) -> &[u8] {
    let end = field.iter().position(|&byte| byte == 0);
    &field[..end.unwrap_or(field.len())]
}

/// 1 to 16 characters, each 20 to 7E hex.
pub fn good(field: &Field) -> bool {
    let name = characters(field);
    !name.is_empty() && name.iter().all(|byte| (0x20..=0x7E).contains(byte))
}

/// The same name with zeros after it, as the writer and the opening put it.
pub fn filled(field: &Field) -> Field {
    let name = characters(field);
    let mut kept = [0; 16];
    kept[..name.len()].copy_from_slice(name);
    kept
}

/// Bytes after the first zero don't count, so names are compared without them.
pub fn same(one: &Field, other: &Field) -> bool {
    characters(one) == characters(other)
}
