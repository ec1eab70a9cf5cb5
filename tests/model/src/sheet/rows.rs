//! A sheet cut into its rows and fields.

/// A row as it was read.
#[derive(Clone, Debug, PartialEq, Eq)]
pub struct Row {
    /// The name without its quotes.
    pub name: Vec<u8>,
    /// The identifier's digits, leading zeros too.
    pub digits: Vec<u8>,
}

/// What a rule reads from the start of a text, and the text behind it.
type Reading<'a, T> = Option<(T, &'a [u8])>;

/// All rows of a text, if it is a sheet.
pub fn rows(text: &[u8]) -> Option<Vec<Row>> {
    let mut rows = Vec::new();
    let mut text = text;
    while !text.is_empty() {
        let (row, behind) = row(text)?;
        rows.push(row);
        text = behind;
    }
    Some(rows)
}

/// A row and its end. Nothing at all ends the last one, too.
fn row(text: &[u8]) -> Reading<'_, Row> {
    let (name, behind) = field(text)?;
    let (digits, behind) = field(behind.strip_prefix(b",")?)?;
    let behind = match behind {
        [] => behind,
        _ => behind.strip_prefix(b"\r\n")?,
    };
    let sound = is_name(&name) && is_number(&digits);
    sound.then_some((Row { name, digits }, behind))
}

fn is_name(field: &[u8]) -> bool {
    !field.contains(&0)
}

fn is_number(field: &[u8]) -> bool {
    !field.is_empty() && field.iter().all(u8::is_ascii_digit)
}

/// A field without its quotes, if it has any.
fn field(text: &[u8]) -> Reading<'_, Vec<u8>> {
    match text.strip_prefix(b"\"") {
        Some(inside) => quoted(inside),
        None => Some(unquoted(text)),
    }
}

/// A field up to the first byte that cannot stand in it.
fn unquoted(text: &[u8]) -> (Vec<u8>, &[u8]) {
    let ends = |byte: &u8| b"\",\r\n".contains(byte);
    let (field, behind) = text.split_at(text.iter().position(ends).unwrap_or(text.len()));
    (field.to_vec(), behind)
}

/// A field behind its first quote: pieces that end in a quote each. A quote
/// with another behind it stands for one, and a further piece follows.
fn quoted(text: &[u8]) -> Reading<'_, Vec<u8>> {
    let mut field = Vec::new();
    let mut text = text;
    loop {
        let end = text.iter().position(|&byte| byte == b'"')?;
        field.extend_from_slice(&text[..end]);
        text = &text[end + 1..];
        match text.strip_prefix(b"\"") {
            None => return Some((field, text)),
            Some(behind) => text = behind,
        }
        field.push(b'"');
    }
}
