//! Books: the hashes of the inputs of one page.
use crate::rule::hash;
use crate::Fault;
use std::borrow::Cow;
use std::io::BufRead;

/// The text of a line: between its quotes where it has no escape, else as JSON.
fn text(line: &str) -> Result<Cow<'_, str>, Fault> {
    match line.strip_prefix('"').and_then(|rest| rest.strip_suffix('"')) {
        Some(inner) if inner.bytes().all(|byte| byte >= 0x20 && byte != b'"' && byte != b'\\') => {
            Ok(Cow::Borrowed(inner))
        }
        _ => Ok(Cow::Owned(serde_json::from_str(line)?)),
    }
}

/// The hashes of the inputs on the page of a flag's first site; the whole book is read, a line at a time.
pub fn hashes(path: &str, flag: &str) -> Result<Vec<u32>, Fault> {
    let mut file = std::io::BufReader::with_capacity(1 << 16, std::fs::File::open(path)?);
    let (mut hashes, mut line, mut last) = (Vec::new(), Vec::new(), String::new());
    let (mut wanted, mut first) = (false, true);
    file.read_until(b'\n', &mut line)?;
    if line != b"{\"book\":1}\n" {
        return Err("no book".into());
    }
    line.clear();
    while file.read_until(b'\n', &mut line)? > 0 {
        let read = std::str::from_utf8(&line)?.strip_suffix('\n').ok_or("a line ends with a line feed")?;
        if read.starts_with('{') {
            let page: serde_json::Value = serde_json::from_str(read)?;
            wanted = page["flag"] == flag && page["site"] == 0 && page["by"].is_null();
            first = true;
        } else {
            let input = text(read)?;
            if input.len() > 1024 || !first && *last >= *input {
                return Err("inputs rise and are short".into());
            }
            last.clear();
            last.push_str(&input);
            first = false;
            if wanted {
                hashes.push(hash(input.as_bytes()));
            }
        }
        line.clear();
    }
    Ok(hashes)
}
