//! Frames and answers as files: written, and taken apart again.

/// Six digits of length, a line feed, the text.
pub fn frame(case: &[u8]) -> Vec<u8> {
    assert!(case.len() < 1_000_000, "a case has at most six digits of length");
    [format!("{:06}\n", case.len()).as_bytes(), case].concat()
}

pub fn cases(mut input: &[u8]) -> Result<Vec<&[u8]>, String> {
    let mut found = Vec::new();
    while !input.is_empty() {
        let broken = || format!("frame {} is broken", found.len());
        let head = input.get(..7).filter(|head| head[6] == b'\n').ok_or_else(broken)?;
        let digits = std::str::from_utf8(&head[..6]).map_err(|_| broken())?;
        let length: usize = digits.parse().map_err(|_| broken())?;
        let case = input.get(7..7 + length).ok_or_else(broken)?;
        found.push(case);
        input = &input[7 + length..];
    }
    Ok(found)
}

/// The answers, each with the line that ends it; a rest without that line is one more answer.
pub fn answers(text: &[u8]) -> Vec<&[u8]> {
    let mut found = Vec::new();
    let (mut begin, mut line) = (0, 0);
    for place in (0..text.len()).filter(|&place| text[place] == b'\n') {
        if &text[line..place] == b"." {
            found.push(&text[begin..=place]);
            begin = place + 1;
        }
        line = place + 1;
    }
    if begin < text.len() {
        found.push(&text[begin..]);
    }
    found
}

/// Bytes for a person: line feeds as they are, whatever is not plain text as its number.
pub fn readable(bytes: &[u8], most: usize) -> String {
    let one = |&byte: &u8| match byte {
        b'\n' | b' '..=b'~' => (byte as char).to_string(),
        _ => format!("\\x{byte:02x}"),
    };
    let shown: String = bytes.iter().take(most).map(one).collect();
    match bytes.len() > most {
        true => format!("{shown}\n(the first {most} of {} bytes)\n", bytes.len()),
        false if shown.ends_with('\n') || shown.is_empty() => shown,
        false => format!("{shown}\n(no line feed at the end)\n"),
    }
}
