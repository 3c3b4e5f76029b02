//! The escapes of the case files. Inside a sheet or an output
//!
//! ```text
//! \n \t \r \\ \"   are the usual bytes,
//! \xNN             is the byte of that number in hexadecimal,
//! \{12*text\}      is the text twelve times over, and may be nested.
//! ```
//!
//! A backslash starts no token of the language, so nothing is lost.

use std::iter::Peekable;
use std::str::Bytes;

pub fn decode(text: &str) -> Result<Vec<u8>, String> {
    let mut input = text.bytes().peekable();
    part(&mut input, false)
}

/// Reads to the end of the input, or to the `\}` that closes a repetition.
fn part(input: &mut Peekable<Bytes>, repeated: bool) -> Result<Vec<u8>, String> {
    let mut found = Vec::new();
    while let Some(byte) = input.next() {
        if byte != b'\\' {
            found.push(byte);
            continue;
        }
        match input.next() {
            Some(b'n') => found.push(b'\n'),
            Some(b't') => found.push(b'\t'),
            Some(b'r') => found.push(b'\r'),
            Some(byte @ (b'\\' | b'"')) => found.push(byte),
            Some(b'x') => found.push(hexadecimal(input)?),
            Some(b'{') => {
                let times = times(input)?;
                found.extend(part(input, true)?.repeat(times));
            }
            Some(b'}') if repeated => return Ok(found),
            _ => return Err("unknown escape".to_string()),
        }
    }
    match repeated {
        true => Err("a repetition is not closed".to_string()),
        false => Ok(found),
    }
}

fn hexadecimal(input: &mut Peekable<Bytes>) -> Result<u8, String> {
    let digits: Vec<u8> = input.by_ref().take(2).collect();
    let digits = String::from_utf8_lossy(&digits).into_owned();
    u8::from_str_radix(&digits, 16).map_err(|_| format!("no byte: {digits}"))
}

fn times(input: &mut Peekable<Bytes>) -> Result<usize, String> {
    let mut digits = String::new();
    while let Some(digit) = input.next_if(u8::is_ascii_digit) {
        digits.push(char::from(digit));
    }
    if input.next() != Some(b'*') {
        return Err("a repetition starts with a number and a star".to_string());
    }
    digits.parse().map_err(|_| format!("no count: {digits}"))
}

/// The shortest honest spelling: long runs of one byte become repetitions.
pub fn encode(bytes: &[u8]) -> String {
    let mut text = String::new();
    let mut at = 0;
    while at < bytes.len() {
        let same = bytes[at..].iter().take_while(|b| **b == bytes[at]).count();
        if same > 12 {
            text += &format!("\\{{{same}*{}\\}}", encode_byte(bytes[at]));
            at += same;
        } else {
            text += &encode_byte(bytes[at]);
            at += 1;
        }
    }
    text
}

fn encode_byte(byte: u8) -> String {
    match byte {
        b'\n' => "\\n".to_string(),
        b'\t' => "\\t".to_string(),
        b'\r' => "\\r".to_string(),
        b'\\' | b'"' => format!("\\{}", char::from(byte)),
        b' '..=b'~' => char::from(byte).to_string(),
        _ => format!("\\x{byte:02x}"),
    }
}

#[cfg(test)]
mod tests {
    use super::*;

    #[test]
    fn repetitions_nest() {
        assert_eq!(decode("a\\{2*b\\{3*c\\}\\}").unwrap(), b"abcccbccc");
        assert_eq!(decode("{5*1}").unwrap(), b"{5*1}");
        assert!(decode("\\{2*b").is_err());
    }

    #[test]
    fn every_byte_comes_back() {
        let mut all: Vec<u8> = (0..=255).collect();
        all.extend([b'('; 700]);
        assert_eq!(decode(&encode(&all)).unwrap(), all);
    }
}
