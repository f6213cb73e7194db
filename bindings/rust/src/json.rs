//! A reader of JSON texts that the library wrote or has read: it is not asked whether a text is JSON.

use std::collections::BTreeMap;
use std::ops::Range;

/// A JSON value, with its place in the text.
#[derive(Debug)]
pub(crate) struct Value {
    pub(crate) range: Range<usize>,
    pub(crate) kind: Kind,
}

#[derive(Debug)]
pub(crate) enum Kind {
    Null,
    Bool(bool),
    /// A number, which stands in the text.
    Number,
    String(String),
    Array(Vec<Value>),
    Object(BTreeMap<String, Value>),
}

/// Returns the value of a text, or nothing if it is not JSON.
pub(crate) fn read(text: &str) -> Option<Value> {
    Reader { text, at: 0 }.value()
}

/// Returns the JSON text of a string, with the escapes of the library.
pub(crate) fn quoted(string: &str) -> String {
    let mut text = String::from("\"");
    for c in string.chars() {
        match (c, "\"\\\x08\x0c\n\r\t".find(c)) {
            (_, Some(at)) => text.extend(['\\', char::from(b"\"\\bfnrt"[at])]),
            ('\0'..='\x1f', _) => text.push_str(&format!("\\u{:04x}", c as u32)),
            _ => text.push(c),
        }
    }
    text + "\""
}

/// Returns the JSON text of a value of a text, without spaces and with the members in the order of their names.
pub(crate) fn compact(text: &str, value: &Value) -> String {
    match &value.kind {
        Kind::String(string) => quoted(string),
        Kind::Array(items) => {
            let items: Vec<String> = items.iter().map(|item| compact(text, item)).collect();
            format!("[{}]", items.join(","))
        }
        Kind::Object(members) => {
            let member = |(name, value): (&String, &Value)| format!("{}:{}", quoted(name), compact(text, value));
            format!("{{{}}}", members.iter().map(member).collect::<Vec<_>>().join(","))
        }
        _ => text[value.range.clone()].into(),
    }
}

struct Reader<'t> {
    text: &'t str,
    at: usize,
}

impl Reader<'_> {
    fn value(&mut self) -> Option<Value> {
        let first = self.next()?;
        let start = self.at;
        let kind = match first {
            b'{' => self.object()?,
            b'[' => self.array()?,
            b'"' => Kind::String(self.string()?),
            _ => self.word()?,
        };
        Some(Value { range: start..self.at, kind })
    }

    /// Returns the next byte that is no space, and goes there.
    fn next(&mut self) -> Option<u8> {
        let rest = self.text.as_bytes().get(self.at..)?;
        self.at += rest.iter().position(|byte| !b" \t\n\r".contains(byte))?;
        Some(self.text.as_bytes()[self.at])
    }

    fn object(&mut self) -> Option<Kind> {
        let mut members = BTreeMap::new();
        self.at += 1;
        while self.next()? != b'}' {
            let name = self.string()?;
            self.next()?;
            self.at += 1;
            // of a repeated name the last value counts
            members.insert(name, self.value()?);
            self.skip_comma()?;
        }
        self.at += 1;
        Some(Kind::Object(members))
    }

    fn array(&mut self) -> Option<Kind> {
        let mut items = Vec::new();
        self.at += 1;
        while self.next()? != b']' {
            items.push(self.value()?);
            self.skip_comma()?;
        }
        self.at += 1;
        Some(Kind::Array(items))
    }

    fn skip_comma(&mut self) -> Option<()> {
        if self.next()? == b',' {
            self.at += 1;
        }
        Some(())
    }

    /// Reads a number, or one of `true`, `false` and `null`.
    fn word(&mut self) -> Option<Kind> {
        let rest = self.text.get(self.at..)?;
        let word = &rest[..rest.find([' ', '\t', '\n', '\r', ',', ']', '}']).unwrap_or(rest.len())];
        self.at += word.len();
        Some(match word {
            "null" => Kind::Null,
            "true" => Kind::Bool(true),
            "false" => Kind::Bool(false),
            _ => Kind::Number,
        })
    }

    fn string(&mut self) -> Option<String> {
        let mut string = String::new();
        self.at += 1;
        loop {
            let rest = self.text.get(self.at..)?;
            let plain = rest.find(['"', '\\'])?;
            string.push_str(&rest[..plain]);
            self.at += plain + 1;
            if rest.as_bytes()[plain] == b'"' {
                return Some(string);
            }
            string.push(self.escape()?);
        }
    }

    /// Reads what is behind a backslash.
    fn escape(&mut self) -> Option<char> {
        let kind = *self.text.as_bytes().get(self.at)?;
        self.at += 1;
        Some(match kind {
            b'b' => '\x08',
            b'f' => '\x0c',
            b'n' => '\n',
            b'r' => '\r',
            b't' => '\t',
            b'u' => {
                let unit = self.unit()?;
                if !(0xd800..0xdc00).contains(&unit) {
                    return char::from_u32(unit);
                }
                // the second half of a pair is behind its own `\u`
                self.at += 2;
                let low = self.unit()?;
                return char::from_u32(0x10000 + ((unit - 0xd800) << 10) + low.checked_sub(0xdc00)?);
            }
            other => char::from(other),
        })
    }

    fn unit(&mut self) -> Option<u32> {
        let digits = self.text.get(self.at..self.at + 4)?;
        self.at += 4;
        u32::from_str_radix(digits, 16).ok()
    }
}
