//! As much JSON as the cases need: objects, lists, strings, whole numbers and null.

#[derive(Debug)]
pub enum Json {
    Object(Vec<(String, Json)>),
    List(Vec<Json>),
    Text(String),
    Number(u64),
    Null,
}

impl Json {
    /// The value of a line that is one JSON value.
    pub fn parse(line: &str) -> Option<Json> {
        let mut reader = Reader { rest: line };
        let value = reader.value()?;
        reader.blanks();
        reader.rest.is_empty().then_some(value)
    }

    pub fn field(&self, name: &str) -> &Json {
        self.find(name).unwrap_or_else(|| panic!("no field {name}"))
    }

    /// The field of an object, if it has it.
    pub fn find(&self, name: &str) -> Option<&Json> {
        match self {
            Json::Object(fields) => fields.iter().find(|(key, _)| key == name).map(|(_, value)| value),
            other => panic!("no object but {other:?}"),
        }
    }

    pub fn number(&self) -> u64 {
        match self {
            Json::Number(number) => *number,
            other => panic!("no number but {other:?}"),
        }
    }

    pub fn text(&self) -> &str {
        match self {
            Json::Text(text) => text,
            other => panic!("no text but {other:?}"),
        }
    }

    pub fn list(&self) -> &[Json] {
        match self {
            Json::List(list) => list,
            other => panic!("no list but {other:?}"),
        }
    }
}

struct Reader<'a> {
    rest: &'a str,
}

impl Reader<'_> {
    fn blanks(&mut self) {
        self.rest = self.rest.trim_start();
    }

    /// Whether the sign comes next; it is then passed.
    fn sign(&mut self, sign: char) -> bool {
        self.blanks();
        match self.rest.strip_prefix(sign) {
            Some(rest) => {
                self.rest = rest;
                true
            }
            None => false,
        }
    }

    fn value(&mut self) -> Option<Json> {
        if self.sign('{') {
            self.object()
        } else if self.sign('[') {
            self.list()
        } else if self.sign('"') {
            self.text().map(Json::Text)
        } else if let Some(rest) = self.rest.strip_prefix("null") {
            self.rest = rest;
            Some(Json::Null)
        } else {
            self.number()
        }
    }

    fn object(&mut self) -> Option<Json> {
        let mut fields = Vec::new();
        while !self.sign('}') {
            if !fields.is_empty() && !self.sign(',') {
                return None;
            }
            let key = if self.sign('"') { self.text()? } else { return None };
            if !self.sign(':') {
                return None;
            }
            fields.push((key, self.value()?));
        }
        Some(Json::Object(fields))
    }

    fn list(&mut self) -> Option<Json> {
        let mut items = Vec::new();
        while !self.sign(']') {
            if !items.is_empty() && !self.sign(',') {
                return None;
            }
            items.push(self.value()?);
        }
        Some(Json::List(items))
    }

    /// The rest of a string whose opening quote is passed.
    fn text(&mut self) -> Option<String> {
        let mut text = String::new();
        let mut chars = self.rest.char_indices();
        loop {
            match chars.next()? {
                (at, '"') => {
                    self.rest = &self.rest[at + 1..];
                    return Some(text);
                }
                (_, '\\') => text.push(match chars.next()?.1 {
                    'n' => '\n',
                    't' => '\t',
                    'r' => '\r',
                    same @ ('"' | '\\' | '/') => same,
                    _ => return None,
                }),
                (_, other) => text.push(other),
            }
        }
    }

    fn number(&mut self) -> Option<Json> {
        let end = self.rest.find(|c: char| !c.is_ascii_digit()).unwrap_or(self.rest.len());
        let (digits, rest) = self.rest.split_at(end);
        self.rest = rest;
        digits.parse().ok().map(Json::Number)
    }
}

/// The bytes of base64 text.
pub fn base64(text: &str) -> Option<Vec<u8>> {
    let mut bytes = Vec::new();
    let (mut bits, mut held) = (0u32, 0);
    for symbol in text.trim_end_matches('=').bytes() {
        let six = match symbol {
            b'A'..=b'Z' => symbol - b'A',
            b'a'..=b'z' => symbol - b'a' + 26,
            b'0'..=b'9' => symbol - b'0' + 52,
            b'+' => 62,
            b'/' => 63,
            _ => return None,
        };
        bits = bits << 6 | u32::from(six);
        held += 6;
        if held >= 8 {
            held -= 8;
            bytes.push((bits >> held) as u8);
        }
    }
    Some(bytes)
}
