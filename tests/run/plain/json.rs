//! The JSON value of a line, whose texts lie in the line. Texts with escapes and fractions are not covered.

/// How deep arrays and objects stand in one another at most.
const DEPTH_LIMIT: usize = 127;

pub enum Value<'a> {
    Null,
    Bool,
    Whole(u64),
    /// A whole number below 0.
    Negative(i64),
    Text(&'a str),
    Array(Vec<Value<'a>>),
    Object(Vec<(&'a str, Value<'a>)>),
}

impl<'a> Value<'a> {
    /// The last field of this name, where it is not null.
    pub fn field(&self, name: &str) -> Option<&Value<'a>> {
        let Value::Object(fields) = self else { return None };
        let (_, value) = fields.iter().rfind(|(it, _)| *it == name)?;
        (!matches!(value, Value::Null)).then_some(value)
    }

    pub fn whole(&self) -> Option<u64> {
        if let Value::Whole(number) = self { Some(*number) } else { None }
    }

    pub fn text(&self) -> Option<&'a str> {
        if let Value::Text(text) = self { Some(text) } else { None }
    }

    pub fn array(&self) -> Option<&[Value<'a>]> {
        if let Value::Array(entries) = self { Some(entries) } else { None }
    }
}

/// The value of a line that is one.
pub fn read(line: &str) -> Option<Value<'_>> {
    let mut reader = Reader { line, at: 0 };
    let value = reader.value(DEPTH_LIMIT)?;
    reader.pass_spaces();
    (reader.at == line.len()).then_some(value)
}

struct Reader<'a> {
    line: &'a str,
    at: usize,
}

impl<'a> Reader<'a> {
    fn peek(&self) -> Option<u8> {
        self.line.as_bytes().get(self.at).copied()
    }

    /// Passes this byte, if it stands here.
    fn passes(&mut self, byte: u8) -> bool {
        let stands = self.peek() == Some(byte);
        self.at += usize::from(stands);
        stands
    }

    fn pass_spaces(&mut self) {
        while matches!(self.peek(), Some(b' ' | b'\t' | b'\r')) {
            self.at += 1;
        }
    }

    fn value(&mut self, depth: usize) -> Option<Value<'a>> {
        self.pass_spaces();
        match self.peek()? {
            b'{' => self.object(depth.checked_sub(1)?),
            b'[' => self.array(depth.checked_sub(1)?),
            b'"' => self.text().map(Value::Text),
            b't' => self.word("true", Value::Bool),
            b'f' => self.word("false", Value::Bool),
            b'n' => self.word("null", Value::Null),
            _ => self.number(),
        }
    }

    fn word(&mut self, word: &str, value: Value<'a>) -> Option<Value<'a>> {
        let stands = self.line[self.at..].starts_with(word);
        self.at += word.len();
        stands.then_some(value)
    }

    fn number(&mut self) -> Option<Value<'a>> {
        let rest = &self.line[self.at..];
        let is_negative = rest.starts_with('-');
        let digits = &rest[usize::from(is_negative)..];
        let count = digits.bytes().take_while(u8::is_ascii_digit).count();
        if count == 0 || (count > 1 && digits.starts_with('0')) {
            return None;
        }
        let number = &rest[..usize::from(is_negative) + count];
        self.at += number.len();
        if is_negative { number.parse().ok().map(Value::Negative) } else { number.parse().ok().map(Value::Whole) }
    }

    fn text(&mut self) -> Option<&'a str> {
        let rest = &self.line[self.at + 1..];
        let end = rest.bytes().position(|it| it == b'"' || it == b'\\' || it < b' ')?;
        self.at += 1 + end;
        self.passes(b'"').then_some(&rest[..end])
    }

    fn array(&mut self, depth: usize) -> Option<Value<'a>> {
        let mut entries = Vec::new();
        let mut goes_on = self.begins(b']');
        while goes_on {
            entries.push(self.value(depth)?);
            goes_on = self.goes_on(b']')?;
        }
        Some(Value::Array(entries))
    }

    fn object(&mut self, depth: usize) -> Option<Value<'a>> {
        let mut fields = Vec::new();
        let mut goes_on = self.begins(b'}');
        while goes_on {
            fields.push((self.name()?, self.value(depth)?));
            goes_on = self.goes_on(b'}')?;
        }
        Some(Value::Object(fields))
    }

    /// The name of a field, and the colon behind it.
    fn name(&mut self) -> Option<&'a str> {
        self.pass_spaces();
        let name = if self.peek()? == b'"' { self.text()? } else { return None };
        self.pass_spaces();
        self.passes(b':').then_some(name)
    }

    /// Passes the opening bracket; whether there is an entry.
    fn begins(&mut self, end: u8) -> bool {
        self.at += 1;
        self.pass_spaces();
        !self.passes(end)
    }

    /// Whether a further entry comes.
    fn goes_on(&mut self, end: u8) -> Option<bool> {
        self.pass_spaces();
        let comes = self.passes(b',');
        (comes || self.passes(end)).then_some(comes)
    }
}
