//! A reader of JSON, as strict as the standard: whole numbers only, and no name twice in an object.

use crate::cursor::Cursor;

#[derive(Clone, Debug, PartialEq, Eq)]
pub enum Value {
    Null,
    Bool(bool),
    Number(u64),
    Text(String),
    List(Vec<Value>),
    Object(Vec<(String, Value)>),
}

impl Value {
    pub fn text(text: impl Into<String>) -> Value {
        Value::Text(text.into())
    }

    pub fn number(number: impl TryInto<u64>) -> Value {
        Value::Number(number.try_into().ok().expect("a number of 64 bits"))
    }

    pub fn object<const N: usize>(fields: [(&str, Value); N]) -> Value {
        let fields = fields.map(|(name, value)| (name.to_string(), value));
        Value::Object(fields.to_vec())
    }

    /// A field of an object.
    pub fn get(&self, name: &str) -> &Value {
        let Value::Object(fields) = self else {
            panic!("no object with {name}: {self:?}")
        };
        let field = fields.iter().find(|(key, _)| key == name);
        &field.unwrap_or_else(|| panic!("no {name} in {self:?}")).1
    }

    pub fn list(&self) -> &[Value] {
        match self {
            Value::List(values) => values,
            _ => panic!("no list: {self:?}"),
        }
    }

    pub fn as_text(&self) -> &str {
        match self {
            Value::Text(text) => text,
            _ => panic!("no text: {self:?}"),
        }
    }

    /// A number, or None for null.
    pub fn as_number(&self) -> Option<u64> {
        match self {
            Value::Null => None,
            Value::Number(number) => Some(*number),
            _ => panic!("no number: {self:?}"),
        }
    }
}

/// The value of a text, or what is wrong with it.
pub fn read(text: &str) -> Result<Value, String> {
    let mut cursor = Cursor::new(text);
    let value = value(&mut cursor)?;
    blanks(&mut cursor);
    match cursor.rest() {
        "" => Ok(value),
        _ => Err(cursor.wrong("something after the value")),
    }
}

fn blanks(cursor: &mut Cursor) {
    let blanks = cursor.ahead(|c| [' ', '\n', '\r', '\t'].contains(&c));
    cursor.part(blanks.len());
}

/// Takes what comes after blanks, where that is this.
fn take(cursor: &mut Cursor, word: &str) -> bool {
    blanks(cursor);
    cursor.take(word)
}

fn expect(cursor: &mut Cursor, word: &str) -> Result<(), String> {
    blanks(cursor);
    cursor.expect(word)
}

fn value(cursor: &mut Cursor) -> Result<Value, String> {
    let words = [
        ("null", Value::Null),
        ("true", Value::Bool(true)),
        ("false", Value::Bool(false)),
    ];
    for (word, value) in words {
        if take(cursor, word) {
            return Ok(value);
        }
    }
    match cursor.rest().chars().next() {
        Some('{') => object(cursor),
        Some('[') => list(cursor),
        Some('"') => Ok(Value::Text(string(cursor)?)),
        _ => number(cursor),
    }
}

fn number(cursor: &mut Cursor) -> Result<Value, String> {
    let digits = cursor.ahead(|c| c.is_ascii_digit());
    match digits.parse() {
        Ok(number) if digits == "0" || !digits.starts_with('0') => {
            cursor.part(digits.len());
            Ok(Value::Number(number))
        }
        _ => Err(cursor.wrong("no value")),
    }
}

fn list(cursor: &mut Cursor) -> Result<Value, String> {
    let mut values = Vec::new();
    expect(cursor, "[")?;
    while !take(cursor, "]") {
        if !values.is_empty() {
            expect(cursor, ",")?;
        }
        values.push(value(cursor)?);
    }
    Ok(Value::List(values))
}

fn object(cursor: &mut Cursor) -> Result<Value, String> {
    let mut fields: Vec<(String, Value)> = Vec::new();
    expect(cursor, "{")?;
    while !take(cursor, "}") {
        if !fields.is_empty() {
            expect(cursor, ",")?;
        }
        let name = string(cursor)?;
        expect(cursor, ":")?;
        if fields.iter().any(|(other, _)| *other == name) {
            return Err(cursor.wrong("a name twice"));
        }
        fields.push((name, value(cursor)?));
    }
    Ok(Value::Object(fields))
}

fn string(cursor: &mut Cursor) -> Result<String, String> {
    let mut text = String::new();
    expect(cursor, "\"")?;
    loop {
        match cursor.character().ok_or(cursor.wrong("no end"))? {
            '"' => return Ok(text),
            '\\' => text.push(escaped(cursor)?),
            next if next.is_control() => return Err(cursor.wrong("a control character")),
            next => text.push(next),
        }
    }
}

fn escaped(cursor: &mut Cursor) -> Result<char, String> {
    let wrong = cursor.wrong("no such escape");
    let next = cursor.character().ok_or(wrong.clone())?;
    match next {
        '"' | '\\' | '/' => Ok(next),
        'n' => Ok('\n'),
        't' => Ok('\t'),
        'u' => {
            let digits = cursor.rest().get(..4).ok_or(wrong.clone())?;
            let number = u32::from_str_radix(digits, 16).map_err(|_| wrong.clone())?;
            cursor.part(digits.len());
            char::from_u32(number).ok_or(wrong)
        }
        _ => Err(wrong),
    }
}
