//! JSON, read strictly after RFC 8259.

use std::iter::Peekable;
use std::ops::Index;
use std::str::Chars;

#[derive(Clone, Debug, PartialEq)]
pub enum Value {
    Word(String), // null, true, false
    Number(String),
    Text(String),
    List(Vec<Value>),
    Object(Vec<(String, Value)>),
}

impl Value {
    /// The value that the whole text spells.
    pub fn read(text: &str) -> Option<Value> {
        let mut reader = Reader(text.chars().peekable());
        let value = reader.value()?;
        reader.space();
        reader.0.next().is_none().then_some(value)
    }

    pub fn get(&self, key: &str) -> Option<&Value> {
        let Value::Object(members) = self else {
            return None;
        };
        members.iter().find(|m| m.0 == key).map(|m| &m.1)
    }

    pub fn text(&self) -> &str {
        match self {
            Value::Text(text) => text,
            _ => panic!("no text: {self:?}"),
        }
    }

    pub fn list(&self) -> &[Value] {
        match self {
            Value::List(list) => list,
            _ => panic!("no list: {self:?}"),
        }
    }

    /// A number as the tool writes it: a string where it is over 2^53, and only there.
    pub fn number(&self) -> u64 {
        let (digits, is_large) = match self {
            Value::Number(digits) => (digits, false),
            Value::Text(digits) => (digits, true),
            _ => panic!("no number: {self:?}"),
        };
        let number = digits.parse().unwrap();
        assert_eq!(number > 1 << 53, is_large, "{self:?}");
        number
    }
}

impl Index<&str> for Value {
    type Output = Value;
    fn index(&self, key: &str) -> &Value {
        self.get(key)
            .unwrap_or_else(|| panic!("no {key} in {self:?}"))
    }
}

struct Reader<'a>(Peekable<Chars<'a>>);

impl Reader<'_> {
    fn space(&mut self) {
        while self.0.next_if(|c| " \t\r\n".contains(*c)).is_some() {}
    }

    fn meets(&mut self, wanted: char) -> bool {
        self.space();
        self.0.next_if_eq(&wanted).is_some()
    }

    fn value(&mut self) -> Option<Value> {
        self.space();
        match *self.0.peek()? {
            '{' => Some(Value::Object(self.items('{', '}', Reader::member)?)),
            '[' => Some(Value::List(self.items('[', ']', Reader::value)?)),
            '"' => self.text().map(Value::Text),
            '-' | '0'..='9' => self.number(),
            _ => self.word(),
        }
    }

    fn items<T>(
        &mut self,
        open: char,
        close: char,
        item: fn(&mut Self) -> Option<T>,
    ) -> Option<Vec<T>> {
        let mut items = Vec::new();
        if !self.meets(open) {
            return None;
        }
        if self.meets(close) {
            return Some(items);
        }
        loop {
            items.push(item(self)?);
            if self.meets(close) {
                return Some(items);
            }
            if !self.meets(',') {
                return None;
            }
        }
    }

    fn member(&mut self) -> Option<(String, Value)> {
        self.space();
        let key = self.text()?;
        self.meets(':').then_some(())?;
        Some((key, self.value()?))
    }

    fn text(&mut self) -> Option<String> {
        let mut text = String::new();
        self.0.next_if_eq(&'"')?;
        loop {
            match self.0.next()? {
                '"' => return Some(text),
                '\\' => text.push(self.escape()?),
                c if c < ' ' => return None,
                c => text.push(c),
            }
        }
    }

    fn escape(&mut self) -> Option<char> {
        match self.0.next()? {
            c @ ('"' | '\\' | '/') => Some(c),
            'n' => Some('\n'),
            'r' => Some('\r'),
            't' => Some('\t'),
            'b' => Some('\u{8}'),
            'f' => Some('\u{c}'),
            'u' => {
                let digits: String = self.0.by_ref().take(4).collect();
                char::from_u32(u32::from_str_radix(&digits, 16).ok()?)
            }
            _ => None,
        }
    }

    /// Whole numbers are all that the tool writes.
    fn number(&mut self) -> Option<Value> {
        let mut digits = String::new();
        while let Some(digit) = self.0.next_if(char::is_ascii_digit) {
            digits.push(digit);
        }
        let is_plain = !digits.is_empty() && (digits == "0" || !digits.starts_with('0'));
        is_plain.then_some(Value::Number(digits))
    }

    fn word(&mut self) -> Option<Value> {
        let mut word = String::new();
        while let Some(letter) = self.0.next_if(char::is_ascii_lowercase) {
            word.push(letter);
        }
        let is_known = ["null", "true", "false"].contains(&word.as_str());
        is_known.then_some(Value::Word(word))
    }
}

#[cfg(test)]
mod tests {
    use super::Value;

    #[test]
    fn what_is_json_and_what_is_not() {
        for text in [
            "{}",
            "[]",
            " [1, 20 ,\"a\\u0041\"]\n",
            "{\"a\":{\"b\":[null,true]}}",
        ] {
            assert!(Value::read(text).is_some(), "{text}");
        }
        for text in [
            "",
            "{",
            "[1,]",
            "01",
            "{\"a\":1,}",
            "{a:1}",
            "\"\n\"",
            "1 2",
            "nil",
            "\"\\x\"",
        ] {
            assert!(Value::read(text).is_none(), "{text}");
        }
        assert_eq!(Value::read("\"\\u0041\\\"\"").unwrap().text(), "A\"");
    }
}
