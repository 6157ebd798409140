//! The small part of JSON that single calls are stored in: objects, lists, plain strings, whole numbers and null.

pub enum Value {
    Null,
    Number(u32),
    Text(String),
    List(Vec<Value>),
    Object(Vec<(String, Value)>),
}

impl Value {
    pub fn field(&self, name: &str) -> Option<&Value> {
        match self {
            Value::Object(fields) => fields
                .iter()
                .find(|(known, _)| known == name)
                .map(|(_, value)| value),
            _ => None,
        }
    }

    pub fn text(&self) -> Option<&str> {
        match self {
            Value::Text(text) => Some(text),
            _ => None,
        }
    }

    /// The numbers of a list, and of lists in it.
    pub fn words(&self) -> Vec<u32> {
        match self {
            Value::Number(number) => vec![*number],
            Value::List(items) => items.iter().flat_map(Value::words).collect(),
            _ => Vec::new(),
        }
    }
}

/// Reads a whole line as one value.
pub fn read(line: &str) -> Option<Value> {
    let mut reader = Reader { left: line };
    let value = reader.value()?;
    reader.skip_spaces();
    reader.left.is_empty().then_some(value)
}

struct Reader<'a> {
    left: &'a str,
}

impl Reader<'_> {
    fn value(&mut self) -> Option<Value> {
        self.skip_spaces();
        match self.left.chars().next()? {
            '{' => self.between('{', '}', Reader::field).map(Value::Object),
            '[' => self.between('[', ']', Reader::value).map(Value::List),
            '"' => self.string().map(Value::Text),
            'n' => self.null(),
            _ => self.number(),
        }
    }

    fn skip_spaces(&mut self) {
        self.left = self.left.trim_start();
    }

    fn accept(&mut self, sign: char) -> Option<()> {
        self.skip_spaces();
        self.left = self.left.strip_prefix(sign)?;
        Some(())
    }

    /// Items with commas between them, inside brackets.
    fn between<T>(
        &mut self,
        open: char,
        close: char,
        item: fn(&mut Self) -> Option<T>,
    ) -> Option<Vec<T>> {
        self.accept(open)?;
        let mut items = Vec::new();
        while self.accept(close).is_none() {
            if !items.is_empty() {
                self.accept(',')?;
            }
            items.push(item(self)?);
        }
        Some(items)
    }

    fn field(&mut self) -> Option<(String, Value)> {
        let name = self.string()?;
        self.accept(':')?;
        Some((name, self.value()?))
    }

    fn string(&mut self) -> Option<String> {
        self.accept('"')?;
        let (text, left) = self.left.split_once('"')?;
        self.left = left;
        (!text.contains('\\')).then(|| text.to_string())
    }

    fn null(&mut self) -> Option<Value> {
        self.left = self.left.strip_prefix("null")?;
        Some(Value::Null)
    }

    fn number(&mut self) -> Option<Value> {
        let end = self
            .left
            .find(|sign: char| !sign.is_ascii_digit())
            .unwrap_or(self.left.len());
        let (digits, left) = self.left.split_at(end);
        self.left = left;
        digits.parse().ok().map(Value::Number)
    }
}
