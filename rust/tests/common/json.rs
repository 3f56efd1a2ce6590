//! A reader of JSON, for what the command prints.

use std::collections::BTreeMap;

#[derive(Clone, Debug, PartialEq)]
pub enum Value {
    Bool(bool),
    Number(u64),
    Text(String),
    List(Vec<Value>),
    Object(BTreeMap<String, Value>),
}

impl Value {
    /// A field of an object.
    pub fn get(&self, name: &str) -> Option<&Value> {
        match self {
            Value::Object(fields) => fields.get(name),
            _ => None,
        }
    }

    pub fn text(&self, name: &str) -> &str {
        match self.get(name) {
            Some(Value::Text(text)) => text,
            other => panic!("{name}: {other:?}"),
        }
    }

    pub fn number(&self, name: &str) -> u64 {
        match self.get(name) {
            Some(Value::Number(number)) => *number,
            other => panic!("{name}: {other:?}"),
        }
    }

    pub fn list(&self, name: &str) -> &[Value] {
        match self.get(name) {
            Some(Value::List(list)) => list,
            other => panic!("{name}: {other:?}"),
        }
    }

    pub fn bytes(&self, name: &str) -> Vec<u8> {
        let byte = |value: &Value| match value {
            Value::Number(number) => u8::try_from(*number).expect("a byte"),
            other => panic!("{other:?}"),
        };
        self.list(name).iter().map(byte).collect()
    }
}

/// The value that a text is, and nothing after it.
pub fn parse(text: &str) -> Value {
    let mut left = text.chars().peekable();
    let value = value(&mut left);
    assert_eq!(left.collect::<String>().trim(), "", "{text}");
    value
}

/// The values on the lines of a text.
pub fn lines(text: &[u8]) -> Vec<Value> {
    let text = String::from_utf8(text.to_vec()).expect("UTF-8");
    text.lines().map(parse).collect()
}

type Left<'a> = std::iter::Peekable<std::str::Chars<'a>>;

fn value(left: &mut Left) -> Value {
    match left.next().expect("a value") {
        '"' => Value::Text(string(left)),
        '[' => Value::List(items(left, ']', value)),
        '{' => Value::Object(items(left, '}', field).into_iter().collect()),
        't' => literal(left, "rue", Value::Bool(true)),
        'f' => literal(left, "alse", Value::Bool(false)),
        digit => {
            let mut digits = digit.to_string();
            while let Some(digit) = left.next_if(char::is_ascii_digit) {
                digits.push(digit);
            }
            Value::Number(digits.parse().expect("a number"))
        }
    }
}

fn literal(left: &mut Left, rest: &str, value: Value) -> Value {
    assert!(rest.chars().all(|letter| left.next() == Some(letter)));
    value
}

fn items<T>(left: &mut Left, end: char, item: fn(&mut Left) -> T) -> Vec<T> {
    let mut items = Vec::new();
    if left.next_if_eq(&end).is_some() {
        return items;
    }
    loop {
        items.push(item(left));
        match left.next() {
            Some(',') => {}
            other => {
                assert_eq!(other, Some(end));
                return items;
            }
        }
    }
}

fn field(left: &mut Left) -> (String, Value) {
    assert_eq!(left.next(), Some('"'));
    let name = string(left);
    assert_eq!(left.next(), Some(':'));
    (name, value(left))
}

fn string(left: &mut Left) -> String {
    let mut text = String::new();
    loop {
        match left.next().expect("an end") {
            '"' => return text,
            '\\' => text.push(match left.next().expect("a letter") {
                'n' => '\n',
                'u' => {
                    let digits: String = left.by_ref().take(4).collect();
                    let code = u32::from_str_radix(&digits, 16).expect("four digits");
                    char::from_u32(code).expect("a letter")
                }
                letter @ ('"' | '\\') => letter,
                other => panic!("\\{other}"),
            }),
            letter => {
                assert!(letter >= ' ', "a control byte");
                text.push(letter);
            }
        }
    }
}
