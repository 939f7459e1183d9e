//! Reads JSON, strictly: what is none fails the test.

/// A value.
#[derive(Clone, Debug, PartialEq)]
pub enum Json {
    Null,
    Bool(bool),
    Number(f64),
    Text(String),
    List(Vec<Json>),
    Object(Vec<(String, Json)>),
}

impl Json {
    /// The one value of a text.
    pub fn parse(text: &str) -> Json {
        let mut rest = text.chars().peekable();
        let value = value(&mut rest);
        space(&mut rest);
        assert_eq!(rest.next(), None, "something is behind the value");
        value
    }

    /// A field of an object.
    pub fn get(&self, name: &str) -> &Json {
        let Json::Object(fields) = self else { panic!("{self:?} is no object") };
        let field = fields.iter().find(|(field, _)| field == name);
        &field.unwrap_or_else(|| panic!("{name} is missing in {self:?}")).1
    }

    pub fn has(&self, name: &str) -> bool {
        matches!(self, Json::Object(fields) if fields.iter().any(|(field, _)| field == name))
    }

    pub fn names(&self) -> Vec<&str> {
        let Json::Object(fields) = self else { panic!("{self:?} is no object") };
        fields.iter().map(|(name, _)| name.as_str()).collect()
    }

    pub fn list(&self) -> &[Json] {
        let Json::List(items) = self else { panic!("{self:?} is no list") };
        items
    }

    pub fn text(&self) -> &str {
        let Json::Text(text) = self else { panic!("{self:?} is no text") };
        text
    }

    pub fn number(&self) -> f64 {
        let Json::Number(number) = self else { panic!("{self:?} is no number") };
        *number
    }
}

type Rest<'t> = std::iter::Peekable<std::str::Chars<'t>>;

fn space(rest: &mut Rest<'_>) {
    while rest.next_if(|letter| " \n\r\t".contains(*letter)).is_some() {}
}

fn expect(rest: &mut Rest<'_>, word: &str) {
    word.chars().for_each(|letter| assert_eq!(rest.next(), Some(letter), "{word}"));
}

fn value(rest: &mut Rest<'_>) -> Json {
    space(rest);
    match rest.peek().expect("a value is missing") {
        'n' => {
            expect(rest, "null");
            Json::Null
        }
        't' => {
            expect(rest, "true");
            Json::Bool(true)
        }
        'f' => {
            expect(rest, "false");
            Json::Bool(false)
        }
        '"' => Json::Text(text(rest)),
        '[' => Json::List(items(rest, '[', ']', value)),
        '{' => {
            let fields = items(rest, '{', '}', |rest| {
                space(rest);
                let name = text(rest);
                space(rest);
                expect(rest, ":");
                (name, value(rest))
            });
            let mut names: Vec<_> = fields.iter().map(|(name, _)| name).collect();
            names.sort();
            assert!(names.windows(2).all(|pair| pair[0] != pair[1]), "a name stands twice");
            Json::Object(fields)
        }
        _ => number(rest),
    }
}

fn items<T>(
    rest: &mut Rest<'_>,
    open: char,
    close: char,
    mut item: impl FnMut(&mut Rest<'_>) -> T,
) -> Vec<T> {
    assert_eq!(rest.next(), Some(open));
    let mut items = Vec::new();
    space(rest);
    if rest.next_if_eq(&close).is_some() {
        return items;
    }
    loop {
        items.push(item(rest));
        space(rest);
        match rest.next() {
            Some(',') => (),
            Some(end) if end == close => return items,
            other => panic!("{other:?} stands where a comma should"),
        }
    }
}

fn text(rest: &mut Rest<'_>) -> String {
    expect(rest, "\"");
    let mut units: Vec<u16> = Vec::new();
    loop {
        let letter = rest.next().expect("a text has no end");
        assert!(letter >= ' ', "a control character stands in a text");
        let unit = match letter {
            '"' => return String::from_utf16(&units).expect("the text is UTF-16"),
            '\\' => match rest.next().expect("an escape has no end") {
                'u' => {
                    let digits: String = rest.by_ref().take(4).collect();
                    units.push(u16::from_str_radix(&digits, 16).expect("four digits"));
                    continue;
                }
                'n' => '\n',
                'r' => '\r',
                't' => '\t',
                other => {
                    assert!("\"\\/".contains(other), "\\{other} is no escape");
                    other
                }
            },
            letter => letter,
        };
        units.extend_from_slice(unit.encode_utf16(&mut [0; 2]));
    }
}

fn number(rest: &mut Rest<'_>) -> Json {
    let mut digits = String::new();
    while let Some(letter) = rest.next_if(|letter| "+-.eE0123456789".contains(*letter)) {
        digits.push(letter);
    }
    let plain = digits.trim_start_matches('-');
    assert!(plain.starts_with(|letter: char| letter.is_ascii_digit()), "{digits:?} is no number");
    assert!(!plain.starts_with('0') || !plain[1..].starts_with(|l: char| l.is_ascii_digit()));
    Json::Number(digits.parse().expect("a number"))
}
