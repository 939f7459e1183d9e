//! How texts and numbers are written, and to whom.

use crate::json::Value;
use mapsforge::{Name, Placed, Position, SubFile, TilePlace};
use std::io::{self, Write};

/// Whether a letter is one that a terminal or a browser would act on, or that nobody sees: control characters, those that
/// turn the direction of writing, separators of lines, and other marks without a shape of their own.
pub fn is_unseen(letter: char) -> bool {
    letter.is_control()
        || matches!(
            letter,
            '\u{ad}'
                | '\u{61c}'
                | '\u{180e}'
                | '\u{200b}'
                | '\u{200e}'..='\u{200f}'
                | '\u{2028}'..='\u{202e}'
                | '\u{2060}'..='\u{206f}'
                | '\u{feff}'
                | '\u{fff9}'..='\u{fffb}'
                | '\u{e0000}'..='\u{e007f}'
        )
}

/// A text of a map with what nobody would see written out.
pub fn clean(text: &str) -> String {
    let mut cleaned = String::with_capacity(text.len());
    for letter in text.chars() {
        if is_unseen(letter) {
            cleaned.extend(letter.escape_default());
        } else {
            cleaned.push(letter);
        }
    }
    cleaned
}

/// A name and its forms in other languages: they stand behind it, each with its language.
pub fn name(text: &str) -> String {
    let name = Name::new(text);
    let mut named = format!("\"{}\"", clean(name.first()));
    for (language, other) in name.others() {
        match language {
            Some(language) => {
                named.push_str(&format!(" ({}: \"{}\")", clean(language), clean(other)));
            }
            None => named.push_str(&format!(" (\"{}\")", clean(other))),
        }
    }
    named
}

/// A position with all its microdegrees.
pub fn position(at: Position) -> String {
    format!("{:.6}, {:.6}", at.latitude, at.longitude)
}

/// The same as a value.
pub fn position_value(at: Position) -> Value {
    Value::object([
        ("latitude", Value::Decimal(at.latitude, 6)),
        ("longitude", Value::Decimal(at.longitude, 6)),
    ])
}

/// Which tile it is.
pub fn tile(sub_file: &SubFile<'_, '_>, place: TilePlace) -> String {
    format!("sub file {}, tile {} ({})", sub_file.number(), place.number, short(sub_file, place))
}

/// The same as other programs name it: ZOOM/X/Y.
pub fn short(sub_file: &SubFile<'_, '_>, place: TilePlace) -> String {
    format!("{}/{}/{}", sub_file.interval().base_zoom, place.x, place.y)
}

/// Name, texts and tags of a feature, in a line.
pub fn feature(feature: &Placed<'_>) -> String {
    let mut parts = Vec::new();
    parts.extend(feature.name.map(name));
    parts.extend(feature.house_number.map(|text| format!("house number \"{}\"", clean(text))));
    parts.extend(feature.reference.map(|text| format!("reference \"{}\"", clean(text))));
    if feature.layer != 0 {
        parts.push(format!("layer {}", feature.layer));
    }
    parts.extend(feature.elevation.map(|metres| format!("elevation {metres} m")));
    parts.push(tags(&feature.tag_texts()));
    parts.join("  ")
}

/// Tags in a line.
pub fn tags(tags: &[String]) -> String {
    if tags.is_empty() {
        return "no tags".into();
    }
    clean(&tags.join(" "))
}

/// A number with its word.
pub fn count(number: u64, word: &str) -> String {
    let plural = if number == 1 { "" } else { "s" };
    format!("{number} {word}{plural}")
}

/// The date of a number of milliseconds since 1970.
pub fn date(milliseconds: u64) -> String {
    let seconds = milliseconds / 1000;
    let (days, rest) = (seconds / 86400, seconds % 86400);
    // Years start in March here, so that a leap day is a year's last one; 719468 days pass from year 0 to 1970.
    let days = days + 719468;
    let (era, day) = (days / 146097, days % 146097);
    let year = (day - day / 1460 + day / 36524 - day / 146096) / 365;
    let day = day - (365 * year + year / 4 - year / 100);
    let month = (5 * day + 2) / 153;
    let (month, day) =
        (if month < 10 { month + 3 } else { month - 9 }, day - (153 * month + 2) / 5 + 1);
    let year = era * 400 + year + u64::from(month <= 2);
    let (hour, minute, second) = (rest / 3600, rest / 60 % 60, rest % 60);
    format!("{year}-{month:02}-{day:02} {hour:02}:{minute:02}:{second:02} UTC")
}

/// Writes on when nobody reads any more: what is found out counts, not who listens. Other failures stay failures.
pub struct Unheard<'o> {
    out: &'o mut dyn Write,
    closed: bool,
}

impl<'o> Unheard<'o> {
    pub fn new(out: &'o mut dyn Write) -> Unheard<'o> {
        Unheard { out, closed: false }
    }

    fn or_closed<T>(&mut self, done: io::Result<T>, otherwise: T) -> io::Result<T> {
        match done {
            Err(error) if error.kind() == io::ErrorKind::BrokenPipe => {
                self.closed = true;
                Ok(otherwise)
            }
            done => done,
        }
    }
}

impl Write for Unheard<'_> {
    fn write(&mut self, bytes: &[u8]) -> io::Result<usize> {
        if self.closed {
            return Ok(bytes.len());
        }
        let done = self.out.write(bytes);
        self.or_closed(done, bytes.len())
    }

    fn flush(&mut self) -> io::Result<()> {
        if self.closed {
            return Ok(());
        }
        let done = self.out.flush();
        self.or_closed(done, ())
    }
}

#[cfg(test)]
mod tests {
    use super::*;

    #[test]
    fn dates() {
        assert_eq!(date(0), "1970-01-01 00:00:00 UTC");
        assert_eq!(date(951_782_400_000), "2000-02-29 00:00:00 UTC");
        assert_eq!(date(1_735_689_599_999), "2024-12-31 23:59:59 UTC");
        assert_eq!(date(4_107_542_400_000), "2100-03-01 00:00:00 UTC");
    }

    #[test]
    fn names() {
        assert_eq!(name("Øya\ren\u{8}Island"), "\"Øya\" (en: \"Island\")");
        assert_eq!(clean("a\u{1b}[31m"), "a\\u{1b}[31m");
        assert_eq!(
            clean("1 \u{202e}epmaR\u{202c}\u{2066}\u{feff}"),
            "1 \\u{202e}epmaR\\u{202c}\\u{2066}\\u{feff}"
        );
        assert_eq!(clean("नमस्ते 👩\u{200d}🚀"), "नमस्ते 👩\u{200d}🚀");
    }
}
