//! Pictures of a map.

pub mod both;
pub mod labels;
pub mod layout;
pub mod part;
pub mod picture;
pub mod scene;
pub mod style;
pub mod view;

/// The side of a picture in pixels.
pub const SIZE: f64 = 1024.0;

/// A place in a picture, in pixels to the right and down.
pub type Pixel = (f64, f64);

/// A text as XML takes it, with what nobody would see written out.
pub fn escape(text: &str) -> String {
    let mut escaped = String::new();
    for letter in crate::output::clean(text).chars() {
        match letter {
            '&' => escaped.push_str("&amp;"),
            '<' => escaped.push_str("&lt;"),
            '>' => escaped.push_str("&gt;"),
            '"' => escaped.push_str("&quot;"),
            // XML has no place for these.
            '\u{fffe}' | '\u{ffff}' => escaped.push('\u{fffd}'),
            letter => escaped.push(letter),
        }
    }
    escaped
}

#[cfg(test)]
mod tests {
    use super::escape;

    #[test]
    fn texts() {
        assert_eq!(escape("a<b> & \"c\""), "a&lt;b&gt; &amp; &quot;c&quot;");
        assert_eq!(escape("\u{202e}x\u{0}\u{ffff}"), "\\u{202e}x\\u{0}\u{fffd}");
    }
}
