//! Names in several languages.

/// A name and its forms in other languages. The format stores them as one text: the first form, then behind a carriage
/// return each other one, its language before a backspace.
///
/// ```
/// use mapsforge::Name;
///
/// let name = Name::new("Øya\ren\u{8}The Island\rzh\u{8}島");
/// assert_eq!(name.first(), "Øya");
/// assert_eq!(name.name_in("en"), "The Island");
/// assert_eq!(name.name_in("zh-Hant"), "島");
/// assert_eq!(name.name_in("fr"), "Øya");
/// ```
#[derive(Clone, Copy, Debug, PartialEq, Eq, Hash)]
pub struct Name<'t> {
    text: &'t str,
}

impl<'t> Name<'t> {
    /// The name that a text of a map holds.
    pub fn new(text: &'t str) -> Name<'t> {
        Name { text }
    }

    /// The form without a language, which stands first.
    pub fn first(self) -> &'t str {
        self.text.split('\r').next().unwrap_or("")
    }

    /// The other forms, each with its language; `None` for a form that the map gives none for.
    pub fn others(self) -> impl Iterator<Item = (Option<&'t str>, &'t str)> {
        self.text.split('\r').skip(1).map(|form| match form.split_once('\u{8}') {
            Some((language, name)) => (Some(language), name),
            None => (None, form),
        })
    }

    /// The form in a language: in the very one, else in the language that it is a kind of (`zh` for `zh-Hant`), else the
    /// first one.
    pub fn name_in(self, language: &str) -> &'t str {
        let kind_of = language.split(['-', '_']).next().unwrap_or(language);
        let form = |wanted: &str| {
            let mut forms = self
                .others()
                .filter(|(of, _)| of.is_some_and(|of| of.eq_ignore_ascii_case(wanted)));
            forms.next().map(|(_, name)| name)
        };
        form(language).or_else(|| form(kind_of)).unwrap_or_else(|| self.first())
    }
}
