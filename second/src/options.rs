//! The words after a command: plain ones in their order, and options with one value each.

pub struct Options {
    plain: Vec<String>,
    named: Vec<(String, String)>,
}

impl Options {
    /// Takes only options that are in `known`.
    pub fn new(words: impl Iterator<Item = String>, known: &[&str]) -> Result<Options, String> {
        let mut options = Options { plain: Vec::new(), named: Vec::new() };
        let mut words = words;
        while let Some(word) = words.next() {
            if !word.starts_with("--") {
                options.plain.push(word);
            } else if !known.contains(&word.as_str()) {
                return Err(format!("unknown option {word}"));
            } else {
                let value = words.next().ok_or_else(|| format!("{word} wants a value"))?;
                options.named.push((word, value));
            }
        }
        Ok(options)
    }

    /// Exactly these plain words.
    pub fn plain<const COUNT: usize>(&self, names: [&str; COUNT]) -> Result<[&str; COUNT], String> {
        let words: Vec<&str> = self.plain.iter().map(String::as_str).collect();
        words.try_into().map_err(|_| match names.len() {
            0 => format!("no plain words wanted, but got {}", self.plain.join(" ")),
            _ => format!("wanted {}", names.join(" and ")),
        })
    }

    /// The value of an option that has to be there.
    pub fn text(&self, name: &str) -> Result<&str, String> {
        self.value(name).ok_or_else(|| format!("{name} is missing"))
    }

    /// The value of an option as a number, or the number that stands for none.
    pub fn number(&self, name: &str, default: u64) -> Result<u64, String> {
        self.value(name).map_or(Ok(default), |text| number(name, text))
    }

    fn value(&self, name: &str) -> Option<&str> {
        self.named.iter().find(|(known, _)| known == name).map(|(_, value)| value.as_str())
    }
}

pub fn number(name: &str, text: &str) -> Result<u64, String> {
    text.parse().map_err(|_| format!("{name} wants a number, not {text}"))
}
