//! The words of one line, read one after the other.
use super::names::choice;

/// The words of a line that are still to be read.
pub struct Words<'a> {
    left: std::vec::IntoIter<&'a str>,
}

/// A line without its comment: `#` at the beginning of a word, and all behind it.
pub fn without_comment(line: &str) -> &str {
    let from = line.char_indices().find(|&(i, c)| c == '#' && line[..i].chars().next_back().map_or(true, char::is_whitespace));
    from.map_or(line, |(i, _)| &line[..i])
}

impl<'a> Words<'a> {
    pub fn of(line: &'a str) -> Words<'a> {
        Words { left: without_comment(line).split_whitespace().collect::<Vec<_>>().into_iter() }
    }

    pub fn next(&mut self) -> Option<&'a str> {
        self.left.next()
    }

    pub fn rest(self) -> Vec<&'a str> {
        self.left.collect()
    }

    pub fn need(&mut self, what: &str) -> Result<&'a str, String> {
        self.next().ok_or_else(|| format!("{what} is missing"))
    }

    pub fn number(&mut self, what: &str) -> Result<f64, String> {
        number(self.need(what)?, what)
    }

    /// The number behind a word that takes one.
    pub fn number_after(&mut self, word: &str) -> Result<f64, String> {
        number(self.after(word)?, word)
    }

    fn after(&mut self, word: &str) -> Result<&'a str, String> {
        self.next().ok_or_else(|| format!("`{word}` has no number behind it"))
    }

    /// The whole number behind a word that takes one.
    pub fn whole_after(&mut self, what: &str) -> Result<u64, String> {
        let word = self.after(what)?;
        let hex = word.strip_prefix("0x").map(|digits| u64::from_str_radix(digits, 16));
        let digits = word.bytes().all(|b| b.is_ascii_digit());
        match hex.unwrap_or_else(|| word.parse()) {
            Ok(n) if digits || word.starts_with("0x") => Ok(n),
            Err(_) if digits => Err(format!("{what}: `{word}` is too large for a whole number of 64 bits")),
            _ => Err(format!("{what}: `{word}` is no whole number")),
        }
    }

    /// A surface's number in a file, from 1; here from 0.
    pub fn surface(&mut self) -> Result<usize, String> {
        let word = self.need("the surface's number")?;
        match word.parse::<u128>() {
            Ok(0) => Err("surface 0: surfaces are numbered from 1".to_string()),
            Ok(n) if word.bytes().all(|b| b.is_ascii_digit()) => {
                usize::try_from(n - 1).map_err(|_| format!("surface: `{word}` is too large for a surface's number"))
            }
            _ => Err(format!("surface: `{word}` is no surface's number; surfaces are numbered from 1")),
        }
    }

    /// One of the words that are known, by its place among them.
    pub fn one_of(&mut self, what: &str, known: &[&str]) -> Result<usize, String> {
        let word = self.next().ok_or_else(|| format!("{what} is missing: {}", choice("", known)))?;
        known.iter().position(|k| *k == word).ok_or_else(|| format!("`{word}` is no {what}: {}", choice(word, known)))
    }

    /// Nothing more may be on the line.
    pub fn end(mut self) -> Result<(), String> {
        self.next().map_or(Ok(()), |word| Err(format!("`{word}` is one word too many")))
    }
}

/// A decimal number, or `inf`, `-inf`, `nan`, which no field but a radius takes and the bench refuses.
pub fn number(word: &str, what: &str) -> Result<f64, String> {
    number_or(word, what, "")
}

/// The same where a word may stand instead, which a complaint adds: ", and not `flat`".
pub fn number_or(word: &str, what: &str, instead: &str) -> Result<f64, String> {
    match word {
        "inf" => return Ok(f64::INFINITY),
        "-inf" => return Ok(f64::NEG_INFINITY),
        "nan" => return Ok(f64::NAN),
        _ => {}
    }
    let decimal = word.bytes().all(|b| b.is_ascii_digit() || b"+-.eE".contains(&b));
    match word.parse::<f64>() {
        Ok(x) if decimal && x.is_finite() => Ok(x),
        Ok(_) if decimal => Err(format!("{what}: `{word}` is too large for a number")),
        _ if !word.is_ascii() => Err(format!("{what}: `{word}` is no number; it has a letter or sign that is not ASCII")),
        _ if word.contains(',') => Err(format!("{what}: `{word}` is no number; write a point and no comma")),
        _ => Err(format!("{what}: `{word}` is no number{instead}")),
    }
}
