//! The words after a command: options, with or without a value, and files.

/// Options that a command takes.
pub struct Known {
    /// without a value
    pub marks: &'static [&'static str],
    /// with one
    pub values: &'static [&'static str],
}

#[derive(Default)]
pub struct Args {
    marks: Vec<String>,
    values: Vec<(String, String)>,
    pub files: Vec<String>,
}

impl Args {
    /// Options may stand anywhere before `--`; `--name value` and `--name=value` are the same.
    pub fn read(words: &[String], known: &Known) -> Result<Args, String> {
        let mut args = Args::default();
        let mut words = words.iter();
        while let Some(word) = words.next() {
            if word == "--" {
                args.files.extend(words.by_ref().cloned());
            } else if word.starts_with("--") {
                args.option(word, known, &mut words)?;
            } else if word.starts_with('-') && word != "-" {
                return Err(format!("`{word}` is no option"));
            } else {
                args.files.push(word.clone());
            }
        }
        Ok(args)
    }

    fn option<'a>(&mut self, word: &str, known: &Known, words: &mut impl Iterator<Item = &'a String>) -> Result<(), String> {
        let (name, value) = word.split_once('=').map_or((word, None), |(name, value)| (name, Some(value.to_string())));
        if known.marks.contains(&name) && value.is_none() {
            self.marks.push(name.to_string());
            return Ok(());
        }
        if !known.values.contains(&name) {
            let all = [known.marks, known.values].concat().join(" ");
            return Err(format!("`{word}` is no option here; there are: {all} --help"));
        }
        let value = value.or_else(|| words.next().cloned()).ok_or_else(|| format!("{name} has no value"))?;
        self.values.push((name.to_string(), value));
        Ok(())
    }

    pub fn has(&self, mark: &str) -> bool {
        self.marks.iter().any(|given| given == mark)
    }

    pub fn all(&self, name: &str) -> Vec<&str> {
        self.values.iter().filter(|(given, _)| given == name).map(|(_, value)| value.as_str()).collect()
    }

    /// The value of an option that may be given once.
    pub fn one(&self, name: &str) -> Result<Option<&str>, String> {
        match self.all(name)[..] {
            [] => Ok(None),
            [value] => Ok(Some(value)),
            _ => Err(format!("{name} is there twice")),
        }
    }

    pub fn some_files(&self) -> Result<&[String], String> {
        if self.files.is_empty() {
            return Err("no file; `-` is standard input".to_string());
        }
        Ok(&self.files)
    }
}
