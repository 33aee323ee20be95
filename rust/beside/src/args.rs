//! What the command line asks for.

pub const USAGE: &str = "\
usage: beside compare  [SEED [COUNT]] [--threads N] [--only SUBJECT]
       beside selftest [SEED [COUNT]] [--threads N]
       beside lists    FOLDER
       beside bench    [SEED [COUNT]] [--rounds N] [--only SUBJECT] [--control]
       beside calls    rust|ours [SEED [COUNT]] --only SUBJECT
       beside subjects
COUNT is how many random requests each subject gets, or how many inputs each call is timed on.
--control times the original against itself, which shows how much of a ratio is noise.
calls makes the calls of one side and nothing else, for a tool that counts instructions; it prints how many.";

/// The words after the mode.
pub struct Args {
    plain: Vec<String>,
    pub threads: usize,
    pub rounds: usize,
    pub only: Option<String>,
    pub control: bool,
}

impl Args {
    pub fn read(words: impl Iterator<Item = String>) -> Result<Self, String> {
        let mut args = Self {
            plain: Vec::new(),
            threads: 1,
            rounds: 201,
            only: None,
            control: false,
        };
        let mut words = words;
        while let Some(word) = words.next() {
            let mut value = || words.next().ok_or(format!("{word} wants a value"));
            match word.as_str() {
                "--threads" => args.threads = number::<usize>(&value()?)?.max(1),
                "--rounds" => args.rounds = number::<usize>(&value()?)?.max(1),
                "--only" => args.only = Some(value()?),
                "--control" => args.control = true,
                _ => args.plain.push(word),
            }
        }
        Ok(args)
    }

    pub fn folder(&self) -> Result<&str, String> {
        match &self.plain[..] {
            [folder] => Ok(folder),
            _ => Err("one folder is wanted".to_owned()),
        }
    }

    /// Takes the word that has to stand first.
    pub fn side(&mut self) -> Result<String, String> {
        match self.plain.first() {
            Some(word) if matches!(word.as_str(), "rust" | "ours") => Ok(self.plain.remove(0)),
            _ => Err("a side is wanted, rust or ours".to_owned()),
        }
    }

    /// The seed, 1 if none is given, and the count.
    pub fn seed_and_count(&self, usual_count: usize) -> Result<(u64, usize), String> {
        match &self.plain[..] {
            [] => Ok((1, usual_count)),
            [seed] => Ok((number(seed)?, usual_count)),
            [seed, count] => Ok((number(seed)?, number(count)?)),
            _ => Err("a seed and a count are all there is".to_owned()),
        }
    }
}

fn number<T: std::str::FromStr>(word: &str) -> Result<T, String> {
    let digits = word.replace('_', "");
    digits
        .parse()
        .map_err(|_| format!("{word} is not a number"))
}
