//! The words of the command line.

#[derive(Debug)]
pub struct Options {
    pub calls: u64,
    pub seed: u64,
    pub with_itself: bool,
    pub book: Option<String>,
    pub sheet: Option<String>,
    pub books: u64,
}

impl Options {
    pub fn read(mut words: impl Iterator<Item = String>) -> Result<Options, String> {
        let mut options = Options { calls: 200_000, seed: 1, with_itself: false, book: None, sheet: None, books: 500 };
        while let Some(word) = words.next() {
            match word.as_str() {
                "--with-itself" => options.with_itself = true,
                "--calls" => options.calls = number(&word, words.next())?,
                "--seed" => options.seed = number(&word, words.next())?,
                "--books" => options.books = number(&word, words.next())?,
                "--book" => options.book = Some(words.next().ok_or("--book wants a program")?),
                "--sheet" => options.sheet = Some(words.next().ok_or("--sheet wants a program")?),
                _ => return Err(format!("{word} is no option")),
            }
        }
        Ok(options)
    }
}

fn number(option: &str, word: Option<String>) -> Result<u64, String> {
    word.and_then(|word| word.parse().ok()).ok_or_else(|| format!("{option} wants a number"))
}
