//! The filter: its text from where it stands, and its program.

use std::io::{self, Read};

use grainlantern::{Program, TEXT_LIMIT};

use crate::arguments::Filter;
use crate::input::Input;
use crate::messages::words;
use crate::refused;

/// The filter where none is given: everything.
const EVERYTHING: &[u8] = b"-type UPDATE -or ! -type UPDATE";

/// The name of a filter that isn't in a file.
const UNNAMED: &str = "filter";

/// A filter's text.
pub struct FilterText {
    pub name: String,
    pub bytes: Vec<u8>,
    /// What to do instead, should it be refused.
    pub advice: Option<&'static str>,
}

impl FilterText {
    /// Reads a filter's text; what is wrong, where it can't be read.
    pub fn of(filter: &Filter) -> Result<FilterText, String> {
        let mut text = FilterText {
            name: UNNAMED.to_owned(),
            bytes: EVERYTHING.to_vec(),
            advice: None,
        };
        match filter {
            Filter::NotGiven => {}
            Filter::Text(bytes) => text.bytes.clone_from(bytes),
            Filter::Expression(expression) => {
                text.bytes.clone_from(&expression.text);
                text.advice = expression.advice;
            }
            Filter::File(input) => {
                text.name = input.to_string();
                text.bytes = read(input).map_err(|why| format!("{input}: {}", words(&why)))?;
            }
        }
        Ok(text)
    }

    /// Its program; what is wrong and where, if it is refused.
    pub fn compile(&self) -> Result<Program, String> {
        Program::compile(&self.bytes).map_err(|refusal| refused::message(self, refusal))
    }
}

/// A filter file's bytes; of a text that is too long only as many as show that.
fn read(input: &Input) -> io::Result<Vec<u8>> {
    let mut bytes = Vec::new();
    let most = TEXT_LIMIT as u64 + 1;
    input.open()?.take(most).read_to_end(&mut bytes)?;
    Ok(bytes)
}
