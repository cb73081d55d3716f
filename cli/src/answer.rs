//! What a command answers when it is done: for a person, and for a program.

use crate::json::Json;

/// The answer of a command that is done.
pub struct Answer {
    /// For a person: lines, or the bytes of a list.
    pub text: Vec<u8>,
    /// For a program.
    pub json: Vec<(&'static str, Json)>,
    /// The file that was written, which must be told if the answer itself finds no way out.
    pub written: Option<String>,
}

impl Answer {
    pub fn new(text: impl Into<Vec<u8>>, json: Vec<(&'static str, Json)>) -> Answer {
        let text = text.into();
        Answer {
            text,
            json,
            written: None,
        }
    }

    pub fn line(words: String, json: Vec<(&'static str, Json)>) -> Answer {
        Answer::new(words + "\n", json)
    }

    pub fn after_writing(self, file: &str) -> Answer {
        let written = Some(file.into());
        Answer { written, ..self }
    }

    /// The line for a program.
    pub fn object(self, asked: &str) -> String {
        let mut fields = vec![("done", Json::Truth(true)), ("asked", Json::text(asked))];
        fields.extend(self.json);
        Json::Object(fields).to_string() + "\n"
    }
}
