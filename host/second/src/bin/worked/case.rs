//! A case: its op, its arguments, its answer, and how the three are written (crates/worked/SOURCE.md).
use second::order::Releases;
use second::Refusal;

/// An argument.
pub enum Field {
    Number(u64),
    Bytes(Vec<u8>),
}

/// What a case runs.
pub trait Op {
    /// The word that names it at the front of a line.
    fn word(&self) -> &'static str;
    /// The arguments, in their order on the line.
    fn fields(&self) -> Vec<Field>;
    /// What the second implementation answers.
    fn answer(&self) -> String;
}

pub struct Case {
    /// What the case shows.
    pub name: String,
    op: Box<dyn Op>,
    by_hand: Option<String>,
}

/// A case whose answer only the second implementation gives.
pub fn case(name: impl Into<String>, op: impl Op + 'static) -> Case {
    boxed_case(name, Box::new(op))
}

pub fn boxed_case(name: impl Into<String>, op: Box<dyn Op>) -> Case {
    Case {
        name: name.into(),
        op,
        by_hand: None,
    }
}

impl Case {
    /// The answer that 01 or a reading of it gives.
    pub fn by_hand(self, answer: impl Into<String>) -> Case {
        Case {
            by_hand: Some(answer.into()),
            ..self
        }
    }

    fn input(&self) -> String {
        let fields = self.op.fields();
        let words = fields.iter().map(Field::text);
        let line: Vec<String> = [self.op.word().to_string()]
            .into_iter()
            .chain(words)
            .collect();
        line.join(" ")
    }

    fn output(&self) -> String {
        let answer = self.op.answer();
        if let Some(by_hand) = &self.by_hand {
            assert_eq!(&answer, by_hand, "{}", self.name);
        }
        answer
    }
}

/// Cases that belong together, and what they show.
pub struct Section {
    pub title: &'static str,
    pub cases: Vec<Case>,
}

/// The lines that the program is run on. The last one has no newline.
pub fn input(sections: &[Section]) -> String {
    lines(sections, Case::input).trim_end().into()
}

/// The lines that it must print.
pub fn output(sections: &[Section]) -> String {
    lines(sections, Case::output).trim_end().to_string() + "\n"
}

fn lines(sections: &[Section], line: impl Fn(&Case) -> String) -> String {
    let mut text = String::new();
    for section in sections {
        text += &format!("## {}\n", section.title);
        for case in &section.cases {
            text += &format!("# {}\n{}\n", case.name, line(case));
        }
        text += "\n";
    }
    text
}

impl Field {
    fn text(&self) -> String {
        match self {
            Field::Number(value) => value.to_string(),
            Field::Bytes(bytes) => bytes_text(bytes),
        }
    }
}

impl From<u32> for Field {
    fn from(value: u32) -> Field {
        Field::Number(value.into())
    }
}

impl From<u64> for Field {
    fn from(value: u64) -> Field {
        Field::Number(value)
    }
}

impl From<usize> for Field {
    fn from(value: usize) -> Field {
        Field::Number(value as u64)
    }
}

impl From<&[u8]> for Field {
    fn from(bytes: &[u8]) -> Field {
        Field::Bytes(bytes.to_vec())
    }
}

/// From how many on equal bytes are written once.
const MANY: usize = 4;

/// Bytes as pieces joined by `+`: a byte and how often it stands, or bytes one after another. No bytes are `-`.
pub fn bytes_text(bytes: &[u8]) -> String {
    if bytes.is_empty() {
        return "-".into();
    }
    let mut pieces: Vec<String> = Vec::new();
    let mut plain = String::new();
    for run in bytes.chunk_by(|a, b| a == b) {
        let byte = format!("{:02x}", run[0]);
        if run.len() < MANY {
            plain += &byte.repeat(run.len());
            continue;
        }
        if !plain.is_empty() {
            pieces.push(std::mem::take(&mut plain));
        }
        pieces.push(format!("{byte}*{}", run.len()));
    }
    if !plain.is_empty() {
        pieces.push(plain);
    }
    pieces.join("+")
}

/// A refusal as it is printed.
pub fn refused(refusal: Refusal) -> String {
    format!("refused {} {}", refusal.number, refusal.place)
}

/// An answer as it is printed, or the refusal.
pub fn told<T>(answer: Result<T, Refusal>, text: impl Fn(T) -> String) -> String {
    match answer {
        Ok(value) => text(value),
        Err(refusal) => refused(refusal),
    }
}

/// The displays whose release is not 0, each with its release.
pub fn releases_text(releases: &Releases) -> String {
    releases
        .iter()
        .enumerate()
        .filter(|(_, release)| **release != 0)
        .map(|(display, release)| format!(" {display}:{release}"))
        .collect()
}

#[cfg(test)]
mod tests {
    use super::*;

    #[test]
    fn bytes_in_pieces() {
        assert_eq!(bytes_text(&[]), "-");
        assert_eq!(bytes_text(&[0x0A, 0xFF]), "0aff");
        assert_eq!(bytes_text(&[0; 3]), "000000");
        assert_eq!(bytes_text(&[0; 4]), "00*4");
        assert_eq!(bytes_text(&[1, 1, 0, 0, 0, 0, 2]), "0101+00*4+02");
        assert_eq!(bytes_text(&[1, 1, 1, 1, 1, 2, 2, 2, 2]), "01*5+02*4");
    }
}
