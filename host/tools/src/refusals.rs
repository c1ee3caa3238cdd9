//! Refusals in words.
use ledger::Kind;

fn line(kind: Kind) -> String {
    format!("{} {}: {}\n", kind.number(), kind.name(), kind.words())
}

pub fn all() -> String {
    Kind::ALL.iter().copied().map(line).collect()
}

pub fn one(number: &str) -> Result<String, String> {
    let kind = number.parse().map(Kind::of_number);
    match kind {
        Ok(kind) if Kind::ALL.contains(&kind) => Ok(line(kind)),
        _ => Err(format!("{number} is not the number of a refusal")),
    }
}

#[cfg(test)]
mod tests {
    use super::*;

    #[test]
    fn by_number() {
        let words =
            "11 NOT_LONGER: the delivered chain does not have more blocks than the held one\n";
        assert_eq!(one("11"), Ok(words.into()));
        assert!(all().contains(words));
        assert!(one("20").is_ok_and(|line| line.starts_with("20 DEPOT_FULL: ")));
        for number in ["0", "19", "21", "-1", "x", "4294967296"] {
            let wrong = format!("{number} is not the number of a refusal");
            assert_eq!(one(number), Err(wrong));
        }
    }
}
