//! A case as a line of text, and its answer as another: what the suite's runner and the command that it runs say to each other.
//!
//! A line is the function's name and what it is given, `NAME=VALUE` each: a slice in hexadecimal, a number in decimal digits. The
//! answer is the number that the function answers, and every slice as it is then.

use super::case::{bytes_of, hex, Case, Given};
use crate::differential::Functions;

/// The case's line.
pub fn line_of(case: &Case) -> String {
    let words = case.given.iter().map(|(name, given)| match given {
        Given::Slice(bytes) => format!(" {name}={}", hex(bytes)),
        Given::Number(number) => format!(" {name}={number}"),
    });
    [case.function.to_string()].into_iter().chain(words).collect()
}

/// What a line gives, by name.
struct Lent {
    words: Vec<(String, Vec<u8>)>,
    numbers: Vec<(String, u64)>,
}

/// The names that stand for numbers; all others are slices.
const NUMBERS: [&str; 5] = ["at", "association", "member", "ceiling", "n"];

impl Lent {
    fn read<'a>(words: impl Iterator<Item = &'a str>) -> Result<Lent, String> {
        let mut lent = Lent { words: Vec::new(), numbers: Vec::new() };
        for word in words {
            let (name, value) = word.split_once('=').ok_or(format!("'{word}' has no '='"))?;
            if NUMBERS.contains(&name) {
                let number = value.parse().map_err(|_| format!("'{value}' is not a number"))?;
                lent.numbers.push((name.to_string(), number));
            } else {
                let bytes = bytes_of(value).ok_or(format!("{name} is not in hexadecimal"))?;
                lent.words.push((name.to_string(), bytes));
            }
        }
        Ok(lent)
    }

    fn number(&self, name: &str) -> Result<u64, String> {
        let found = self.numbers.iter().find(|(own, _)| own == name);
        found.map(|&(_, number)| number).ok_or(format!("{name} is missing"))
    }

    fn small(&self, name: &str) -> Result<u32, String> {
        u32::try_from(self.number(name)?).map_err(|_| format!("{name} is above 4294967295"))
    }

    fn slice(&self, name: &str) -> Result<Vec<u8>, String> {
        let found = self.words.iter().find(|(own, _)| own == name);
        found.map(|(_, bytes)| bytes.clone()).ok_or(format!("{name} is missing"))
    }

    /// What was written to a slice.
    fn put(&mut self, name: &str, bytes: Vec<u8>) {
        for (_, found) in self.words.iter_mut().filter(|(own, _)| own == name) {
            found.clone_from(&bytes);
        }
    }

    /// Calls the function of this name. What is lent is copied, and what can be written is put back.
    fn call(&mut self, functions: &Functions, function: &str) -> Result<u64, String> {
        match function {
            "milecopper_check_tariff" => Ok((functions.check)(&self.slice("tariff")?)),
            "milecopper_settle" => self.settle(functions),
            "milecopper_quote" => {
                let mut statement = self.slice("statement")?;
                let (tariff, book, trip) = (self.slice("tariff")?, self.slice("book")?, self.slice("trip")?);
                let answer = (functions.quote)(&tariff, &book, &trip, &mut statement);
                self.put("statement", statement);
                Ok(answer)
            }
            "milecopper_post" => {
                let mut book = self.slice("book")?;
                let (tariff, trip, record) = (self.slice("tariff")?, self.slice("trip")?, self.slice("record")?);
                let answer = (functions.post)(&tariff, &mut book, &trip, &record);
                self.put("book", book);
                Ok(answer)
            }
            "milecopper_read" => {
                let (statement, at) = (self.slice("statement")?, self.number("at")?);
                let mut fields = self.slice("fields")?;
                let answer = (functions.read)(&statement, at as usize, &mut fields);
                self.put("fields", fields);
                Ok(answer)
            }
            "milecopper_add" => self.change_page(functions.add),
            "milecopper_close" => self.change_page(functions.close),
            "milecopper_settle_member" => self.settle_member(functions),
            "milecopper_settle_month" => self.settle_month(functions),
            "milecopper_correct" => self.correct(functions),
            _ => Err(format!("there is no function '{function}'")),
        }
    }

    fn settle(&mut self, functions: &Functions) -> Result<u64, String> {
        let (tariff, trip) = (self.slice("tariff")?, self.slice("trip")?);
        let (mut book, mut statement) = (self.slice("book")?, self.slice("statement")?);
        let answer = (functions.settle)(&tariff, &mut book, &trip, &mut statement);
        self.put("book", book);
        self.put("statement", statement);
        Ok(answer)
    }

    fn change_page(&mut self, change: fn(&mut [u8], u32, u32) -> u64) -> Result<u64, String> {
        let mut page = self.slice("page")?;
        let answer = change(&mut page, self.small("association")?, self.small("member")?);
        self.put("page", page);
        Ok(answer)
    }

    fn settle_member(&mut self, functions: &Functions) -> Result<u64, String> {
        let (tariff, trip) = (self.slice("tariff")?, self.slice("trip")?);
        let (mut page, mut statement) = (self.slice("page")?, self.slice("statement")?);
        let (association, member) = (self.small("association")?, self.small("member")?);
        let answer = (functions.settle_member)(&tariff, &mut page, association, member, &trip, &mut statement);
        self.put("page", page);
        self.put("statement", statement);
        Ok(answer)
    }

    fn settle_month(&mut self, functions: &Functions) -> Result<u64, String> {
        let (tariff, trip, ceiling) = (self.slice("tariff")?, self.slice("trip")?, self.small("ceiling")?);
        let (mut kept, mut book) = (self.slice("kept")?, self.slice("book")?);
        let (mut statement, mut due) = (self.slice("statement")?, self.slice("due")?);
        let answer = (functions.settle_month)(ceiling, &mut kept, &tariff, &mut book, &trip, &mut statement, &mut due);
        for (name, bytes) in [("kept", kept), ("book", book), ("statement", statement), ("due", due)] {
            self.put(name, bytes);
        }
        Ok(answer)
    }

    fn correct(&mut self, functions: &Functions) -> Result<u64, String> {
        let (tariff, roll, n) = (self.slice("tariff")?, self.slice("roll")?, self.small("n")?);
        let replacement = self.slice("replacement")?;
        let (mut statements, mut differences) = (self.slice("statements")?, self.slice("differences")?);
        let answer = (functions.correct)(&tariff, &roll, n, &replacement, &mut statements, &mut differences);
        self.put("statements", statements);
        self.put("differences", differences);
        Ok(answer)
    }
}

/// The answer to a line, by these functions; an error says what is wrong with the line.
pub fn answer_line(functions: &Functions, line: &str) -> Result<String, String> {
    let mut words = line.split_whitespace();
    let function = words.next().ok_or("the line is empty".to_string())?;
    let mut lent = Lent::read(words)?;
    let answer = lent.call(functions, function)?;
    let slices: String = lent.words.iter().map(|(name, bytes)| format!(" {name}={}", hex(bytes))).collect();
    Ok(format!("{answer}{slices}"))
}

#[cfg(test)]
mod tests {
    use super::*;
    use crate::differential::MODEL;

    #[test]
    fn a_line_is_answered() {
        assert_eq!(answer_line(&MODEL, "milecopper_check_tariff tariff=01"), Ok("4294967296 tariff=01".to_string()));
        let told = answer_line(&MODEL, "milecopper_read statement= at=0 fields=0102");
        assert_eq!(told, Ok(format!("{} statement= fields=0102", 14u64 << 32)));
        let told = answer_line(&MODEL, "milecopper_correct tariff= roll= n=1 replacement= statements=01 differences=");
        let slices = "tariff= roll= replacement= statements=01 differences=";
        assert_eq!(told, Ok(format!("{} {slices}", 23u64 << 32)));
        let slices = "kept= tariff= book= trip= statement= due=05";
        let told = answer_line(&MODEL, &format!("milecopper_settle_month ceiling=1 {slices}"));
        assert_eq!(told, Ok(format!("{} {slices}", 24u64 << 32)));
    }

    #[test]
    fn what_is_wrong_with_a_line_is_said() {
        let told = |line| answer_line(&MODEL, line).expect_err("a wrong line");
        assert_eq!(told(""), "the line is empty");
        assert_eq!(told("milecopper_frob"), "there is no function 'milecopper_frob'");
        assert_eq!(told("milecopper_check_tariff"), "tariff is missing");
        assert_eq!(told("milecopper_check_tariff tariff"), "'tariff' has no '='");
        assert_eq!(told("milecopper_check_tariff tariff=0"), "tariff is not in hexadecimal");
        assert_eq!(told("milecopper_add page= association=4294967296 member=1"), "association is above 4294967295");
    }
}
