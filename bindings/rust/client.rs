//! A client of `patchsard serve` by the standard library alone: a line out for each call, a line in for each answer. Lines are JSON texts that the
//! caller puts together; a program with a JSON library of its own gives them from there, and reads the answers with it.
use std::io::{BufRead, BufReader, Error, ErrorKind, Result, Write};
use std::process::{Child, ChildStdout, Command, Stdio};

pub struct Patchsard {
    process: Child,
    answers: BufReader<ChildStdout>,
}

impl Patchsard {
    /// Starts the program at `path`.
    pub fn start(path: &str) -> Result<Patchsard> {
        let mut process = Command::new(path)
            .arg("serve")
            .stdin(Stdio::piped())
            .stdout(Stdio::piped())
            .spawn()?;
        let answers = process.stdout.take().ok_or(ErrorKind::BrokenPipe)?;
        let answers = BufReader::new(answers);
        Ok(Patchsard { process, answers })
    }

    /// The answer to a call, a line of JSON without its end.
    pub fn ask(&mut self, call: &str) -> Result<String> {
        let calls = self.process.stdin.as_mut().ok_or(ErrorKind::BrokenPipe)?;
        calls.write_all(format!("{call}\n").as_bytes())?;
        let mut answer = String::new();
        if self.answers.read_line(&mut answer)? == 0 {
            return Err(Error::new(ErrorKind::UnexpectedEof, "patchsard has ended"));
        }
        Ok(answer.trim_end().to_owned())
    }

    /// Where a reference leads, as the program answers it.
    pub fn lookup(&mut self, registry: u64, base: &str, reference: &str) -> Result<String> {
        let (base, reference) = (quoted(base), quoted(reference));
        self.ask(&format!(r#"{{"call":"lookup","registry":{registry},"base":{base},"reference":{reference},"values":true}}"#))
    }
}

impl Drop for Patchsard {
    /// The program ends where its input does, which `wait` closes.
    fn drop(&mut self) {
        let _ = self.process.wait();
    }
}

/// A text as JSON writes it.
pub fn quoted(text: &str) -> String {
    let mut out = String::from("\"");
    for character in text.chars() {
        match character {
            '"' | '\\' => out.extend(['\\', character]),
            '\0'..='\u{1f}' => out.push_str(&format!("\\u{:04x}", u32::from(character))),
            _ => out.push(character),
        }
    }
    out + "\""
}
