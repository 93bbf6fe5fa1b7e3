// Asks the three programs the same requests.
use crate::report::Report;
use std::fs::{self, File};
use std::io::{self, Error};
use std::process::{Child, Command};

// The commands of the programs, and the folder for their requests and answers.
pub struct Programs<'a> {
    pub folder: &'a str,
    pub rust: &'a str,
    pub reference: &'a str,
    pub port: &'a str,
}

impl Programs<'_> {
    pub fn ask(&self, lines: &[String], report: &mut Report) -> io::Result<()> {
        let mut text = lines.join("\n");
        text.push('\n');
        fs::write(self.path("requests"), text)?;
        let asked = [(self.rust, "rust"), (self.reference, "reference"), (self.port, "port")];
        let mut children = Vec::new();
        for (command, name) in asked {
            children.push((self.start(command, name)?, name));
        }
        for (child, name) in &mut children {
            if !child.wait()?.success() {
                return Err(Error::other(format!("the program of the answers '{name}' failed")));
            }
        }
        let [rust, reference, port] = ["rust", "reference", "port"].map(|name| self.answers(name));
        let (rust, reference, port) = (rust?, reference?, port?);
        let rows = rust.lines().zip(reference.lines()).zip(port.lines()).zip(lines);
        let mut number = 0;
        for (((rust, reference), port), line) in rows {
            report.add(line, rust, port, reference);
            number += 1;
        }
        if number < lines.len() || port.lines().count() != lines.len() {
            let found = port.lines().count();
            return Err(Error::other(format!(
                "{found} answers of the port to {} requests",
                lines.len()
            )));
        }
        Ok(())
    }

    fn path(&self, name: &str) -> String {
        format!("{}/{name}.txt", self.folder)
    }

    fn start(&self, command: &str, name: &str) -> io::Result<Child> {
        Command::new("sh")
            .args(["-c", command])
            .stdin(File::open(self.path("requests"))?)
            .stdout(File::create(self.path(name))?)
            .spawn()
    }

    fn answers(&self, name: &str) -> io::Result<String> {
        String::from_utf8(fs::read(self.path(name))?).map_err(Error::other)
    }
}
