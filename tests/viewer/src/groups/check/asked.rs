//! A file that is checked, and what must be printed of it.

use crate::abif::checked;
use crate::findings::Findings;
use crate::program::{Output, Program};
use crate::scratch::Scratch;

pub struct Asked {
    pub name: &'static str,
    pub bytes: Vec<u8>,
    /// None for the one that the file is taken for.
    pub profile: Option<u64>,
}

impl Asked {
    pub fn against(profile: u64, bytes: Vec<u8>) -> Asked {
        Asked {
            name: "file",
            bytes,
            profile: Some(profile),
        }
    }

    pub fn run(&self, scratch: &Scratch) -> Output {
        scratch.write(self.name, &self.bytes);
        let mut arguments = vec!["check".to_string(), self.name.to_string()];
        arguments.extend(self.profile.map(|profile| format!("--profile={profile}")));
        Program::plain().run_in(scratch.folder(), &arguments)
    }

    /// Every line as the independent tables have it.
    pub fn compare(&self) -> Findings {
        let mut findings = Findings::default();
        let output = self.run(&Scratch::new());
        let expected = checked::check(self.name, &self.bytes, self.profile);
        let printed = output.stdout_text();
        let printed: Vec<&str> = printed.lines().collect();
        findings.check(printed.len() == expected.lines.len(), || {
            format!("{} lines for {}", printed.len(), expected.lines.len())
        });
        for (line, printed) in expected.lines.iter().zip(&printed) {
            findings.check(line.fits(printed), || format!("{printed:?} for {line:?}"));
        }
        let status = Some(i32::from(expected.counts.all() > 0));
        findings.check(output.status == status && output.stderr.is_empty(), || {
            format!("status {:?}, {:?}", output.status, output.stderr_text())
        });
        findings
    }
}
