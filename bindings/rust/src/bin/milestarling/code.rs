//! The executable parts of a file that is named to `list` or `check`: of an ELF file its sections or segments, and of any other
//! all of it.

use crate::call::Call;
use crate::elf::{self, Elf, Part};
use crate::input::{say, Failure, Source};

/// What is asked for beside files.
pub struct Asked {
    pub at: Option<u64>,
    /// How an ELF file is made to go by segments alone, where it goes by sections.
    sections: Option<&'static str>,
    /// Whether an option asks for segments, which no image has.
    segments: bool,
    pub json: bool,
}

impl Asked {
    /// What is asked of `list`, which goes by an ELF file's segments.
    pub fn of_list(call: &Call) -> Result<Asked, Failure> {
        Asked::of(call, call.has("--sections").then_some("without --sections"))
    }

    /// What is asked of `check`, which goes by sections.
    pub fn of_check(call: &Call) -> Result<Asked, Failure> {
        Asked::of(call, (!call.has("--segments")).then_some("by --segments"))
    }

    fn of(call: &Call, sections: Option<&'static str>) -> Result<Asked, Failure> {
        Ok(Asked { at: call.number("--at")?, sections, segments: call.has("--segments"), json: call.has("--json") })
    }

    /// The parts of what was read. A file without sections goes by segments, which is said to whoever asked for sections.
    pub fn parts<'a>(&self, source: &Source, file: &'a [u8]) -> Result<Vec<Part<'a>>, Failure> {
        if !file.starts_with(elf::MAGIC) {
            return match self.segments {
                true => Err(source.wrong("no ELF file, so that it has no segments")),
                false => Ok(vec![Part::image(self.at.unwrap_or(0), file)]),
            };
        }
        if self.at.is_some() {
            return Err(Failure::Usage("an ELF file has addresses of its own: leave out --at".into()));
        }
        let wrong = |said: String| source.wrong(said);
        let elf = Elf::new(file).map_err(wrong)?;
        if let Some(otherwise) = self.sections {
            let hint = match elf.has_segments() {
                true => format!("; {otherwise} it goes by segments alone"),
                false => String::new(),
            };
            if let Some(sections) = elf.sections().map_err(|said| wrong(said + &hint))? {
                return Ok(sections);
            }
            let name = source.name();
            say(format_args!(
                "{name}: it has no section headers, so that it goes by segments, with all that is in them"
            ));
        }
        let is_usual = self.sections.is_none() && !self.segments;
        let hint = if is_usual && elf.has_sections() { "; --sections goes by its sections" } else { "" };
        elf.segments().map_err(|said| wrong(said + hint))
    }

    /// Does the same with the parts of each file that was named, or of standard input. Of one that can't be read it is told
    /// what is wrong, which is said too. Returns whether all were read.
    pub fn each(
        &self,
        call: &Call,
        mut done: impl FnMut(&str, Result<&[Part], &str>) -> Result<(), Failure>,
    ) -> Result<bool, Failure> {
        let mut all_read = true;
        let names = if call.operands.is_empty() { &["-"][..] } else { &call.operands };
        for name in names {
            let failure = match read(name) {
                Err(failure) => failure,
                Ok((source, file)) => match self.parts(&source, &file) {
                    Err(failure) => failure,
                    Ok(parts) => {
                        done(source.name(), Ok(&parts))?;
                        continue;
                    }
                },
            };
            let Failure::Failed(said) = failure else { return Err(failure) };
            done(name, Err(&said))?;
            say(said);
            all_read = false;
        }
        Ok(all_read)
    }
}

/// All of a file, or of standard input.
fn read(name: &str) -> Result<(Source, Vec<u8>), Failure> {
    let mut source = Source::of(&[name])?;
    let content = source.rest(Vec::new())?;
    Ok((source, content))
}
