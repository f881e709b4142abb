//! The text of a step, and the name of its depfile: the lookup of names and the expansion of rule
//! texts; refusals 18, 16, 17.

use crate::expand::{pieces, Piece};
use crate::limits;
use crate::manifest::{Key, Manifest, Rule, Scope};
use crate::{Refusal, Wanted};
use std::borrow::Cow;

/// The `command` or `description` text of a step.
pub fn text(manifest: &Manifest, step: usize, wanted: Wanted) -> Result<Vec<u8>, Refusal> {
    let commands = manifest.graph.steps.get(step).filter(|step| !step.phony);
    Refusal::when(commands.is_none(), 18, step)?;
    looked_up(manifest, step, wanted.name().as_bytes(), Spelling::Quoted)
}

/// The name of a step's depfile, which is looked up as any text but unquoted; empty means none.
pub fn depfile(manifest: &Manifest, step: usize) -> Result<Vec<u8>, Refusal> {
    looked_up(manifest, step, b"depfile", Spelling::Plain)
}

/// How a text gives the names of files.
#[derive(Clone, Copy, PartialEq, Eq)]
enum Spelling {
    /// As a shell reads them back (document 02, [2]).
    Quoted,
    /// As they are: in a depfile's name alone (reading 02.10).
    Plain,
}

/// What a step's lookup of a name gives: refusals 16 and 17.
fn looked_up(
    manifest: &Manifest,
    step: usize,
    name: &[u8],
    spelling: Spelling,
) -> Result<Vec<u8>, Refusal> {
    let lookup = Lookup::new(manifest, step);
    Refusal::when(lookup.leads_back(name, &mut [Visit::None; Key::COUNT]), 16, step)?;
    let mut text = Text::default();
    Expansion { lookup, spelling, done: Default::default() }
        .append(name, &mut text)
        .map_err(|TooLong| Refusal::new(17, step))?;
    Ok(text.bytes)
}

/// A file's name as `$in` and `$out` give it (document 02, [2]): "a name of only letters, digits and
/// `_ + - . /` stays; any other stands in single quotes, each single quote inside written as quote,
/// backslash, quote, quote".
pub fn quoted(name: &[u8]) -> Cow<'_, [u8]> {
    let stays = |byte: &u8| byte.is_ascii_alphanumeric() || b"_+-./".contains(byte);
    if name.iter().all(stays) {
        return Cow::Borrowed(name);
    }
    let mut quoted = vec![b'\''];
    for &byte in name {
        match byte {
            b'\'' => quoted.extend_from_slice(br"'\''"),
            _ => quoted.push(byte),
        }
    }
    quoted.push(b'\'');
    Cow::Owned(quoted)
}

/// What a name stands for in a step's text.
enum Meaning<'m> {
    /// `in`, `in_newline` or `out`: files, and the byte that joins their names.
    Files(&'m [u32], u8),
    /// A value that was expanded when it was read, and is never expanded again (reading 20).
    Value(&'m [u8]),
    /// A rule's key with its raw text.
    Rule(Key, &'m [u8]),
}

/// The names that a step's text sees.
#[derive(Clone, Copy)]
struct Lookup<'m> {
    manifest: &'m Manifest<'m>,
    scope: &'m Scope<'m>,
    rule: &'m Rule<'m>,
    step: usize,
}

/// How far the search for a way back has come with a rule key.
#[derive(Clone, Copy, PartialEq, Eq)]
enum Visit {
    None,
    Open,
    Done,
}

impl<'m> Lookup<'m> {
    fn new(manifest: &'m Manifest<'m>, step: usize) -> Self {
        let scope = &manifest.scopes[step];
        Lookup { manifest, scope, rule: &manifest.rules[scope.rule], step }
    }

    /// The order of the lookup: the step's files, its block, its rule, the file in which its build
    /// line stands and outward through that one's parents, as all of them stand in the end.
    fn meaning(&self, name: &[u8]) -> Meaning<'m> {
        let step = &self.manifest.graph.steps[self.step];
        match name {
            b"in" => return Meaning::Files(&step.explicit, b' '),
            b"in_newline" => return Meaning::Files(&step.explicit, b'\n'),
            b"out" => return Meaning::Files(&step.outputs, b' '),
            _ => {}
        }
        // In a block the last line wins.
        let bound = self.scope.bindings.iter().rfind(|(bound, _)| *bound == name);
        if let Some((_, value)) = bound {
            return Meaning::Value(value);
        }
        let key = Key::of(name).and_then(|key| Some((key, self.rule.text(key)?)));
        match key {
            Some((key, raw)) => Meaning::Rule(key, raw),
            None => Meaning::Value(self.manifest.variable(self.scope.file, name)),
        }
    }

    /// Whether what the name reaches leads back to a rule key under expansion; 16 is decided
    /// before any byte is counted for 17 (reading 21).
    fn leads_back(&self, name: &[u8], visits: &mut [Visit; Key::COUNT]) -> bool {
        let Meaning::Rule(key, raw) = self.meaning(name) else {
            return false;
        };
        match visits[key as usize] {
            Visit::Open => true,
            Visit::Done => false,
            Visit::None => {
                visits[key as usize] = Visit::Open;
                let back = pieces(raw).any(|piece| match piece {
                    Piece::Name(name) => self.leads_back(name, visits),
                    Piece::Bytes(_) => false,
                });
                visits[key as usize] = Visit::Done;
                back
            }
        }
    }
}

/// A text passes the limit: refusal 17. A text that another contains passes it for both.
struct TooLong;

/// Bytes within the limit of a text.
#[derive(Default)]
struct Text {
    bytes: Vec<u8>,
}

impl Text {
    fn push(&mut self, bytes: &[u8]) -> Result<(), TooLong> {
        if self.bytes.len() + bytes.len() > limits::TEXT {
            return Err(TooLong);
        }
        self.bytes.extend_from_slice(bytes);
        Ok(())
    }
}

/// An expansion without a way back; the text of each rule key is expanded once.
struct Expansion<'m> {
    lookup: Lookup<'m>,
    spelling: Spelling,
    done: [Option<Vec<u8>>; Key::COUNT],
}

impl Expansion<'_> {
    fn append(&mut self, name: &[u8], text: &mut Text) -> Result<(), TooLong> {
        match self.lookup.meaning(name) {
            Meaning::Files(files, joint) => self.append_files(files, joint, text),
            Meaning::Value(value) => text.push(value),
            Meaning::Rule(key, raw) => {
                let expanded = match self.done[key as usize].take() {
                    Some(expanded) => expanded,
                    None => self.expand(raw)?,
                };
                text.push(&expanded)?;
                self.done[key as usize] = Some(expanded);
                Ok(())
            }
        }
    }

    fn append_files(&self, files: &[u32], joint: u8, text: &mut Text) -> Result<(), TooLong> {
        for (place, &file) in files.iter().enumerate() {
            if place > 0 {
                text.push(&[joint])?;
            }
            let name = self.lookup.manifest.files.name(file);
            match self.spelling {
                Spelling::Quoted => text.push(&quoted(name))?,
                Spelling::Plain => text.push(name)?,
            }
        }
        Ok(())
    }

    fn expand(&mut self, raw: &[u8]) -> Result<Vec<u8>, TooLong> {
        let mut text = Text::default();
        for piece in pieces(raw) {
            match piece {
                Piece::Bytes(bytes) => text.push(bytes)?,
                Piece::Name(name) => self.append(name, &mut text)?,
            }
        }
        Ok(text.bytes)
    }
}
