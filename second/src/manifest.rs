//! The manifest: the lines of its files in reading order, applied to what has been read; refusals 7
//! to 10 and 19 of each line in that order, and a missing `command` where its block closes.

use crate::bundle::{self, Record};
use crate::bytes::{class, Class};
use crate::expand::expand;
use crate::graph::{Graph, Step};
use crate::limits;
use crate::line::{self, Binding, Build, Open, Opening, Statement};
use crate::version::Version;
use crate::Refusal;
use std::borrow::Cow;
use std::collections::hash_map::{Entry, HashMap};

/// The number of the rule `phony`, which is declared from the start.
const PHONY: usize = 0;
/// The record of the top file, and its scope.
const TOP: usize = 0;
const TOP_SCOPE: usize = 0;

/// All that the manifest says.
#[derive(Default)]
pub struct Manifest<'a> {
    /// Rules by name, `phony` among them.
    rule_numbers: HashMap<&'a [u8], usize>,
    pub rules: Vec<Rule<'a>>,
    /// The variables of the files, the top file's scope first.
    pub file_scopes: Vec<FileScope<'a>>,
    pub files: Files<'a>,
    pub graph: Graph,
    /// For each step of the graph, what its texts need.
    pub scopes: Vec<Scope<'a>>,
    /// The files of the default lines.
    pub defaults: Vec<u32>,
    /// Path mentions, and the bytes of all paths and values, as the limits measure them.
    pub mentions: usize,
    pub together: usize,
}

impl<'a> Manifest<'a> {
    /// A file variable's value as it now stands, in a scope or outward through its parents; an unset
    /// name expands to nothing.
    pub fn variable(&self, scope: usize, name: &[u8]) -> &[u8] {
        let scopes = std::iter::successors(Some(scope), |&scope| self.file_scopes[scope].parent);
        let mut values = scopes.filter_map(|scope| self.file_scopes[scope].variables.get(name));
        values.next().map_or(b"", |value| value)
    }

    /// The number of a declared rule; that of `phony` is 0.
    pub fn rule_number(&self, name: &[u8]) -> Option<usize> {
        self.rule_numbers.get(name).copied()
    }

    /// The number of a file that a header list names; none where that passes a limit on paths, on
    /// their bytes together, on files or on mentions, which go on from what the manifest has.
    pub fn mention_listed(&mut self, name: Cow<'a, [u8]>) -> Option<u32> {
        self.mentions += 1;
        self.together += name.len();
        let is_within = name.len() <= limits::PATH
            && self.mentions <= limits::MENTIONS
            && self.together <= limits::TOGETHER;
        let file = is_within.then(|| self.files.mention(name))?;
        self.graph.files = self.files.names.len();
        (self.graph.files <= limits::FILES).then_some(file)
    }

    /// Expands a raw path or value with the variables that a file's scope sees, as they now stand.
    fn expand(&self, scope: usize, raw: &'a [u8]) -> Cow<'a, [u8]> {
        expand(raw, |name| self.variable(scope, name))
    }
}

/// The variables of the top file or of one opened by `subninja`, with what those bind that are
/// opened by `include` from there.
#[derive(Debug, Default)]
pub struct FileScope<'a> {
    /// The scope of the file that opened it; none for the top file's.
    pub parent: Option<usize>,
    /// Expanded when they were read.
    pub variables: HashMap<&'a [u8], Cow<'a, [u8]>>,
}

/// A rule's keys, kept unexpanded.
#[derive(Debug, Clone, Default)]
pub struct Rule<'a> {
    texts: [Option<&'a [u8]>; Key::COUNT],
}

impl<'a> Rule<'a> {
    /// The raw text of a key, if the rule has it.
    pub fn text(&self, key: Key) -> Option<&'a [u8]> {
        self.texts[key as usize]
    }
}

/// The keys that a rule may have.
#[derive(Debug, Clone, Copy, PartialEq, Eq)]
pub enum Key {
    Command,
    Description,
    Generator,
    Depfile,
}

impl Key {
    pub const COUNT: usize = 4;

    pub fn of(name: &[u8]) -> Option<Key> {
        match name {
            b"command" => Some(Key::Command),
            b"description" => Some(Key::Description),
            b"generator" => Some(Key::Generator),
            b"depfile" => Some(Key::Depfile),
            _ => None,
        }
    }
}

/// Where a step's names are looked up: its rule, its block in line order, and the scope of the file
/// in which its build line stands.
#[derive(Debug, Clone)]
pub struct Scope<'a> {
    pub rule: usize,
    pub file: usize,
    pub bindings: Vec<(&'a [u8], Cow<'a, [u8]>)>,
}

/// Files by first mention, those that only header lists name behind the manifest's. Paths are
/// compared byte for byte.
#[derive(Debug, Default)]
pub struct Files<'a> {
    pub names: Vec<Cow<'a, [u8]>>,
    numbers: HashMap<Cow<'a, [u8]>, u32>,
    /// Whether the file is the output of a step.
    made: Vec<bool>,
}

impl<'a> Files<'a> {
    pub fn name(&self, file: u32) -> &[u8] {
        &self.names[file as usize]
    }

    /// The number of a file that is mentioned.
    pub fn number(&self, name: &[u8]) -> Option<u32> {
        self.numbers.get(name).copied()
    }

    /// The number of a file, which is a new one at its first mention.
    fn mention(&mut self, name: Cow<'a, [u8]>) -> u32 {
        match self.numbers.entry(name) {
            Entry::Occupied(known) => *known.get(),
            Entry::Vacant(new) => {
                self.names.push(new.key().clone());
                self.made.push(false);
                *new.insert(self.made.len() as u32 - 1)
            }
        }
    }

    /// Marks a file as made; says whether it was so already.
    fn make(&mut self, file: u32) -> bool {
        std::mem::replace(&mut self.made[file as usize], true)
    }

    /// The number of an output of a step.
    fn output(&self, name: &[u8]) -> Option<u32> {
        self.number(name).filter(|&file| self.made[file as usize])
    }
}

/// Reads a bundle of manifests: refusals 19 and 2 to 10.
pub fn read(bundle: &[u8]) -> Result<Manifest<'_>, Refusal> {
    of(bundle::read(bundle)?)
}

/// Reads the manifests of a sound bundle: refusals 2 to 10, and 19 at a line.
pub fn of(records: Vec<Record<'_>>) -> Result<Manifest<'_>, Refusal> {
    let length: usize = records.iter().map(|record| record.text.len()).sum();
    Refusal::when(length > limits::MANIFEST, 2, 0)?;
    for (number, record) in records.iter().enumerate() {
        bytes(record.text).map_err(|refusal| refusal.in_text(number))?;
    }
    let mut reader = Reader::new(records);
    reader.file(TOP, TOP_SCOPE)?;
    reader.manifest.mentions = reader.tally.mentions;
    reader.manifest.together = reader.tally.together;
    Ok(reader.manifest)
}

/// The bytes of a text, opened or not: refusal 3.
fn bytes(text: &[u8]) -> Result<(), Refusal> {
    if let Some(place) = text.iter().position(|&b| class(b) == Class::Forbidden) {
        return Err(Refusal::new(3, place));
    }
    Refusal::when(text.last().is_some_and(|&b| b != b'\n'), 3, text.len())
}

/// The block that an indented line belongs to: the last rule's, with its line, or the last step's.
enum Block {
    None,
    Rule(usize),
    Build,
}

/// What is counted and measured against the limits, besides rules, files and steps.
#[derive(Default)]
struct Tally {
    bindings: usize,
    mentions: usize,
    longest_name: usize,
    longest_path: usize,
    longest_value: usize,
    together: usize,
}

impl Tally {
    fn name(&mut self, name: &[u8]) {
        self.longest_name = self.longest_name.max(name.len());
    }

    fn mention(&mut self, path: &[u8]) {
        self.mentions += 1;
        self.path(path);
    }

    /// A path that is no mention.
    fn path(&mut self, path: &[u8]) {
        self.longest_path = self.longest_path.max(path.len());
        self.together += path.len();
    }

    fn binding(&mut self, name: &[u8], value: &[u8]) {
        self.bindings += 1;
        self.name(name);
        self.longest_value = self.longest_value.max(value.len());
        self.together += value.len();
    }
}

/// A file to be opened: the number of its record, and its scope.
struct Child {
    record: usize,
    scope: usize,
}

/// The manifest as read so far, the open files, the open block and the tally.
/// A refusal ends the reading, so a line that is refused half applied needs no undoing.
struct Reader<'a> {
    records: Vec<Record<'a>>,
    manifest: Manifest<'a>,
    /// The scope of the file being read.
    scope: usize,
    /// How many files are open, from the top to the one being read, and how many have been opened.
    open: usize,
    opened: usize,
    /// The file that the line just read opens.
    child: Option<Child>,
    block: Block,
    tally: Tally,
}

impl<'a> Reader<'a> {
    fn new(records: Vec<Record<'a>>) -> Self {
        let mut manifest = Manifest::default();
        manifest.rule_numbers.insert(b"phony", PHONY);
        manifest.rules.push(Rule::default());
        manifest.file_scopes.push(FileScope::default());
        Reader {
            records,
            manifest,
            scope: TOP_SCOPE,
            open: 0,
            opened: 0,
            child: None,
            block: Block::None,
            tally: Tally::default(),
        }
    }

    /// Reads a file in its scope, and where a line opens another one that first. The end of a file
    /// closes its block. A place is one in the text of the file's record.
    fn file(&mut self, record: usize, scope: usize) -> Result<(), Refusal> {
        let text = self.records[record].text;
        self.open += 1;
        self.opened += 1;
        let mut at = 0;
        while at < text.len() {
            self.scope = scope;
            at = self.line(text, at).map_err(|refusal| refusal.in_text(record))?;
            if let Some(Child { record, scope }) = self.child.take() {
                self.file(record, scope)?;
            }
        }
        self.open -= 1;
        self.close().map_err(|refusal| refusal.in_text(record))
    }

    fn expand(&self, raw: &'a [u8]) -> Cow<'a, [u8]> {
        self.manifest.expand(self.scope, raw)
    }

    /// Reads the line at `start`; gives the place after it.
    fn line(&mut self, bytes: &'a [u8], start: usize) -> Result<usize, Refusal> {
        match line::opening(bytes, start) {
            Opening::Comment => Ok(line::after(bytes, start)),
            Opening::Blank => {
                self.close()?;
                Ok(line::after(bytes, start))
            }
            Opening::Indented => {
                // With no block open it is a 4, whatever it holds (reading 9).
                Refusal::when(matches!(self.block, Block::None), 4, start)?;
                let (binding, next) = line::binding(bytes, start)?;
                self.block_line(binding, start)?;
                Ok(next)
            }
            Opening::Plain => {
                // The block closes before any fault of this line (reading 13).
                self.close()?;
                let (statement, next) = line::statement(bytes, start)?;
                self.statement(statement, start)?;
                Ok(next)
            }
        }
    }

    /// Closes the open block: a rule must have a `command`, if an empty one (reading 17).
    fn close(&mut self) -> Result<(), Refusal> {
        if let Block::Rule(start) = self.block {
            let rule = self.manifest.rules.last().expect("a rule's block is open");
            Refusal::when(rule.text(Key::Command).is_none(), 7, start)?;
        }
        self.block = Block::None;
        Ok(())
    }

    fn statement(&mut self, statement: Statement<'a>, start: usize) -> Result<(), Refusal> {
        match statement {
            Statement::Rule(name) => self.rule(name, start),
            Statement::Build(build) => self.build(&build, start),
            Statement::Default(paths) => self.default(&paths, start),
            Statement::Open(open) => self.open(open, start),
            Statement::Variable(binding) => self.variable(binding, start),
        }
    }

    fn block_line(&mut self, binding: Binding<'a>, start: usize) -> Result<(), Refusal> {
        match self.block {
            Block::Build => self.step_binding(binding, start),
            _ => self.rule_key(binding, start),
        }
    }

    fn rule(&mut self, name: &'a [u8], start: usize) -> Result<(), Refusal> {
        let manifest = &mut self.manifest;
        let declared = manifest.rule_numbers.insert(name, manifest.rules.len());
        Refusal::when(declared.is_some(), 7, start)?;
        manifest.rules.push(Rule::default());
        self.block = Block::Rule(start);
        self.tally.name(name);
        self.limits(start)
    }

    fn rule_key(&mut self, binding: Binding<'a>, start: usize) -> Result<(), Refusal> {
        let key = Key::of(binding.name).ok_or(Refusal::new(7, start))?;
        let rule = self.manifest.rules.last_mut().expect("a rule's block is open");
        let before = rule.texts[key as usize].replace(binding.value);
        Refusal::when(before.is_some(), 7, start)?;
        // "Rule values as written": the raw bytes, joins and all (reading 18).
        self.tally.binding(binding.name, binding.value);
        self.limits(start)
    }

    fn step_binding(&mut self, binding: Binding<'a>, start: usize) -> Result<(), Refusal> {
        // A block value sees the file's variables, no earlier line of its block (reading 20).
        let value = self.expand(binding.value);
        self.tally.binding(binding.name, &value);
        let scope = self.manifest.scopes.last_mut().expect("a step's block is open");
        scope.bindings.push((binding.name, value));
        self.limits(start)
    }

    fn variable(&mut self, binding: Binding<'a>, start: usize) -> Result<(), Refusal> {
        let value = self.expand(binding.value);
        self.tally.binding(binding.name, &value);
        self.limits(start)?;
        if binding.name == b"ninja_required_version" {
            let accepted = Version::read(&value).is_some_and(|version| version <= Version::OURS);
            Refusal::when(!accepted, 10, start)?;
        }
        self.manifest.file_scopes[self.scope].variables.insert(binding.name, value);
        Ok(())
    }

    fn build(&mut self, build: &Build<'a>, start: usize) -> Result<(), Refusal> {
        let rule = self.manifest.rule_numbers.get(build.rule).copied();
        let rule = rule.ok_or(Refusal::new(7, start))?;
        let outputs = self.mention(&build.outputs, start)?;
        // Equal outputs are an 8 even where they are over a limit (reading 15).
        for &output in &outputs {
            Refusal::when(self.manifest.files.make(output), 8, start)?;
        }
        let step = Step {
            outputs,
            explicit: self.mention(&build.explicit, start)?,
            implicit: self.mention(&build.implicit, start)?,
            order_only: self.mention(&build.order_only, start)?,
            phony: rule == PHONY,
            ..Step::default()
        };
        let manifest = &mut self.manifest;
        manifest.graph.files = manifest.files.names.len();
        manifest.graph.steps.push(step);
        manifest.scopes.push(Scope { rule, file: self.scope, bindings: Vec::new() });
        self.block = Block::Build;
        self.limits(start)
    }

    fn default(&mut self, paths: &[&'a [u8]], start: usize) -> Result<(), Refusal> {
        for raw in paths {
            let path = self.expand(raw);
            self.tally.mention(&path);
            // An empty path is no output either.
            let output = self.manifest.files.output(&path).ok_or(Refusal::new(8, start))?;
            self.manifest.defaults.push(output);
        }
        self.limits(start)
    }

    /// The path of `include` or `subninja`, which is no path mention and no file; then 19.
    fn open(&mut self, open: Open<'a>, start: usize) -> Result<(), Refusal> {
        let path = self.expand(open.path);
        Refusal::when(path.is_empty(), 8, start)?;
        self.tally.path(&path);
        self.limits(start)?;
        let record = bundle::find(&self.records, &path).ok_or(Refusal::new(19, start))?;
        Refusal::when(self.open == limits::OPEN, 19, start)?;
        Refusal::when(self.opened == limits::OPENED, 19, start)?;
        let scopes = &mut self.manifest.file_scopes;
        let mut scope = self.scope;
        if open.new_scope {
            scopes.push(FileScope { parent: Some(scope), ..FileScope::default() });
            scope = scopes.len() - 1;
        }
        self.child = Some(Child { record, scope });
        Ok(())
    }

    /// The numbers of a build line's paths; an empty one is an 8.
    fn mention(&mut self, paths: &[&'a [u8]], start: usize) -> Result<Vec<u32>, Refusal> {
        let mut files = Vec::with_capacity(paths.len());
        for raw in paths {
            let path = self.expand(raw);
            Refusal::when(path.is_empty(), 8, start)?;
            self.tally.mention(&path);
            files.push(self.manifest.files.mention(path));
        }
        Ok(files)
    }

    /// Refusal 9, which comes after a line's 7s and 8s whatever their order in it (reading 15).
    fn limits(&self, start: usize) -> Result<(), Refusal> {
        let tally = &self.tally;
        let over = self.manifest.graph.steps.len() > limits::STEPS
            || self.manifest.files.names.len() > limits::FILES
            || self.manifest.rules.len() - 1 > limits::RULES
            || tally.bindings > limits::BINDINGS
            || tally.mentions > limits::MENTIONS
            || tally.longest_name > limits::NAME
            || tally.longest_path > limits::PATH
            || tally.longest_value > limits::VALUE
            || tally.together > limits::TOGETHER;
        Refusal::when(over, 9, start)
    }
}
