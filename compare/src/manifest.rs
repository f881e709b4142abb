//! The proved reader of manifests: the buffers that it fills, and what they hold.

use second::graph::{Graph, Step};

/// What is answered: three times 0 and how much the buffers hold; a refusal's number and its place,
/// which has two numbers; or 255 where a buffer is too short.
#[repr(C)]
#[derive(Debug, Clone, Copy, Default, PartialEq, Eq)]
pub struct Numbers {
    pub number: usize,
    /// 0 where the place is a number by itself, else the record of its text and one more.
    pub text: usize,
    pub place: usize,
    pub files: usize,
    pub steps: usize,
    pub paths: usize,
    pub defaults: usize,
    pub entries: usize,
    pub rules: usize,
    pub bindings: usize,
    pub mentions: usize,
    pub written: usize,
}

extern "C" {
    fn kestrenyo_read(
        bundle: *const u8,
        bundle_len: usize,
        names: *mut u8,
        names_len: usize,
        ends: *mut u32,
        ends_len: usize,
        texts: *mut u8,
        texts_len: usize,
        bind: *mut u32,
        bind_len: usize,
        graph: *mut u32,
        graph_len: usize,
        word: *mut u8,
        word_len: usize,
    ) -> Numbers;
}

/// The lengths that do for any manifest, in the order of the buffers.
pub const LENGTHS: [usize; 6] =
    [60_000, 4_096, 60_000 + 64 * ENTRIES, PARENTS + SCOPES, 61_440, 2_048];

/// The most scopes, and the most entries of the table of bindings: bindings, rules, and two marks for
/// each scope.
const SCOPES: usize = 64;
const ENTRIES: usize = 1_024 + 128 + 2 * SCOPES;
/// Behind the table and its index: how many scopes there are, the current one, and for each scope its
/// parent and 1, or 0.
const SCOPE_COUNT: usize = 4 * ENTRIES;
const PARENTS: usize = SCOPE_COUNT + 2;
/// A step's rule is below this number, its scope so many times it.
const SCOPE_UNIT: u32 = ENTRIES as u32 + 1;

/// Where the columns of the graph's buffer start.
mod column {
    /// The files of the steps, list by list.
    pub const MENTIONS: usize = 0;
    /// Where each of a step's four lists ends.
    pub const ENDS: usize = 4_096;
    /// 1 for a phony step.
    pub const PHONY: usize = 6_144;
    /// The maker of each file and 1, or 0.
    pub const MAKERS: usize = 6_656;
    /// Where each step's rule is declared among the bindings and 1, or 0 for `phony`; and its scope.
    pub const RULES: usize = 7_680;
    pub const DEFAULTS: usize = 8_192;
}

/// The reader's buffers. What they held before is of no matter to a call.
#[derive(Clone, PartialEq, Eq)]
pub struct Buffers {
    names: Vec<u8>,
    ends: Vec<u32>,
    texts: Vec<u8>,
    bind: Vec<u32>,
    graph: Vec<u32>,
    word: Vec<u8>,
}

impl Default for Buffers {
    fn default() -> Self {
        Buffers::new(LENGTHS)
    }
}

impl Buffers {
    pub fn new([names, ends, texts, bind, graph, word]: [usize; 6]) -> Self {
        Buffers {
            names: vec![7; names],
            ends: vec![7; ends],
            texts: vec![7; texts],
            bind: vec![7; bind],
            graph: vec![7; graph],
            word: vec![7; word],
        }
    }

    pub fn read(&mut self, bundle: &[u8]) -> Numbers {
        let Buffers { names, ends, texts, bind, graph, word } = self;
        // SAFETY: the function is total, reads the bundle and writes the buffers alone.
        unsafe {
            kestrenyo_read(
                bundle.as_ptr(),
                bundle.len(),
                names.as_mut_ptr(),
                names.len(),
                ends.as_mut_ptr(),
                ends.len(),
                texts.as_mut_ptr(),
                texts.len(),
                bind.as_mut_ptr(),
                bind.len(),
                graph.as_mut_ptr(),
                graph.len(),
                word.as_mut_ptr(),
                word.len(),
            )
        }
    }

    /// What the buffers hold after a bundle has been accepted with these numbers.
    pub fn accepted(&self, numbers: &Numbers) -> Accepted<'_> {
        let mut accepted = Accepted { files: self.files(numbers), ..Accepted::default() };
        self.bindings(numbers, &mut accepted);
        self.steps(numbers, &mut accepted);
        accepted.defaults = self.column(column::DEFAULTS, numbers.defaults).to_vec();
        accepted.makers = self
            .column(column::MAKERS, numbers.files)
            .iter()
            .map(|&maker| maker.checked_sub(1))
            .collect();
        accepted
    }

    /// The first numbers of the graph's column that starts at a place.
    fn column(&self, start: usize, length: usize) -> &[u32] {
        &self.graph[start..start + length]
    }

    fn files(&self, numbers: &Numbers) -> Vec<&[u8]> {
        let mut start = 0;
        let ends = self.ends[..numbers.files].iter().map(|&end| end as usize);
        ends.map(|end| &self.names[std::mem::replace(&mut start, end)..end]).collect()
    }

    /// The table of bindings: variables of the scopes, rules with their keys, the marks where a scope
    /// is entered or gone back to, and the lines of blocks, by their owners.
    fn bindings<'b>(&'b self, numbers: &Numbers, accepted: &mut Accepted<'b>) {
        let scopes = self.bind[SCOPE_COUNT] as usize;
        let parents = self.bind[PARENTS..PARENTS + scopes].iter();
        accepted.parents = parents.map(|&parent| (parent as usize).checked_sub(1)).collect();
        accepted.variables = vec![Vec::new(); scopes];
        accepted.blocks = vec![Vec::new(); numbers.steps];
        let mut rule_at = vec![None; numbers.entries];
        let mut start = 0;
        for (entry, row) in self.bind.chunks_exact(3).take(numbers.entries).enumerate() {
            let [middle, end, owner] = [row[0], row[1], row[2]].map(|number| number as usize);
            let (name, value) = (&self.texts[start..middle], &self.texts[middle..end]);
            start = end;
            match (owner / 3, owner % 3) {
                (scope, 0) => accepted.variables[scope].push((name, value)),
                (0, 1) => {
                    assert!(value.is_empty(), "a declaration with a value");
                    rule_at[entry] = Some(accepted.rules.len());
                    accepted.rules.push(Rule { name, keys: Vec::new() });
                }
                (0, _) => accepted.marks += 1,
                (key, 1) => {
                    let rule = rule_at[key - 1].expect("a key of a declared rule");
                    accepted.rules[rule].keys.push((name, value));
                }
                (step, _) => accepted.blocks[step - 1].push((name, value)),
            }
        }
        let rule = |&number: &u32| match number % SCOPE_UNIT {
            0 => None,
            entry => Some(rule_at[entry as usize - 1].expect("a declared rule")),
        };
        let rules = self.column(column::RULES, numbers.steps);
        accepted.rule_of = rules.iter().map(rule).collect();
        accepted.scope_of = rules.iter().map(|number| (number / SCOPE_UNIT) as usize).collect();
    }

    fn steps(&self, numbers: &Numbers, accepted: &mut Accepted) {
        let mentions = self.column(column::MENTIONS, numbers.paths);
        let mut start = 0;
        let mut part =
            |end: u32| mentions[std::mem::replace(&mut start, end as usize)..end as usize].to_vec();
        let ends = self.column(column::ENDS, 4 * numbers.steps).chunks_exact(4);
        for (ends, &phony) in ends.zip(self.column(column::PHONY, numbers.steps)) {
            assert!(phony < 2, "phony or not: {phony}");
            accepted.graph.steps.push(Step {
                outputs: part(ends[0]),
                explicit: part(ends[1]),
                implicit: part(ends[2]),
                order_only: part(ends[3]),
                phony: phony == 1,
                ..Step::default()
            });
        }
        accepted.graph.files = numbers.files;
        assert_eq!(start, numbers.paths, "mentions behind the last step's");
    }
}

/// A name and its value.
pub type Binding<'b> = (&'b [u8], &'b [u8]);

/// A rule's keys with their raw texts, in line order.
#[derive(Debug, Clone, PartialEq, Eq)]
pub struct Rule<'b> {
    pub name: &'b [u8],
    pub keys: Vec<Binding<'b>>,
}

/// An accepted bundle.
#[derive(Debug, Clone, Default, PartialEq, Eq)]
pub struct Accepted<'b> {
    pub files: Vec<&'b [u8]>,
    pub graph: Graph,
    pub makers: Vec<Option<u32>>,
    pub defaults: Vec<u32>,
    /// The variables of each scope in line order, so that the last of a name stands; and each
    /// scope's parent.
    pub variables: Vec<Vec<Binding<'b>>>,
    pub parents: Vec<Option<usize>>,
    /// How often a scope is entered or gone back to.
    pub marks: usize,
    /// Rules in line order, without `phony`.
    pub rules: Vec<Rule<'b>>,
    /// For each step its place among the rules, unless it is phony.
    pub rule_of: Vec<Option<usize>>,
    /// For each step the scope of the file that its line stands in.
    pub scope_of: Vec<usize>,
    /// For each step the lines of its block.
    pub blocks: Vec<Vec<Binding<'b>>>,
}
