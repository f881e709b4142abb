//! Near-valid manifests, drawn line by line from a small vocabulary.

use super::split::{Files, NAMES};
use crate::bundle;
use crate::rng::Rng;

const RULES: &[&str] = &["cc", "ld", "r.1", "depfile", "in"];
const VARIABLES: &[&str] = &[
    "a", "b", "v", "x.y", "in", "out", "in_newline", "command", "description", "generator",
    "depfile",
];
const PATHS: &[&str] =
    &["a", "b", "c", "d.o", "x/y", "s$ p", "k$:", "i$v", "${v}/z", "=", "#{}", "$$"];
/// Paths that a shell would read in another way if they had no quotes, and some that look so.
const ODD_PATHS: &[&str] = &[
    "left$ hand", "'", "''", "it's", "'q'", "a$ 'b'$ c", "\\'", "a+b", "+", "-", "_", "/", "x//y",
    "~", "~/a", "a~", "u@h", "50%", "a,b", "\"d\"", "`x`", "$$v", "(a)", "a;b", "a&b", "*.c", "a?",
    "[a]", "!", "^", "\\", "<a>", "K$:l", "é", "\u{80}", "z\u{fffd}", "\u{7f}", "\u{1}",
];
const WILD_PATHS: &[&str] = &["$u", "$v", "$.", "${}", "${v", "$", "${v$\n}", "$|", "|", ":", "||"];
const VALUES: &[&str] = &[
    "x", "-O2", " ", "# =", ":|", "{}", "$$", "$ ", "$:", "$\n   ", "$\n", "$a", "${b}", "$v",
    "${x.y}", "$in", "$out", "$out.d", "${in_newline}", "$u", "$description", "$generator",
    "$depfile",
];
/// Pieces of values that lead from text to text.
const LEADING_VALUES: &[&str] = &[
    "x", "$description", "${generator}", "$description.", "$generator", "$command", "$in", "$out",
    "$a", "${b}", "${in_newline}", "$v", " ", "$$", "$\n  ", "$depfile",
];
/// What a depfile is mostly named.
const DEPFILES: &[&str] = &[
    "$out.d", "$out.d", "$out.d", "${out}d", "$in.d", "d/$out", "x.d", "$a.d", "$description", "",
];
const WILD_VALUES: &[&str] = &["$.", "${", "${}", "${a$\n}", "$#", "${a.b", "$\t"];
const KEYS: &[&str] = &["command", "description", "generator", "depfile"];
const WILD_WORDS: &[&str] = &[
    "rule", "build", "default", "pool", "include", "subninja", "depfile", "deps", "restat",
    "rspfile", "dyndep", "msvc_deps_prefix", "rspfile_content", "phony", "unknown", "", "$", "$\n",
];
const WILD_LINES: &[&str] = &[
    "pool p", "include $.", "subninja", "  depth = 1", "depfile x", "builda: cc", "rule", "build",
    "default", "build a", "build : cc", "= x", "$a = 1", "|", "rule cc x", "x", " ", "  # c", "$",
    "  $", "default = x", "build$.", "build a: $.", "rule $.", "a b = c", "  a", "include",
    "include a b", "include = x", "include =", "include a:", "subninja a |", "include a $%",
    "subninja $u", "include$.", "  include x", "rule include", "build q: subninja",
    "subninja missing", "include $v", "includea",
];
const VERSIONS: &[&str] = &[
    "1.5", "1.5.0", "0", "01.005", "1.4.65535", "$v", "1.5.1", "1.6", "2", "", "1.", "1.5 ",
    "0.65536", "1.5.0.0", "x",
];

/// A manifest being drawn, and what of it later lines may refer to.
pub struct Draft<'r> {
    rng: &'r mut Rng,
    text: String,
    /// How many of a hundred tokens are drawn from all that may be wrong.
    wild: usize,
    /// How many of a hundred rules have a `description`, or a `generator`.
    described: usize,
    values: &'static [&'static str],
    rules: Vec<&'static str>,
    outputs: Vec<String>,
    /// The files drawn, and those under way, by name; the bytes left to draw.
    files: Files,
    left: usize,
}

impl<'r> Draft<'r> {
    pub fn new(rng: &'r mut Rng) -> Self {
        let wild = match rng.below(10) {
            0..=5 => 0,
            6..=8 => 2,
            _ => 10,
        };
        Draft {
            rng,
            text: String::new(),
            wild,
            described: 40,
            values: VALUES,
            rules: vec!["phony"],
            outputs: Vec::new(),
            files: Files::new(),
            left: 0,
        }
    }

    /// Draws statements of all kinds until the manifest has that many bytes or a few more.
    pub fn mixed(mut self, length: usize) -> Vec<u8> {
        let length = self.rng.between(length / 8, length);
        if self.rng.chance(75) {
            self.rule();
        }
        while self.text.len() < length {
            match self.rng.below(100) {
                0..=24 => self.variable(),
                25..=44 => self.rule(),
                45..=79 => self.build(),
                80..=87 => self.default(),
                88..=91 => self.comment(),
                92..=95 => self.blank(),
                96..=97 => self.version(),
                _ => self.wild_line(),
            }
        }
        self.text.into_bytes()
    }

    /// Draws several files in reading order, of that many bytes together or a few more.
    pub fn files(mut self, length: usize) -> Files {
        self.left = self.rng.between(length / 4, length);
        if self.rng.chance(30) {
            self.values = LEADING_VALUES;
        }
        let top = if self.rng.chance(80) { bundle::ALONE } else { b"top" };
        self.files.push((top.to_vec(), Vec::new()));
        self.rule();
        self.file(0, 1);
        self.files
    }

    /// Draws the rest of a file, and by its openings other files, `depth` deep.
    fn file(&mut self, at: usize, depth: usize) {
        let part = self.left / if depth == 1 { 1 } else { 2 };
        let rest = self.left.saturating_sub(part);
        self.left = part;
        while self.text.len() < self.left {
            match self.rng.below(100) {
                0..=29 => self.variable(),
                30..=34 => self.rule(),
                35..=59 => self.build(),
                60..=64 => self.default(),
                65..=67 => self.comment(),
                68 => self.blank(),
                69 => self.version(),
                70..=71 => self.wild_line(),
                _ => self.opening(depth),
            }
        }
        self.left = self.left.saturating_sub(self.text.len()) + rest;
        self.files[at].1 = std::mem::take(&mut self.text).into_bytes();
    }

    /// Opens a file: mostly a new one, which is drawn at once, now and then one that is there.
    fn opening(&mut self, depth: usize) {
        let keyword = self.rng.pick(&["include", "subninja", "subninja"]);
        let known = |files: &Files, name: &str| files.iter().any(|(n, _)| n == name.as_bytes());
        let name = self.rng.pick(NAMES);
        let is_new = !known(&self.files, name);
        if depth > 3 || (!is_new && self.rng.chance(90)) || (is_new && self.left < 20) {
            return;
        }
        self.push(keyword);
        self.gap();
        let path = name.replace('$', "$$").replace(' ', "$ ");
        self.push(&path);
        self.end();
        if is_new && !self.rng.chance(2) {
            let at = self.files.len();
            self.files.push((name.as_bytes().to_vec(), Vec::new()));
            let text = std::mem::take(&mut self.text);
            self.left = self.left.saturating_sub(text.len());
            self.file(at, depth + 1);
            self.left += text.len();
            self.text = text;
        }
    }

    /// One rule whose texts may lead to each other, steps that use it, and variables around them.
    pub fn texts(mut self) -> Vec<u8> {
        self.described = 80;
        self.values = LEADING_VALUES;
        for _ in 0..self.rng.below(3) {
            self.variable();
        }
        self.rule();
        self.rules.retain(|&rule| rule != "phony" || self.wild > 0);
        for _ in 0..self.rng.between(1, 2) {
            self.build();
        }
        for _ in 0..self.rng.below(3) {
            self.variable();
        }
        self.text.into_bytes()
    }

    fn is_wild(&mut self) -> bool {
        self.rng.chance(self.wild)
    }

    /// A token from `tame`, or now and then from `wild`.
    fn token(&mut self, tame: &[&'static str], wild: &[&'static str]) -> &'static str {
        let choices = if self.is_wild() { wild } else { tame };
        self.rng.pick(choices)
    }

    fn path(&mut self) -> &'static str {
        let tame = if self.rng.chance(25) { ODD_PATHS } else { PATHS };
        self.token(tame, WILD_PATHS)
    }

    fn push(&mut self, token: &str) {
        self.text += token;
    }

    fn gap(&mut self) {
        let gap = match self.rng.below(40) {
            0 => "  ",
            1 => " $\n",
            2 => " $\n   ",
            3 => "$\n ",
            _ => " ",
        };
        self.push(gap);
    }

    /// A gap that may be left out.
    fn loose_gap(&mut self) {
        if self.rng.chance(80) {
            self.gap();
        }
    }

    fn end(&mut self) {
        if self.rng.chance(4) {
            self.gap();
        }
        self.push("\n");
    }

    fn value(&mut self) {
        self.loose_gap();
        self.push("=");
        self.loose_gap();
        for _ in 0..self.rng.below(6) {
            let piece = self.token(self.values, WILD_VALUES);
            self.push(piece);
        }
        self.push("\n");
    }

    fn variable(&mut self) {
        let name = self.token(VARIABLES, WILD_WORDS);
        self.push(name);
        self.value();
    }

    fn version(&mut self) {
        let version = self.rng.pick(VERSIONS);
        self.push(&format!("ninja_required_version = {version}\n"));
    }

    fn comment(&mut self) {
        let comment = self.rng.pick(&["# c", "  # c", "#$", "#", " # a = $."]);
        self.push(comment);
        self.push("\n");
    }

    fn blank(&mut self) {
        let blank = self.rng.pick(&["\n", "  \n"]);
        self.push(blank);
    }

    fn wild_line(&mut self) {
        if self.wild > 0 {
            let line = self.rng.pick(WILD_LINES);
            self.push(line);
            self.push("\n");
        }
    }

    fn rule(&mut self) {
        let undeclared = RULES.iter().find(|name| !self.rules.contains(name));
        let name = match undeclared {
            Some(name) if !self.is_wild() => name,
            Some(_) => self.token(RULES, WILD_WORDS),
            None if self.is_wild() => "cc",
            None => return,
        };
        self.push("rule");
        self.gap();
        self.push(name);
        self.end();
        if !self.rules.contains(&name) {
            self.rules.push(name);
        }
        self.rule_block();
    }

    fn rule_block(&mut self) {
        let first = self.rng.below(KEYS.len());
        for place in 0..KEYS.len() {
            let key = KEYS[(first + place) % KEYS.len()];
            let wanted =
                if key == "command" { !self.is_wild() } else { self.rng.chance(self.described) };
            if wanted {
                self.block_line(key);
            }
        }
        if self.is_wild() {
            let key = self.token(KEYS, WILD_WORDS);
            self.block_line(key);
        }
    }

    fn block_line(&mut self, key: &str) {
        if self.rng.chance(4) {
            self.comment();
        }
        let indent = if self.is_wild() { "" } else { self.rng.pick(&["  ", "  ", " ", "    "]) };
        self.push(indent);
        self.push(key);
        if key == "depfile" && self.rng.chance(80) {
            let depfile = self.rng.pick(DEPFILES);
            self.push(&format!(" = {depfile}\n"));
        } else {
            self.value();
        }
    }

    fn build(&mut self) {
        self.push("build");
        self.gap();
        for _ in 0..if self.rng.chance(25) { 2 } else { 1 } {
            self.output();
            if self.rng.chance(30) {
                self.gap();
            } else {
                self.push(" ");
            }
        }
        self.push(":");
        self.loose_gap();
        let rules = self.rules.clone();
        let rule = self.token(&rules, WILD_WORDS);
        self.push(rule);
        self.inputs(3);
        for (bar, chance) in [("|", 25), ("||", 25)] {
            if self.rng.chance(chance) || self.is_wild() {
                self.loose_gap();
                self.push(bar);
                self.inputs(2);
            }
        }
        self.end();
        for _ in 0..[0, 0, 1, 2][self.rng.below(4)] {
            let name = self.token(VARIABLES, WILD_WORDS);
            self.block_line(name);
        }
    }

    /// An output that no step makes yet, as far as names tell.
    fn output(&mut self) {
        let mut path = match self.rng.below(3) {
            0 => self.path().to_string(),
            _ => format!("o{}", self.outputs.len()),
        };
        if self.outputs.contains(&path) && !self.is_wild() {
            path = format!("p{}", self.outputs.len());
        }
        self.push(&path);
        self.outputs.push(path);
    }

    fn inputs(&mut self, most: usize) {
        for _ in 0..self.rng.below(most + 1) {
            self.gap();
            let path = match self.made() {
                Some(output) if self.rng.chance(50) => output,
                _ => self.path().to_string(),
            };
            self.push(&path);
        }
    }

    /// Any output so far.
    fn made(&mut self) -> Option<String> {
        let count = self.outputs.len();
        (count > 0).then(|| self.outputs[self.rng.below(count)].clone())
    }

    fn default(&mut self) {
        let Some(output) = self.made() else {
            return;
        };
        self.push("default");
        self.gap();
        self.push(&output);
        if self.rng.chance(30) {
            self.inputs(1);
        }
        self.end();
    }
}
