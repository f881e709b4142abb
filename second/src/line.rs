//! One line of a manifest, cut into its form by its bytes alone: refusals 4, 5 and 6.

use crate::bytes::Class;
use crate::scan::{Fault, Scanner};
use crate::Refusal;

/// How a line begins.
#[derive(Debug, Clone, Copy, PartialEq, Eq)]
pub enum Opening {
    /// Its first non-space byte is `#`.
    Comment,
    /// Empty, or spaces only.
    Blank,
    /// Any leading space, however deep (reading 11).
    Indented,
    Plain,
}

/// An unindented line.
#[derive(Debug, Clone, PartialEq, Eq)]
pub enum Statement<'a> {
    Rule(&'a [u8]),
    Build(Build<'a>),
    Default(Vec<&'a [u8]>),
    Open(Open<'a>),
    Variable(Binding<'a>),
}

/// `include PATH` or `subninja PATH`, the path raw.
#[derive(Debug, Clone, Copy, PartialEq, Eq)]
pub struct Open<'a> {
    pub path: &'a [u8],
    /// Whether the file gets a scope of its own, as `subninja` has it.
    pub new_scope: bool,
}

/// `build OUTS: RULE INS | IMPLICIT || ORDERONLY`, its paths raw.
#[derive(Debug, Clone, PartialEq, Eq)]
pub struct Build<'a> {
    pub outputs: Vec<&'a [u8]>,
    pub rule: &'a [u8],
    pub explicit: Vec<&'a [u8]>,
    pub implicit: Vec<&'a [u8]>,
    pub order_only: Vec<&'a [u8]>,
}

/// `name = value`, the value raw.
#[derive(Debug, Clone, Copy, PartialEq, Eq)]
pub struct Binding<'a> {
    pub name: &'a [u8],
    pub value: &'a [u8],
}

/// How the line at `start` begins.
pub fn opening(manifest: &[u8], start: usize) -> Opening {
    let mut scan = Scanner::new(manifest, start);
    scan.spaces();
    match scan.peek() {
        Some(Class::Hash) => Opening::Comment,
        Some(Class::Newline) => Opening::Blank,
        _ if scan.at() > start => Opening::Indented,
        _ => Opening::Plain,
    }
}

/// The place after the line at `start`, read without its joins.
pub fn after(manifest: &[u8], start: usize) -> usize {
    let rest = &manifest[start..];
    start + rest.iter().position(|&b| b == b'\n').map_or(rest.len(), |newline| newline + 1)
}

/// Cuts the unindented line at `start`; gives its form and the place after it.
pub fn statement(manifest: &[u8], start: usize) -> Result<(Statement<'_>, usize), Refusal> {
    cut(manifest, start, |scan| match scan.name()? {
        b"rule" => rule(scan).map(Statement::Rule),
        b"build" => build(scan).map(Statement::Build),
        b"default" => default(scan).map(Statement::Default),
        b"include" => open(scan, false).map(Statement::Open),
        b"subninja" => open(scan, true).map(Statement::Open),
        name => binding_of(name, scan).map(Statement::Variable),
    })
}

/// Cuts the indented line at `start`, whose first word is always a key (reading 6).
pub fn binding(manifest: &[u8], start: usize) -> Result<(Binding<'_>, usize), Refusal> {
    cut(manifest, start, |scan| {
        scan.spaces();
        let name = scan.name()?;
        not_a_keyword(name)?;
        binding_of(name, scan)
    })
}

fn cut<'a, T>(
    manifest: &'a [u8],
    start: usize,
    form: impl FnOnce(&mut Scanner<'a>) -> Result<T, Fault>,
) -> Result<(T, usize), Refusal> {
    let mut scan = Scanner::new(manifest, start);
    let cut = form(&mut scan).and_then(|form| scan.end().map(|()| form));
    cut.map(|form| (form, scan.at())).map_err(|fault| match fault {
        Fault::Form => Refusal::new(4, start),
        Fault::Dollar(place) => Refusal::new(5, place),
        Fault::NotYet => Refusal::new(6, start),
    })
}

fn rule<'a>(scan: &mut Scanner<'a>) -> Result<&'a [u8], Fault> {
    let name = rule_name(scan)?;
    scan.gap();
    Ok(name)
}

fn build<'a>(scan: &mut Scanner<'a>) -> Result<Build<'a>, Fault> {
    let outputs = paths(scan)?;
    if outputs.is_empty() || !scan.take(b":") {
        return Err(Fault::Form);
    }
    let rule = rule_name(scan)?;
    let explicit = paths(scan)?;
    // `||` is read before `|`; both may have nothing after them (reading 10).
    let one_bar = !scan.sees(b"||") && scan.take(b"|");
    let implicit = if one_bar { paths(scan)? } else { Vec::new() };
    let order_only = if scan.take(b"||") { paths(scan)? } else { Vec::new() };
    Ok(Build { outputs, rule, explicit, implicit, order_only })
}

fn default<'a>(scan: &mut Scanner<'a>) -> Result<Vec<&'a [u8]>, Fault> {
    let paths = paths(scan)?;
    if paths.is_empty() {
        return Err(Fault::Form);
    }
    Ok(paths)
}

/// Exactly one path: what follows it and is not the line's end fits no form.
fn open<'a>(scan: &mut Scanner<'a>, new_scope: bool) -> Result<Open<'a>, Fault> {
    scan.gap();
    if matches!(scan.peek(), None | Some(Class::Colon | Class::Pipe | Class::Newline)) {
        return Err(Fault::Form);
    }
    let path = scan.path()?;
    scan.gap();
    Ok(Open { path, new_scope })
}

/// The rest of a binding line after its name.
fn binding_of<'a>(name: &'a [u8], scan: &mut Scanner<'a>) -> Result<Binding<'a>, Fault> {
    not_yet(name)?;
    scan.gap();
    if !scan.take(b"=") {
        return Err(Fault::Form);
    }
    let value = scan.value()?;
    Ok(Binding { name, value })
}

/// A rule's name, where it is declared or used.
fn rule_name<'a>(scan: &mut Scanner<'a>) -> Result<&'a [u8], Fault> {
    scan.gap();
    let name = scan.name()?;
    not_a_keyword(name)?;
    Ok(name)
}

/// Paths up to the first byte that begins none, with the gaps around them.
fn paths<'a>(scan: &mut Scanner<'a>) -> Result<Vec<&'a [u8]>, Fault> {
    let mut paths = Vec::new();
    loop {
        scan.gap();
        match scan.peek() {
            None | Some(Class::Colon | Class::Pipe | Class::Newline) => return Ok(paths),
            Some(_) => paths.push(scan.path()?),
        }
    }
}

/// The keywords are a 4 where a rule or key is named, but `pool`, which is a 6.
fn not_a_keyword(word: &[u8]) -> Result<(), Fault> {
    match word {
        b"rule" | b"build" | b"default" | b"include" | b"subninja" => Err(Fault::Form),
        b"pool" => Err(Fault::NotYet),
        _ => Ok(()),
    }
}

/// Names that are not yet allowed in a key's place, with or without `=` (reading 8), and the
/// keyword of the statement that is not yet read.
fn not_yet(word: &[u8]) -> Result<(), Fault> {
    match word {
        b"pool" | b"deps" | b"dyndep" | b"msvc_deps_prefix" | b"restat" | b"rspfile"
        | b"rspfile_content" => Err(Fault::NotYet),
        _ => Ok(()),
    }
}
