//! A case file's lines: what each word says, and the case that is made of them.

use super::escapes::{expand, Expanded};
use super::{number, pieces, Case, Error, Expected, Fault, Origin};
use crate::{bundle, limits, Answer, Lent, Place, Question, Refusal, Wanted};

/// The cases of one file's text; an error names the file and the line.
pub fn parse(file: &str, content: &str) -> Result<Vec<Case>, Error> {
    let mut reader = Reader::default();
    for (number, line) in (1..).zip(content.lines()) {
        let origin = Origin { file: file.to_string(), line: number };
        reader.line(line, origin)?;
    }
    reader.close()?;
    Ok(reader.cases)
}

/// The cases read so far, and the one that is open.
#[derive(Default)]
struct Reader {
    cases: Vec<Case>,
    draft: Option<Draft>,
}

impl Reader {
    fn line(&mut self, line: &str, origin: Origin) -> Result<(), Error> {
        if line.ends_with(' ') {
            return Err(Error::Line(origin, Fault::SpacesAtEnd));
        }
        let line = line.trim_start();
        if line.is_empty() || line.starts_with('#') {
            return Ok(());
        }
        let (word, rest) = line.split_once(' ').unwrap_or((line, ""));
        match &mut self.draft {
            _ if word == "case" => self.begin(rest, origin),
            Some(draft) => {
                draft.take(word, rest, &self.cases).map_err(|fault| Error::Line(origin, fault))
            }
            None => Err(Error::Line(origin, Fault::BeforeFirstCase)),
        }
    }

    fn begin(&mut self, name: &str, origin: Origin) -> Result<(), Error> {
        self.close()?;
        if name.is_empty() || name.contains(' ') {
            return Err(Error::Line(origin, Fault::CaseName));
        }
        self.draft = Some(Draft::new(name, origin));
        Ok(())
    }

    /// Closes the open case, if there is one.
    fn close(&mut self) -> Result<(), Error> {
        if let Some(draft) = self.draft.take() {
            self.cases.push(draft.finish()?);
        }
        Ok(())
    }
}

/// What is written piece by piece.
#[derive(Clone, Copy)]
enum Block {
    Text(Which),
    Prints,
}

/// Which of the two lent bundles.
#[derive(Clone, Copy, PartialEq, Eq)]
enum Which {
    Manifests,
    Headers,
}

impl Which {
    /// What a case may have once.
    fn once(self) -> Fault {
        Fault::Second(match self {
            Which::Manifests => "manifest",
            Which::Headers => "headers",
        })
    }

    /// The forms in which a bundle's bytes are given.
    fn forms(self) -> Fault {
        Fault::Expected(match self {
            Which::Manifests => "`bundle raw`, `bundle cut` or `bundle put`",
            Which::Headers => "`headers raw`, `headers cut` or `headers put`",
        })
    }
}

/// Where a bundle comes from.
enum Source {
    None,
    /// Names and texts: one manifest, or files by name.
    Manifest(Vec<u8>),
    Files(Vec<(Vec<u8>, Vec<u8>)>),
    /// All of its bytes.
    Bytes(Vec<u8>),
}

impl Source {
    /// The text that pieces are added to, and the number of its record.
    fn last(&mut self) -> Option<(usize, &mut Vec<u8>)> {
        match self {
            Source::None | Source::Bytes(_) => None,
            Source::Manifest(text) => Some((0, text)),
            Source::Files(files) => {
                let record = files.len().checked_sub(1)?;
                files.last_mut().map(|(_, text)| (record, text))
            }
        }
    }

    /// Whether nothing of it is given yet; no header lists are no records.
    fn is_new(&self) -> bool {
        match self {
            Source::None => true,
            Source::Files(files) => files.is_empty(),
            Source::Manifest(_) | Source::Bytes(_) => false,
        }
    }

    fn bundle(&self) -> Vec<u8> {
        match self {
            Source::None => Vec::new(),
            Source::Manifest(text) => bundle::alone(text),
            Source::Files(files) => {
                let files: Vec<_> =
                    files.iter().map(|(name, text)| (&name[..], &text[..])).collect();
                bundle::write(&files)
            }
            Source::Bytes(bytes) => bytes.clone(),
        }
    }
}

/// A case while its lines are read.
struct Draft {
    case: Case,
    source: Source,
    headers: Source,
    /// The lengths of the lent buffers, which may be given after the asks.
    list_len: usize,
    buf_len: usize,
    ends_len: usize,
    /// What the pieces that may follow belong to.
    open: Option<Block>,
    mark: Option<Place>,
}

impl Draft {
    fn new(name: &str, origin: Origin) -> Self {
        let case = Case {
            name: name.to_string(),
            origin,
            says: Vec::new(),
            lent: Lent::bundle([]),
            asks: Vec::new(),
            prints: None,
        };
        Draft {
            case,
            source: Source::None,
            headers: Source::Files(Vec::new()),
            list_len: limits::LIST,
            buf_len: limits::TEXT,
            ends_len: limits::STEPS,
            open: None,
            mark: None,
        }
    }

    fn take(&mut self, word: &str, rest: &str, earlier: &[Case]) -> Result<(), Fault> {
        if word == "|" || word == "+" {
            return self.piece(rest, word == "|");
        }
        self.open = None;
        match word {
            "says" | "reading" | "manual" if rest.is_empty() => {
                return Err(Fault::Empty(word.to_string()))
            }
            "says" => self.case.says.push(rest.to_string()),
            "reading" | "manual" => self.case.says.push(format!("{word} {rest}")),
            "manifest" => self.manifest(rest, earlier)?,
            "file" => self.file(Which::Manifests, rest)?,
            "files" => self.files(Which::Manifests, rest)?,
            "bundle" => self.bundle(Which::Manifests, rest)?,
            "depfile" => self.file(Which::Headers, rest)?,
            "depfiles" => self.files(Which::Headers, rest)?,
            "headers" => self.bundle(Which::Headers, rest)?,
            "card" => self.case.lent.card = self.card(rest)?,
            "targets" => self.case.lent.targets = self.targets(rest)?,
            "list-buffer" => self.list_len = number(rest)?,
            "text-buffer" => self.buf_len = number(rest)?,
            "ends-buffer" => self.ends_len = number(rest)?,
            "plan" if self.has_plan() => return Err(Fault::Second("plan")),
            "plan" => {
                let expected = self.plan(rest)?;
                self.case.asks.push((Question::PLAN, expected));
            }
            "text" => {
                let ask = self.text(rest)?;
                self.case.asks.push(ask);
            }
            "texts" => {
                let ask = self.texts(rest)?;
                self.case.asks.push(ask);
            }
            "prints" => {
                self.case.prints.get_or_insert_default();
                self.open = Some(Block::Prints);
            }
            _ => return Err(Fault::UnknownWord(word.to_string())),
        }
        Ok(())
    }

    fn has_plan(&self) -> bool {
        self.case.asks.iter().any(|(question, _)| matches!(question, Question::Plan { .. }))
    }

    /// The case, with all that it has to have.
    fn finish(mut self) -> Result<Case, Error> {
        for (question, _) in &mut self.case.asks {
            match question {
                Question::Plan { list_len } => *list_len = self.list_len,
                Question::Text { buf_len, .. } => *buf_len = self.buf_len,
                Question::Texts { buf_len, ends_len, .. } => {
                    (*buf_len, *ends_len) = (self.buf_len, self.ends_len);
                }
            }
        }
        let mut case = self.case;
        case.lent.bundle = self.source.bundle();
        case.lent.headers = self.headers.bundle();
        let missing = if matches!(self.source, Source::None) {
            "manifest"
        } else if case.prints.is_some() && case.manifest_alone().is_none() {
            "manifest that the program would lend: `build.ninja` alone, without header lists"
        } else if case.says.is_empty() {
            "`says`, `reading` or `manual`"
        } else if case.asks.is_empty() && case.prints.is_none() {
            "expected answer"
        } else {
            return Ok(case);
        };
        Err(Error::Incomplete { origin: case.origin, name: case.name, missing })
    }

    fn manifest(&mut self, rest: &str, earlier: &[Case]) -> Result<(), Fault> {
        if !self.source.is_new() {
            return Err(Which::Manifests.once());
        }
        if rest.is_empty() {
            self.source = Source::Manifest(Vec::new());
            self.open = Some(Block::Text(Which::Manifests));
            return Ok(());
        }
        let name = rest.strip_prefix("of ");
        let name = name.ok_or(Fault::Expected("`manifest` or `manifest of NAME`"))?;
        let of = earlier.iter().find(|case| case.name == name);
        let of = of.ok_or_else(|| Fault::NoEarlierCase(name.to_string()))?;
        self.source = Source::Bytes(of.lent.bundle.clone());
        Ok(())
    }

    fn source(&mut self, which: Which) -> &mut Source {
        match which {
            Which::Manifests => &mut self.source,
            Which::Headers => &mut self.headers,
        }
    }

    /// The next record, by its name; its text follows.
    fn file(&mut self, which: Which, name: &str) -> Result<(), Fault> {
        let name = self.expanded(name, Place::Number)?.bytes;
        self.record(which, name)?;
        self.open = Some(Block::Text(which));
        Ok(())
    }

    /// Records without bytes, by their names.
    fn files(&mut self, which: Which, names: &str) -> Result<(), Fault> {
        let names = self.expanded(names, Place::Number)?;
        names.words(b' ').into_iter().try_for_each(|name| self.record(which, name.to_vec()))
    }

    fn record(&mut self, which: Which, name: Vec<u8>) -> Result<(), Fault> {
        let record = (name, Vec::new());
        match self.source(which) {
            source @ Source::None => *source = Source::Files(vec![record]),
            Source::Files(files) => files.push(record),
            Source::Manifest(_) | Source::Bytes(_) => return Err(which.once()),
        }
        Ok(())
    }

    /// All bytes of a bundle, or what becomes of those that the texts before it make.
    fn bundle(&mut self, which: Which, rest: &str) -> Result<(), Fault> {
        let (word, rest) = rest.split_once(' ').unwrap_or((rest, ""));
        let mut bundle = self.source(which).bundle();
        match word {
            "raw" if self.source(which).is_new() => {
                bundle = pieces::bytes(&self.expanded(rest, Place::Number)?)?;
            }
            "raw" => return Err(which.once()),
            "cut" => {
                let count: usize = number(rest)?;
                let left = bundle.len().checked_sub(count).ok_or(Fault::Beyond(count))?;
                bundle.truncate(left);
            }
            "put" => {
                let (at, put) = rest.split_once(' ').unwrap_or((rest, ""));
                let at = if at == "end" { bundle.len() } else { number(at)? };
                let put = pieces::bytes(&self.expanded(put, Place::Number)?)?;
                if at > bundle.len() {
                    return Err(Fault::Beyond(at));
                }
                let end = (at + put.len()).min(bundle.len());
                bundle.splice(at..end, put);
            }
            _ => return Err(which.forms()),
        }
        *self.source(which) = Source::Bytes(bundle);
        Ok(())
    }

    fn piece(&mut self, source: &str, is_line: bool) -> Result<(), Fault> {
        let mut piece = expand(source)?;
        let (record, whole) = match self.open.ok_or(Fault::StrayPiece)? {
            Block::Text(Which::Headers) if piece.mark.is_some() => return Err(Fault::MarkInList),
            Block::Text(which) => self.source(which).last().ok_or(Fault::StrayPiece)?,
            Block::Prints => (0, self.case.prints.get_or_insert_default()),
        };
        let start = whole.len();
        whole.append(&mut piece.bytes);
        if is_line {
            whole.push(b'\n');
        }
        self.marked(&piece, |mark| Place::Text { record, offset: start + mark })
    }

    fn targets(&mut self, rest: &str) -> Result<Vec<u8>, Fault> {
        if let Some(raw) = rest.strip_prefix("raw ") {
            return Ok(self.expanded(raw, Place::Number)?.bytes);
        }
        let names = self.expanded(rest, Place::Number)?;
        let ended = names.words(b' ').into_iter().map(|name| [name, b"\n"].concat());
        Ok(ended.flatten().collect())
    }

    /// A text with its backslashes read, and what place a mark in it is.
    fn expanded(&mut self, source: &str, place: fn(usize) -> Place) -> Result<Expanded, Fault> {
        let expanded = expand(source)?;
        self.marked(&expanded, place)?;
        Ok(expanded)
    }

    /// Takes the mark of a text, if it has one.
    fn marked(&mut self, expanded: &Expanded, place: impl Fn(usize) -> Place) -> Result<(), Fault> {
        let mark = expanded.mark.map(place);
        if mark.is_some() && self.mark.is_some() {
            return Err(Fault::Second("\\@"));
        }
        self.mark = self.mark.or(mark);
        Ok(())
    }

    fn card(&mut self, rest: &str) -> Result<Vec<u8>, Fault> {
        match rest.strip_prefix("raw ") {
            Some(pieces) => pieces::bytes(&self.expanded(pieces, Place::Number)?),
            None => pieces::card(&self.expanded(rest, Place::Number)?),
        }
    }

    /// The expected answer of a plan.
    fn plan(&mut self, rest: &str) -> Result<Expected, Fault> {
        let line = String::from_utf8_lossy(&self.expanded(rest, Place::Number)?.bytes).into_owned();
        let (word, rest) = line.split_once(' ').unwrap_or((&line, ""));
        match word {
            "list" => Ok(Expected::One(Answer::List(steps(rest)?))),
            "circle" => {
                let circles = rest.split(" or ").map(steps).collect::<Result<Vec<_>, _>>()?;
                if circles.iter().any(Vec::is_empty) {
                    return Err(Fault::EmptyCircle);
                }
                Ok(Expected::Circles(circles))
            }
            "refused" => Ok(Expected::One(Answer::Refused(self.refusal(rest)?))),
            _ => Err(Fault::Expected("`list`, `circle` or `refused`")),
        }
    }

    fn text(&mut self, rest: &str) -> Result<(Question, Expected), Fault> {
        let mut words = rest.splitn(4, ' ');
        let step = number(words.next().unwrap_or(""))?;
        let wanted = words.next().and_then(Wanted::of);
        let wanted = wanted.ok_or(Fault::Expected("`command` or `description`"))?;
        let (kind, rest) = (words.next(), words.next().unwrap_or(""));
        let answer = match kind {
            Some("=") => Answer::Text(self.expanded(rest, Place::Number)?.bytes),
            Some("refused") => Answer::Refused(self.refusal(rest)?),
            _ => return Err(Fault::Expected("`=` or `refused`")),
        };
        Ok((Question::text(step, wanted), Expected::One(answer)))
    }

    /// `STEPS command =TEXTS`, each text ended by a comma, or `STEPS command refused ..`.
    fn texts(&mut self, rest: &str) -> Result<(Question, Expected), Fault> {
        let (asked, answer) = match (rest.split_once(" ="), rest.split_once(" refused ")) {
            // what stands behind a `=` is text
            (_, Some((asked, refusal))) if !asked.contains('=') => {
                (asked, Answer::Refused(self.refusal(refusal)?))
            }
            (Some((asked, texts)), _) => {
                let texts = texts.strip_prefix(' ').unwrap_or(texts);
                let texts = self.expanded(texts, Place::Number)?;
                let texts = texts.ended(b',').ok_or(Fault::Expected("a comma behind each text"))?;
                (asked, Answer::Texts(texts.into_iter().map(<[u8]>::to_vec).collect()))
            }
            _ => return Err(Fault::Expected("`=` or `refused`")),
        };
        let asked = self.expanded(asked, Place::Number)?.bytes;
        let asked = String::from_utf8_lossy(&asked).into_owned();
        let (listed, wanted) = asked.rsplit_once(' ').unwrap_or(("", &asked));
        let wanted = Wanted::of(wanted);
        let wanted = wanted.ok_or(Fault::Expected("`command` or `description`"))?;
        Ok((Question::texts(&steps(listed)?, wanted), Expected::One(answer)))
    }

    fn refusal(&self, rest: &str) -> Result<Refusal, Fault> {
        let parts = rest.split_once(" at ");
        let (refused, place) = parts.ok_or(Fault::Expected("`refused NUMBER at PLACE`"))?;
        let place = match place {
            "@" => self.mark.ok_or(Fault::NoMark)?,
            _ => number(place)?,
        };
        let refusal = Refusal { number: number(refused)?, place };
        // in a manifest's text stand 3 to 10, and 19 at a line
        let fits = match (refusal.number, place) {
            (3..=10, Place::Text { .. }) | (19, Place::Text { .. } | Place::Number(0)) => true,
            (3..=10 | 19, _) | (_, Place::Text { .. }) => false,
            _ => true,
        };
        fits.then_some(refusal).ok_or(Fault::Place(refusal))
    }
}

fn steps(words: &str) -> Result<Vec<u32>, Fault> {
    words.split_whitespace().map(number).collect()
}
