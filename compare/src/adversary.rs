//! Asks that are meant to be slow: what a manifest of 49,152 bytes, or header lists of any length, can
//! make a reader or a planner do most often.

use crate::names::{bucket, one_bucket};
use second::{bundle, card, limits, shapes, Ask, Lent, Question, Wanted};

/// A slow ask and what makes it so.
pub struct Slow {
    pub name: &'static str,
    pub ask: Ask,
}

/// All of them.
pub fn all() -> Vec<Slow> {
    let mut all = lines();
    all.extend(bindings());
    all.extend(files());
    all.extend(defaults());
    all.extend(outputs());
    all.extend(graphs());
    all.extend(texts());
    all.extend(split());
    all.extend(headers());
    for slow in &all {
        let records = bundle::read(&slow.ask.lent.bundle).expect("a sound bundle");
        let length: usize = records.iter().map(|record| record.text.len()).sum();
        assert!(length <= limits::MANIFEST, "{}", slow.name);
    }
    all
}

fn plan(name: &'static str, manifest: Vec<u8>) -> Slow {
    Slow { name, ask: Ask::plan(Lent::alone(manifest)) }
}

fn with_card(name: &'static str, manifest: Vec<u8>, card: Vec<u8>, targets: Vec<u8>) -> Slow {
    Slow { name, ask: Ask::plan(Lent { card, targets, ..Lent::alone(manifest) }) }
}

fn text(name: &'static str, manifest: Vec<u8>) -> Slow {
    Slow { name, ask: Ask::text(manifest, 0, Wanted::Command) }
}

/// The commands of 512 steps in one ask, with room for all of them.
fn texts_of_all(name: &'static str, manifest: Vec<u8>) -> Slow {
    let steps: Vec<u32> = (0..limits::STEPS as u32).collect();
    let (buf_len, ends_len) = (limits::STEPS * limits::TEXT, limits::STEPS);
    let question = Question::Texts { steps, wanted: Wanted::Command, buf_len, ends_len };
    Slow { name, ask: Ask { lent: Lent::alone(manifest), question } }
}

/// As many of these as fit between the two.
fn filled(before: &str, part: &str, after: &str) -> Vec<u8> {
    let room = limits::MANIFEST - before.len() - after.len();
    let manifest = before.to_string() + &part.repeat(room / part.len()) + after;
    manifest.into_bytes()
}

/// As many of these words as fit, each behind a space.
fn words<'a>(before: &str, words: impl Iterator<Item = &'a [u8]>, after: &str) -> Vec<u8> {
    let mut manifest = before.as_bytes().to_vec();
    for word in words {
        if manifest.len() + 1 + word.len() + after.len() > limits::MANIFEST {
            break;
        }
        manifest.push(b' ');
        manifest.extend_from_slice(word);
    }
    manifest.extend_from_slice(after.as_bytes());
    manifest
}

fn lines() -> Vec<Slow> {
    vec![
        plan("lines: 49,152 empty ones", filled("", "\n", "")),
        plan("lines: 24,576 comments", filled("", "#\n", "")),
        plan("lines: one of 24,573 joins", filled("a = ", "$\n", "\n")),
        plan("lines: a path of 24,000 escapes", filled("build a: phony ", "$$", "\n")),
    ]
}

/// 1,023 bindings of a name that nothing refers to.
fn many_bindings() -> String {
    "v=\n".repeat(1_023)
}

fn bindings() -> Vec<Slow> {
    let many = many_bindings();
    vec![
        plan(
            "1,024 bindings, 23,000 unset names in a value",
            filled(&format!("{many}w="), "$u", "\n"),
        ),
        plan("  in an output", filled(&format!("{many}build a"), "$u", ": phony\n")),
        plan(
            "  in the only default",
            filled(&format!("{many}build a: phony\ndefault a"), "$u", "\n"),
        ),
    ]
}

/// The strings of so many letters and digits.
fn strings(length: u32) -> impl Iterator<Item = Vec<u8>> {
    const LETTERS: &[u8] = b"abcdefghijklmnopqrstuvwxyz0123456789ABCDEFGHIJKLMNOPQRSTUVWXYZ";
    let count = LETTERS.len() as u64;
    (0..count.pow(length)).map(move |number| {
        (0..length).map(|place| LETTERS[(number / count.pow(place) % count) as usize]).collect()
    })
}

fn files() -> Vec<Slow> {
    let paths = one_bucket(limits::FILES);
    let borrowed = || paths.iter().map(Vec::as_slice);
    let mut sorted: Vec<(&[u8], u64)> = borrowed().map(|path| (path, 5)).collect();
    sorted.sort();
    let card = card::write(&sorted);
    let manifest = words("build a: phony", borrowed().skip(1).cycle().take(4_095), "\n");
    let targets: Vec<u8> =
        borrowed().skip(1).flat_map(|path| [path, b"\n"].concat()).take(4_095 / 5 * 5).collect();
    let long: Vec<Vec<u8>> = (0..180).map(|number| format!("{number:0255}").into_bytes()).collect();
    let records: Vec<(&[u8], u64)> = long.iter().map(|name| (name.as_slice(), 5)).collect();
    vec![
        with_card(
            "1,024 files of one bucket, 4,096 mentions",
            manifest.clone(),
            card.clone(),
            Vec::new(),
        ),
        with_card("  and 819 targets", manifest, card, targets),
        with_card(
            "180 files of 255 bytes that differ at their ends",
            words("build a: phony", long.iter().map(Vec::as_slice), "\n"),
            card::write(&records),
            Vec::new(),
        ),
    ]
}

/// One of 1,023 outputs of one bucket and one front, the one that is found last, named as default
/// as often as there is room. It is over a limit, which is seen when each was looked up.
fn defaults() -> Vec<Slow> {
    let front = "x".repeat(52);
    let tails = b"/,+@%!~^&*"
        .iter()
        .flat_map(|&first| strings(3).map(move |rest| [vec![first], rest].concat()));
    let tails = tails.filter(|tail| bucket(&[front.as_bytes(), tail].concat()) == 0).take(1_023);
    let tails: Vec<Vec<u8>> = tails.map(|tail| [b"$p".to_vec(), tail].concat()).collect();
    let outputs = words("", tails.iter().map(Vec::as_slice), ": phony\n");
    let first = String::from_utf8_lossy(&tails[0]);
    let outputs = String::from_utf8_lossy(&outputs);
    let manifest = filled(&format!("p={front}\nq={first}\nbuild{outputs}default"), " $q", "\n");
    vec![
        plan("one of 1,023 outputs of a bucket, 13,900 defaults", manifest.clone()),
        text("  as a text ask", manifest),
    ]
}

fn outputs() -> Vec<Slow> {
    let short: Vec<Vec<u8>> = strings(2).chain(strings(3)).collect();
    let many = "v=\n".repeat(1_023);
    let front = format!("w={}\nx={}\n", "y".repeat(128), "$w".repeat(16));
    // so many references to the oldest binding, then what tells the outputs apart
    let referring = |count: usize| {
        short
            .iter()
            .map(move |tail| [b"$x".repeat(count - 1).as_slice(), b"${x}", tail].concat())
            .collect::<Vec<_>>()
    };
    let (once, often) = (referring(1), referring(8));
    vec![
        plan(
            "13,000 outputs in a line, all different",
            words("build", short.iter().map(Vec::as_slice), ": phony\n"),
        ),
        plan(
            "  in falling order",
            words("build", short.iter().rev().map(Vec::as_slice), ": phony\n"),
        ),
        plan(
            "outputs of one front of 2,048 bytes",
            words(&format!("{front}build"), once.iter().map(Vec::as_slice), ": phony\n"),
        ),
        plan(
            "outputs of 8 references each behind 1,023 bindings",
            words(&format!("x=y\n{many}build"), often.iter().map(Vec::as_slice), ": phony\n"),
        ),
    ]
}

/// A plan of several files, the top one first.
fn plan_of(name: &'static str, files: &[(String, Vec<u8>)]) -> Slow {
    let files: Vec<_> = files.iter().map(|(name, text)| (name.as_bytes(), &text[..])).collect();
    Slow { name, ask: Ask::plan(Lent::bundle(bundle::write(&files))) }
}

/// Scopes eight deep, of which each name is looked up to the outermost; a file opened as often as may
/// be; as many records as may be, with long names of one front.
fn split() -> Vec<Slow> {
    let nested = |last: Vec<u8>| {
        let mut files: Vec<_> = (0..limits::OPEN - 1)
            .map(|number| {
                let bound = "v=\n".repeat(140);
                let text = format!("{bound}subninja {}\n", number + 1);
                (number.to_string(), text.into_bytes())
            })
            .collect();
        files.push(((limits::OPEN - 1).to_string(), last));
        files
    };
    let room = limits::MANIFEST - 7 * (140 * 3 + 11) - 100;
    let unset = format!("w={}\n", "$u".repeat(room / 2));
    let again = "subninja a\n".repeat(limits::OPENED - 1);
    let lines = "#\n".repeat((limits::MANIFEST - again.len()) / 2);
    let long = |number: usize| format!("{number:0255}");
    let top: String =
        (1..limits::NAMES).rev().map(|number| format!("include {}\n", long(number))).collect();
    let mut many = vec![(long(0), top.into_bytes())];
    many.extend((1..limits::NAMES).map(|number| (long(number), Vec::new())));
    vec![
        plan_of("23,000 unset names eight scopes deep", &nested(unset.into_bytes())),
        plan_of(
            "a file of 24,000 comments opened 63 times",
            &[("t".to_string(), again.into_bytes()), ("a".to_string(), lines.into_bytes())],
        ),
        plan_of("64 records of one front of 252 bytes, all opened", &many),
    ]
}

/// A plan of a manifest with header lists.
fn plan_with(name: &'static str, manifest: String, lists: &[(String, String)]) -> Slow {
    let lists: Vec<_> =
        lists.iter().map(|(name, text)| (name.as_bytes(), text.as_bytes())).collect();
    let headers = bundle::write(&lists);
    Slow { name, ask: Ask::plan(Lent { headers, ..Lent::alone(manifest) }) }
}

/// The same with every output newer than every header, so that nothing is stale: what is left is the
/// reading of the lists.
fn fresh(name: &'static str, slow: Slow) -> Slow {
    let files = (0..limits::STEPS).flat_map(|k| [(format!("{k}"), 2), (format!("h{k}"), 1)]);
    let mut times: Vec<(Vec<u8>, u64)> = files.map(|(file, time)| (file.into(), time)).collect();
    times.sort();
    let times: Vec<(&[u8], u64)> = times.iter().map(|(file, time)| (&file[..], *time)).collect();
    Slow { name, ask: Ask::plan(Lent { card: card::write(&times), ..slow.ask.lent }) }
}

/// The bytes of a long list.
const LONG: usize = 2 << 20;

/// Lists filled to the limits, of 512 steps and of one; texts of 2 MB of which nothing is listed; names
/// of depfiles as long as may be.
fn headers() -> Vec<Slow> {
    let rule = "rule r\n command=\n depfile=$out.d\n";
    let steps: String = (0..limits::STEPS).map(|step| format!("build {step}:r\n")).collect();
    let of = |step: usize, listed: String| (format!("{step}.d"), format!("{step}:{listed}\n"));
    let lists = |listed: fn(usize) -> String| -> Vec<(String, String)> {
        (0..limits::STEPS).map(|step| of(step, listed(step))).collect()
    };
    let filled =
        lists(|step| (0..7).map(|name| format!(" \\\n h{}", (step + name) % 512)).collect());
    let far =
        lists(|step| (0..7).map(|far| format!(" {}", (step + far * far + 1).min(511))).collect());
    let one = |text: String| vec![("0.d".to_string(), text)];
    let all = format!("{rule}{steps}");
    let alone = || format!("{rule}build 0:r\n");
    let many: String = (0..limits::FILES - 1).map(|name| format!(" {name:058}")).collect();
    let again = " h".repeat(limits::MENTIONS - 1);
    let long = |part: &str| part.repeat(LONG / part.len());
    let names = format!("v={}\nrule r\n command=\n depfile=$v$v$v$v\n{steps}", "x".repeat(2_048));
    vec![
        plan_with("512 lists of 7 names, 1,024 files", all.clone(), &filled),
        fresh("  all fresh", plan_with("512 lists of 7 names, 1,024 files", all.clone(), &filled)),
        plan_with("512 lists of 7 outputs far behind (14)", all.clone(), &far),
        plan_with(
            "a list of 1,023 names of one front of 54 bytes",
            alone(),
            &one(format!("0:{many}")),
        ),
        plan_with("a list of 4,095 times one name", alone(), &one(format!("0:{again}"))),
        plan_with("2 MB of continuations", alone(), &one(format!("0:{}", long("\\\n")))),
        plan_with("2 MB of blank lines", alone(), &one(format!("{}0:{}", long("\n"), "\n"))),
        plan_with("2 MB of blank lines behind", alone(), &one(format!("0:\n{}", long(" \n")))),
        plan_with("2 MB of joined blank lines", alone(), &one(format!("{}0:", long("\\\n\n")))),
        plan_with("2 MB of spaces", alone(), &one(format!("0:{}h", long(" ")))),
        plan_with("2 MB of other targets", alone(), &one(format!("0 {}:", long("x ")))),
        plan_with("2 MB of one other target", alone(), &one(format!("0 {}:", long("\\ $$\\#x")))),
        plan_with("2 MB and a lone `$` (20)", alone(), &one(format!("0:{}$", long("\\\n")))),
        plan_with("2 MB of one name (20)", alone(), &one(format!("0:{}", long("xy")))),
        plan_with("2 MB of names (20)", alone(), &one(format!("0:{}", long(" h")))),
        plan_with("512 depfiles of 8,192 bytes, all missing", names, &[]),
        plan_with("512 lists that no step names", alone(), &lists(|_| " h".repeat(500))),
    ]
}

fn graphs() -> Vec<Slow> {
    let reversed: String =
        (0..512).map(|step| format!("build o{step}: r o{}\n", step + 1)).collect();
    let dense: String = (0..512)
        .map(|step| {
            let inputs: Vec<String> =
                (1..=7).map(|far| format!("o{}", (step + far * far).min(512))).collect();
            format!("build o{step}: r {}\n", inputs.join(" "))
        })
        .collect();
    let circle = reversed.replace("build o511: r o512", "build o511: r o0");
    let rules: String = (0..128)
        .map(|rule| format!("rule r{rule:03}\n  command = c\n  description = d\n"))
        .collect();
    let used: String = (0..512).map(|step| format!("build o{step}: r000 o512\n")).collect();
    let rule = "rule r\n  command = c\n";
    let source = card::write(&[(b"o512", 5)]);
    vec![
        with_card(
            "a chain of 512, the last step first",
            format!("{rule}{reversed}").into_bytes(),
            source.clone(),
            Vec::new(),
        ),
        with_card(
            "512 steps with 7 inputs, the last step first",
            format!("{rule}{dense}").into_bytes(),
            source.clone(),
            Vec::new(),
        ),
        with_card(
            "a circle of 512",
            format!("{rule}{circle}").into_bytes(),
            source.clone(),
            b"o7\n".to_vec(),
        ),
        with_card(
            "512 steps by the first of 128 rules",
            format!("{rules}{used}").into_bytes(),
            source.clone(),
            Vec::new(),
        ),
        with_card("2,048 targets", b"build a: phony\n".to_vec(), source, b"a\n".repeat(2_048)),
    ]
}

fn texts() -> Vec<Slow> {
    let many = "v=\n".repeat(1_000);
    let unset = "$u".repeat(1_024);
    let inner = "$generator".repeat(204);
    let outer = "$description".repeat(170);
    let nested = format!("{outer}\n  description = {inner}\n  generator = {unset}");
    let files: Vec<String> = (0..1_000).map(|number| format!("{number}")).collect();
    let all = files.join(" ");
    let of = |command: &str, inputs: &str| {
        format!("rule r\n  command = {command}\nbuild a: r{inputs}\n").into_bytes()
    };
    let behind_many = |command: &str| [many.as_bytes(), &of(command, "")].concat();
    let more: String = (1..limits::STEPS).map(|step| format!("build {step}: r\n")).collect();
    let of_all = |command: &str| [&behind_many(command)[..], more.as_bytes()].concat();
    let long = format!("v = {}\n", "x".repeat(limits::VALUE));
    vec![
        text("a text of 1,024 unset names, 1,000 bindings", behind_many(&unset)),
        text("a text of texts of texts of unset names", behind_many(&nested)),
        text("a text of 680 times 1,000 files (17)", of(&"$in".repeat(680), &format!(" {all}"))),
        text("the first text of a fan of 512", shapes::fan(512).manifest),
        texts_of_all("512 texts of 1,024 unset names, 1,000 bindings", of_all(&unset)),
        texts_of_all("512 texts of texts of texts of unset names", of_all(&nested)),
        texts_of_all(
            "512 texts of 8,192 bytes",
            [long.as_bytes(), &of_all("$v$v$v$v")[many.len()..]].concat(),
        ),
    ]
}
