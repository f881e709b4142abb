//! The settled readings of document 01, one test for each group of them, by their numbers.

use second::manifest::{self, Manifest};
use second::{bundle, card, Answer, Ask, Lent, Place, Question, Refusal, Wanted};

/// `None` if the manifest is sound, else the refusal's number and place.
fn refused(manifest: &str) -> Option<(u8, usize)> {
    let refusal = manifest::read(&bundle::alone(manifest.as_bytes())).err()?;
    assert_eq!(refusal.place.text(), usize::from(refusal.number != 2));
    Some((refusal.number, refusal.place.value()))
}

#[track_caller]
fn all_refused(number: u8, place: usize, manifests: &[&str]) {
    for manifest in manifests {
        assert_eq!(refused(manifest), Some((number, place)), "{manifest:?}");
    }
}

#[track_caller]
fn all_sound(manifests: &[&str]) {
    for manifest in manifests {
        assert_eq!(refused(manifest), None, "{manifest:?}");
    }
}

/// The names of the files, by number.
fn files(manifest: &str) -> Vec<String> {
    let bundle = bundle::alone(manifest.as_bytes());
    let manifest: Manifest = manifest::read(&bundle).expect("a sound manifest");
    manifest.files.names.iter().map(|name| String::from_utf8_lossy(name).into_owned()).collect()
}

fn text_of(manifest: &str, wanted: Wanted) -> Result<String, u8> {
    match Ask::text(manifest, 0, wanted).answer() {
        Answer::Text(text) => Ok(String::from_utf8(text).unwrap()),
        other => Err(other.numbers().0),
    }
}

fn command(manifest: &str) -> Result<String, u8> {
    text_of(manifest, Wanted::Command)
}

fn card(records: &[(&str, u64)]) -> Vec<u8> {
    let records: Vec<_> = records.iter().map(|&(name, time)| (name.as_bytes(), time)).collect();
    card::write(&records)
}

fn plan(manifest: &str, card: &[u8], targets: &str) -> Answer {
    let (card, targets) = (card.into(), targets.into());
    Ask::plan(Lent { card, targets, ..Lent::alone(manifest) }).answer()
}

fn planned(manifest: &str, records: &[(&str, u64)], targets: &str) -> Answer {
    plan(manifest, &card(records), targets)
}

fn refusal(number: u8, place: usize) -> Answer {
    let place = match number {
        3..=10 => Place::Text { record: 0, offset: place },
        _ => Place::Number(place),
    };
    Answer::Refused(Refusal::new(number, place))
}

const R: &str = "rule r\n command = r\n";

#[test]
fn readings_1_2_joins_and_tokens() {
    assert_eq!(files("build a: phony$\n  b\n"), ["a", "b"]);
    all_refused(4, 0, &["rule c$\n c\n", "build a: phony |$\n| b\n", "comm$\nand = x\n"]);
    all_refused(4, 7, &["rule r\n  comm$\nand = x\n"]);
    all_sound(&["rule r$\n \n command = x\n", "a$\n = 1\n", "build$\n a$\n :$\n phony $\n\n"]);
    assert_eq!(files("build a$\n  b: phony c $\n d$\n\n"), ["ab", "c", "d"]);
    assert_eq!(files("build a$\n  $\n b : phony\n"), ["ab"]);
}

#[test]
fn readings_3_4_bad_dollars() {
    all_refused(5, 2, &["a=${a$\nb}\n", "a=${}\n", "a=${a\n", "a=$.\n", "a=$|\n", "a=$\u{e9}\n"]);
    all_refused(4, 0, &["rule $.\n", "$. = 1\n", "build a: $.\n", "a $. = 1\n", "rule r $.\n"]);
    all_refused(5, 5, &["build$.\n"]);
    all_refused(5, 7, &["default$.\n"]);
    all_refused(5, 14, &["build a: phony$.\n"]);
}

#[test]
fn reading_5_no_space_where_the_cut_is_clear() {
    assert_eq!(files(&format!("{R}build a:r b|c||d\n")), ["a", "b", "c", "d"]);
    assert_eq!(files(&format!("{R}build/a: r/x\n")), ["/a", "/x"]);
    assert_eq!(files(&format!("x = y\n{R}build$x: r\n")), ["y"]);
    all_refused(4, 0, &["builda: phony\n", "rule.r\n", "defaults a\n"]);
}

#[test]
fn reading_6_keywords_begin_statements() {
    all_refused(8, 0, &["default = x\n"]);
    all_sound(&["build = x: phony\ndefault = x\n"]);
    all_refused(4, 0, &["rule = x\n"]);
    all_refused(4, R.len(), &[&format!("{R} build a: r\n"), &format!("{R} default = 1\n")]);
}

#[test]
fn readings_7_8_9_words_before_later_faults() {
    all_refused(4, 0, &["build a: build $.\n", "rule default $.\n", "build a: include $.\n"]);
    all_refused(6, 0, &["build a: pool $.\n", "rule pool\n", "pool\n", "pool $.\n"]);
    all_refused(4, 15, &["build a: phony\n rule = $.\n"]);
    all_refused(6, 15, &["build a: phony\n pool = $.\n", "build a: phony\n  restat\n"]);
    all_refused(6, 0, &["rspfile x\n", "deps\n", "dyndep$.\n", "rspfile_content = $.\n"]);
    all_sound(&["rule rspfile\n command = x\nbuild restat: rspfile deps pool rule\n"]);
    all_refused(5, 6, &["build $. pool: pool\n"]);
    all_refused(4, 0, &["  pool = 1\n", " $.\n", "  deps = x\n"]);
}

#[test]
fn reading_10_bars() {
    all_sound(&["build a: phony |\n", "build a: phony||\n", "build a: phony | ||\n"]);
    let form = ["build a: phony | |\n", "build a: phony |||\n", "build a: phony || x | y\n"];
    all_refused(4, 0, &form);
    all_refused(4, 0, &["build a: phony | b | c\n", "build a:\n", "build : phony\n", "build a\n"]);
    all_refused(
        4,
        0,
        &["build a | b: phony\n", "build a: phony b: c\n", "default a:\n", "default\n"],
    );
}

#[test]
fn readings_11_12_comments_and_indents() {
    assert_eq!(files("build = # { }: phony a#b {=}\n"), ["=", "#", "{", "}", "a#b", "{=}"]);
    all_refused(4, 0, &["\u{e9} = 1\n"]);
    all_sound(&[
        "rule r\n        command = x\n generator = y\n",
        "rule r\n# c\n   # $.\n command =\n",
    ]);
    assert_eq!(files("build a: phony $\n  # b\n"), ["a", "#", "b"]);
    all_sound(&["rule r\n command = x\n#$\n description = y\n", "rule r$\n\n command = x\n"]);
    all_sound(&["rule r\n command = x$\n\n description = y\n"]);
    all_refused(4, 21, &["rule r\n command = x\n\n description = y\n"]);
    all_refused(4, 22, &["rule r\n command = x\n \n description = y\n"]);
    all_refused(4, 7, &["rule r\n $\n command = x\n"]);
}

#[test]
fn readings_13_14_closing_blocks() {
    all_refused(7, 2, &["#\nrule r\n", "#\nrule r\n\n", "#\nrule r\n$.\n", "#\nrule r\n#\na$\n"]);
    all_refused(7, 0, &["rule r\npool\n", "rule r\n generator =\nx\n", "rule r\nrule s$\n"]);
    all_refused(4, 7, &["rule r\n  x\n", "rule r\n command $\n"]);
    all_refused(7, 7, &["rule r\n  depth = 1\n"]);
    all_refused(6, 7, &["rule r\n  deps = gcc\n"]);
}

#[test]
fn reading_15_order_within_a_line() {
    let long = "p".repeat(256);
    all_refused(7, 0, &[&format!("build {long} $u: none\n"), "build a a: none\n"]);
    all_refused(
        8,
        0,
        &[&format!("build a: phony {long} $u\n"), &format!("build {long} {long}: phony\n")],
    );
    all_refused(
        8,
        0,
        &[&format!("build {long} a a: phony {long}\n"), "default a\n", "default $u\n"],
    );
    all_refused(9, 0, &[&format!("build {long}: phony {long}\n")]);
    all_refused(8, 15, &["build a: phony\nbuild b a: phony\n", "build a: phony\ndefault a b\n"]);
    let version = format!("ninja_required_version = {}\n", "9".repeat(2049));
    all_refused(9, 0, &[&version]);
}

#[test]
fn reading_16_ends_inside_a_joined_line() {
    all_refused(
        4,
        0,
        &["a = 1$\n", "build a: phony b$\n", "rule r$\n", "build a a: none $\n", "a$\n"],
    );
    all_refused(5, 4, &["a = $.$\n"]);
    all_refused(6, 0, &["pool$\n"]);
    all_sound(&["a = 1$$\n", "#$\n"]);
}

#[test]
fn reading_17_rules() {
    all_sound(&["rule r\n command =\n"]);
    all_refused(7, 0, &["rule phony\n command = x\n", "build a: none\n"]);
    all_refused(
        7,
        R.len(),
        &[&format!("{R} command = y\n"), &format!("{R}{R}"), &format!("{R} in = x\n")],
    );
    let rules: String = (0..128).map(|n| format!("rule r{n}\n command =\n")).collect();
    all_sound(&[&rules]);
    all_refused(9, rules.len(), &[&format!("{rules}rule s\n")]);
    all_refused(7, rules.len(), &[&format!("{rules}rule r5\n"), &format!("{rules}rule phony\n")]);
}

#[test]
fn readings_18_19_limits() {
    let rule = |raw: String| format!("rule r\n command ={raw}\n");
    all_sound(&[&rule(format!("  x$\n{}y", " ".repeat(2044)))]);
    all_refused(9, 7, &[&rule(format!("  x$\n{}y", " ".repeat(2045)))]);
    all_refused(9, 7, &[&rule(format!("  $\n{}y", " ".repeat(2046)))]);
    all_sound(&[
        &format!("a = x$\n{}y\n", " ".repeat(9_999)),
        &format!("a = ${}\n", "n".repeat(65)),
    ]);
    let name = "n".repeat(64);
    all_sound(&[&format!("{name} =\nrule {name}\n command =\nbuild a: {name}\n {name} =\n")]);
    all_refused(9, 0, &[&format!("x{name} =\n"), &format!("rule x{name}\n")]);
    all_refused(9, 15, &[&format!("build a: phony\n x{name} =\n")]);
    all_refused(7, 7, &[&format!("rule r\n x{name} =\n")]);
    let values = format!("a = {}\n{}", "x".repeat(2000), "a = $a\n".repeat(29));
    all_sound(&[&values]);
    all_refused(
        9,
        values.len(),
        &[&format!("{values}b = 1\n"), &format!("{values}build a: phony\n")],
    );
    let bindings = format!("{R}build a: r\n{}", " x =\n".repeat(1023));
    all_sound(&[&bindings]);
    all_refused(9, bindings.len(), &[&format!("{bindings}x =\n"), &format!("{bindings} x =\n")]);
    let mentions = format!("build a: phony{}\n", " b".repeat(4095));
    all_sound(&[&mentions]);
    all_refused(9, mentions.len(), &[&format!("{mentions}default a\n")]);
    all_refused(8, mentions.len(), &[&format!("{mentions}default b\n")]);
    let named = |count: usize| -> String { (0..count).map(|n| format!(" {n}")).collect() };
    all_sound(&[&format!("build a: phony{}\n", named(1023))]);
    all_refused(9, 0, &[&format!("build a: phony{}\n", named(1024))]);
}

#[test]
fn reading_20_scopes() {
    let rule = "in = I\nx = X\nrule r\n command = $in,$out,$in_newline,$x,$y\n";
    let build =
        "build o p: r i$in j | k || l\n in = n\n out = n\n x = $x$in\n y = $x\n x = $in$x$$z\n";
    assert_eq!(command(&format!("{rule}{build}")), Ok("iI j,o p,iI\nj,IX$z,X".into()));
    assert_eq!(command(&format!("{R}build o: r\n command = c $out\n")), Ok("c ".into()));
    assert_eq!(command("a = $$b\nb = no\nrule r\n command = $a\nbuild o: r\n"), Ok("$b".into()));
}

#[test]
fn reading_21_descriptions_and_ways_back() {
    let described = |manifest: &str| text_of(manifest, Wanted::Description);
    assert_eq!(described(&format!("{R}build o: r\n")), Ok("".into()));
    assert_eq!(described(&format!("{R}build o: r\ndescription = d $out\n")), Ok("d ".into()));
    let back = "rule r\n command = c\n description = $generator\n generator = $description\n";
    assert_eq!(command(&format!("{back}build o: r\n")), Ok("c".into()));
    assert_eq!(described(&format!("{back}build o: r\n")), Err(16));
    assert_eq!(described(&format!("{back}build o: r\n generator = g\n")), Ok("g".into()));
    assert_eq!(described(&format!("{back}build o: r\n description = d\n")), Ok("d".into()));
    let long = format!(
        "v = {}\nrule r\n command = {}$command\nbuild o: r\n",
        "x".repeat(2000),
        "$v".repeat(5)
    );
    assert_eq!(command(&long), Err(16));
    assert_eq!(command(&long.replace("$command", "")), Err(17));
    let shared =
        "rule r\n command = $description$generator\n description = d\n generator = $description\n";
    assert_eq!(command(&format!("{shared}build o: r\n")), Ok("dd".into()));
}

#[test]
fn reading_22_the_version_is_expanded() {
    all_sound(&[
        "v = 1\nninja_required_version = $v.5\n",
        "build a: phony\n ninja_required_version = 9\n",
    ]);
    all_refused(10, 6, &["v = 1\nninja_required_version = $v.6\n"]);
    all_refused(7, 7, &["rule r\n ninja_required_version = 1\n"]);
}

#[test]
fn reading_23_cards() {
    let manifest = "build a: phony b\n";
    let sound = card(&[("b", 5), ("ba", 5), ("c", 1)]);
    let answer = |card: &[u8]| plan(manifest, card, "");
    assert_eq!(answer(&sound), Answer::List(vec![]));
    assert_eq!(answer(&card(&[("\0\n\t", u64::MAX / 2), ("b", 1)])), Answer::List(vec![]));
    assert_eq!(answer(b""), refusal(11, 0));
    assert_eq!(answer(&[sound.clone(), vec![b'd']].concat()), refusal(11, 0));
    assert_eq!(answer(&sound[..sound.len() - 1]), refusal(11, 0));
    let long = "n".repeat(256);
    for records in [
        &[("b", 0)][..],
        &[("b", 1 << 63)],
        &[("", 1), ("b", 1)],
        &[("b", 1), ("b", 1)],
        &[("ba", 1), ("b", 1)],
        &[("b", 1), (&long, 1)],
    ] {
        assert_eq!(answer(&card(records)), refusal(11, 0), "{records:?}");
    }
    for field in [0, 4, 8, 12, 16, 20] {
        let mut broken = sound.clone();
        broken[field] ^= 1;
        assert_eq!(answer(&broken), refusal(11, 0), "{field}");
    }
}

#[test]
fn reading_24_targets() {
    let manifest = "build a: phony b\n";
    let answer = |targets: &str| planned(manifest, &[("b", 1)], targets);
    assert_eq!(answer("\n"), refusal(12, 0));
    assert_eq!(answer("b\n"), Answer::List(vec![]));
    assert_eq!(planned(manifest, &[], "b\n"), refusal(15, 1));
    assert_eq!(answer("a\nc\n\n"), refusal(12, 2));
    assert_eq!(answer("a\n\nc\n"), refusal(12, 2));
    assert_eq!(answer("c\na"), refusal(12, 0));
    assert_eq!(answer(&format!("a\n{}\n", "z".repeat(256))), refusal(12, 2));
    assert_eq!(answer(&"a\n".repeat(2048)), Answer::List(vec![]));
    assert_eq!(answer(&format!("{}c\n", "a\n".repeat(2048))), refusal(12, 0));
}

#[test]
fn reading_25_inputs_of_any_kind() {
    assert_eq!(planned("build a: phony || a\n", &[], ""), refusal(13, 0));
    assert_eq!(planned("build a: phony | b\nbuild b: phony || a\n", &[], ""), refusal(13, 0));
    assert_eq!(planned("\n", &[], ""), Answer::List(vec![]));
    let phony = |inputs: &str| format!("{R}build o: r p\nbuild p: phony{inputs}\n");
    assert_eq!(planned(&phony(""), &[("o", 5)], ""), Answer::List(vec![0]));
    assert_eq!(planned(&phony(" || s"), &[("o", 5), ("s", 9)], ""), Answer::List(vec![]));
}

#[test]
fn reading_26_sources_and_phony_times() {
    let manifest = format!("{R}build o: r p\nbuild p: phony q\nbuild q: phony s || t\n");
    assert_eq!(planned(&manifest, &[("o", 5), ("s", 5)], ""), refusal(15, 4));
    assert_eq!(planned(&manifest, &[("o", 5), ("s", 5), ("t", 9)], ""), Answer::List(vec![]));
    assert_eq!(planned(&manifest, &[("o", 5), ("s", 6), ("t", 1)], ""), Answer::List(vec![0]));
    let listed = [("o", 5), ("p", 4), ("s", 6), ("t", 1)];
    assert_eq!(planned(&manifest, &listed, ""), Answer::List(vec![]));
    let newer = [("o", 5), ("p", 6), ("s", 1), ("t", 1)];
    assert_eq!(planned(&manifest, &newer, ""), Answer::List(vec![0]));
}

#[test]
fn order_of_the_checks_before_the_lines() {
    let lent = Lent { card: vec![], targets: b"x".to_vec(), ..Lent::alone(b"\0") };
    let answer = |question| Ask { lent: lent.clone(), question }.answer();
    assert_eq!(answer(Question::Plan { list_len: 511 }), refusal(1, 0));
    assert_eq!(answer(Question::Plan { list_len: 512 }), refusal(3, 0));
    let text = |buf_len| Question::Text { step: 7, wanted: Wanted::Command, buf_len };
    assert_eq!(answer(text(8191)), refusal(1, 0));
    assert_eq!(answer(text(8192)), refusal(3, 0));
    assert_eq!(refused(&"\0".repeat(49_153)), Some((2, 0)));
    assert_eq!(refused("pool\na\t\r"), Some((3, 6)));
    assert_eq!(refused("pool\na"), Some((3, 6)));
    assert_eq!(planned("build a: phony b\n", &[("b", 0)], "x"), refusal(11, 0));
    assert_eq!(planned("build a: phony a\n", &[], "x\n"), refusal(12, 0));
}

#[test]
fn refusal_18() {
    for step in [1, 2, usize::MAX] {
        let ask = Ask::text(*b"build a: phony\n", step, Wanted::Command);
        assert_eq!(ask.answer(), refusal(18, step));
    }
    let phony = Ask::text(*b"build a: phony\n command = x\n", 0, Wanted::Command);
    assert_eq!(phony.answer(), refusal(18, 0));
}

/// What a bundle of these files is refused with, as it is printed.
fn refused_of(files: &[(&str, &str)]) -> Option<String> {
    let files: Vec<_> =
        files.iter().map(|(name, text)| (name.as_bytes(), text.as_bytes())).collect();
    manifest::read(&bundle::write(&files)).err().map(|refusal| refusal.to_string())
}

#[test]
fn document_02_readings_3_and_6_openings() {
    let other = |text| refused_of(&[("t", text), ("a", "x = 1\n"), ("=", "")]);
    let form = ["include\n", "include a a\n", "include a:\n", "subninja a|\n", "include a $%\n"];
    for text in form.into_iter().chain(["include = x\n", "rule include\n", "includea\n"]) {
        assert_eq!(other(text).as_deref(), Some("refused 4 at 0:0"), "{text:?}");
    }
    for text in ["include a\n", "subninja $\n  a \n", "include =\n", "v = a\ninclude $v\n"] {
        assert_eq!(other(text), None, "{text:?}");
    }
    assert_eq!(other("include $%\n").as_deref(), Some("refused 5 at 0:8"));
    assert_eq!(other("include $u\n").as_deref(), Some("refused 8 at 0:0"));
    assert_eq!(other("#\nsubninja b\n").as_deref(), Some("refused 19 at 0:2"));
    let long = format!("include {}\n", "n".repeat(256));
    assert_eq!(other(&long).as_deref(), Some("refused 9 at 0:0"));
}

#[test]
fn document_02_readings_2_4_and_5_files() {
    let two = |top, other| refused_of(&[("t", top), ("a", other)]);
    assert_eq!(two("x = 1\n", "\t").as_deref(), Some("refused 3 at 1:0"));
    assert_eq!(two("x = 1\n", "x").as_deref(), Some("refused 3 at 1:1"));
    assert_eq!(two("x = 1\n", "no form\n"), None);
    assert_eq!(two("rule r\ninclude b\n", "").as_deref(), Some("refused 7 at 0:0"));
    assert_eq!(
        two("include a\n x = 1\n", "build o: phony\n").as_deref(),
        Some("refused 4 at 0:10")
    );
    assert_eq!(two("include a\n", "#\nrule r\n").as_deref(), Some("refused 7 at 1:2"));
    assert_eq!(two("include a\n", "#\ninclude t\n").as_deref(), Some("refused 19 at 1:2"));
    let often = "include a\n".repeat(64);
    assert_eq!(two(&often, "").as_deref(), Some("refused 19 at 0:630"));
    assert_eq!(two(&often[10..], ""), None);
    assert_eq!(two(&often[10..], &"x =\n".repeat(17)).as_deref(), Some("refused 9 at 1:16"));
}
