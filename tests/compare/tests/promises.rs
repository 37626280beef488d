//! The formal statements that docs/PROMISES.md quotes are those of the files that it names, and what they name is defined in specs/ or quoted.

use std::collections::BTreeSet;
use std::fs;
use std::path::{Path, PathBuf};

/// Between the parts of a quotation that do not follow each other directly in the file.
const LEFT_OUT: &str = "..";

/// A fenced part of the document whose first line is "```LANGUAGE FILE".
struct Quotation {
    file: String,
    lines: Vec<String>,
}

fn quotations(document: &str) -> Vec<Quotation> {
    let mut found = Vec::new();
    let mut open: Option<Quotation> = None;
    for line in document.lines() {
        match (line.strip_prefix("```"), open.as_mut()) {
            (Some(""), Some(_)) => found.extend(open.take()),
            (Some(words), None) => {
                let (_, file) = words.split_once(' ').unwrap_or_else(|| panic!("no file is named after {line}"));
                open = Some(Quotation { file: file.to_string(), lines: Vec::new() });
            }
            (None, Some(quotation)) => quotation.lines.push(line.trim().to_string()),
            (None, None) => (),
            (Some(_), Some(_)) => panic!("{line} opens a quotation inside another"),
        }
    }
    assert!(open.is_none(), "the last quotation has no end");
    found
}

/// Whether the parts of the quotation stand in the text, in order, each as whole lines. Indentation does not count.
fn stands_in(quotation: &Quotation, text: &str) -> bool {
    let lines: Vec<&str> = text.lines().map(str::trim).collect();
    let mut from = 0;
    for part in quotation.lines.split(|line| line == LEFT_OUT) {
        assert!(!part.is_empty(), "a quotation from {} has an empty part", quotation.file);
        let Some(place) = lines[from..].windows(part.len()).position(|window| window == part) else {
            return false;
        };
        from += place + part.len();
    }
    true
}

fn repository() -> PathBuf {
    Path::new(env!("CARGO_MANIFEST_DIR")).join("../..")
}

/// The quotations of docs/PROMISES.md, each with the text of its file.
fn quoted() -> Vec<(Quotation, String)> {
    let document = fs::read_to_string(repository().join("docs/PROMISES.md")).unwrap();
    let quotations = quotations(&document);
    assert!(!quotations.is_empty());
    let with_text = |quotation: Quotation| {
        let text = fs::read_to_string(repository().join(&quotation.file))
            .unwrap_or_else(|error| panic!("{}: {error}", quotation.file));
        (quotation, text)
    };
    quotations.into_iter().map(with_text).collect()
}

/// The words of a line; what follows a dot is a field and no name.
fn words(line: &str) -> impl Iterator<Item = &str> {
    let words = line.split(|c: char| c.is_whitespace() || "(){};,".contains(c));
    words.filter_map(|word| word.split('.').next()).filter(|word| !word.is_empty())
}

/// The name that a line defines, as "abbrev pub NAME : TYPE" and "pub record NAME (..) : TYPE where" do.
fn defined(line: &str) -> Option<&str> {
    let is_record = line.split_whitespace().any(|word| word == "record");
    let mut words =
        line.split_whitespace().skip_while(|word| ["abbrev", "unfoldable", "pub", "record", "data"].contains(word));
    let name = words.next()?;
    let next = words.next()?;
    (next == ":" || next.starts_with('(') && is_record).then_some(name)
}

/// The names that a line binds, as "(a b : TYPE)" does, and the fields that it gives, as "{ a = VALUE; b = VALUE }" does.
fn bound(line: &str) -> impl Iterator<Item = &str> {
    let parts = line.split(['(', '{', ';']).skip(1);
    parts.filter_map(|part| Some(part.split_once(" : ").or(part.split_once(" = "))?.0)).flat_map(str::split_whitespace)
}

/// The names that a file of proofs/ defines itself or takes from another such file.
fn names_of_proofs(text: &str) -> BTreeSet<&str> {
    let is_import = |line: &&str| {
        line.starts_with("use Rattle.") && line.contains(".proofs.") && !line.starts_with("use Rattle.std.")
    };
    let imports = text.lines().filter(is_import).filter_map(|line| line.split_once(".{"));
    let imported = imports.flat_map(|(_, names)| names.trim_end_matches('}').split(", "));
    imported.chain(text.lines().filter_map(defined)).collect()
}

/// The names of proofs/ in a quotation that are not defined or bound in the quotation itself: a reader would have to look for them there.
fn hidden_names<'a>(quotation: &'a Quotation, text: &str) -> BTreeSet<&'a str> {
    let hidden = names_of_proofs(text);
    let lines = || quotation.lines.iter().map(String::as_str);
    let known: BTreeSet<&str> = lines().filter_map(defined).chain(lines().flat_map(bound)).collect();
    lines().flat_map(words).filter(|word| hidden.contains(word) && !known.contains(word)).collect()
}

#[test]
fn quotations_stand_in_their_files() {
    for (quotation, text) in &quoted() {
        assert!(
            stands_in(quotation, text),
            "{} does not have what docs/PROMISES.md quotes from it:\n{}",
            quotation.file,
            quotation.lines.join("\n")
        );
    }
}

#[test]
fn statements_name_what_stands_in_specs() {
    for (quotation, text) in quoted().iter().filter(|(quotation, _)| quotation.file.contains("/proofs/")) {
        let hidden = hidden_names(quotation, text);
        assert!(
            hidden.is_empty(),
            "docs/PROMISES.md names what only proofs/ has, {hidden:?}, from {}:\n{}",
            quotation.file,
            quotation.lines.join("\n")
        );
    }
}

/// Whether a text of Rattle has a function.
fn has_code(text: &str) -> bool {
    text.lines().any(|line| !line.trim_start().starts_with("//") && line.split_whitespace().any(|word| word == "fn"))
}

/// The crates on which a crate rests, itself too, by the lines "NAME: DEP DEP" of crates.txt.
fn rests_on<'a>(list: &'a str, name: &'a str) -> BTreeSet<&'a str> {
    let mut found = BTreeSet::from([name]);
    let mut next = vec![name];
    while let Some(name) = next.pop() {
        let line = list.lines().find_map(|line| line.strip_prefix(name)?.strip_prefix(':'));
        let deps = line.unwrap_or_else(|| panic!("crates.txt has no {name}")).split_whitespace();
        next.extend(deps.filter(|dep| found.insert(*dep)));
    }
    found
}

#[test]
fn definitions_and_theorems_rest_on_no_code() {
    let list = fs::read_to_string(repository().join("crates.txt")).unwrap();
    for (quotation, _) in quoted().iter().filter(|(quotation, _)| quotation.file.ends_with(".antt")) {
        for name in rests_on(&list, quotation.file.split('/').nth(1).unwrap()) {
            for source in fs::read_dir(repository().join("crates").join(name).join("src")).unwrap() {
                let text = fs::read_to_string(source.unwrap().path()).unwrap();
                assert!(!has_code(&text), "{} rests on crates/{name}, which has code", quotation.file);
            }
        }
    }
}

#[test]
fn code_below_a_definition_is_found() {
    assert!(has_code("// no fn here\npub extern \"C\" fn f() {"));
    assert!(!has_code("// No fn.\npub struct S {\n    pub n: u64,\n}"));
    let list = "# a comment\na:\nab: a\nc: ab\n";
    assert_eq!(rests_on(list, "c"), BTreeSet::from(["a", "ab", "c"]));
    assert_eq!(rests_on(list, "a"), BTreeSet::from(["a"]));
}

fn quotation(lines: &[&str]) -> Quotation {
    Quotation { file: "a file".to_string(), lines: lines.iter().map(|line| line.to_string()).collect() }
}

#[test]
fn a_changed_quotation_is_found() {
    let text = "one\n  two\nthree\nfour\n";
    assert!(stands_in(&quotation(&["two", "three"]), text));
    assert!(stands_in(&quotation(&["one", LEFT_OUT, "four"]), text));
    assert!(!stands_in(&quotation(&["one", "three"]), text));
    assert!(!stands_in(&quotation(&["four", LEFT_OUT, "one"]), text));
    assert!(!stands_in(&quotation(&["thre"]), text));
}

#[test]
fn a_name_of_proofs_is_found() {
    let text = "use Rattle.a.specs.A.{in_specs}\nuse Rattle.a.proofs.B.{Other, Imported}\n  abbrev R : Record\n  R = r\n  pub law : P R";
    let hidden =
        |lines: &[&str]| hidden_names(&quotation(lines), text).into_iter().map(str::to_string).collect::<Vec<_>>();
    assert_eq!(hidden(&["pub law : in_specs R"]), ["R"]);
    assert_eq!(hidden(&["pub law : Imported (r.R)"]), ["Imported"]);
    assert!(hidden(&["abbrev R : Record", "R = r", LEFT_OUT, "pub law : in_specs R"]).is_empty());
    assert!(hidden(&["pub law : (Other R : ℕ) → in_specs R"]).is_empty());
}
