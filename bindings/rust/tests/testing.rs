//! Tests of `llbm::testing`, which need the library: LLBM_TOOLS and LLBM_RULES name llbm-tools and llbm-rules, which are asked.
#![cfg(llbm_library)]

use llbm::testing::{dir, fails, files, image, solve};
use llbm::Machine;
use std::panic::{catch_unwind, AssertUnwindSafe};
use std::path::PathBuf;
use std::{env, fs, process};

// Assembles ops, given what is in each, and an op for the last one as the result.
fn definition_of(entries: &[String]) -> Vec<u8> {
    let mut text: String = entries.iter().map(|entry| format!("op {{\n{entry}\n}}\n")).collect();
    text += &format!("op {{\ninputs {{\ndigest %{}\n}}\n}}\n", entries.len() - 1);
    Machine::new().assemble(&text).unwrap()
}

// A definition of a file with the content `hi`, of 7:5 and mode 0600.
fn mkfile() -> Vec<u8> {
    let owner = "owner {\nuser {\nbyID 7\n}\ngroup {\nbyID 5\n}\n}";
    let made = format!("mkfile {{\npath \"/x\"\nmode 384\ndata 6869\n{owner}\ntimestamp -1\n}}");
    definition_of(&[format!("file {{\nactions {{\ninput -1\nsecondaryInput -1\n{made}\n}}\n}}")])
}

// A definition that copies what is at a path of a source to /.
fn copied(path: &str, identifier: &str, attributes: &[(&str, &str)]) -> Vec<u8> {
    let attrs: String = attributes.iter().map(|(key, value)| format!("attrs {{\nkey \"local.{key}\"\nvalue \"{value}\"\n}}\n")).collect();
    let made = format!("copy {{\nsrc \"{path}\"\ndest \"/\"\nmode -1\ndirCopyContents true\ntimestamp -1\n}}");
    let copy = format!("inputs {{\ndigest %0\n}}\nfile {{\nactions {{\ninput -1\n{made}\n}}\n}}");
    definition_of(&[format!("source {{\nidentifier \"{identifier}\"\n{attrs}}}"), copy])
}

// What a check panics with.
fn said_by(check: impl FnOnce()) -> String {
    let said = catch_unwind(AssertUnwindSafe(check)).expect_err("it does not panic");
    said.downcast::<String>().map_or_else(|other| other.downcast::<&str>().unwrap().to_string(), |text| *text)
}

#[track_caller]
fn assert_says(check: impl FnOnce(), words: &str) {
    let said = said_by(check);
    assert!(said.contains(words), "it does not say {words:?}, but {said:?}");
}

// A new folder with the file `a`.
fn folder(name: &str) -> PathBuf {
    let folder = env::temp_dir().join(format!("llbm-rust-{}-{name}", process::id()));
    fs::create_dir(&folder).unwrap();
    fs::write(folder.join("a"), "from a folder").unwrap();
    folder
}

#[test]
fn what_is_made_is_checked() {
    let outcome = solve(&mkfile(), &[]);
    outcome.missing("/y").file("/x").equals("hi").mode(0o600).owner(7, 5);
    assert_says(|| { outcome.file("/x").equals("ho"); }, "/x has not the content \"ho\"");
    assert_says(|| { outcome.file("/x").mode(0o644); }, "/x has not the mode 0644, but 0600");
    assert_says(|| { outcome.file("/x").owner(0, 0); }, "/x has not the owner 0:0, but 7:5");
    assert_says(|| { outcome.missing("/x"); }, "there is something at /x: /x 0600");
    assert_says(|| { outcome.file("/y"); }, "there is nothing at /y in\n/ 0755");
    assert_says(|| { outcome.file("/").equals("hi"); }, "/ is a directory, not a file with \"hi\"");
}

#[test]
fn sources_are_given() {
    let folder = folder("sources");
    solve(&copied("/a", "local://src", &[]), &[dir("src", &folder)]).file("/a").equals("from a folder").owner(0, 0);
    let made = files("src", &[("a", "made"), ("c/d", "")]);
    solve(&copied("/", "local://src", &[]), &[made]).missing("/b").file("/a").equals("made").mode(0o644);
    std::os::unix::fs::symlink("b", folder.join("c")).unwrap();
    assert_says(|| { solve(&copied("/", "local://src", &[]), &[dir("src", &folder)]); }, "a tree has only directories and files");
    fs::remove_dir_all(folder).unwrap();
}

#[test]
fn a_source_that_the_definition_has_not_is_an_error() {
    let definition = copied("/a", "local://src", &[]);
    let given = |name: &str| [files("src", &[("a", "")]), files(name, &[])];
    for name in ["sr", "src2", &"src".repeat(60)] {
        assert_says(|| { solve(&definition, &given(name)); }, &format!("the definition has no local source {name}"));
    }
    let long = "src".repeat(60);
    solve(&copied("/a", &format!("local://{long}"), &[]), &[files(&long, &[("a", "")])]).file("/a");
}

#[test]
fn a_directory_stands_in_for_an_image() {
    if env::var_os("LLBM_TOOLS").is_none() {
        return;
    }
    let folder = folder("image");
    let definition = copied("/a", "docker-image://docker.io/library/alpine:3.19", &[]);
    solve(&definition, &[image("alpine:3.19", &folder)]).file("/a").equals("from a folder");
    assert_says(|| { solve(&definition, &[image("alpine:3.20", &folder)]); }, "the definition has no image alpine:3.20");
    fs::remove_dir_all(folder).unwrap();
}

#[test]
fn filters_select_as_for_a_client() {
    if env::var_os("LLBM_RULES").is_none() {
        return;
    }
    let sources = [files("src", &[(".git/HEAD", "x"), ("main.go", "y"), ("a/b.go", "z"), ("a/c.txt", "")])];
    let filters = [("excludepatterns", r#"[\"a/b*\"]"#), ("includepattern", r#"[\"**/*.go\"]"#)];
    let outcome = solve(&copied("/", "local://src", &filters), &sources);
    outcome.missing("/.git").missing("/a/b.go").missing("/a/c.txt").file("/main.go").equals("y");
}

#[test]
fn a_failure_has_its_reason() {
    let missing = copied("/b.txt", "local://src", &[]);
    fails(&missing, "fault 121 src", &[]);
    fails(&missing, "failed 1 action 0", &[files("src", &[])]);
    assert_says(|| fails(&mkfile(), "a", &[]), "it does not fail with \"a\", but makes\n/ 0755");
    assert_says(|| fails(&missing, "none of this", &[]), "it does not fail with \"none of this\", but with\nfault 121 src");
    if env::var_os("LLBM_TOOLS").is_some() {
        fails(&missing, "/b.txt", &[files("src", &[])]);
    }
    if env::var_os("LLBM_RULES").is_some() {
        solve(&mkfile(), &[]).same_as_buildkit();
    }
}
