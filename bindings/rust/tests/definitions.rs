//! Tests of a frontend's definitions, in this process: `cargo test --offline`, with the library.
#![cfg(llbm_library)]

use llbm::{version, Fault, Machine};
use std::fs;
use std::path::PathBuf;

fn example(name: &str) -> Vec<u8> {
    let folder = PathBuf::from(env!("CARGO_MANIFEST_DIR")).join("../../examples");
    fs::read(folder.join(name)).unwrap()
}

fn text(name: &str) -> String {
    String::from_utf8(example(name)).unwrap()
}

#[test]
fn a_result() -> Result<(), Fault> {
    let mut machine = Machine::new();
    machine.add_local("source", &text("tour.tree"))?;
    let definition = machine.assemble(&text("tour.text"))?;
    let result = machine.run(&definition)?;
    assert!(result.contains("f 0644 0 0 4c414e473d430a /out/env\n"));
    machine.open(&definition, 2)?;
    assert_eq!(machine.line("next")?.as_deref(), Some("1 claim 0 0 -> source 1\n"));
    assert_eq!(machine.line("quit")?, None);
    let fault = Machine::new().run(&definition).unwrap_err();
    assert_eq!((fault.status, fault.number), (2, Some(121)));
    Ok(())
}

#[test]
fn the_version_says_whether_there_is_a_proof() {
    let version = version();
    assert!(version.starts_with("llbm 1.") && (version.contains(", proved with ") || version.contains(", not proved, ")), "{version}");
}

#[test]
fn texts_and_definitions() -> Result<(), Fault> {
    let mut machine = Machine::new();
    let definition = machine.assemble(&text("tour.text"))?;
    assert_eq!(definition, example("tour.definition"));
    assert_eq!(machine.disassemble(&definition)?, text("tour.text"));
    assert_eq!(machine.ops(&definition)?, text("tour.text"));
    assert!(machine.show(&definition)?.ends_with("result 2.0\n"));
    Ok(())
}

#[test]
fn a_clients_definition() -> Result<(), Fault> {
    let mut machine = Machine::new();
    let definition = example("from-buildkit/merge/definition");
    let printed = machine.show(&definition)? + &machine.run(&definition)?;
    assert_eq!(printed, text("from-buildkit/merge/printed"));
    Ok(())
}

#[test]
fn findings() -> Result<(), Fault> {
    let mut machine = Machine::new();
    assert_eq!(machine.findings(&example("tour.definition"))?, Vec::<String>::new());
    assert_eq!(machine.findings(&[7])?, ["fault 81 3"]);
    Ok(())
}

#[test]
fn plans_and_matches() -> Result<(), Fault> {
    let mut machine = Machine::new();
    let definition = example("tour.definition");
    assert_eq!(machine.plan(&definition)?.matches(" reads value ").count(), 3);
    assert!(!machine.matches(&definition, &definition)?.contains(" matches -"));
    assert_eq!(machine.matches(&[7], &definition).unwrap_err().number, Some(81));
    Ok(())
}

#[test]
fn scripts() -> Result<(), Fault> {
    let mut machine = Machine::new();
    assert_eq!(machine.script("cp /a /b && true")?, None);
    assert_eq!(machine.script("gzip /a")?.as_deref(), Some("fault 71 gzip"));
    Ok(())
}

#[test]
fn faults() {
    let mut machine = Machine::new();
    let refused = machine.run(b"\x01").unwrap_err();
    assert_eq!((refused.status, refused.number), (2, Some(81)));
    let none = machine.line("status").unwrap_err();
    assert_eq!((none.status, none.number), (4, None));
    machine.close();
    machine.close();
}

#[test]
fn a_session_of_the_tour() -> Result<(), Fault> {
    let mut machine = Machine::new();
    machine.add_local("source", &text("tour.tree"))?;
    machine.open(&example("tour.definition"), 2)?;
    let mut replies = String::new();
    for line in text("tour.commands").lines() {
        replies += machine.line(line)?.as_deref().unwrap_or_default();
    }
    assert_eq!(replies, text("tour.answers"));
    Ok(())
}
