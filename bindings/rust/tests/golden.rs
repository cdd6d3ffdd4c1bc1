//! A test of golden trees, alone in its process, since it sets the variable that updates them.
#![cfg(llbm_library)]

use llbm::testing::{files, solve, Outcome};
use llbm::Machine;
use std::panic::catch_unwind;
use std::{env, fs, process};

fn solved(content: &str) -> Outcome {
    let source = "op {\nsource {\nidentifier \"local://src\"\n}\n}\nop {\ninputs {\ndigest %0\n}\n}\n";
    solve(&Machine::new().assemble(source).unwrap(), &[files("src", &[("x", content)])])
}

#[test]
fn a_golden_tree_is_written_and_compared() {
    let folder = env::temp_dir().join(format!("llbm-golden-{}", process::id()));
    let place = folder.join("testdata/r.tree");
    assert!(catch_unwind(|| { solved("hi").golden(&place); }).is_err());
    env::set_var("LLBM_UPDATE", "1");
    solved("hi").golden(&place);
    env::remove_var("LLBM_UPDATE");
    solved("hi").golden(&place);
    assert_eq!(fs::read_to_string(&place).unwrap(), "d 0755 0 0 /\nf 0644 0 0 6869 /x\n");
    let said = *catch_unwind(|| { solved("ho").golden(&place); }).unwrap_err().downcast::<String>().unwrap();
    assert!(said.ends_with("- /x 0644 0:0 \"hi\"\n+ /x 0644 0:0 \"ho\"\n"), "{said}");
    fs::remove_dir_all(folder).unwrap();
}
