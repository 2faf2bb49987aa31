//! All examples and cases of the repository: each has its status and its bytes, and is written
//! again from its rows.

use std::ffi::OsStr;
use std::fs;
use std::os::unix::ffi::OsStrExt;
use std::path::{Path, PathBuf};
use tilugba::{run, text_of, Answer, Fault};

fn folders() -> Vec<PathBuf> {
    let top = Path::new(env!("CARGO_MANIFEST_DIR")).join("../..");
    let list = |name: &str| fs::read_dir(top.join(name)).expect("the repository has this folder");
    let entries = list("examples").chain(list("tests/cases"));
    let paths = entries.map(|entry| entry.expect("the folder is read").path());
    paths
        .filter(|path| path.join("command").is_file())
        .collect()
}

struct Example {
    words: Vec<Vec<u8>>,
    files: Vec<(Vec<u8>, Vec<u8>)>,
    status: u32,
    output: Vec<u8>,
}

fn example_of(folder: &Path) -> Example {
    let command = fs::read(folder.join("command")).expect("an example has a command");
    let lines = command.split_inclusive(|byte| *byte == b'\n');
    let words: Vec<Vec<u8>> = lines
        .map(|line| line.strip_suffix(b"\n").unwrap_or(line).to_vec())
        .collect();
    let path_of = |word: &Vec<u8>| folder.join(OsStr::from_bytes(word));
    let named = words
        .iter()
        .filter(|word| !word.is_empty() && path_of(word).is_file());
    let files = named.map(|word| {
        (
            word.clone(),
            fs::read(path_of(word)).expect("a file is read"),
        )
    });
    let status = fs::read_to_string(folder.join("status"));
    Example {
        files: files.collect(),
        status: status.map_or(0, |it| it.trim().parse().expect("a status is a number")),
        output: fs::read(folder.join("output")).expect("an example has an output"),
        words,
    }
}

/// The text of an answer, written again from its rows.
fn written_again(command: &str, answer: &Answer) -> Result<String, Fault> {
    Ok(match command {
        "flows" | "settle" => text_of(&answer.flows()?),
        "positions" => text_of(&answer.positions()?),
        "check" => text_of(&answer.verdicts()?),
        "advance" | "novate" => answer.advanced()?.to_string(),
        "value" => format!("{}\n", answer.value()?),
        "scenarios" => answer.scenarios()?.to_string(),
        _ => answer.done()?.to_owned(),
    })
}

#[test]
fn each_example_is_as_it_must_be() {
    let folders = folders();
    assert!(folders.len() > 100);
    for folder in folders {
        let example = example_of(&folder);
        let answer = run(&example.words, &example.files);
        assert_eq!(answer.status, example.status, "{}", folder.display());
        assert_eq!(answer.text, example.output, "{}", folder.display());
        let command = example
            .words
            .first()
            .map(|word| String::from_utf8_lossy(word));
        let again = match written_again(command.as_deref().unwrap_or(""), &answer) {
            Ok(text) => text,
            Err(fault) => {
                assert_eq!(fault.status(), answer.status, "{}", folder.display());
                assert!(
                    !matches!(fault, Fault::OtherForm { .. }),
                    "{}: {fault}",
                    folder.display()
                );
                if answer.text.is_empty() {
                    continue;
                }
                format!("{fault}\n")
            }
        };
        assert_eq!(again.as_bytes(), answer.text, "{}", folder.display());
    }
}

#[test]
fn rows_of_another_command_are_a_fault() {
    let head = "portfolio 1;\namounts 2;\nparty A, B;\nasset EUR;\n";
    let text = format!("{head}contract c = scale(1.00, pay(EUR, A, B));\n");
    let answer = run(&["flows", "p"], &[("p", text)]);
    assert!(matches!(
        answer.positions(),
        Err(Fault::OtherForm { status: 0, .. })
    ));
    assert!(matches!(
        answer.scenarios(),
        Err(Fault::OtherForm { status: 0, .. })
    ));
    assert_eq!(answer.flows().map(|it| it.len()), Ok(1));
}
