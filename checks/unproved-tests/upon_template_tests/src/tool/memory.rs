// Calls on files in memory: what is read is what is there, and what is written is just the pages.
use std::alloc::{AllocError, Global};
use std::test::Fail;
use upon_tool::program::run_call;
use upon_tool_io::arguments::read;
use upon_tool_data::held::{held_text, held_value};
use upon_tool_io::memory::{HeldFile, Memory, MemoryTargets};

// Files in memory of these names and texts.
fn held(alloc: Global, files: &[(&str, &str)]) -> Result<Memory, AllocError> {
    let mut all = Vec::new(alloc);
    for (name, text) in files {
        let name = String::from_str(alloc, name)?;
        let bytes = Vec::from_slice(alloc, text.as_bytes())?;
        all.push(HeldFile { name, bytes })?;
    }
    let variables = Vec::new(alloc);
    Ok(Memory { alloc, files: all, variables })
}

const FILES: [(&str, &str); 4] = [
    ("page.txt", "Hello {{ name }}!"),
    ("data.json", "{\"name\": \"x\", \"rows\": [{\"name\": \"a\"}, {\"name\": \"b\"}]}"),
    ("site/b.txt", "Hello b!"),
    ("bytes.txt", "no tree {{"),
];

// How a call with these words ends: its status, what it sends, and the files that it writes, each with a `;` after it.
fn ended(alloc: Global, words: &[&str]) -> Result<String, Fail> {
    let mut owned = Vec::new(alloc);
    owned.push(String::from_str(alloc, "upon-tool")?)?;
    for word in words {
        owned.push(String::from_str(alloc, word)?)?;
    }
    let Ok(call) = read(alloc, owned.as_slice()) else {
        return Err(Fail::new("the words are no call"));
    };
    let memory = held(alloc, FILES.as_slice())?;
    let mut targets = MemoryTargets { alloc, files: Vec::new(alloc) };
    let mut input = "".as_bytes();
    let mut out = Vec::new(alloc);
    let mut err = Vec::new(alloc);
    let status = run_call(&memory, &mut targets, &call, &mut input, &mut out, &mut err, false);
    let sent = String::from_utf8_lossy(alloc, out.as_slice())?;
    let mut said = format!(in alloc; "{status} {sent}|")?;
    for file in targets.files.as_slice() {
        let text = String::from_utf8_lossy(alloc, file.bytes.as_slice())?;
        said.push_str(format!(in alloc; "{}: {text};", file.name)?.as_str())?;
    }
    Ok(said)
}

#[test]
fn calls(rt: HostRuntime) -> Result<(), Fail> {
    let rows: [(&[&str], &str); 8] = [
        (&["render", "page.txt", "--data", "data.json"], "0 Hello x!|"),
        (&["render", "page.txt", "--set", "name=y", "--out", "out.txt"], "0 |out.txt: Hello y!;"),
        (&["render", "page.txt", "--out", "out.txt"], "1 |"),
        (&["render", "gone.txt"], "2 |"),
        (&["render", "page.txt", "--data", "gone.json"], "2 |"),
        (&["render", "bytes.txt"], "1 |"),
        (&["check", "page.txt"], "0 |"),
        (
            &[
                "render", "page.txt", "--data", "data.json", "--each", "rows", "--name", "{{ name }}.txt", "--out",
                "site",
            ],
            "0 |site/a.txt: Hello a!;",
        ),
    ];
    for (words, wanted) in rows {
        let said = ended(rt.alloc(), words)?;
        assert_eq!(rt; said.as_str(), wanted, "of {words:?}");
    }
    Ok(())
}

#[test]
fn texts(rt: HostRuntime) -> Result<(), Fail> {
    let memory = held(rt.alloc(), FILES.as_slice())?;
    let mut input = "".as_bytes();
    for (name, wanted) in FILES {
        match held_text(&memory, name, &mut input) {
            Ok(text) => assert_eq!(rt; text.as_str(), wanted),
            Err(_) => return Err(Fail::new(format_args!("no text: {name}"))),
        }
    }
    assert!(rt; held_text(&memory, "gone.txt", &mut input).is_err());
    assert!(rt; held_value(&memory, "data.json", None, &mut input).is_ok());
    assert!(rt; held_value(&memory, "page.txt", None, &mut input).is_err());
    Ok(())
}
