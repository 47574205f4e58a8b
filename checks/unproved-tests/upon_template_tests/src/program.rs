// The program's work: its statuses, the text that it shows, and what it reports on standard error.
use std::alloc::{AllocError, Global};
use std::io;
use std::process::Abort;
use std::test::Fail;
use upon::run;

// The status of a run, and what went to standard output and to standard error.
fn run_on(
    alloc: Global,
    words: &[&str],
    file: Option<&[u8]>,
) -> Result<(u8, Vec<u8>, Vec<u8>), AllocError> {
    let mut args = Vec::new(alloc);
    for word in words {
        args.push(String::from_str(alloc, word)?)?;
    }
    let mut out = Vec::new(alloc);
    let mut err = Vec::new(alloc);
    let status = run(alloc, args.as_slice(), file, &mut out, &mut err);
    Ok((status, out, err))
}

fn ends(
    rt: &impl Abort,
    alloc: Global,
    words: &[&str],
    file: Option<&[u8]>,
    wanted: (u8, &str, &str),
) -> Result<(), Fail> {
    let (status, out, err) = run_on(alloc, words, file)?;
    assert_eq!(rt; status, wanted.0);
    assert_eq!(rt; out.as_slice(), wanted.1.as_bytes());
    assert_eq!(rt; err.as_slice(), wanted.2.as_bytes());
    Ok(())
}

#[test]
fn renders(rt: HostRuntime) -> Result<(), Fail> {
    let alloc = rt.alloc();
    let page: Option<&[u8]> = Some(
        b"{% for x in [1, 2] %}{{ x }}{% if not loop.last %}, {% endif %}{% endfor %}.",
    );
    ends(&rt, alloc, &["t"], page, (0, "1, 2.", ""))?;
    let itself: Option<&[u8]> = Some(b"x{% include \"t\" %}");
    let deep = (
        1,
        "xxxxxxxxxxxxxxxxxxxxxxxxxxxxxxxxxxxxxxxxxxxxxxxxxxxxxxxxxxxxxxxx",
        "render error: reached maximum include depth (64)\n",
    );
    ends(&rt, alloc, &["t"], itself, deep)?;
    let hello: Option<&[u8]> = Some(b"Hello {{ name }}!");
    ends(
        &rt,
        alloc,
        &["t", "name=John"],
        hello,
        (0, "Hello John!", ""),
    )?;
    ends(&rt, alloc, &["t", "name=a=b"], hello, (0, "Hello a=b!", ""))?;
    ends(
        &rt,
        alloc,
        &["t", "name=1", "name=2"],
        hello,
        (0, "Hello 2!", ""),
    )?;
    ends(&rt, alloc, &["t", "=x", "name="], hello, (0, "Hello !", ""))
}

#[test]
fn refuses_arguments(rt: HostRuntime) -> Result<(), Fail> {
    let alloc = rt.alloc();
    let usage = (2, "", "usage: upon-render FILE [KEY=TEXT]..\n");
    ends(&rt, alloc, &[], None, usage)?;
    ends(&rt, alloc, &["t", "name"], Some(b"x"), usage)?;
    ends(&rt, alloc, &["t", "name"], None, usage)
}

#[test]
fn refuses_files(rt: HostRuntime) -> Result<(), Fail> {
    let alloc = rt.alloc();
    ends(
        &rt,
        alloc,
        &["t"],
        None,
        (2, "", "upon-render: cannot read t\n"),
    )?;
    ends(
        &rt,
        alloc,
        &["t"],
        Some(b"a\xff"),
        (2, "", "upon-render: t is not UTF-8\n"),
    )
}

#[test]
fn reports_faults(rt: HostRuntime) -> Result<(), Fail> {
    let alloc = rt.alloc();
    ends(
        &rt,
        alloc,
        &["t"],
        Some(b"{{"),
        (
            1,
            "",
            "invalid syntax\n\n  --> t:1:3\n   |\n 1 | {{\n   |   ^--\n   |\n   = reason: expected token, found EOF\n",
        ),
    )?;
    ends(
        &rt,
        alloc,
        &["hello.txt"],
        Some(b"Hello {{ name }}!"),
        (
            1,
            "Hello ",
            "render error\n\n  --> hello.txt:1:10\n   |\n 1 | Hello {{ name }}!\n   |          ^^^^\n   |\n   = reason: not found in this scope\n",
        ),
    )
}

/// Reads and writes that fail.
#[derive(Drop)]
struct Broken;

impl io::Read for Broken {
    fn read(&mut self, _buffer: &mut [u8]) -> io::Result<usize> {
        Err(io::Error::from(io::ErrorKind::NotFound))
    }
}

impl io::Write for Broken {
    fn write(&mut self, _bytes: &[u8]) -> io::Result<usize> {
        Err(io::Error::from(io::ErrorKind::NotFound))
    }

    fn flush(&mut self) -> io::Result<()> {
        Err(io::Error::from(io::ErrorKind::NotFound))
    }
}

/// Takes all bytes, and fails when it is flushed.
#[derive(Drop)]
struct Unflushed {
    bytes: Vec<u8>,
}

impl io::Write for Unflushed {
    fn write(&mut self, bytes: &[u8]) -> io::Result<usize> {
        self.bytes.write(bytes)
    }

    fn flush(&mut self) -> io::Result<()> {
        Err(io::Error::from(io::ErrorKind::NotFound))
    }
}

/// A file for which there is no memory.
#[derive(Drop)]
struct TooLarge;

impl io::Read for TooLarge {
    fn read(&mut self, _buffer: &mut [u8]) -> io::Result<usize> {
        Err(io::Error::from(io::ErrorKind::OutOfMemory))
    }
}

#[test]
fn flush_fails_alone(rt: HostRuntime) -> Result<(), Fail> {
    let alloc = rt.alloc();
    let args = vec![in alloc; String::from_str(alloc, "t")?]?;
    let file: Option<&[u8]> = Some(b"x");
    let mut out = Unflushed {
        bytes: Vec::new(alloc),
    };
    let mut err = Vec::new(alloc);
    assert_eq!(rt; run(alloc, args.as_slice(), file, &mut out, &mut err), 1);
    assert_eq!(rt; out.bytes.as_slice(), b"x".as_slice());
    assert_eq!(rt; err.as_slice(), b"io error\n".as_slice());
    Ok(())
}

#[test]
fn no_memory_for_the_file(rt: HostRuntime) -> Result<(), Fail> {
    let alloc = rt.alloc();
    let args = vec![in alloc; String::from_str(alloc, "t")?]?;
    let mut out = Vec::new(alloc);
    let mut err = Vec::new(alloc);
    assert_eq!(rt;
        run(alloc, args.as_slice(), Some(TooLarge), &mut out, &mut err),
        1
    );
    assert_eq!(rt; err.as_slice(), b"out of memory\n".as_slice());
    Ok(())
}

#[test]
fn broken_file_and_streams(rt: HostRuntime) -> Result<(), Fail> {
    let alloc = rt.alloc();
    let args = vec![in alloc; String::from_str(alloc, "t")?]?;
    let mut err = Vec::new(alloc);
    assert_eq!(rt;
        run(alloc, args.as_slice(), Some(Broken), &mut Broken, &mut err),
        2
    );
    assert_eq!(rt; err.as_slice(), b"upon-render: cannot read t\n".as_slice());
    let mut err = Vec::new(alloc);
    let file: Option<&[u8]> = Some(b"x");
    assert_eq!(rt; run(alloc, args.as_slice(), file, &mut Broken, &mut err), 1);
    assert_eq!(rt; err.as_slice(), b"io error\n".as_slice());
    let file: Option<&[u8]> = Some(b"{{");
    assert_eq!(rt;
        run(alloc, args.as_slice(), file, &mut Broken, &mut Broken),
        1
    );
    Ok(())
}

// The picture of a long line is written whole.
#[test]
fn wide_pictures(rt: HostRuntime) -> Result<(), Fail> {
    let alloc = rt.alloc();
    let mut page = "x".repeat(alloc, 70_000)?;
    page.push_str("{{ none }}")?;
    let (status, out, err) = run_on(alloc, &["t"], Some(page.as_bytes()))?;
    assert_eq!(&rt; status, 1);
    assert_eq!(&rt; out.len(), 70_000);
    assert!(&rt; err.len() > 140_000);
    Ok(())
}
