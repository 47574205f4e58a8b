// What outputs receive, and the errors that they keep.
use std::alloc::{AllocError, Global};
use std::io;
use std::process::Abort;
use std::test::Fail;
use upon_fmt::output::{LentWriter, Output, Writer};

// Takes at most two bytes a call; at a call of a given number it fails, or takes nothing.
#[derive(Drop)]
struct Slow {
    taken: Vec<u8>,
    calls_left: usize,
    takes_nothing: bool,
}

impl io::Write for Slow {
    fn write(&mut self, bytes: &[u8]) -> io::Result<usize> {
        if self.calls_left == 0 {
            if self.takes_nothing {
                return Ok(0);
            }
            return Err(io::ErrorKind::Interrupted.into());
        }
        self.calls_left -= 1;
        let count = bytes.len().min(2);
        match self.taken.extend_from_slice(&bytes[..count]) {
            Ok(()) => Ok(count),
            Err(_) => Err(io::ErrorKind::OutOfMemory.into()),
        }
    }

    fn flush(&mut self) -> io::Result<()> {
        Ok(())
    }
}

#[test]
fn a_text_in_parts(rt: HostRuntime) -> Result<(), Fail> {
    let mut slow = Slow {
        taken: Vec::new(rt.alloc()),
        calls_left: 3,
        takes_nothing: false,
    };
    let mut output = Writer::new(&mut slow);
    assert!(rt; output.give("abcde").is_ok());
    assert!(rt; output.take_err().is_none());
    assert!(rt; output.give("").is_ok());
    drop(output);
    assert_eq!(rt; slow.taken.as_slice(), b"abcde".as_slice());
    Ok(())
}

// The kind of the error with which a text of five bytes ends after so many calls, and what was received.
fn failure(
    rt: &impl Abort,
    alloc: Global,
    calls_left: usize,
    takes_nothing: bool,
) -> Result<(io::ErrorKind, usize), Fail> {
    let mut slow = Slow {
        taken: Vec::new(alloc),
        calls_left,
        takes_nothing,
    };
    let mut output = Writer::new(&mut slow);
    assert!(rt; output.give("abcde").is_err());
    let kind = output.take_err().ok_or("no error")?.kind();
    assert!(rt; output.take_err().is_none());
    drop(output);
    Ok((kind, slow.taken.len()))
}

#[test]
fn failures(rt: HostRuntime) -> Result<(), Fail> {
    let alloc = rt.alloc();
    assert_eq!(rt;
        failure(&rt, alloc, 0, false)?,
        (io::ErrorKind::Interrupted, 0)
    );
    assert_eq!(rt;
        failure(&rt, alloc, 1, false)?,
        (io::ErrorKind::Interrupted, 2)
    );
    assert_eq!(rt;
        failure(&rt, alloc, 2, true)?,
        (io::ErrorKind::WriteZero, 4)
    );
    Ok(())
}

#[test]
fn a_writer_that_is_lent(rt: HostRuntime) -> Result<(), Fail> {
    let mut slow = Slow {
        taken: Vec::new(rt.alloc()),
        calls_left: 2,
        takes_nothing: false,
    };
    let mut output = LentWriter::new(&mut slow);
    assert!(rt; output.give("abc").is_ok());
    assert!(rt; output.take_err().is_none());
    assert!(rt; output.give("de").is_err());
    let kind = output.take_err().ok_or("no error")?.kind();
    assert_eq!(rt; kind, io::ErrorKind::Interrupted);
    assert!(rt; output.take_err().is_none());
    drop(output);
    assert_eq!(rt; slow.taken.as_slice(), b"abc".as_slice());
    Ok(())
}

#[test]
fn a_text_receives_all(rt: HostRuntime) -> Result<(), AllocError> {
    let mut text = String::from_str(rt.alloc(), "a")?;
    assert!(rt; text.give("bc").is_ok());
    assert!(rt; text.take_err().is_none());
    assert_eq!(rt; text.as_str(), "abc");
    Ok(())
}
