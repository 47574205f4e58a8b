// How the lines of errors are painted.
use std::env::{Env, FillError};
use std::rt::Files;
use std::test::Fail;
use std::time::Clock;
use upon_tool::program::{has_colors, run};
use upon_tool_io::arguments::Color;
use upon_tool_io::targets::SystemTargets;
use upon_tool_messages::color::{Tint, parts_of};

#[test]
fn lines(rt: HostRuntime) -> Result<(), Fail> {
    let (plain, message, margin, place, hint) =
        (Tint::Plain, Tint::Message, Tint::Margin, Tint::Place, Tint::Hint);
    let rows: [(&str, Tint, &str, Tint, &str); 22] = [
        ("render error", message, "render error", plain, ""),
        ("invalid syntax", message, "invalid syntax", plain, ""),
        ("out of memory", message, "out of memory", plain, ""),
        ("io error: gone", message, "io error: gone", plain, ""),
        ("render errors", plain, "render errors", plain, ""),
        ("", plain, "", plain, ""),
        ("  --> a b:1:10", place, "  --> a b:1:10", plain, ""),
        ("   |", margin, "   |", plain, ""),
        (" 1 | x | y", margin, " 1 | ", plain, "x | y"),
        (" 12 | ", margin, " 12 | ", plain, ""),
        (" 1 |    ^^^", margin, " 1 | ", plain, "   ^^^"),
        (" a | b", plain, " a | ", plain, "b"),
        ("   |    ^^^^", margin, "   | ", message, "   ^^^^"),
        ("   | ^--", margin, "   | ", message, "^--"),
        ("   | x", margin, "   | ", plain, "x"),
        ("   = reason: a | b", margin, "   = reason: ", message, "a | b"),
        ("   = hint: there is `a`", hint, "   = hint:", plain, " there is `a`"),
        ("x = hint: y", plain, "x = hint: y", plain, ""),
        (" 1 | = hint: y", margin, " 1 | ", plain, "= hint: y"),
        (" 1 | --> y", margin, " 1 | ", plain, "--> y"),
        ("upon-tool: a.txt: no template", plain, "upon-tool: a.txt: no template", plain, ""),
        ("\u{e9} | \u{e9}", plain, "\u{e9} | ", plain, "\u{e9}"),
    ];
    for (line, first_tint, first, rest_tint, rest) in rows {
        let parts = parts_of(line);
        let is_as_wanted = parts.first_tint == first_tint
            && parts.first == first
            && parts.rest_tint == rest_tint
            && parts.rest == rest;
        assert!(&rt; is_as_wanted, "of {line}: {parts:?}");
    }
    Ok(())
}

// What a run with these words says on a terminal or on none, of a template of this text.
fn said<R: Files + Env + Clock + AllocGlobal + Clone + Drop>(
    rt: &R,
    words: &[&str],
    source: &str,
    is_terminal: bool,
) -> Result<String, Fail> {
    let alloc = rt.alloc();
    let mut owned = Vec::new(alloc);
    for word in words {
        owned.push(String::from_str(alloc, word)?)?;
    }
    let mut input = source.as_bytes();
    let mut out = Vec::new(alloc);
    let mut err = Vec::new(alloc);
    let mut targets = SystemTargets::new(rt);
    run(rt, &mut targets, owned.as_slice(), &mut input, &mut out, &mut err, is_terminal);
    Ok(String::from_utf8_lossy(alloc, err.as_slice())?)
}

const PLAIN: &str = "render error

  --> -:1:4
   |
 1 | {{ prise }}
   |    ^^^^^
   |
   = reason: not found in this scope
   = hint: there is `price`
";

const COLORED: &str = "\u{1b}[1;31mrender error\u{1b}[0m

\u{1b}[36m  --> -:1:4\u{1b}[0m
\u{1b}[34m   |\u{1b}[0m
\u{1b}[34m 1 | \u{1b}[0m{{ prise }}
\u{1b}[34m   | \u{1b}[0m\u{1b}[1;31m   ^^^^^\u{1b}[0m
\u{1b}[34m   |\u{1b}[0m
\u{1b}[34m   = reason: \u{1b}[0m\u{1b}[1;31mnot found in this scope\u{1b}[0m
\u{1b}[32m   = hint:\u{1b}[0m there is `price`
";

#[test]
fn runs(rt: HostRuntime) -> Result<(), Fail> {
    let rows: [(&[&str], bool, &str); 7] = [
        (&[], false, PLAIN),
        (&[], true, COLORED),
        (&["--color", "auto"], false, PLAIN),
        (&["--color", "auto"], true, COLORED),
        (&["--color", "always"], false, COLORED),
        (&["--color", "always"], true, COLORED),
        (&["--color", "never"], true, PLAIN),
    ];
    for (color, is_terminal, wanted) in rows {
        let mut words = Vec::new(rt.alloc());
        words.extend_from_slice(&["upon-tool", "render", "-", "--set", "price=1"])?;
        words.extend_from_slice(color)?;
        let said = said(&rt, words.as_slice(), "{{ prise }}", is_terminal)?;
        assert_eq!(&rt; said.as_str(), wanted, "with {color:?}, {is_terminal}");
    }
    Ok(())
}

#[test]
fn codes_are_spelled(rt: HostRuntime) -> Result<(), Fail> {
    for (source, wanted) in [
        (
            "{{ a }}\u{1b}[31mx",
            "\u{1b}[34m 1 | \u{1b}[0m{{ a }}\\u{1b}[31mx\n",
        ),
        ("\u{7}\u{9b}{{ a }}", "\u{1b}[34m 1 | \u{1b}[0m\\u{7}\\u{9b}{{ a }}\n"),
        ("\t{{ a }}", "\u{1b}[34m 1 | \u{1b}[0m\t{{ a }}\n"),
    ] {
        let words = ["upon-tool", "render", "-"];
        let said = said(&rt, words.as_slice(), source, true)?;
        assert!(&rt; said.contains(wanted), "of {source:?}: {said:?}");
    }
    Ok(())
}

// An environment in which `NO_COLOR` has this value, if one is given.
#[derive(Clone, Copy)]
struct Environment {
    no_color: Option<&'static str>,
}

impl Env for Environment {
    fn arg(&self, _i: usize, _buf: &mut [u8]) -> Result<usize, FillError> {
        Err(FillError::NotPresent)
    }

    fn var(&self, name: &str, buf: &mut [u8]) -> Result<usize, FillError> {
        match self.no_color {
            Some(value) if name == "NO_COLOR" => {
                let Some(room) = buf.get_mut(..value.len()) else {
                    return Err(FillError::TooLong);
                };
                room.copy_from_slice(value.as_bytes());
                Ok(value.len())
            }
            _ => Err(FillError::NotPresent),
        }
    }

    fn var_at(&self, _i: usize, _buf: &mut [u8]) -> Result<usize, FillError> {
        Err(FillError::NotPresent)
    }
}

#[test]
fn asked_colors(rt: HostRuntime) -> Result<(), Fail> {
    for (asked, no_color, is_terminal, wanted) in [
        (Color::Auto, None, true, true),
        (Color::Auto, None, false, false),
        (Color::Auto, Some(""), true, true),
        (Color::Auto, Some("1"), true, false),
        (Color::Auto, Some("0"), true, false),
        (Color::Auto, Some("1"), false, false),
        (Color::Always, None, false, true),
        (Color::Always, Some("1"), false, true),
        (Color::Never, None, true, false),
        (Color::Never, Some(""), true, false),
    ] {
        let given = (Environment { no_color }, rt.alloc());
        let has_colors = has_colors(&given, asked, is_terminal);
        assert_eq!(&rt; has_colors, wanted, "{asked:?}, {no_color:?}, {is_terminal}");
    }
    Ok(())
}
