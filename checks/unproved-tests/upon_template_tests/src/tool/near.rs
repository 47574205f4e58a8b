// What is said of names that are not there: which names there are that are near.
use crate::tool::checks::all_known;
use crate::tool::libraries::{library, library_calling};
use std::alloc::{AllocError, Global};
use std::borrow::CowStr;
use std::test::Fail;
use upon::{Engine, Limits};
use upon_data::lines::json;
use upon_html::formatters::Verbatim;
use upon_near::said::{names_text, near_text};
use upon_std::table::{ALL, StandardFunction};
use upon_tool_pages::check::check_text;
use upon_tool_pages::rendering::{Page, show};
use upon_tool_messages::judge::Declared;
use upon_tool_messages::library::Library;

#[test]
fn nearest_names(rt: HostRuntime) -> Result<(), Fail> {
    let alloc = rt.alloc();
    let rows: [(&str, &[&str], &str); 27] = [
        ("prise", &["price"], "there is `price`"),
        ("prise", &["price", "prize", "other"], "there are `price` and `prize`"),
        ("prise", &["prize", "price"], "there are `prize` and `price`"),
        ("prixe", &["price", "prize", "pride"], "there are `price` and `prize`"),
        ("price", &["prices", "prie"], "there are `prices` and `prie`"),
        ("price", &["priceless"], ""),
        ("price", &[], ""),
        ("price", &["name", "title"], ""),
        ("price", &["prce", "rpicee"], "there is `prce`"),
        // Two letters the other way round are one exchange.
        ("titel", &["title", "tile"], "there is `title`"),
        // A third of the letters, at least one.
        ("a", &["b"], "there is `b`"),
        ("a", &["bc"], ""),
        ("ab", &["ac", "cd"], "there is `ac`"),
        ("abc", &["abd"], "there is `abd`"),
        ("abc", &["add"], ""),
        ("abcdef", &["abxxef"], "there is `abxxef`"),
        ("abcdef", &["axxxef"], ""),
        ("abcdefghi", &["xxxdefghi"], "there is `xxxdefghi`"),
        ("abcdefghi", &["xxxxefghi"], ""),
        // The nearest alone, wherever it stands.
        ("abcdef", &["abxxef", "abcdex", "abxdxf"], "there is `abcdex`"),
        ("abcdef", &["abcdex", "abxxef"], "there is `abcdex`"),
        // Letters of more than one byte count once; those of another case are others.
        ("gr\u{fc}n", &["gr\u{e4}n"], "there is `gr\u{e4}n`"),
        ("Name", &["name", "NAME"], "there is `name`"),
        ("\u{1f600}", &["\u{1f601}"], "there is `\u{1f601}`"),
        // A name that is there itself, and one that is too long to be compared.
        ("name", &["name", "nam"], "there is `name`"),
        ("name", &["nam", "name "], "there are `nam` and `name `"),
        ("", &["a", "bc"], "there is `a`"),
    ];
    for (name, names, wanted) in rows {
        let said = near_text(alloc, name, names)?;
        assert_eq!(&rt; text_or_empty(&said), wanted, "of {name} among {names:?}");
    }
    Ok(())
}

fn text_or_empty(text: &Option<String>) -> &str {
    match text {
        Some(text) => text.as_str(),
        None => "",
    }
}

#[test]
fn long_names(rt: HostRuntime) -> Result<(), Fail> {
    let alloc = rt.alloc();
    for (len, wanted) in [(99, true), (100, true), (101, false), (1000, false)] {
        let mut name = String::new(alloc);
        for _ in 0..len {
            name.push('a')?;
        }
        let mut other = name.clone()?;
        drop(other.pop());
        let said = near_text(alloc, name.as_str(), &[other.as_str()])?;
        assert_eq!(&rt; said.is_some(), wanted, "at {len}");
        let said = near_text(alloc, other.as_str(), &[name.as_str()])?;
        assert_eq!(&rt; said.is_some(), wanted, "from {len}");
    }
    Ok(())
}

#[test]
fn listed_names(rt: HostRuntime) -> Result<(), Fail> {
    let alloc = rt.alloc();
    let rows: [(&[&str], &str); 6] = [
        (&[], ""),
        (&["a"], "there is `a`"),
        (&["a", "b"], "there are `a` and `b`"),
        (&["a", "b", "c"], "there are: a, b, c"),
        (
            &["a", "b", "c", "d", "e", "f", "g", "h"],
            "there are: a, b, c, d, e, f, g, h",
        ),
        (
            &["a", "b", "c", "d", "e", "f", "g", "h", "i"],
            "there are: a, b, c, d, e, f, g, h, ..",
        ),
    ];
    for (names, wanted) in rows {
        let said = names_text(alloc, names)?;
        assert_eq!(&rt; text_or_empty(&said), wanted);
    }
    Ok(())
}

// The hint in what is said, or nothing.
fn hint_in(alloc: Global, said: &[u8]) -> Result<String, AllocError> {
    let said = String::from_utf8_lossy(alloc, said)?;
    match said.as_str().rsplit_once("\n   = hint: ") {
        Some((_, hint)) => String::from_str(alloc, hint.trim_end()),
        None => Ok(String::new(alloc)),
    }
}

// The hint that is shown if a template is rendered on a value, or nothing.
fn hint(
    alloc: Global,
    engine: &Engine<'_>,
    library: &Library,
    name: &str,
    text: &str,
) -> Result<String, Fail> {
    let value = json(alloc, text).map_err(|_| Fail::new(format_args!("no JSON: {text}")))?;
    let page = Page {
        name,
        value: &value,
        limits: Limits::none(),
    };
    let mut out = Vec::new(alloc);
    let mut err = Vec::new(alloc);
    show(alloc, engine, library, &page, &mut out, &mut err);
    Ok(hint_in(alloc, err.as_slice())?)
}

#[test]
fn values(rt: HostRuntime) -> Result<(), Fail> {
    let alloc = rt.alloc();
    let data = "{\"price\": 1, \"user\": {\"name\": \"a\", \"mail\": {\"home\": \"b\"}}, \"rows\": [{\"k\": 1}]}";
    for (source, wanted) in [
        ("{{ prise }}", "there is `price`"),
        ("\n\u{e9}  {{ prise }} {{ price }}", "there is `price`"),
        ("{% if usr %}{% endif %}", "there is `user`"),
        ("{% for row in row %}{% endfor %}", "there is `rows`"),
        ("{{ prise.x }}", "there is `price`"),
        ("{{ amount }}", ""),
        ("{{ user.nam }}", "there is `name`"),
        ("{{ user.mial }}", "there is `mail`"),
        ("{{ user.maik }}", "there is `mail`"),
        ("{{ user.mail.hom }}", "there is `home`"),
        ("{{ user?.mail.hom }}", "there is `home`"),
        ("{{ user.mail.office }}", ""),
        ("{% for row in rows %}{{ row.j }}{% endfor %}", ""),
        ("{% for user in rows %}{{ user.j }}{{ user.nam }}{% endfor %}", ""),
        ("{{ price | uper }}", ""),
    ] {
        let mut engine = Engine::new(alloc);
        let files: [(&str, &[u8]); 1] = [("page", source.as_bytes())];
        let library = library(alloc, &mut engine, files.as_slice())?;
        let hint = hint(alloc, &engine, &library, "page", data)?;
        assert_eq!(&rt; hint.as_str(), wanted, "of {source}");
    }
    Ok(())
}

#[test]
fn included_values(rt: HostRuntime) -> Result<(), Fail> {
    let alloc = rt.alloc();
    let files: [(&str, &[u8]); 7] = [
        ("part", b"{{ titel }}"),
        ("page", b"{% include \"part\" %}"),
        ("other scope", b"{% include \"part\" with {\"a\": 1} %}"),
        ("file", b"{% include \"parts\" %}"),
        ("deep", b"{% include \"mail/haed.txt\" %}"),
        ("far", b"{% include \"nothing like it\" %}"),
        ("mail/head.txt", b""),
    ];
    let mut engine = Engine::new(alloc);
    let library = library(alloc, &mut engine, files.as_slice())?;
    for (name, wanted) in [
        ("page", "there is `title`"),
        ("other scope", ""),
        ("file", "there is `part`"),
        ("deep", "there is `mail/head.txt`"),
        ("far", ""),
    ] {
        let hint = hint(alloc, &engine, &library, name, "{\"title\": 1}")?;
        assert_eq!(&rt; hint.as_str(), wanted, "of {name}");
    }
    Ok(())
}

#[test]
fn callables(rt: HostRuntime) -> Result<(), Fail> {
    let alloc = rt.alloc();
    let first = "there are: eq, ne, lt, le, gt, ge, not, and, ..";
    let with_verbatim = "there are: verbatim, eq, ne, lt, le, gt, ge, not, ..";
    for (source, is_standard, has_verbatim, wanted) in [
        ("{{ a | uper }}", true, false, "there is `upper`"),
        ("{{ lowr(a) }}", true, false, "there is `lower`"),
        ("{{ frobnicate(a) }}", true, false, first),
        ("{{ a | frobnicate }}", true, true, with_verbatim),
        ("{{ a | verbatin }}", true, true, "there is `verbatim`"),
        ("{{ a | verbatin }}", true, false, first),
        ("{{ verbatin(a) }}", true, true, "there is `verbatim`"),
        ("{{ upper(verbatin(a)) }}", true, true, first),
        ("{{ upper(lowr(a)) }}", true, true, "there is `lower`"),
        ("{{ a | raw }}", false, true, "there is `verbatim`"),
        ("{{ a | upper }}", false, false, ""),
        ("{{ upper(a) }}", false, true, "there is `verbatim`"),
        ("{% if upper(a) %}{% endif %}", false, true, ""),
    ] {
        let functions: &'static [StandardFunction] = if is_standard {
            ALL.as_slice()
        } else {
            [].as_slice()
        };
        let mut engine = Engine::new(alloc);
        for function in functions {
            let boxed = Box::new(alloc, *function)?;
            engine.add_function(CowStr::Borrowed(function.name()), boxed)?;
        }
        if has_verbatim {
            engine.add_formatter(CowStr::Borrowed("verbatim"), Box::new(alloc, Verbatim)?)?;
        }
        let callables = Declared {
            functions,
            has_verbatim,
            others: [].as_slice(),
        };
        let files: [(&str, &[u8]); 1] = [("page", source.as_bytes())];
        let library = library_calling(alloc, &mut engine, callables, files.as_slice())?;
        let hint = hint(alloc, &engine, &library, "page", "{\"a\": \"x\"}")?;
        assert_eq!(&rt; hint.as_str(), wanted, "of {source}");
    }
    Ok(())
}

#[test]
fn checked_files(rt: HostRuntime) -> Result<(), Fail> {
    let alloc = rt.alloc();
    let files: [(&str, &[u8]); 3] = [("head.txt", b"x"), ("heap.txt", b"y"), ("mail/a \"b\"", b"")];
    let mut engine = Engine::new(alloc);
    let library = library(alloc, &mut engine, files.as_slice())?;
    for (source, wanted) in [
        ("{% include \"head.tx\" %}", "there is `head.txt`"),
        ("{% include \"hea.txt\" %}", "there are `head.txt` and `heap.txt`"),
        ("{% include \"mail/a \\\"c\\\"\" %}", "there is `mail/a \"b\"`"),
        ("{% include \"foot.html\" %}", ""),
    ] {
        let mut err = Vec::new(alloc);
        let source = CowStr::Borrowed(source);
        check_text(alloc, &engine, &library, "own", source, &all_known(), &mut err)?;
        let hint = hint_in(alloc, err.as_slice())?;
        assert_eq!(&rt; hint.as_str(), wanted, "of {wanted}");
    }
    Ok(())
}
