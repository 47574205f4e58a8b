// What the words of a call ask for.
use std::alloc::{AllocError, Global};
use std::test::Fail;
use upon_tool_io::arguments::{
    BuildCall, Call, CheckCall, Color, ContextsCall, DataCall, EachCall, Escape, FitCall, NamesCall,
    RenderCall, ShapeCall, read,
};

// The words ask for this, as one text.
fn asks(alloc: Global, words: &[&str], wanted: &str) -> Result<(), Fail> {
    let mut owned = Vec::new(alloc);
    for word in words {
        owned.push(String::from_str(alloc, word)?)?;
    }
    let line = match read(alloc, owned.as_slice()) {
        Ok(Call::Render(call)) => render_line(alloc, &call)?,
        Ok(Call::Check(call)) => check_line(alloc, &call)?,
        Ok(Call::Fit(call)) => fit_line(alloc, &call)?,
        Ok(Call::Shape(call)) => shape_line(alloc, &call)?,
        Ok(Call::Names(call)) => names_line(alloc, &call)?,
        Ok(Call::Each(call)) => each_line(alloc, &call)?,
        Ok(Call::Build(call)) => build_line(alloc, &call)?,
        Err(error) => format!(in alloc; "{:?}", error.kind())?,
    };
    if line.as_str() == wanted {
        Ok(())
    } else {
        Err(Fail::new(format_args!("{line:?} in place of {wanted:?}")))
    }
}

// When there are colors, if that is asked for, after a blank.
fn color_text(color: Color) -> &'static str {
    match color {
        Color::Auto => "",
        Color::Always => " always",
        Color::Never => " never",
    }
}

// Whether the environment is asked for.
fn env_text(env: bool) -> &'static str {
    if env { " env" } else { "" }
}

fn render_line(alloc: Global, call: &RenderCall<'_>) -> Result<String, AllocError> {
    let RenderCall {
        file,
        data,
        templates,
        follow,
        escape,
        standard,
        out,
        max_steps,
        max_output,
        max_memory,
        color,
    } = call;
    let limits = format!(in alloc; "{max_steps:?} {max_output:?} {max_memory:?}")?;
    let writing = format!(in alloc; "{escape:?} {standard}")?;
    let said = data_text(alloc, data)?;
    let (env, color) = (env_text(data.env), color_text(*color));
    format!(in alloc; "{file} {said} {templates:?} {follow} {writing} {out:?} {limits}{env}{color}")
}

fn check_line(alloc: Global, call: &CheckCall<'_>) -> Result<String, AllocError> {
    let CheckCall {
        files,
        templates,
        follow,
        escape,
        standard,
        functions,
        color,
    } = call;
    let called = called_text(alloc, *escape, *standard, functions.as_slice())?;
    let color = color_text(*color);
    format!(in alloc; "{files:?} {templates:?} {follow}{called}{color}")
}

fn fit_line(alloc: Global, call: &FitCall<'_>) -> Result<String, AllocError> {
    let FitCall { check, contexts } = call;
    let check = check_line(alloc, check)?;
    let contexts = contexts_text(alloc, contexts)?;
    format!(in alloc; "{check} on {contexts}")
}

fn shape_line(alloc: Global, call: &ShapeCall<'_>) -> Result<String, AllocError> {
    let ShapeCall { contexts, color } = call;
    let contexts = contexts_text(alloc, contexts)?;
    let color = color_text(*color);
    format!(in alloc; "shape of {contexts}{color}")
}

// The contexts of a check.
fn contexts_text(alloc: Global, contexts: &ContextsCall<'_>) -> Result<String, AllocError> {
    let ContextsCall { schema, data } = contexts;
    let said = data_text(alloc, data)?;
    let env = env_text(data.env);
    format!(in alloc; "{schema:?} {said}{env}")
}

// The words of data.
fn data_text(alloc: Global, data: &DataCall<'_>) -> Result<String, AllocError> {
    let DataCall {
        files,
        format,
        set_json,
        set,
        ..
    } = data;
    format!(in alloc; "{files:?} {format:?} {set_json:?} {set:?}")
}

// What a check says of what templates may call, if it does.
fn called_text(
    alloc: Global,
    escape: Option<Escape>,
    standard: bool,
    functions: &[&str],
) -> Result<String, AllocError> {
    if escape.is_none() && !standard && functions.is_empty() {
        return Ok(String::new(alloc));
    }
    format!(in alloc; " {escape:?} {standard} {functions:?}")
}

fn names_line(alloc: Global, call: &NamesCall<'_>) -> Result<String, AllocError> {
    let NamesCall {
        file,
        templates,
        follow,
        json,
        color,
    } = call;
    let color = color_text(*color);
    format!(in alloc; "{file} {templates:?} {follow} {json}{color}")
}

fn each_line(alloc: Global, call: &EachCall<'_>) -> Result<String, AllocError> {
    let EachCall {
        render,
        key,
        name,
        out,
        keep_going,
    } = call;
    let file = render.file;
    let (env, color) = (env_text(render.data.env), color_text(render.color));
    format!(in alloc; "{file} {key} {name} {out} {keep_going}{env}{color}")
}

fn build_line(alloc: Global, call: &BuildCall<'_>) -> Result<String, AllocError> {
    let BuildCall {
        render,
        layout,
        out,
        keep_going,
    } = call;
    let file = render.file;
    let follow = render.follow;
    let (env, color) = (env_text(render.data.env), color_text(render.color));
    format!(in alloc; "{file} {layout:?} {out} {keep_going} {follow}{env}{color}")
}

#[test]
fn many_pages(rt: HostRuntime) -> Result<(), Fail> {
    let alloc = rt.alloc();
    let each = ["t", "render", "a", "--each", "k", "--name", "n", "--out", "o"];
    asks(alloc, each.as_slice(), "a k n o false")?;
    let keeps = [
        "t",
        "render",
        "--keep-going",
        "--name=",
        "--out=o",
        "--each=",
        "a",
    ];
    asks(alloc, keeps.as_slice(), "a   o true")?;
    asks(alloc, &["t", "render", "a", "--each", "k"], "MissingRequiredArgument")?;
    asks(alloc, &["t", "render", "a", "--name", "n"], "MissingRequiredArgument")?;
    asks(alloc, &["t", "render", "a", "--keep-going"], "MissingRequiredArgument")?;
    asks(alloc, &["t", "build", "a", "--out", "o"], "a None o false false")?;
    let whole = [
        "t",
        "build",
        "--layout",
        "l",
        "--out=o",
        "--keep-going",
        "--follow",
        "a",
    ];
    asks(alloc, whole.as_slice(), "a Some(\"l\") o true true")?;
    asks(alloc, &["t", "build", "a"], "MissingRequiredArgument")?;
    asks(alloc, &["t", "build", "--out", "o"], "MissingRequiredArgument")?;
    asks(alloc, &["t", "build", "a", "--each", "k"], "UnknownArgument")
}

#[test]
fn renderings(rt: HostRuntime) -> Result<(), Fail> {
    let alloc = rt.alloc();
    asks(alloc, &["t", "render", "a"], "a [] None [] [] None false None false None None None None")?;
    let words = [
        "t",
        "render",
        "--html",
        "--set",
        "k=v",
        "a",
        "--set=k=-w",
        "--data",
        "-",
        "--out",
        "o",
    ];
    asks(
        alloc,
        words.as_slice(),
        "a [\"-\"] None [] [\"k=v\", \"k=-w\"] None false Some(Html) false Some(\"o\") None None None",
    )?;
    let words = ["t", "render", "--templates", "d", "--follow", "--", "-a"];
    asks(alloc, words.as_slice(), "-a [] None [] [] Some(\"d\") true None false None None None None")
}

#[test]
fn data(rt: HostRuntime) -> Result<(), Fail> {
    let alloc = rt.alloc();
    let ends = "None false None false None None None None";
    for (words, said) in [
        (["--data", "b", "--data=k=c"], "[\"b\", \"k=c\"] None [] []"),
        (["--data=-", "--format", "toml"], "[\"-\"] Some(\"toml\") [] []"),
        (["--format=csv", "--set", "k=v"], "[] Some(\"csv\") [] [\"k=v\"]"),
        (["--set-json=k=1", "--set-json", "a.b=[]"], "[] None [\"k=1\", \"a.b=[]\"] []"),
        (["--set-json=k", "--set", ""], "[] None [\"k\"] [\"\"]"),
    ] {
        let [first, second, third] = words;
        let wanted = format!(in alloc; "a {said} {ends}")?;
        asks(alloc, &["t", "render", "a", first, second, third], wanted.as_str())?;
    }
    for (words, wanted) in [
        (["--format", "xml"], "InvalidValue"),
        (["--format", "JSON"], "InvalidValue"),
        (["--format=csv", "--format=csv"], "ArgumentConflict"),
        (["--set-json", "--data"], "InvalidValue"),
    ] {
        let [first, second] = words;
        asks(alloc, &["t", "render", "a", first, second], wanted)?;
        asks(alloc, &["t", "check", "a", first, second], wanted)?;
        asks(alloc, &["t", "names", "a", first], "UnknownArgument")?;
    }
    Ok(())
}

#[test]
fn environment_and_colors(rt: HostRuntime) -> Result<(), Fail> {
    let alloc = rt.alloc();
    let each = ["t", "render", "a", "--each=k", "--name=n", "--out=o", "--env"];
    asks(alloc, each.as_slice(), "a k n o false env")?;
    let built = ["t", "build", "a", "--out=o", "--color=never", "--env"];
    asks(alloc, built.as_slice(), "a None o false false env never")?;
    for (word, said) in [
        ("--color=auto", ""),
        ("--color=always", " always"),
        ("--color=never", " never"),
    ] {
        let render = format!(in alloc; "a [] None [] [] None false None false None None None None{said}")?;
        asks(alloc, &["t", "render", "a", word], render.as_str())?;
        let check = format!(in alloc; "[\"a\"] None false{said}")?;
        asks(alloc, &["t", "check", word, "a"], check.as_str())?;
        let names = format!(in alloc; "a None false false{said}")?;
        asks(alloc, &["t", "names", word, "a"], names.as_str())?;
    }
    for command in ["render", "check", "names"] {
        asks(alloc, &["t", command, "a", "--color=red"], "InvalidValue")?;
        asks(alloc, &["t", command, "a", "--color"], "InvalidValue")?;
        asks(alloc, &["t", command, "a", "--color=auto", "--color=auto"], "ArgumentConflict")?;
    }
    asks(alloc, &["t", "render", "a", "--env", "--env"], "ArgumentConflict")?;
    asks(alloc, &["t", "render", "a", "--env=PATH"], "TooManyValues")?;
    asks(alloc, &["t", "names", "a", "--env"], "UnknownArgument")
}

#[test]
fn languages(rt: HostRuntime) -> Result<(), Fail> {
    let alloc = rt.alloc();
    for (words, writing) in [
        (["--escape", "html"], "Some(Html) false"),
        (["--escape", "json"], "Some(Json) false"),
        (["--escape", "shell"], "Some(Shell) false"),
        (["--escape=yaml", "--html"], "Some(Yaml) false"),
        (["--html", "--std"], "Some(Html) true"),
        (["--escape=json", "--std"], "Some(Json) true"),
    ] {
        let wanted = format!(in alloc; "a [] None [] [] None false {writing} None None None None")?;
        let [first, second] = words;
        asks(alloc, &["t", "render", "a", first, second], wanted.as_str())?;
    }
    asks(alloc, &["t", "render", "a", "--escape", "xml"], "InvalidValue")?;
    asks(alloc, &["t", "render", "a", "--escape"], "InvalidValue")?;
    asks(alloc, &["t", "render", "a", "--std", "--std"], "ArgumentConflict")?;
    asks(alloc, &["t", "names", "a", "--escape", "json"], "UnknownArgument")
}

#[test]
fn limits(rt: HostRuntime) -> Result<(), Fail> {
    let alloc = rt.alloc();
    for (word, limits) in [
        ("--max-steps=0", "Some(0) None None"),
        ("--max-output=0", "None Some(0) None"),
        ("--max-memory=0", "None None Some(0)"),
        ("--max-steps=18446744073709551615", "Some(18446744073709551615) None None"),
        ("--max-output=18446744073709551615", "None Some(18446744073709551615) None"),
    ] {
        let wanted = format!(in alloc; "a [] None [] [] None false None false None {limits}")?;
        asks(alloc, &["t", "render", "a", word], wanted.as_str())?;
    }
    let words = ["t", "render", "--max-output", "20", "a", "--max-steps", "007"];
    asks(alloc, words.as_slice(), "a [] None [] [] None false None false None Some(7) Some(20) None")
}

#[test]
fn limits_that_are_refused(rt: HostRuntime) -> Result<(), Fail> {
    let alloc = rt.alloc();
    for option in ["--max-steps", "--max-output", "--max-memory"] {
        for (number, wanted) in [
            ("x", "ValueValidation"),
            ("1x", "ValueValidation"),
            ("1.5", "ValueValidation"),
            ("1e3", "ValueValidation"),
            ("-1", "ValueValidation"),
            (" 1", "ValueValidation"),
            ("18446744073709551616", "ValueValidation"),
            ("", "ValueValidation"),
        ] {
            let word = format!(in alloc; "{option}={number}")?;
            asks(alloc, &["t", "render", "a", word.as_str()], wanted)?;
        }
        asks(alloc, &["t", "render", "a", option], "InvalidValue")?;
        asks(alloc, &["t", "render", "a", option, "-1"], "UnknownArgument")?;
        asks(alloc, &["t", "render", "a", option, "1", option, "1"], "ArgumentConflict")?;
        asks(alloc, &["t", "check", "a", option, "1"], "UnknownArgument")?;
        asks(alloc, &["t", "names", "a", option, "1"], "UnknownArgument")?;
    }
    Ok(())
}

#[test]
fn checks(rt: HostRuntime) -> Result<(), Fail> {
    let alloc = rt.alloc();
    asks(alloc, &["t", "check", "a", "b"], "[\"a\", \"b\"] None false")?;
    let words = ["t", "check", "--templates", "d", "--follow"];
    asks(alloc, words.as_slice(), "[] Some(\"d\") true")?;
    for (word, wanted) in [
        ("--std", "[\"a\"] None false None true []"),
        ("--html", "[\"a\"] None false Some(Html) false []"),
        ("--escape=yaml", "[\"a\"] None false Some(Yaml) false []"),
        ("--function=f", "[\"a\"] None false None false [\"f\"]"),
        ("--escape=xml", "InvalidValue"),
        ("--function", "InvalidValue"),
    ] {
        asks(alloc, &["t", "check", "a", word], wanted)?;
    }
    let words = ["t", "check", "--function", "f", "a", "--function=g", "--std"];
    asks(alloc, words.as_slice(), "[\"a\"] None false None true [\"f\", \"g\"]")?;
    asks(alloc, &["t", "render", "a", "--function=f"], "UnknownArgument")?;
    asks(alloc, &["t", "names", "a", "--std"], "UnknownArgument")
}

#[test]
fn checks_on_contexts(rt: HostRuntime) -> Result<(), Fail> {
    let alloc = rt.alloc();
    let begins = "[\"a\"] None false on";
    for (words, contexts) in [
        (["--data", "b", "--data=k=c"], "None [\"b\", \"k=c\"] None [] []"),
        (["--data=-", "--format", "toml"], "None [\"-\"] Some(\"toml\") [] []"),
        (["--set-json=k=1", "--set", "k=v"], "None [] None [\"k=1\"] [\"k=v\"]"),
        (["--set=", "--env", "--set=a"], "None [] None [] [\"\", \"a\"] env"),
        (["--env", "--format", "csv"], "None [] Some(\"csv\") [] [] env"),
        (["--schema", "s", "--color=auto"], "Some(\"s\") [] None [] []"),
        (["--schema=-", "--color", "never"], "Some(\"-\") [] None [] [] never"),
    ] {
        let [first, second, third] = words;
        let wanted = match contexts.strip_suffix(" never") {
            Some(contexts) => format!(in alloc; "[\"a\"] None false never on {contexts}")?,
            None => format!(in alloc; "{begins} {contexts}")?,
        };
        asks(alloc, &["t", "check", "a", first, second, third], wanted.as_str())?;
    }
    let words = [
        "t", "check", "--std", "--data", "c", "a", "--templates=d", "--html", "b",
    ];
    asks(
        alloc,
        words.as_slice(),
        "[\"a\", \"b\"] Some(\"d\") false Some(Html) true [] on None [\"c\"] None [] []",
    )?;
    asks(alloc, &["t", "check", "a", "--format=csv"], "[\"a\"] None false")
}

#[test]
fn shapes(rt: HostRuntime) -> Result<(), Fail> {
    let alloc = rt.alloc();
    for (words, wanted) in [
        (["--data=a", "--data=k=b"], "shape of None [\"a\", \"k=b\"] None [] []"),
        (["--schema=s", "--html"], "shape of Some(\"s\") [] None [] []"),
        (["--env", "--color=never"], "shape of None [] None [] [] env never"),
        (["--set=a=b", "--format=toml"], "shape of None [] Some(\"toml\") [] [\"a=b\"]"),
        (["--set-json=a=1", "--std"], "shape of None [] None [\"a=1\"] []"),
    ] {
        let [first, second] = words;
        asks(alloc, &["t", "check", first, "--shape-out", second], wanted)?;
    }
    Ok(())
}

#[test]
fn contexts_that_are_refused(rt: HostRuntime) -> Result<(), Fail> {
    let alloc = rt.alloc();
    for (words, wanted) in [
        (["a", "--schema=s", "--data=b"], "ArgumentConflict"),
        (["a", "--schema=s", "--env"], "ArgumentConflict"),
        (["a", "--schema=s", "--set=a=b"], "ArgumentConflict"),
        (["a", "--schema=s", "--set-json=a=1"], "ArgumentConflict"),
        (["a", "--schema=s", "--format=csv"], "ArgumentConflict"),
        (["a", "--schema=s", "--schema=t"], "ArgumentConflict"),
        (["a", "--shape-out", "--data=b"], "ArgumentConflict"),
        (["--templates=d", "--shape-out", "--data=b"], "ArgumentConflict"),
        (["--data=b", "--shape-out", "--shape-out"], "ArgumentConflict"),
        (["a", "--data=b", "--schema"], "InvalidValue"),
        (["a", "--data=b", "--data"], "InvalidValue"),
        (["--std", "--shape-out", "--format=csv"], "MissingRequiredArgument"),
        (["--std", "--html", "--data=b"], "MissingRequiredArgument"),
        (["--std", "--html", "--schema=s"], "MissingRequiredArgument"),
        (["--follow", "--templates=d", "--data=b"], "MissingRequiredArgument"),
        (["--follow", "--templates=d", "--schema=s"], "MissingRequiredArgument"),
        (["a", "--data=b", "--out=c"], "UnknownArgument"),
    ] {
        let [first, second, third] = words;
        asks(alloc, &["t", "check", first, second, third], wanted)?;
    }
    asks(alloc, &["t", "render", "a", "--schema=s"], "UnknownArgument")?;
    asks(alloc, &["t", "build", "a", "--shape-out"], "UnknownArgument")?;
    asks(alloc, &["t", "names", "a", "--data=b"], "UnknownArgument")
}

#[test]
fn lists(rt: HostRuntime) -> Result<(), Fail> {
    let alloc = rt.alloc();
    asks(alloc, &["t", "names", "a"], "a None false false")?;
    let words = ["t", "names", "--json", "--templates", "d", "-"];
    asks(alloc, words.as_slice(), "- Some(\"d\") false true")
}

#[test]
fn refusals(rt: HostRuntime) -> Result<(), Fail> {
    let alloc = rt.alloc();
    asks(alloc, &["t"], "MissingSubcommand")?;
    asks(alloc, &["t", "render"], "MissingRequiredArgument")?;
    asks(alloc, &["t", "check"], "MissingRequiredArgument")?;
    asks(alloc, &["t", "names"], "MissingRequiredArgument")?;
    asks(alloc, &["t", "render", "a", "b"], "UnknownArgument")?;
    asks(
        alloc,
        &["t", "render", "a", "--out", "b", "--out", "c"],
        "ArgumentConflict",
    )?;
    asks(alloc, &["t", "--help"], "DisplayHelp")
}
