// Tests of the examples of docs/EXAMPLES.md.
use std::alloc::Global;
use std::test::Fail;
use upon_examples::examples::{configuration, getters, greeting, letter, mail, page};

#[test]
fn renders_a_page(rt: HostRuntime) -> std::result::Result<(), Fail> {
    let text = page(rt.alloc())?;
    assert_eq!(rt;
        text.as_str(),
        "<ul>\n<li>Hello (2)</li>\n<li>More</li>\n</ul>\n"
    );
    Ok(())
}

#[test]
fn writes_a_mail(rt: HostRuntime) -> std::result::Result<(), Fail> {
    let text = mail(rt.alloc(), "Ann")?;
    assert_eq!(rt; text.as_str(), "Dear Ann,\n\n{{ your bill is late }}\n");
    Ok(())
}

#[test]
fn generates_code(rt: HostRuntime) -> std::result::Result<(), Fail> {
    let text = getters(rt.alloc())?;
    assert_eq!(rt;
        text.as_str(),
        "fn get_height(&self) -> u32;\nfn get_width(&self) -> u32;\n"
    );
    Ok(())
}

#[test]
fn renders_a_configuration(rt: HostRuntime) -> std::result::Result<(), Fail> {
    let text = configuration(rt.alloc())?;
    assert_eq!(rt; text.as_str(), "host = localhost\nport = 80\n");
    Ok(())
}

#[test]
fn writes_a_letter(rt: HostRuntime) -> std::result::Result<(), Fail> {
    let text = letter(rt.alloc())?;
    assert_eq!(rt; text.as_str(), "Dear Ann,\nthank you.\n");
    Ok(())
}

// The line of the fault with which a template of others ends.
fn fault_of(alloc: Global, theirs: &str) -> std::result::Result<String, Fail> {
    match greeting(alloc, theirs) {
        Ok(_) => Err(Fail::new("no fault")),
        Err(error) => Ok(error.to_string(alloc)?),
    }
}

#[test]
fn runs_templates_of_others(rt: HostRuntime) -> std::result::Result<(), Fail> {
    let alloc = rt.alloc();
    let text = greeting(alloc, "Hi {{ name }}!")?;
    assert_eq!(&rt; text.as_str(), "Hi Ann!");
    let line = fault_of(alloc, "{{ secret }}")?;
    assert_eq!(&rt; line.as_str(), "render error: not found in this scope");
    let line = fault_of(alloc, "{% include \"theirs\" %}")?;
    assert_eq!(&rt;
        line.as_str(),
        "render error: reached maximum include depth (2)"
    );
    Ok(())
}
