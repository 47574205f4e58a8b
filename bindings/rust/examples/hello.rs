// Greets by a template.
fn main() -> Result<(), upon_proved::Error> {
    let text = upon_proved::render_text("Hello {{ name }}!", r#"{"name": "John"}"#, &Default::default())?;
    println!("{text}");
    Ok(())
}
