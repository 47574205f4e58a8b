// speed-of-tera html FILE TIMES: escapes a text so often by the crate tera, for `checks/measure html`.
use std::hint::black_box;

fn main() {
    let words: Vec<String> = std::env::args().collect();
    let text = std::fs::read_to_string(&words[2]).expect("a text");
    let times: usize = words[3].parse().expect("a number");
    for _ in 0..times {
        black_box(tera::escape_html(black_box(&text)));
    }
    println!("done");
}
