// Options of a call, and the texts of JSON that libupon reads.

/// How templates are read and rendered; `Options::default()` sets nothing.
#[derive(Clone, Copy, Debug, Default)]
pub struct Options<'o> {
    /// The language that values are escaped for: `html`, `json`, `shell` or `yaml`.
    pub escape: Option<&'o str>,
    /// The delimiters: a kind (`expr`, `block` or `comment`), a begin and an end. If there are none,
    /// they are the usual ones.
    pub syntax: &'o [(&'o str, &'o str, &'o str)],
    /// Whether templates may call the standard functions.
    pub functions: bool,
    /// How many templates may be in each other, the first one among them.
    pub max_include_depth: Option<u64>,
    /// How many steps a rendering may take.
    pub max_steps: Option<u64>,
    /// How many bytes a rendering may write.
    pub max_output: Option<u64>,
    /// How many bytes of values a rendering may make.
    pub max_memory: Option<u64>,
}

/// Contexts on which pages are checked.
#[derive(Clone, Copy, Debug)]
pub enum Contexts<'c> {
    /// Those that are as these samples are; each is a context, as JSON.
    Samples(&'c [&'c str]),
    /// Those that are valid by this JSON Schema.
    Schema(&'c str),
}

impl Contexts<'_> {
    // Their key and their JSON.
    fn member(&self) -> (&'static str, String) {
        match self {
            Contexts::Samples(samples) => ("samples", format!("[{}]", samples.join(","))),
            Contexts::Schema(schema) => ("schema", schema.to_string()),
        }
    }
}

impl Options<'_> {
    // The object of JSON that has what is set.
    pub(crate) fn to_json(self) -> String {
        object(self.members().into_iter())
    }

    // The same with contexts, and the names of pages if they are given.
    pub(crate) fn to_json_on(self, contexts: &Contexts, pages: Option<&[&str]>) -> String {
        let names = |pages: &[&str]| pages.iter().map(|name| text(name)).collect::<Vec<String>>().join(",");
        let pages = pages.map(|pages| ("pages", format!("[{}]", names(pages))));
        object(self.members().into_iter().chain([contexts.member()]).chain(pages))
    }

    // The members that are set.
    fn members(self) -> Vec<(&'static str, String)> {
        let triple = |it: &(&str, &str, &str)| format!("[{},{},{}]", text(it.0), text(it.1), text(it.2));
        let triples: Vec<String> = self.syntax.iter().map(triple).collect();
        let number = |limit: Option<u64>| limit.map(|it| it.to_string());
        let members = [
            ("escape", self.escape.map(text)),
            ("syntax", (!triples.is_empty()).then(|| format!("[{}]", triples.join(",")))),
            ("functions", self.functions.then(|| "true".to_string())),
            ("max_include_depth", number(self.max_include_depth)),
            ("max_steps", number(self.max_steps)),
            ("max_output", number(self.max_output)),
            ("max_memory", number(self.max_memory)),
        ];
        members.into_iter().filter_map(|(key, value)| Some((key, value?))).collect()
    }
}

// An object of JSON of keys, and values that are JSON.
pub(crate) fn object<'k>(members: impl Iterator<Item = (&'k str, String)>) -> String {
    let members: Vec<String> = members.map(|(key, value)| format!("{}:{value}", text(key))).collect();
    format!("{{{}}}", members.join(","))
}

// A text as JSON.
pub(crate) fn text(value: &str) -> String {
    let mut quoted = String::from("\"");
    for character in value.chars() {
        match character {
            '"' | '\\' => quoted.extend(['\\', character]),
            '\0'..='\x1f' => quoted.push_str(&format!("\\u{:04x}", character as u32)),
            _ => quoted.push(character),
        }
    }
    quoted.push('"');
    quoted
}
