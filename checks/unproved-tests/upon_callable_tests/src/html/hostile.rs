// Texts that would be markup, and what is written for each.
use std::alloc::Global;
use upon::{Result, Value, value};

/// A text, and what is written for it.
pub type Row = (&'static str, &'static str);

/// Texts that would be markup, and some that would not.
pub const ROWS: &[Row] = &[
    ("", ""),
    ("Ann", "Ann"),
    (
        "<script>alert(1)</script>",
        "&lt;script&gt;alert(1)&lt;/script&gt;",
    ),
    (
        "\"><img src=x onerror=alert(1)>",
        "&quot;&gt;&lt;img src=x onerror=alert(1)&gt;",
    ),
    ("' onmouseover='alert(1)", "&#39; onmouseover=&#39;alert(1)"),
    ("&lt;b&gt;", "&amp;lt;b&amp;gt;"),
    ("&#60;&", "&amp;#60;&amp;"),
    ("javascript:alert(1)", "javascript:alert(1)"),
    ("<!-- --><![CDATA[", "&lt;!-- --&gt;&lt;![CDATA["),
    ("{{ x }}{% endif %}", "{{ x }}{% endif %}"),
    (
        "\u{65e5}<\u{1f600}>\u{e9}",
        "\u{65e5}&lt;\u{1f600}&gt;\u{e9}",
    ),
    ("\u{ff1c}b\u{ff1e}", "\u{ff1c}b\u{ff1e}"),
    ("a\0<\0\n", "a\0&lt;\0\n"),
];

/// Returns a context with this text.
pub fn context_of(alloc: Global, text: &str) -> Result<Value> {
    value! { in alloc; x: text }
}
