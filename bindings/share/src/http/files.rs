//! The files of the page.

const HTML: &str = "text/html; charset=utf-8";
const CSS: &str = "text/css";
const JS: &str = "text/javascript";

/// A name below the token, its type, and what it has.
pub const FILES: [(&str, &str, &str); 12] = [
    ("", HTML, include_str!("../../../js/index.html")),
    ("page.css", CSS, include_str!("../../../js/page.css")),
    ("page.mjs", JS, include_str!("../../../js/page.mjs")),
    ("answer.mjs", JS, include_str!("../../../js/answer.mjs")),
    ("element.mjs", JS, include_str!("../../../js/element.mjs")),
    ("grid.mjs", JS, include_str!("../../../js/grid.mjs")),
    ("look.mjs", JS, include_str!("../../../js/look.mjs")),
    ("pull.mjs", JS, include_str!("../../../js/pull.mjs")),
    ("reader.mjs", JS, include_str!("../../../js/reader.mjs")),
    (
        "recording.mjs",
        JS,
        include_str!("../../../js/recording.mjs"),
    ),
    ("screen.mjs", JS, include_str!("../../../js/screen.mjs")),
    ("tikeburo.mjs", JS, include_str!("../../../js/tikeburo.mjs")),
];
