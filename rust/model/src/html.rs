//! What every page is made of: one file that stands alone, without a script or the network.

use std::fmt::Write;

const STYLE: &str = include_str!("page.css");

pub fn escaped(text: &str) -> String {
    text.replace('&', "&amp;").replace('<', "&lt;").replace('>', "&gt;").replace('"', "&quot;")
}

/// A page under a name that is text, with a body and a footer that are HTML.
pub fn page(name: &str, footer: &str, body: impl FnOnce(&mut String)) -> String {
    let mut out = format!(
        "<!doctype html>\n<html lang=\"en\">\n<head>\n<meta charset=\"utf-8\">\n\
         <meta name=\"viewport\" content=\"width=device-width, initial-scale=1\">\n<title>{}</title>\n\
         <style>\n{STYLE}</style>\n</head>\n<body>\n<main>\n",
        escaped(name)
    );
    body(&mut out);
    let _ = write!(out, "<footer>{footer}</footer>\n</main>\n</body>\n</html>\n");
    out
}

/// A table whose cells are HTML; on a narrow screen it is moved by itself.
pub fn table<const N: usize>(out: &mut String, head: [&str; N], rows: impl IntoIterator<Item = [String; N]>) {
    let _ = writeln!(out, "<div class=\"scroll\"><table>\n<tr><th>{}</th></tr>", head.join("</th><th>"));
    for row in rows {
        let _ = writeln!(out, "<tr><td>{}</td></tr>", row.join("</td><td>"));
    }
    out.push_str("</table></div>\n");
}
