//! Text as HTML, and the frame of a page: one file, which asks for nothing from elsewhere.

use std::ffi::OsStr;
use std::os::unix::ffi::OsStrExt;

const STYLE: &str = include_str!("style.css");
const KEYS: &str = include_str!("keys.js");

/// What a browser may load: nothing but what stands in the page.
const POLICY: &str = "default-src 'none'; style-src 'unsafe-inline'; script-src 'unsafe-inline'; base-uri 'none'; form-action 'none'";

/// A text in which no character is read as markup, also as an attribute's value.
pub fn escaped(text: &str) -> String {
    let mut out = String::with_capacity(text.len());
    for letter in text.chars() {
        match letter {
            '&' => out += "&amp;",
            '<' => out += "&lt;",
            '>' => out += "&gt;",
            '"' => out += "&quot;",
            '\'' => out += "&#39;",
            letter if letter.is_control() && letter != '\n' => out.push('\u{fffd}'),
            letter => out.push(letter),
        }
    }
    out
}

/// Bytes as text: what is no UTF-8 or a control character becomes U+FFFD, and its direction is kept apart from what stands around it.
pub fn shown(bytes: &[u8]) -> String {
    let text = String::from_utf8_lossy(bytes).replace('\n', "\u{fffd}");
    format!("<bdi>{}</bdi>", escaped(&text))
}

/// A number with commas between its thousands.
pub fn grouped(number: impl Into<u128>) -> String {
    let digits = number.into().to_string();
    let mut out = String::new();
    for (at, digit) in digits.chars().enumerate() {
        if at != 0 && (digits.len() - at).is_multiple_of(3) {
            out.push(',');
        }
        out.push(digit);
    }
    out
}

/// How many of a thing.
pub fn counted(count: usize, one: &str, several: &str) -> String {
    let noun = if count == 1 { one } else { several };
    format!("{} {noun}", grouped(count as u128))
}

fn is_plain(byte: &u8) -> bool {
    byte.is_ascii_alphanumeric() || b"._/-+,:@%".contains(byte)
}

/// A log's name as a word of the shell; standard input has none.
pub fn shell_word(name: &OsStr) -> String {
    let bytes = name.as_bytes();
    let word = match std::str::from_utf8(bytes) {
        _ if name == "-" => "LOG".to_string(),
        Ok(text) if bytes.iter().all(is_plain) => text.to_string(),
        Ok(text) if !text.chars().any(char::is_control) => {
            format!("'{}'", text.replace('\'', r"'\''"))
        }
        _ => {
            let octal = |byte: &u8| match is_plain(byte) {
                true => char::from(*byte).to_string(),
                false => format!("\\{byte:03o}"),
            };
            format!("$'{}'", bytes.iter().map(octal).collect::<String>())
        }
    };
    let dashes = if word.starts_with('-') { "-- " } else { "" };
    escaped(&format!("{dashes}{word}"))
}

/// A table of these rows below a caption; a column is its name, and whether it has numbers.
pub fn table(caption: &str, columns: &[(&str, bool)], rows: &str) -> String {
    let class = |is_number: bool| if is_number { " class=\"number\"" } else { "" };
    let columns = columns
        .iter()
        .map(|(name, is_number)| format!("<th scope=\"col\"{}>{name}</th>", class(*is_number)));
    let columns: String = columns.collect();
    format!(
        "<div class=\"scroll\"><table class=\"list\">\n<caption>{caption}</caption>\n<thead><tr>{columns}</tr></thead>\n\
         <tbody>\n{rows}</tbody></table></div>\n"
    )
}

/// A part of a page: its anchor, its heading and what stands below, as HTML.
pub type Part = (&'static str, &'static str, String);

fn section((name, heading, body): &Part) -> String {
    format!(
        "<section id=\"{name}\" aria-labelledby=\"{name}-heading\">\n<h2 id=\"{name}-heading\">{heading}</h2>\n{body}</section>\n"
    )
}

/// The links to the parts.
fn navigation(parts: &[Part]) -> String {
    let links = parts
        .iter()
        .map(|(name, heading, _)| format!("<li><a href=\"#{name}\">{heading}</a></li>"));
    let links: String = links.collect();
    match links.is_empty() {
        true => String::new(),
        false => format!("<nav aria-label=\"Parts of this page\"><ul>{links}</ul></nav>\n"),
    }
}

/// The whole page; title and header are HTML. Of a long book the browser lays out what is in view.
pub fn page(title: &str, header: &str, parts: &[Part], is_long: bool) -> String {
    let version = env!("CARGO_PKG_VERSION");
    let class = if is_long { " class=\"long\"" } else { "" };
    let (links, body) = (
        navigation(parts),
        parts.iter().map(section).collect::<String>(),
    );
    format!(
        "<!DOCTYPE html>\n<html lang=\"en\">\n<head>\n<meta charset=\"utf-8\">\n\
         <meta name=\"viewport\" content=\"width=device-width, initial-scale=1\">\n\
         <meta http-equiv=\"Content-Security-Policy\" content=\"{POLICY}\">\n\
         <title>{title}</title>\n<style>\n{STYLE}</style>\n</head>\n<body>\n\
         <header>\n{header}{links}</header>\n<main{class}>\n{body}</main>\n\
         <footer>Written by sawmauve {version} from the published file and its book.</footer>\n\
         <script>\n{KEYS}</script>\n</body>\n</html>\n"
    )
}
