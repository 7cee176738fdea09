//! The arrays of a Rattle source and their bytes, read from its text, strings among
//! them. What cannot be read is told too, so that no array is passed over.

/// The bytes of an element by its type, or by its value where that tells no type.
const TYPES: [(&str, usize); 8] = [
    ("u8", 1),
    ("u16", 2),
    ("u32", 4),
    ("u64", 8),
    ("usize", 8),
    ("bool", 1),
    ("true", 1),
    ("false", 1),
];

const QUOTE: char = '"';

/// The words that a clause or a ghost member begins with.
const CLAUSES: [&str; 3] = ["requires", "ensures", "ghost"];

/// A word, a string or a sign of a source and its place there.
struct Token<'a> {
    at: usize,
    text: &'a str,
}

/// The words, strings and signs of a source that are code.
fn tokens(source: &str) -> Vec<Token<'_>> {
    let mut tokens = Vec::new();
    let mut at = 0;
    while at < source.len() {
        let rest = &source[at..];
        let mut length = no_code(rest);
        if length == 0 {
            length = word(rest);
            let text = &rest[..length];
            tokens.push(Token { at, text });
        }
        at += length;
    }
    tokens
}

/// The length of what is no code at the front of a text: a space, a comment, a
/// clause, an import for clauses, or a character. What nothing closes is code.
fn no_code(text: &str) -> usize {
    let first = text.chars().next().unwrap_or_default();
    match first {
        'g' if text.starts_with("ghost use ") => text.find(';').map_or(0, |end| end + 1),
        _ if CLAUSES.contains(&&text[..word(text)]) => clause(text),
        '\'' => character(text),
        '/' if text.starts_with("//") => text.find('\n').unwrap_or(text.len()),
        _ if first.is_whitespace() => first.len_utf8(),
        _ => 0,
    }
}

/// The length of a clause or a ghost member at the front of a text: its word, its
/// name if it has one, and what stands in its braces. 0 if they are not closed.
fn clause(text: &str) -> usize {
    let Some(start) = text.find('{') else {
        return 0;
    };
    let mut depth = 0;
    for (at, sign) in text[start..].char_indices() {
        match sign {
            '{' => depth += 1,
            '}' if depth == 1 => return start + at + 1,
            '}' => depth -= 1,
            _ => {}
        }
    }
    0
}

/// The length of a string with its quotes, 0 if it does not end on its line.
fn string(text: &str) -> usize {
    let mut escaped = false;
    for (at, sign) in text.char_indices().skip(1) {
        match sign {
            '\n' => return 0,
            QUOTE if !escaped => return at + 1,
            _ => escaped = sign == '\\' && !escaped,
        }
    }
    0
}

/// The length of a character with its quotes, 0 for a lifetime.
fn character(text: &str) -> usize {
    let signs: Vec<char> = text.chars().take(3).collect();
    match signs[..] {
        [_, '\\', sign] => {
            let behind = 2 + sign.len_utf8();
            text[behind..].find('\'').map_or(0, |end| behind + end + 1)
        }
        [_, sign, '\''] => 2 + sign.len_utf8(),
        _ => 0,
    }
}

/// The length of the word, the string or the sign at the front of a text.
fn word(text: &str) -> usize {
    let sign = text.chars().next().map_or(0, char::len_utf8);
    if text.starts_with(QUOTE) {
        return string(text).max(sign);
    }
    let end = text.find(|sign: char| !sign.is_alphanumeric() && sign != '_');
    end.unwrap_or(text.len()).max(sign)
}

/// How much deeper in brackets the code behind a sign stands.
fn deeper(token: &Token) -> isize {
    match token.text {
        "(" | "[" | "{" => 1,
        ")" | "]" | "}" => -1,
        _ => 0,
    }
}

/// What stands in the bracket at the front, if that is closed.
fn inside<'a>(tokens: &'a [Token<'a>]) -> Option<&'a [Token<'a>]> {
    let mut depth = 0;
    let end = tokens.iter().position(|token| {
        depth += deeper(token);
        depth == 0
    })?;
    (tokens[end].text == "]").then(|| &tokens[1..end])
}

/// The parts between the signs of a kind that stand in no further bracket.
fn parts<'a>(tokens: &'a [Token<'a>], sign: &str) -> Vec<&'a [Token<'a>]> {
    let mut depth = 0;
    let parted = tokens.split(|token| {
        depth += deeper(token);
        depth == 0 && token.text == sign
    });
    parted.collect()
}

/// The constants of the library by their names, `NAME` or `Type::NAME`, each with
/// its number if it is given as one.
pub type Constants = Vec<(String, Option<usize>)>;

/// The constants of a source.
pub fn constants(source: &str) -> Constants {
    let tokens = tokens(source);
    let words: Vec<&str> = tokens.iter().map(|token| token.text).collect();
    let (mut owner, mut depth) = (String::new(), 0);
    let mut constants = Vec::new();
    for (at, token) in tokens.iter().enumerate() {
        depth += deeper(token);
        match &words[at..] {
            ["impl", name, "{", ..] => owner = format!("{name}::"),
            ["}", ..] if depth == 0 => owner.clear(),
            ["const", name, ":", value @ ..] => {
                constants.push((format!("{owner}{name}"), given(value)));
            }
            _ => {}
        }
    }
    constants
}

/// The number of a constant, by its type and what follows.
fn given(value: &[&str]) -> Option<usize> {
    match value {
        [_, "=", number, ";", ..] => whole(number),
        _ => None,
    }
}

/// A number as the source writes it.
fn whole(text: &str) -> Option<usize> {
    let digits = text.strip_suffix("usize").unwrap_or(text);
    digits.replace('_', "").parse().ok()
}

/// The number of a constant by its path, where a type begins with a capital and a
/// module does not. None if it is unknown or has another number elsewhere.
fn constant(path: &str, constants: &Constants) -> Option<usize> {
    let (owners, name) = path.rsplit_once("::").unwrap_or(("", path));
    let owner = owners.rsplit("::").next().unwrap_or_default();
    let name = if owner.starts_with(char::is_uppercase) {
        format!("{owner}::{name}")
    } else {
        name.to_string()
    };
    let mut known = constants.iter().filter(|known| known.0 == name);
    let number = known.next()?.1?;
    known.all(|other| other.1 == Some(number)).then_some(number)
}

/// How long an array is: a sum of products of numbers and constants.
fn length(tokens: &[Token], constants: &Constants) -> Option<usize> {
    let factor = |tokens: &[Token]| {
        let text: String = tokens.iter().map(|token| token.text).collect();
        whole(&text).or_else(|| constant(&text, constants))
    };
    let product = |tokens| {
        let factors = parts(tokens, "*").into_iter().map(factor);
        factors.product::<Option<usize>>()
    };
    parts(tokens, "+").into_iter().map(product).sum()
}

/// The bytes of an element: a type, a value that ends with its type, or an array.
fn element(tokens: &[Token], constants: &Constants) -> Option<usize> {
    if let [token] = tokens {
        return plain(token.text);
    }
    let inside = inside(tokens)?;
    let all = inside.len() + 2 == tokens.len();
    all.then(|| bytes(inside, constants))?
}

/// The bytes of a number or truth value, by its type.
fn plain(text: &str) -> Option<usize> {
    let of_type = |name: &str| {
        let value = text.strip_suffix(name);
        value.is_some_and(|value| value.is_empty() || whole(value).is_some())
    };
    let known = TYPES.iter().find(|(name, _)| of_type(name));
    known.map(|(_, bytes)| *bytes)
}

/// The bytes of an array by what stands in its brackets, if they can be read.
fn bytes(inside: &[Token], constants: &Constants) -> Option<usize> {
    match parts(inside, ";")[..] {
        [value, number] => element(value, constants)?.checked_mul(length(number, constants)?),
        [list] => {
            let listed = parts(list, ",").into_iter().filter(|part| !part.is_empty());
            listed.map(|part| element(part, constants)).sum()
        }
        _ => None,
    }
}

/// The bytes of an array that a number is made of, by the words before it, which
/// begin with the number's type.
fn of_number(before: &[Token]) -> Option<usize> {
    let words: Vec<&str> = before.iter().rev().take(5).map(|t| t.text).collect();
    match words[..] {
        ["(", "from_le_bytes", ":", ":", name] => plain(name),
        _ => None,
    }
}

/// Whether what stands in brackets makes an array, `X; N` or a list. An index, a
/// slice, its type and an attribute have neither sign.
fn is_array(inside: &[Token]) -> bool {
    [";", ","].iter().any(|sign| parts(inside, sign).len() > 1)
}

/// An array of a source, or a sign that nothing closes: its line, the text of the
/// line, and its bytes if they can be read.
pub struct Array<'a> {
    pub line: usize,
    pub text: &'a str,
    pub bytes: Option<usize>,
}

/// The bytes between the quotes of a string, none if nothing closes it.
fn quoted(text: &str) -> Option<usize> {
    text.len().checked_sub(2)
}

/// All arrays of a source, those within others too, and its strings.
pub fn arrays<'a>(source: &'a str, constants: &Constants) -> Vec<Array<'a>> {
    let tokens = tokens(source);
    let mut arrays = Vec::new();
    for (index, token) in tokens.iter().enumerate() {
        let bytes = match token.text {
            "[" => match inside(&tokens[index..]) {
                Some(inside) if !is_array(inside) => continue,
                inside => inside
                    .and_then(|inside| bytes(inside, constants))
                    .or_else(|| of_number(&tokens[..index])),
            },
            "requires" | "ensures" | "ghost" => None,
            text if text.starts_with(QUOTE) => quoted(text),
            _ => continue,
        };
        let line = source[..token.at].matches('\n').count();
        arrays.push(Array {
            line: line + 1,
            text: source.lines().nth(line).unwrap_or_default().trim(),
            bytes,
        });
    }
    arrays
}
