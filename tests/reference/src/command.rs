//! The paper's "Command": a command is cut into tokens, and the first break among them ends the shell line.

#[derive(Clone, Debug, PartialEq, Eq)]
pub struct Command {
    pub shell: Vec<u8>,
    /// None is "no input", which isn't the same as an empty one.
    pub input: Option<Vec<u8>>,
}

#[derive(Clone, Copy)]
enum Token<'a> {
    /// Bytes that mean themselves.
    Text(&'a [u8]),
    /// A `%` that no backslash escapes.
    Break,
}

pub fn split(text: &[u8]) -> Command {
    let tokens = tokens(text);
    let mut parts = tokens.splitn(2, |token| matches!(token, Token::Break));
    Command {
        shell: parts.next().map_or(Vec::new(), written),
        input: parts.next().map(written),
    }
}

fn tokens(mut text: &[u8]) -> Vec<Token<'_>> {
    let mut tokens = Vec::new();
    while !text.is_empty() {
        let (token, length) = match text {
            [b'\\', b'%', ..] => (Token::Text(b"%"), 2),
            [b'\\', _, ..] => (Token::Text(&text[..2]), 2),
            [b'%', ..] => (Token::Break, 1),
            _ => (Token::Text(&text[..1]), 1),
        };
        tokens.push(token);
        text = &text[length..];
    }
    tokens
}

fn written(tokens: &[Token]) -> Vec<u8> {
    let bytes = |token: &Token| match *token {
        Token::Text(text) => text.to_vec(),
        Token::Break => vec![b'\n'],
    };
    tokens.iter().flat_map(bytes).collect()
}

#[cfg(test)]
mod tests {
    use super::*;

    #[test]
    fn known_commands() {
        let rows: [(&str, &str, Option<&str>); 16] = [
            (r"a\%b%c%%d%", "a%b", Some("c\n\nd\n")),
            (
                "mailx john%Happy Birthday!%Time for lunch.",
                "mailx john",
                Some("Happy Birthday!\nTime for lunch."),
            ),
            (
                r#"mail -s "It's 10pm" joe%Joe,%%Where are your kids?%"#,
                r#"mail -s "It's 10pm" joe"#,
                Some("Joe,\n\nWhere are your kids?\n"),
            ),
            ("a", "a", None),
            ("a%", "a", Some("")),
            ("%", "", Some("")),
            ("%%", "", Some("\n")),
            ("%a", "", Some("a")),
            (r"\", r"\", None),
            (r"\%", "%", None),
            (r"\\%", r"\\", Some("")),
            (r"\\\%", r"\\%", None),
            (r"\a%", r"\a", Some("")),
            (r"a%\%", "a", Some("%")),
            (r"a%\\%b", "a", Some("\\\\\nb")),
            (r"a%b\", "a", Some(r"b\")),
        ];
        for (text, shell, input) in rows {
            let command = Command {
                shell: shell.into(),
                input: input.map(Vec::from),
            };
            assert_eq!(split(text.as_bytes()), command, "{text}");
        }
    }
}
