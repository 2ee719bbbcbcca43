//! The words of a text, and the bracketed groups among them.

const ALONE: [char; 8] = ['(', ')', '{', '}', '[', ']', ',', ';'];

/// The text cut at spaces; brackets, commas and semicolons are words of their own.
pub fn words(text: &str) -> Vec<&str> {
    let mut found = Vec::new();
    for piece in text.split_whitespace() {
        let mut rest = piece;
        while let Some(at) = rest.find(ALONE) {
            let behind = rest[at..]
                .chars()
                .next()
                .map_or(at, |sign| at + sign.len_utf8());
            found.extend([&rest[..at], &rest[at..behind]]);
            rest = &rest[behind..];
        }
        found.push(rest);
    }
    found.retain(|word| !word.is_empty());
    found
}

/// The text without what stands behind this sign of a comment in each line.
pub fn without_comments(text: &str, sign: &str) -> String {
    let lines = text
        .lines()
        .map(|line| line.split(sign).next().unwrap_or(""));
    lines.collect::<Vec<&str>>().join("\n")
}

/// What stands between the bracket that the words begin with and the one that closes it.
pub fn group<'a, 'b>(words: &'a [&'b str]) -> &'a [&'b str] {
    let mut depth = 0;
    for (place, word) in words.iter().enumerate() {
        match *word {
            "(" | "{" | "[" => depth += 1,
            ")" | "}" | "]" => depth -= 1,
            _ => {}
        }
        if depth == 0 {
            return &words[1..place.max(1)];
        }
    }
    &words[words.len().min(1)..]
}

/// What stands behind the first word, or behind the first group.
pub fn behind_first<'a, 'b>(words: &'a [&'b str]) -> &'a [&'b str] {
    let length = match words.first() {
        Some(&"(") => group(words).len() + 2,
        _ => 1,
    };
    &words[length.min(words.len())..]
}

/// The last word, or the last group without its brackets.
pub fn last<'a, 'b>(words: &'a [&'b str]) -> &'a [&'b str] {
    let mut depth = 0;
    for (place, word) in words.iter().enumerate().rev() {
        match *word {
            ")" => depth += 1,
            "(" => depth -= 1,
            _ => {}
        }
        if depth == 0 {
            return match *word {
                "(" => group(&words[place..]),
                _ => &words[place..place + 1],
            };
        }
    }
    words
}
