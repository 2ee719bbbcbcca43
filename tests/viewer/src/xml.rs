//! A strict reader of XML: what it takes is well-formed, with every attribute in double quotes.

const DOCTYPE: &str = "<!DOCTYPE html>\n";

#[derive(Debug, Default)]
pub struct Element {
    pub name: String,
    pub attributes: Vec<(String, String)>,
    /// The text directly inside the element.
    pub text: String,
    /// All text inside the element, that of the elements in it too.
    pub words: String,
    pub children: Vec<Element>,
}

impl Element {
    pub fn attribute(&self, name: &str) -> Option<&str> {
        let mut found = self.attributes.iter().filter(|(other, _)| other == name);
        found.next().map(|(_, value)| value.as_str())
    }
}

/// The root element of a page, which stands behind the one line that makes it a page.
pub fn read_page(bytes: &[u8]) -> Result<Element, String> {
    let behind = bytes.strip_prefix(DOCTYPE.as_bytes());
    read(behind.ok_or("no line of a page before the root")?)
}

/// The root element, or what is not well-formed.
pub fn read(bytes: &[u8]) -> Result<Element, String> {
    let text = std::str::from_utf8(bytes).map_err(|error| format!("no UTF-8: {error}"))?;
    if let Some(other) = text.chars().find(|&letter| !is_allowed(letter)) {
        return Err(format!("the character {other:?}"));
    }
    let mut reader = Reader { text, at: 0 };
    reader.pass_declaration()?;
    reader.pass_between()?;
    let root = reader.element()?;
    reader.pass_between()?;
    if reader.rest().is_empty() {
        Ok(root)
    } else {
        Err(reader.fault("something behind the root"))
    }
}

// No text from outside brings another one, and no text of the viewer's own needs one.
fn is_allowed(letter: char) -> bool {
    match letter {
        '\n' | '\t' => true,
        '\u{0}'..='\u{1F}' | '\u{7F}'..='\u{9F}' | '\u{61C}' => false,
        '\u{200B}'..='\u{200F}' | '\u{2028}'..='\u{202E}' | '\u{2060}'..='\u{2069}' => false,
        '\u{FEFF}' | '\u{FFF9}'..='\u{FFFB}' | '\u{FDD0}'..='\u{FDEF}' => false,
        _ => letter as u32 & 0xFFFE != 0xFFFE,
    }
}

struct Reader<'a> {
    text: &'a str,
    at: usize,
}

impl<'a> Reader<'a> {
    fn rest(&self) -> &'a str {
        &self.text[self.at..]
    }

    fn fault(&self, what: &str) -> String {
        let near: String = self.rest().chars().take(40).collect();
        format!("{what} at byte {}: {near:?}", self.at)
    }

    fn pass(&mut self, expected: &str) -> Result<(), String> {
        if !self.rest().starts_with(expected) {
            return Err(self.fault(&format!("no {expected:?}")));
        }
        self.at += expected.len();
        Ok(())
    }

    // What stands before the mark, which is passed too.
    fn pass_to(&mut self, mark: &str) -> Result<&'a str, String> {
        let rest = self.rest();
        let length = rest.find(mark);
        let length = length.ok_or_else(|| self.fault(&format!("no {mark:?} behind this")))?;
        self.at += length + mark.len();
        Ok(&rest[..length])
    }

    // Tells whether there was any.
    fn pass_space(&mut self) -> bool {
        let rest = self.rest();
        let kept = rest.trim_start_matches([' ', '\t', '\n']);
        self.at += rest.len() - kept.len();
        kept.len() < rest.len()
    }

    fn pass_declaration(&mut self) -> Result<(), String> {
        if self.rest().starts_with("<?xml ") {
            self.pass_to("?>")?;
        }
        Ok(())
    }

    // Space and comments around the root.
    fn pass_between(&mut self) -> Result<(), String> {
        self.pass_space();
        while self.rest().starts_with("<!--") {
            self.pass_comment()?;
            self.pass_space();
        }
        Ok(())
    }

    fn pass_comment(&mut self) -> Result<(), String> {
        self.pass("<!--")?;
        self.pass_to("--")?;
        self.pass(">")
    }

    fn name(&mut self) -> Result<String, String> {
        let rest = self.rest();
        let is_inside = |letter: char| letter.is_ascii_alphanumeric() || "_:.-".contains(letter);
        let length = rest.find(|letter| !is_inside(letter)).unwrap_or(rest.len());
        let starts_well = |first: char| first.is_ascii_alphabetic() || first == '_';
        if !rest[..length].starts_with(starts_well) {
            return Err(self.fault("no name"));
        }
        self.at += length;
        Ok(rest[..length].to_string())
    }

    fn element(&mut self) -> Result<Element, String> {
        self.pass("<")?;
        let mut element = Element {
            name: self.name()?,
            ..Element::default()
        };
        while self.pass_space() && !self.rest().starts_with(['/', '>']) {
            self.attribute(&mut element)?;
        }
        if self.rest().starts_with('/') {
            self.pass("/>")?;
            return Ok(element);
        }
        self.pass(">")?;
        self.contents(&mut element)?;
        self.pass("</")?;
        self.pass(&element.name)?;
        self.pass_space();
        self.pass(">")?;
        Ok(element)
    }

    fn attribute(&mut self, element: &mut Element) -> Result<(), String> {
        let name = self.name()?;
        if element.attribute(&name).is_some() {
            return Err(self.fault(&format!("{name} twice in one tag")));
        }
        self.pass("=\"")?;
        let value = self.pass_to("\"")?;
        if value.contains('<') {
            return Err(self.fault(&format!("< in {name}")));
        }
        element.attributes.push((name, self.plain(value)?));
        Ok(())
    }

    fn contents(&mut self, element: &mut Element) -> Result<(), String> {
        loop {
            let rest = self.rest();
            let length = rest.find('<').ok_or_else(|| self.fault("no closing tag"))?;
            let text = &rest[..length];
            if text.contains("]]>") {
                return Err(self.fault("]]> in a text"));
            }
            let plain = self.plain(text)?;
            element.text.push_str(&plain);
            element.words.push_str(&plain);
            self.at += length;
            if rest[length..].starts_with("</") {
                return Ok(());
            }
            if rest[length..].starts_with("<!--") {
                self.pass_comment()?;
            } else {
                let child = self.element()?;
                element.words.push_str(&child.words);
                element.children.push(child);
            }
        }
    }

    // The text with its references resolved.
    fn plain(&self, text: &str) -> Result<String, String> {
        let mut plain = String::with_capacity(text.len());
        let mut pieces = text.split('&');
        plain.push_str(pieces.next().unwrap_or(""));
        for piece in pieces {
            let (reference, behind) = piece
                .split_once(';')
                .ok_or_else(|| self.fault("& that starts no reference"))?;
            let letter = referred(reference)
                .ok_or_else(|| self.fault(&format!("the reference {reference:?}")))?;
            plain.push(letter);
            plain.push_str(behind);
        }
        Ok(plain)
    }
}

fn referred(reference: &str) -> Option<char> {
    let code = match reference {
        "amp" => return Some('&'),
        "lt" => return Some('<'),
        "gt" => return Some('>'),
        "quot" => return Some('"'),
        "apos" => return Some('\''),
        other => match other.strip_prefix("#x") {
            Some(digits) => u32::from_str_radix(digits, 16).ok()?,
            None => other.strip_prefix('#')?.parse().ok()?,
        },
    };
    char::from_u32(code).filter(|&letter| is_allowed(letter))
}
