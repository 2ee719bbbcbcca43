//! The colours of a picture's elements, by its style and by their own attributes.

use crate::picture::{all, has_class};
use crate::xml::Element;

/// Red, green and blue, from 0 to 1, as they are written.
pub type Colour = [f64; 3];

pub const WHITE: Colour = [1.0; 3];
pub const BLACK: Colour = [0.0; 3];

/// What a rule is for, an element's name or a class or both, and what it sets.
struct Rule {
    name: Option<String>,
    class: Option<String>,
    settings: Vec<(String, String)>,
}

impl Rule {
    fn is_for(&self, element: &Element) -> bool {
        let is_name = self.name.as_ref().is_none_or(|name| *name == element.name);
        let is_class = self.class.as_ref();
        is_name && is_class.is_none_or(|class| has_class(element, class))
    }

    fn weight(&self) -> usize {
        2 * usize::from(self.class.is_some()) + usize::from(self.name.is_some())
    }
}

/// The rules of a picture, but for those of printing.
pub struct Style {
    rules: Vec<Rule>,
}

impl Style {
    /// The rules, or a selector that is not understood here.
    pub fn of(root: &Element) -> Result<Style, String> {
        let styles = all(root).into_iter().filter(|it| it.name == "style");
        let text: String = styles.map(|style| style.words.as_str()).collect();
        let mut rules = Vec::new();
        for (selectors, block) in blocks(&text) {
            for selector in selectors.split(',') {
                rules.push(rule(selector.trim(), block)?);
            }
        }
        Ok(Style { rules })
    }

    /// What a property of the element is set to: by its own style, by a rule, or by an attribute.
    pub fn own(&self, element: &Element, property: &str) -> Option<String> {
        let own = settings(element.attribute("style").unwrap_or(""));
        if let Some((_, value)) = own.into_iter().find(|(name, _)| name == property) {
            return Some(value);
        }
        let rules = self.rules.iter().filter(|rule| rule.is_for(element));
        let set = rules.filter_map(|rule| {
            let mut settings = rule.settings.iter();
            let setting = settings.rfind(|(name, _)| name == property)?;
            Some((rule.weight(), setting.1.clone()))
        });
        // Of rules of one weight the last one counts.
        let heaviest = set.max_by_key(|(weight, _)| *weight);
        let attribute = element.attribute(property).map(str::to_string);
        heaviest.map(|(_, value)| value).or(attribute)
    }
}

// The selectors and the settings of each rule; what begins with @ has rules of its own inside, or none.
fn blocks(text: &str) -> Vec<(&str, &str)> {
    let mut found = Vec::new();
    let mut rest = text;
    while let Some((selectors, behind)) = rest.split_once('{') {
        let selectors = selectors.trim();
        let length = match selectors.starts_with('@') {
            true => end_of_block(behind),
            false => behind.find('}').unwrap_or(behind.len()),
        };
        if !selectors.starts_with('@') {
            found.push((selectors, &behind[..length]));
        }
        rest = behind.get(length + 1..).unwrap_or("");
    }
    found
}

// Where the bracket stands that closes the one before this text.
fn end_of_block(text: &str) -> usize {
    let mut depth = 1;
    for (place, letter) in text.char_indices() {
        depth += match letter {
            '{' => 1,
            '}' => -1,
            _ => 0,
        };
        if depth == 0 {
            return place;
        }
    }
    text.len()
}

fn rule(selector: &str, block: &str) -> Result<Rule, String> {
    let is_word = |letter: char| letter.is_ascii_alphanumeric() || letter == '-' || letter == '*';
    let (name, class) = selector.split_once('.').unwrap_or((selector, ""));
    if !name.chars().chain(class.chars()).all(is_word) {
        return Err(format!("the selector {selector:?}"));
    }
    let some = |text: &str| Some(text.to_string()).filter(|it| !it.is_empty() && it != "*");
    Ok(Rule {
        name: some(name),
        class: some(class),
        settings: settings(block),
    })
}

fn settings(block: &str) -> Vec<(String, String)> {
    let settings = block
        .split(';')
        .filter_map(|setting| setting.split_once(':'));
    settings
        .map(|(name, value)| (name.trim().into(), value.trim().into()))
        .collect()
}

/// A colour that is written by its numbers or is one of the few names that are known here.
pub fn colour(text: &str) -> Option<Colour> {
    let digits = match text {
        "black" => "000",
        "white" => "fff",
        _ => text.strip_prefix('#')?,
    };
    let digits: Vec<u32> = digits
        .chars()
        .map(|digit| digit.to_digit(16))
        .collect::<Option<_>>()?;
    let share = |high: u32, low: u32| f64::from(16 * high + low) / 255.0;
    match digits[..] {
        [red, green, blue] => Some([share(red, red), share(green, green), share(blue, blue)]),
        [r, red, g, green, b, blue] => Some([share(r, red), share(g, green), share(b, blue)]),
        _ => None,
    }
}

/// The light of each of the three, which is not in proportion to how it is written.
pub fn light(colour: Colour) -> Colour {
    colour.map(|share| {
        if share <= 0.040_45 {
            share / 12.92
        } else {
            ((share + 0.055) / 1.055).powf(2.4)
        }
    })
}

/// How bright light of these three is.
pub fn luminance([red, green, blue]: Colour) -> f64 {
    0.2126 * red + 0.7152 * green + 0.0722 * blue
}

/// The contrast of two colours, by the rules of the WCAG: from 1 to 21.
pub fn contrast(one: Colour, other: Colour) -> f64 {
    let [one, other] = [one, other].map(|colour| luminance(light(colour)));
    (one.max(other) + 0.05) / (one.min(other) + 0.05)
}
