//! The check that texts are apart, by how much room they take at least.

use crate::findings::Findings;
use crate::page::{placed, Placed};
use crate::picture::{has_class, pages};
use crate::style::Style;
use crate::xml::Element;

/// What a letter takes at least on the average, as a share of its height, and one of a fixed width.
const LEAST_WIDTH: f64 = 0.48;
const FIXED_WIDTH: f64 = 0.6;
/// How high a capital letter is.
const CAPITAL: f64 = 0.7;
/// The share of the smaller one that two texts may have in common.
const MOST_COMMON: f64 = 0.2;
/// Texts that stand where the file says, and not where there is room.
const BY_THE_FILE: [&str; 2] = ["letter", "no-quality"];

/// The room that a text takes at least.
struct Room<'a> {
    text: &'a Element,
    least: [f64; 2],
    greatest: [f64; 2],
}

impl<'a> Room<'a> {
    fn of(style: &Style, it: &Placed<'a>) -> Room<'a> {
        let own = |name| style.own(it.element, name);
        let size = own("font-size").and_then(|size| size.strip_suffix("px")?.parse().ok());
        let size: f64 = size.unwrap_or(0.0);
        let is_fixed = own("font-family").is_some_and(|family| family == "monospace");
        let share = if is_fixed { FIXED_WIDTH } else { LEAST_WIDTH };
        let width = share * size * it.element.words.chars().count() as f64;
        let before = match own("text-anchor").as_deref() {
            Some("middle") => width / 2.0,
            Some("end") => width,
            _ => 0.0,
        };
        let [x, foot] = it.least;
        Room {
            text: it.element,
            least: [x - before, foot - CAPITAL * size],
            greatest: [x - before + width, foot],
        }
    }

    fn area(&self) -> f64 {
        (self.greatest[0] - self.least[0]) * (self.greatest[1] - self.least[1])
    }

    fn is_over(&self, other: &Room) -> bool {
        let [width, height] = [0, 1].map(|axis| {
            let end = self.greatest[axis].min(other.greatest[axis]);
            (end - self.least[axis].max(other.least[axis])).max(0.0)
        });
        width * height > MOST_COMMON * self.area().min(other.area())
    }

    fn is_by_the_file(&self) -> bool {
        BY_THE_FILE.iter().any(|class| has_class(self.text, class))
    }
}

/// Checks all pages, or the one picture.
pub fn check_apart(findings: &mut Findings, root: &Element) {
    let style = match Style::of(root) {
        Ok(style) => style,
        Err(fault) => return findings.check(false, || fault),
    };
    for page in pages(root) {
        let mut texts = placed(page);
        texts.retain(|it| it.element.name == "text" && !is_turned(it.element));
        let mut rooms: Vec<Room> = texts.iter().map(|it| Room::of(&style, it)).collect();
        rooms.sort_by(|one, other| one.least[1].total_cmp(&other.least[1]));
        let over = first_over(&rooms);
        findings.check(over.is_none(), || {
            let words = over.map(|(one, other)| [one, other].map(|it| &it.text.words));
            format!("texts over each other: {words:?}")
        });
    }
}

fn is_turned(text: &Element) -> bool {
    let transform = text.attribute("transform").unwrap_or("");
    transform.contains("rotate")
}

// The first two that share room; further down than the foot of one there are none.
fn first_over<'a, 'b>(rooms: &'b [Room<'a>]) -> Option<(&'b Room<'a>, &'b Room<'a>)> {
    for (index, one) in rooms.iter().enumerate() {
        let near = rooms[index + 1..]
            .iter()
            .take_while(|other| other.least[1] < one.greatest[1]);
        let mut others = near.filter(|it| !(one.is_by_the_file() && it.is_by_the_file()));
        if let Some(other) = others.find(|other| one.is_over(other)) {
            return Some((one, other));
        }
    }
    None
}
