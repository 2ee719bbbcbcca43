//! Where the elements of a page stand, and the checks that they stand on it.

use crate::findings::Findings;
use crate::picture::{has_class, number};
use crate::xml::Element;

/// What may lie outside of a page, in pixels.
const ROUNDING: f64 = 0.5;
/// Elements of which nothing is drawn where they stand.
const NOT_DRAWN: [&str; 4] = ["defs", "clipPath", "style", "title"];

/// A move and then a scale, of all that is inside an element.
#[derive(Clone, Copy, Debug)]
pub struct Transform {
    x: f64,
    y: f64,
    scale: f64,
}

impl Transform {
    const NONE: Transform = Transform {
        x: 0.0,
        y: 0.0,
        scale: 1.0,
    };

    fn then(self, element: &Element) -> Transform {
        let text = element.attribute("transform").unwrap_or("");
        let moved = arguments(text, "translate(");
        let scale = arguments(text, "scale(");
        let [x, y] = [0, 1].map(|axis| moved.get(axis).copied().unwrap_or(0.0));
        Transform {
            x: self.x + self.scale * x,
            y: self.y + self.scale * y,
            scale: self.scale * scale.first().copied().unwrap_or(1.0),
        }
    }

    fn place(self, x: f64, y: f64) -> [f64; 2] {
        [self.x + self.scale * x, self.y + self.scale * y]
    }
}

// The numbers behind a name in a transform.
fn arguments(text: &str, name: &str) -> Vec<f64> {
    let behind = text.split_once(name).map_or("", |(_, behind)| behind);
    let inside = behind.split(')').next().unwrap_or("");
    let numbers = inside.split([',', ' ']).map(str::parse);
    numbers.flatten().collect()
}

/// An element that is drawn, with the box that it takes; a text's is the point that it stands at.
pub struct Placed<'a> {
    pub element: &'a Element,
    pub least: [f64; 2],
    pub greatest: [f64; 2],
}

impl Placed<'_> {
    pub fn contains(&self, point: [f64; 2]) -> bool {
        [0, 1]
            .iter()
            .all(|&axis| (self.least[axis]..=self.greatest[axis]).contains(&point[axis]))
    }
}

/// All elements that are drawn on a page, in their order.
pub fn placed(page: &Element) -> Vec<Placed<'_>> {
    let mut found = Vec::new();
    place_all(page, Transform::NONE, &mut found);
    found
}

fn place_all<'a>(element: &'a Element, outer: Transform, found: &mut Vec<Placed<'a>>) {
    if NOT_DRAWN.contains(&element.name.as_str()) {
        return;
    }
    let transform = outer.then(element);
    let size = |name| number(element, name).unwrap_or(0.0);
    let least = transform.place(size("x"), size("y"));
    let mut greatest = least;
    if element.name == "rect" {
        greatest = transform.place(size("x") + size("width"), size("y") + size("height"));
    }
    if matches!(element.name.as_str(), "rect" | "text") || has_class(element, "row") {
        found.push(Placed {
            element,
            least,
            greatest,
        });
    }
    for child in &element.children {
        place_all(child, transform, found);
    }
}

/// The page's width and height, in its own units.
pub fn size(page: &Element) -> Option<[f64; 2]> {
    let view: Vec<f64> = page
        .attribute("viewBox")?
        .split(' ')
        .map(str::parse)
        .collect::<Result<_, _>>()
        .ok()?;
    match view[..] {
        [0.0, 0.0, width, height] => Some([width, height]),
        _ => None,
    }
}

/// Checks that all boxes, texts and rows stand inside the page.
pub fn check_inside(findings: &mut Findings, page: &Element) {
    let Some(size) = size(page) else {
        let view = page.attribute("viewBox");
        return findings.check(false, || format!("a page of {view:?}"));
    };
    for it in placed(page) {
        let is_inside = [0, 1]
            .iter()
            .all(|&axis| it.least[axis] >= -ROUNDING && it.greatest[axis] <= size[axis] + ROUNDING);
        findings.check(is_inside, || {
            format!(
                "{:?} from {:?} to {:?} on {size:?}",
                it.element, it.least, it.greatest
            )
        });
    }
}

/// Checks that the plots of the page's rows stand one below the other, and end on the page.
pub fn check_rows(findings: &mut Findings, page: &Element) {
    let mut end = 0.0;
    let height = size(page).map_or(0.0, |size| size[1]);
    for row in placed(page) {
        if !has_class(row.element, "row") {
            continue;
        }
        let plot: f64 = number(row.element, "data-height").unwrap_or(0.0);
        let top = row.least[1];
        findings.check(top >= end && top + plot <= height, || {
            format!("a row at {top} behind {end}, on a page of {height}")
        });
        end = top + plot;
    }
}
