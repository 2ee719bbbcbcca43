//! Where the marks of SNPs stand, by the numbers at the axes.

use crate::findings::Findings;
use crate::picture::{all, has_class, number, of_class};
use crate::xml::Element;
use std::collections::BTreeMap;

/// How far a mark may be from its place: marks stand at whole numbers.
const ROUNDING: f64 = 1.1;
/// How far below the middle of a number at the left axis its foot is.
const FOOT: f64 = 4.0;

type Point = [f64; 2];

/// The places of the SNPs of each genotype.
pub type Places = BTreeMap<String, Vec<Point>>;

/// Checks that every SNP has a mark at its place and every mark a SNP; Y grows upwards.
pub fn check_places(findings: &mut Findings, root: &Element, expected: &Places) {
    let paths = of_class(root, "snps");
    if paths.is_empty() {
        return;
    }
    let Some(axes) = Axes::of(root) else {
        return findings.check(false, || "marks without numbers at two axes".to_string());
    };
    for path in paths {
        let genotype = path.attribute("data-genotype").unwrap_or("");
        let points = points(path.attribute("d").unwrap_or(""));
        let snps = expected.get(genotype).map_or(&[][..], Vec::as_slice);
        let places: Vec<Point> = snps.iter().map(|snp| axes.place(*snp)).collect();
        let fits = all_near(&places, &points) && all_near(&points, &places);
        findings.check(fits, || {
            format!("marks of {genotype} at {points:?} for {places:?}")
        });
    }
}

// The points that a path moves to, as they stand behind its capital letters M.
fn points(path: &str) -> Vec<Point> {
    let pieces = path.split('M').skip(1);
    let point = |piece: &str| {
        let end = piece.find(|next: char| next.is_ascii_alphabetic());
        let numbers = &piece[..end.unwrap_or(piece.len())];
        let mut numbers = numbers.split([' ', ',']).map(str::parse);
        Some([numbers.next()?.ok()?, numbers.next()?.ok()?])
    };
    pieces.filter_map(point).collect()
}

fn all_near(points: &[Point], others: &[Point]) -> bool {
    let near = |one: &Point, other: &Point| {
        (one[0] - other[0]).abs() <= ROUNDING && (one[1] - other[1]).abs() <= ROUNDING
    };
    points
        .iter()
        .all(|one| others.iter().any(|other| near(one, other)))
}

/// The least and the greatest number at each axis, with where they stand.
struct Axes {
    least: [(f64, f64); 2],
    greatest: [(f64, f64); 2],
}

impl Axes {
    // The numbers at the left stand left of the plot, those at the foot below it.
    fn of(root: &Element) -> Option<Axes> {
        let mut groups = all(root);
        groups.retain(|group| group.children.iter().any(|it| has_class(it, "snps")));
        let texts = groups
            .first()?
            .children
            .iter()
            .filter(|it| it.name == "text");
        let mut axes: [Vec<(f64, f64)>; 2] = Default::default();
        for text in texts {
            let told = text.words.replace(',', "").parse::<f64>().ok();
            let place = number::<f64>(text, "x").zip(number::<f64>(text, "y"));
            match (told, place) {
                (Some(told), Some((x, y))) if x < 0.0 => axes[1].push((told, y - FOOT)),
                (Some(told), Some((x, _))) => axes[0].push((told, x)),
                _ => {}
            }
        }
        for axis in &mut axes {
            axis.sort_by(|one, other| one.0.total_cmp(&other.0));
        }
        let [x, y] = axes;
        Some(Axes {
            least: [*x.first()?, *y.first()?],
            greatest: [*x.last()?, *y.last()?],
        })
    }

    fn place(&self, snp: Point) -> Point {
        [0, 1].map(|axis| {
            let (least, start) = self.least[axis];
            let (greatest, end) = self.greatest[axis];
            start + (snp[axis] - least) / (greatest - least) * (end - start)
        })
    }
}
