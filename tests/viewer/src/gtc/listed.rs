//! What listing a GTC file must print, by the independent reader and the published Table 3.

use super::refusals;
use crate::words::{cleaned, refused, Line};
use compare::gtc::reader::{ids, lookup};
use compare::little_endian::u32_at;
use compare::refusal::Refusal;

const NUMBER_OF_SNPS: u16 = 1;

/// The lines below the file's own.
pub fn list(bytes: &[u8]) -> Vec<Line> {
    match lookup(bytes, NUMBER_OF_SNPS) {
        Ok(_) | Err(Refusal::NotThere | Refusal::TagTwice) => {}
        Err(refusal) => {
            return vec![Line::Text(format!(
                "table of contents: {}",
                refused(refusal)
            ))]
        }
    }
    let mut lines = vec![Line::Text(
        "id name type value, or count and place".to_string(),
    )];
    lines.extend(ids(bytes).into_iter().map(|id| entry_line(bytes, id)));
    lines
}

fn entry_line(bytes: &[u8], id: u16) -> Line {
    let Some((name, kind)) = row(id) else {
        return Line::Text(format!("{id} not in Table 3, not judged"));
    };
    let item = match lookup(bytes, id) {
        Ok(item) => item,
        Err(refusal) => {
            let number = refusal as u64;
            let words = refusals::words(bytes, id, number);
            return Line::Text(format!("{id} {name} {kind} {words} (refused {number})"));
        }
    };
    let data = &bytes[item.part.clone()];
    let value = match kind {
        "float" => return Line::Single(format!("{id} {name} {kind}"), u32_at(data, 0)),
        "int32" => u32_at(data, 0).to_string(),
        "string" | "char" => cleaned(data),
        "block" => format!("{} bytes at {}", data.len(), item.part.start),
        _ => format!(
            "count {}, {} bytes at {}",
            item.count,
            data.len(),
            item.part.start
        ),
    };
    Line::Text(format!("{id} {name} {kind} {value}"))
}

/// The name of an id in Table 3.
pub fn name_of(id: u16) -> Option<&'static str> {
    row(id).map(|(name, _)| name)
}

// The names and types of Table 3; what has several fields is a block.
fn row(id: u16) -> Option<(&'static str, &'static str)> {
    Some(match id {
        1 => ("NumSNPs", "int32"),
        2 => ("Ploidy", "int32"),
        3 => ("Ploidy Type", "int32"),
        10 => ("Sample Name", "string"),
        11 => ("Sample Plate", "string"),
        12 => ("Sample Well", "string"),
        100 => ("Cluster File", "string"),
        101 => ("SNP Manifest", "string"),
        200 => ("Imaging Date", "string"),
        201 => ("AutoCall Date", "string"),
        300 => ("AutoCall Version", "string"),
        400 => ("Normalization Transformations", "XForm[]"),
        500 => ("Raw Control X", "ushort[]"),
        501 => ("Raw Control Y", "ushort[]"),
        1000 => ("Raw X intensity values", "ushort[]"),
        1001 => ("Raw Y intensity values", "ushort[]"),
        1002 => ("Genotypes", "byte[]"),
        1003 => ("BaseCalls", "BaseCall[]"),
        1004 => ("Genotype Scores", "float[]"),
        1005 => ("Scanner Data", "block"),
        1006 => ("Call Rate", "float"),
        1007 => ("Estimated Gender", "char"),
        1008 => ("LogR Dev", "float"),
        1009 => ("p10GC", "float"),
        1010 => ("DX", "int32"),
        1011 => ("Extended sample data", "block"),
        1012 => ("B Allele Frequencies", "float[]"),
        1013 => ("LogR Ratios", "float[]"),
        1014 => ("Intensity percentiles (X)", "block"),
        1015 => ("Intensity percentiles (Y)", "block"),
        1016 => ("Sentrix ID", "string"),
        _ => return None,
    })
}
