//! The library's time against the plain Rust readers' and writers', call by call in one run, and the viewer's commands.

mod abif;
mod gtc;
mod sff;
mod timing;
mod viewer;

fn main() {
    for tags in [130, 999] {
        abif::judging(tags);
    }
    abif::listing(999);
    abif::whole_numbers();
    abif::checking_tags(999);
    abif::writing("shorts", &[4]);
    abif::writing("mixed types", &abif::MIXED_TYPES);
    let file = sff::instrument_file();
    sff::judging(&file);
    sff::all_reads(&file);
    sff::writing();
    let file = gtc::array_file();
    gtc::judging(&file);
    gtc::single_snps(&file);
    gtc::all_snps(&file);
    gtc::normalising(&file);
    viewer::commands();
}
