//! Every case file must hold.

use second::casefile::{folder, read_folder};
use second::cases::Case;
use second::{combine_file, length_file, lengths, on_big_stack, shift_file};

#[test]
fn all_case_files_agree() {
    let cases = read_folder(&folder()).unwrap_or_else(|problem| panic!("{problem}"));
    assert!(cases.len() >= 800, "only {} cases", cases.len());
    let wrong: Vec<String> = on_big_stack(|| {
        cases
            .iter()
            .filter_map(|c| Case::try_own(c).err())
            .collect()
    });
    assert!(wrong.is_empty(), "{}", wrong.join("\n"));
}

#[test]
fn all_shift_files_agree() {
    let cases = shift_file::read_folder(&folder()).unwrap_or_else(|problem| panic!("{problem}"));
    assert!(cases.len() >= 120, "only {} cases", cases.len());
    let wrong: Vec<String> =
        on_big_stack(|| cases.iter().filter_map(|c| c.try_own().err()).collect());
    assert!(wrong.is_empty(), "{}", wrong.join("\n"));
}

#[test]
fn all_combined_reports_agree() {
    let cases = combine_file::read_folder(&folder()).unwrap_or_else(|problem| panic!("{problem}"));
    assert!(cases.len() >= 230, "only {} cases", cases.len());
    let wrong: Vec<String> = cases.iter().filter_map(|c| c.try_own().err()).collect();
    assert!(wrong.is_empty(), "{}", wrong.join("\n"));
}

#[test]
fn all_lengths_agree() {
    let mut cases =
        length_file::read_folder(&folder()).unwrap_or_else(|problem| panic!("{problem}"));
    assert!(cases.len() >= 40, "only {} cases", cases.len());
    cases.extend(lengths::systematic());
    let wrong: Vec<String> = cases.iter().filter_map(|c| c.try_own().err()).collect();
    assert!(wrong.is_empty(), "{}", wrong.join("\n"));
}
