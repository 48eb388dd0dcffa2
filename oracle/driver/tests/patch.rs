//! The patch is applied strictly: whatever does not stand exactly as the patch says is
//! refused, with the hunk, the line, what was expected and what was found.

#[path = "../patch.rs"]
mod patch;

const PATH: &str = "docs/a.rs";
const TEXT: &str = "one\ntwo\nthree\nfour\nfive\nsix\nseven\neight\n";

const FIRST: &str = "@@ -1,3 +1,4 @@\n one\n+one and a half\n two\n three\n";
const SECOND: &str = "@@ -6,2 +7,2 @@ of a section\n six\n-seven\n+SEVEN\n";

/// A patch with these hunks, and a line of explanation above it.
fn with(hunks: &[&str]) -> String {
    let names = format!("--- a/{PATH}\n+++ b/{PATH}\n");
    "What it is for.\n\n".to_string() + &names + &hunks.concat()
}

fn applied(hunks: &[&str]) -> Result<String, String> {
    patch::applied(&with(hunks), PATH, TEXT)
}

/// Why these hunks do not apply.
fn refused(hunks: &[&str]) -> String {
    applied(hunks).expect_err("the patch does not apply")
}

#[test]
fn a_good_patch_is_applied() {
    let new = "one\none and a half\ntwo\nthree\nfour\nfive\nsix\nSEVEN\neight\n";
    assert_eq!(applied(&[FIRST, SECOND]).as_deref(), Ok(new));
    // One hunk may begin where the one before ends, and a count of one need not be said.
    let (third, last) = ("@@ -4 +5 @@\n-four\n+4\n", "@@ -8 +9,1 @@\n-eight\n+8\n");
    let new = "one\none and a half\ntwo\nthree\n4\nfive\nsix\nseven\n8\n";
    assert_eq!(applied(&[FIRST, third, last]).as_deref(), Ok(new));
}

#[test]
fn a_line_that_differs_is_refused() {
    let context = SECOND.replace(" six", " Six");
    let said = r#"hunk 2, line 6: expected "Six\n", found "six\n""#;
    assert_eq!(refused(&[FIRST, &context]), said);
    let removed = SECOND.replace("-seven", "-seven ");
    let said = r#"hunk 1, line 7: expected "seven \n", found "seven\n""#;
    assert_eq!(refused(&[&removed.replace("+7,", "+6,")]), said);
}

#[test]
fn a_hunk_at_another_line_is_refused() {
    // The lines stand one line further on; they are not looked for.
    let said = r#"hunk 2, line 5: expected "six\n", found "five\n""#;
    assert_eq!(
        refused(&[FIRST, &SECOND.replace("-6,2 +7,", "-5,2 +6,")]),
        said
    );
    // The right line of the old text, and a wrong one of the new.
    let said = "hunk 2, line 6: expected line 6 of the new text, as its header says, found line 7";
    assert_eq!(refused(&[FIRST, &SECOND.replace("+7,", "+6,")]), said);
}

#[test]
fn a_wrong_count_is_refused() {
    let says = |old, new, of: [u8; 2]| {
        let [is_old, is_new] = of;
        format!(
            "hunk 1, line 1: expected {old} old lines and {new} new ones, as its header says, \
             found {is_old} and {is_new}"
        )
    };
    for (old, new) in [(2, 4), (4, 4), (3, 3), (3, 5)] {
        let hunk = FIRST.replace("-1,3 +1,4", &format!("-1,{old} +1,{new}"));
        assert_eq!(refused(&[&hunk]), says(old, new, [3, 4]));
    }
    // A hunk that is cut off between two lines has a wrong count too; so has one with no
    // line of the old text, which could stand anywhere.
    let (cut, _) = FIRST.split_at(FIRST.find(" three").expect("its last line"));
    assert_eq!(refused(&[cut]), says(3, 4, [2, 3]));
    assert_eq!(refused(&["@@ -1,0 +1,1 @@\n+0\n"]), says(0, 1, [0, 1]));
}

#[test]
fn a_text_cut_short_is_refused() {
    let patch = with(&[FIRST, SECOND]);
    let short = |end: &str| {
        let (text, _) = TEXT.split_once(end).expect("part of the text");
        patch::applied(&patch, PATH, text).expect_err("the text is too short")
    };
    let said = r#"hunk 2, line 7: expected "seven\n", found the text's end"#;
    assert_eq!(short("seven"), said);
    let said = "hunk 2, line 6: expected a line, found the text's end after line 3";
    assert_eq!(short("four"), said);
    // The line feed belongs to a line.
    let said = r#"hunk 2, line 7: expected "seven\n", found "seven""#;
    assert_eq!(short("\neight"), said);
}

#[test]
fn hunks_out_of_order_or_over_each_other_are_refused() {
    let said = "hunk 2, line 1: expected a line after 7, where the hunk before ends";
    let second = SECOND.replace("+7,", "+6,");
    assert_eq!(refused(&[&second, FIRST]), said);
    let said = "hunk 2, line 3: expected a line after 3, where the hunk before ends";
    assert_eq!(refused(&[FIRST, "@@ -3 +4 @@\n-three\n+3\n"]), said);
}

#[test]
fn what_is_no_patch_of_the_file_is_refused() {
    assert_eq!(refused(&[]), "expected a hunk, found none");
    let other = with(&[FIRST]).replace("+++ b/docs/a.rs", "+++ b/docs/b.rs");
    let said = r#"before hunk 1: expected "+++ b/docs/a.rs\n", found "+++ b/docs/b.rs\n""#;
    assert_eq!(patch::applied(&other, PATH, TEXT), Err(said.into()));
    let said = r#"before hunk 1: expected "--- a/docs/a.rs\n", found the patch's end"#;
    assert_eq!(patch::applied(FIRST, PATH, TEXT), Err(said.into()));
    let found = |line: &str| {
        let why = "expected a hunk's header or line, found";
        format!("hunk 1, line 10 of the patch: {why} {line:?}")
    };
    for line in ["\n", "@@ 5 @@\n", "\\ No newline at end of file\n", " four"] {
        assert_eq!(refused(&[FIRST, line]), found(line));
    }
}
