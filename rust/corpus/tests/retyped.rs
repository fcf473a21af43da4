//! Req 12: the holiday run's file and the same file retyped differ in the group name alone, and give the same rows.

use corpus::folder::kept_files;

/// Where the group name stands: 130 bytes behind the page's type id, the text's own and its count.
const GROUP_NAME: std::ops::Range<usize> = 94..224;

#[test]
fn the_holiday_run_differs_from_its_retyped_file_in_the_group_name_alone() {
    let files = kept_files();
    let named = |name: &str| {
        let found = files.iter().find(|file| file.name == name);
        found.unwrap_or_else(|| panic!("no file {name}"))
    };
    let (one, other) = (named("ok-holiday-run"), named("ok-holiday-run-retyped"));
    assert_eq!(one.rows, other.rows);
    assert_eq!(one.bytes.len(), other.bytes.len());
    for file in [one, other] {
        // "Taking the first byte of a text count as the count" would read another page.
        assert_eq!(file.bytes[92..94], [0x82, 0x01]);
        assert!(std::str::from_utf8(&file.bytes[GROUP_NAME]).is_ok());
    }
    assert_eq!(
        one.bytes[..GROUP_NAME.start],
        other.bytes[..GROUP_NAME.start]
    );
    assert_ne!(one.bytes[GROUP_NAME], other.bytes[GROUP_NAME]);
    assert_eq!(one.bytes[GROUP_NAME.end..], other.bytes[GROUP_NAME.end..]);
}
