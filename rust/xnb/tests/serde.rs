//! What the feature `serde` makes of values and rows, as JSON.
//!
//!     cargo test --release --offline --package xnb --features serde --test serde

use corpus::lawful::{file_b, page_to, PAGE_READERS};
use corpus::readers::{list_of, DATE_TIME, DECIMAL, TIME_SPAN};
use corpus::values::*;
use corpus::writer::write;
use serde_json::{json, to_value};
use xnb::Table;

#[test]
fn a_row_and_its_value_are_written() {
    let bytes = write(&file_b()).bytes;
    let table = Table::load(&bytes).expect("a lawful file");
    let row = json!({
        "number": 0, "kind": "String", "first": 61, "length": 4, "children": 0,
        "parent": null, "detail": {"TypeId": 1}, "rows": 1
    });
    assert_eq!(to_value(table.row(0)).expect("JSON"), row);
    let value = table.value(0).expect("a value");
    assert_eq!(to_value(value).expect("JSON"), json!({"String": "Hi"}));
    let refused = table.value(9).unwrap_err();
    let expected = json!({"refusal": "NoSuchRow", "place": 9});
    assert_eq!(to_value(refused).expect("JSON"), expected);
}

#[test]
fn times_and_decimals_are_written() {
    let names = [
        list_of("System.Object"),
        TIME_SPAN.into(),
        DATE_TIME.into(),
        DECIMAL.into(),
    ];
    let elements = vec![
        object(2, time_span(-1)),
        object(3, date_time(1, 5)),
        object(4, decimal([100, 0, 0, 2 << 16])),
    ];
    let bytes = write(&file(&names, object(1, list(elements)), vec![])).bytes;
    let table = Table::load(&bytes).expect("a lawful file");
    let values: Vec<_> = (0..4)
        .map(|row| table.value(row).expect("a value"))
        .collect();
    let expected = json!([
        {"List": 3},
        {"TimeSpan": {"ticks": -1}},
        {"DateTime": {"ticks": 5, "zone": "Utc"}},
        {"Decimal": "1.00"}
    ]);
    assert_eq!(to_value(values).expect("JSON"), expected);
}

#[test]
fn a_page_is_written() {
    let bytes = write(&file(&PAGE_READERS, object(1, page_to("a", 0, 0)), vec![])).bytes;
    let table = Table::load(&bytes).expect("a lawful file");
    let expected = json!({
        "title": "a", "area": {"x": 0, "y": 0, "width": 64, "height": 48},
        "texture_id": null, "texture": null, "next_id": null, "next": null
    });
    assert_eq!(
        to_value(table.page(0).expect("a page")).expect("JSON"),
        expected
    );
}
