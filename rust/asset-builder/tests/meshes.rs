//! Req 05: meshes as `tree` shows them.

mod common;

use common::{run, run_in, scratch};
use corpus::folder::kept_files;
use corpus::meshes::{declaration, Element};
use corpus::readers::VERTEX_DECLARATION;
use corpus::values::{file, object};
use corpus::writer::write;
use serde_json::{json, Value as Json};

/// The tree of a sample as JSON.
fn tree_of(name: &str) -> Json {
    let ran = run(&["tree", "--json", &format!("{name}.xnb")]);
    assert_eq!((ran.status, ran.err.as_str()), (Some(0), ""));
    serde_json::from_str(&ran.out).expect("JSON")
}

const GAUGE: &str = r#"primary: Model
  bone count: UInt32 3
  bone 1 name: String "hub"
  bone 1 transform: Matrix 1.0 1.0 1.0 1.0 1.0 1.0 1.0 1.0 1.0 1.0 1.0 1.0 1.0 1.0 1.0 1.0
  bone 2 name: Null
  bone 2 transform: Matrix 2.0 2.0 2.0 2.0 2.0 2.0 2.0 2.0 2.0 2.0 2.0 2.0 2.0 2.0 2.0 2.0
  bone 3 name: Null
  bone 3 transform: Matrix 3.0 3.0 3.0 3.0 3.0 3.0 3.0 3.0 3.0 3.0 3.0 3.0 3.0 3.0 3.0 3.0
  bone 1 parent: BoneReference to nothing
  bone 1 child count: UInt32 2
  bone 1 child 1: BoneReference to bone 2
  bone 1 child 2: BoneReference to bone 3
  bone 2 parent: BoneReference to bone 1
  bone 2 child count: UInt32 0
  bone 3 parent: BoneReference to bone 1
  bone 3 child count: UInt32 0
  mesh count: UInt32 2
  mesh 1 name: String "dial"
  mesh 1 bone: BoneReference to bone 2
  mesh 1 center: Vector3 1.0 2.0 3.0
  mesh 1 radius: Single 4.0
  mesh 1 tag: String "°C"
  mesh 1 part count: UInt32 2
  mesh 1 part 1 vertex offset: UInt32 0
  mesh 1 part 1 vertex count: UInt32 3
  mesh 1 part 1 start index: UInt32 0
  mesh 1 part 1 primitive count: UInt32 1
  mesh 1 part 1 tag: Null
  mesh 1 part 1 vertex buffer: SharedReference to shared 1
  mesh 1 part 1 index buffer: SharedReference to shared 2
  mesh 1 part 1 effect: SharedReference to nothing
  mesh 1 part 2 vertex offset: UInt32 3
  mesh 1 part 2 vertex count: UInt32 1
  mesh 1 part 2 start index: UInt32 4294967295
  mesh 1 part 2 primitive count: UInt32 2147483648
  mesh 1 part 2 tag: String "glass"
  mesh 1 part 2 vertex buffer: SharedReference to shared 1
  mesh 1 part 2 index buffer: SharedReference to shared 2
  mesh 1 part 2 effect: SharedReference to shared 4
  mesh 2 name: Null
  mesh 2 bone: BoneReference to bone 3
  mesh 2 center: Vector3 1.0 2.0 3.0
  mesh 2 radius: Single 4.0
  mesh 2 tag: Null
  mesh 2 part count: UInt32 1
  mesh 2 part 1 vertex offset: UInt32 0
  mesh 2 part 1 vertex count: UInt32 3
  mesh 2 part 1 start index: UInt32 0
  mesh 2 part 1 primitive count: UInt32 1
  mesh 2 part 1 tag: Null
  mesh 2 part 1 vertex buffer: SharedReference to shared 1
  mesh 2 part 1 index buffer: SharedReference to shared 3
  mesh 2 part 1 effect: SharedReference to nothing
  root bone: BoneReference to bone 1
  tag: String "coolant"
shared 1: VertexBuffer
  declaration: VertexDeclaration
    stride: UInt32 20
    element count: UInt32 2
    element 1 offset: UInt32 0
    element 1 format: Int32 2 (Vector3)
    element 1 usage: Int32 0 (Position)
    element 1 usage index: UInt32 0
    element 2 offset: UInt32 12
    element 2 format: Int32 1 (Vector2)
    element 2 usage: Int32 2 (TextureCoordinate)
    element 2 usage index: UInt32 0
  vertex count: UInt32 4
  vertex data: DataBytes of 80 bytes
shared 2: IndexBuffer
  is 16 bit: Boolean true
  data size: UInt32 12
  index data: DataBytes of 12 bytes
shared 3: IndexBuffer
  is 16 bit: Boolean false
  data size: UInt32 12
  index data: DataBytes of 12 bytes
shared 4: Null
"#;

#[test]
fn a_gauge_is_shown_field_by_field() {
    for name in ["ok-gauge.xnb", "ok-gauge-with-numbers-in-3-bytes.xnb"] {
        let ran = run(&["tree", name]);
        assert_eq!((ran.out.as_str(), ran.status), (GAUGE, Some(0)));
    }
}

/// Every field of a mesh has a name, in every sample.
#[test]
fn every_field_of_a_mesh_is_named() {
    fn check(name: &str, node: &Json, count: &mut usize) {
        let kind = node["kind"].as_str().expect("a kind");
        let children = node["children"].as_array();
        let is_mesh = ["IndexBuffer", "VertexDeclaration", "VertexBuffer", "Model"].contains(&kind);
        for child in children.into_iter().flatten() {
            *count += usize::from(is_mesh);
            assert!(!is_mesh || child["name"].is_string(), "{name}: {child}");
            check(name, child, count);
        }
    }
    let mut count = 0;
    for file in kept_files().iter().filter(|it| it.rows.starts_with("rows")) {
        for object in tree_of(&file.name)["objects"].as_array().expect("objects") {
            check(&file.name, object, &mut count);
        }
    }
    assert!(count > 1000, "only {count} fields");
}

#[test]
fn json_has_bones_data_and_meanings() {
    let tree = tree_of("ok-gauge");
    let objects = &tree["objects"];
    let model = &objects[0];
    assert_eq!(
        (&model["kind"], &model["typeId"]),
        (&json!("Model"), &json!(1))
    );
    assert_eq!(model.get("value"), None);
    let field = |name: &str| {
        let fields = model["children"].as_array().expect("fields");
        let found = fields.iter().find(|it| it["name"] == name);
        found.unwrap_or_else(|| panic!("no field {name}")).clone()
    };
    let parent = field("bone 1 parent");
    assert_eq!(
        (&parent["kind"], &parent["value"]),
        (&json!("BoneReference"), &json!({"bone": null}))
    );
    assert_eq!(field("bone 3 parent")["value"], json!({"bone": 1}));
    assert_eq!(field("bone 2 transform")["value"], json!(vec![2.0; 16]));
    assert_eq!(field("mesh 1 part 2 effect")["value"], json!({"shared": 4}));
    assert_eq!(field("mesh 1 part 2 effect")["resourceId"], 4);
    assert_eq!(field("mesh 2 radius")["value"], 4.0);
    let buffer = &objects[1]["children"];
    let format = &buffer[0]["children"][3];
    assert_eq!(
        (&format["value"], &format["meaning"]),
        (&json!(2), &json!("Vector3"))
    );
    assert_eq!(buffer[0]["children"][9].get("meaning"), None);
    assert_eq!(buffer[2]["value"], json!({"bytes": 80}));
}

/// Each code of the format by its name.
#[test]
fn codes_are_reported_by_name() {
    let formats = [
        "Single",
        "Vector2",
        "Vector3",
        "Vector4",
        "Color",
        "Byte4",
        "Short2",
        "Short4",
        "NormalizedShort2",
        "NormalizedShort4",
        "HalfVector2",
        "HalfVector4",
    ];
    let usages = [
        "Position",
        "Color",
        "TextureCoordinate",
        "Normal",
        "Binormal",
        "Tangent",
        "BlendIndices",
        "BlendWeight",
        "Depth",
        "Fog",
        "PointSize",
        "Sample",
        "TessellateFactor",
    ];
    for (usage, usage_name) in (0..).zip(usages) {
        let format = usage % 12;
        let element = Element {
            format,
            usage,
            ..Element::default()
        };
        let primary = object(1, declaration(4, &[element]));
        let file = write(&file(&[VERTEX_DECLARATION], primary, vec![])).bytes;
        let out = run_in(&scratch("codes"), &["tree", "-"], &file).out;
        let format_name = formats[format as usize];
        let shown = format!("  element 1 format: Int32 {format} ({format_name})\n");
        assert!(out.contains(&shown), "{out}");
        let shown = format!("  element 1 usage: Int32 {usage} ({usage_name})\n");
        assert!(out.contains(&shown), "{out}");
    }
}

#[test]
fn empty_data_is_shown() {
    let expected = "\
primary: IndexBuffer
  is 16 bit: Boolean false
  data size: UInt32 0
  index data: DataBytes of 0 bytes
";
    let ran = run(&["tree", "ok-index-data-0-of-32-bit.xnb"]);
    assert_eq!((ran.out.as_str(), ran.status), (expected, Some(0)));
}

#[test]
fn refusals_of_meshes_report_the_rule() {
    let start = "\
bad-15-bone-parent-2-of-1.xnb: refused 15 at 179: a value breaks the rule of its kind
  BoneReference: the number is 2, the bone count 1
";
    let ran = run(&["check", "bad-15-bone-parent-2-of-1.xnb"]);
    assert!(ran.out.starts_with(start), "{}", ran.out);
    assert_eq!(ran.status, Some(1));
}
