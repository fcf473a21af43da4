//! Models: bones, meshes and buffers in words, and vertices in one picture.

use super::markup::{coordinate, counted, grouped, quoted_or_null, write_cut};
use super::pictures::rows;
use super::section::Shown;
use std::io::{self, Write};
use xnb::meshes::{IndexBuffer, MeshPart, Model, VertexBuffer};
use xnb::Kind;

const MOST_LINES: usize = 100;
const MOST_MODELS: usize = 16;
const MOST_ELEMENTS: usize = 32;
const MOST_TRIANGLES: usize = 6_000;
const MOST_POINTS: usize = 4_000;
/// The sides of the picture, and the margin in it.
const SIDE: f64 = 480.0;
const MARGIN: f64 = 20.0;

type Place = [f64; 3];
type Matrix = [f64; 16];

/// Triangles and points in one space.
#[derive(Default)]
struct Drawing {
    triangles: Vec<[Place; 3]>,
    points: Vec<Place>,
    /// How many there are of both, shown or not.
    all_triangles: usize,
    all_points: usize,
}

/// Writes the models, and the buffers that are in no model.
pub fn write_models(out: &mut dyn Write, shown: &Shown) -> io::Result<()> {
    let models = rows(shown.table, Kind::Model);
    for row in models.iter().take(MOST_MODELS) {
        write_model(out, shown, *row)?;
    }
    write_cut(out, models.len().min(MOST_MODELS), models.len(), "models")?;
    write_buffers(out, shown, models.is_empty())
}

fn write_model(out: &mut dyn Write, shown: &Shown, row: u32) -> io::Result<()> {
    let model = shown.table.model(row).expect("the row of a model");
    let (bones, meshes) = (model.bones().len(), model.meshes().len());
    writeln!(
        out,
        "<div class=\"panel wide\"><h3>{}: {}, {}</h3>",
        shown.link(row, "Model"),
        counted(bones, "bone", "bones"),
        counted(meshes, "mesh", "meshes")
    )?;
    drawing(&model).write(out)?;
    if bones > 0 {
        writeln!(out, "<h4>Bones</h4><ul class=\"words\">")?;
        for (number, bone) in (1..).zip(model.bones()).take(MOST_LINES) {
            let name = quoted_or_null(bone.name);
            let parent = match bone.parent {
                Some(parent) => format!("below bone {}", parent + 1),
                None => "below none".to_string(),
            };
            let root = match model.root == Some(number - 1) {
                true => ", the root",
                false => "",
            };
            let children = counted(bone.children().len(), "child", "children");
            writeln!(
                out,
                "<li>Bone {number}, <bdi>{name}</bdi>: {parent}, {children}{root}</li>"
            )?;
        }
        writeln!(out, "</ul>")?;
        write_cut(out, bones.min(MOST_LINES), bones, "bones")?;
    }
    if meshes > 0 {
        writeln!(out, "<h4>Meshes</h4><ul class=\"words\">")?;
        for (number, mesh) in (1..).zip(model.meshes()).take(MOST_LINES) {
            let name = quoted_or_null(mesh.name);
            let bone = match mesh.bone {
                Some(bone) => format!("on bone {}", bone + 1),
                None => "on no bone".to_string(),
            };
            let [x, y, z] = mesh.center;
            writeln!(
                out,
                "<li>Mesh {number}, <bdi>{name}</bdi>: {bone}, {}, around {x:?}, {y:?}, {z:?} with radius {:?}",
                counted(mesh.parts().len(), "part", "parts"),
                mesh.radius
            )?;
            if mesh.parts().len() > 0 {
                writeln!(out, "<ul class=\"words\">")?;
                for (number, part) in (1..).zip(mesh.parts()).take(MOST_LINES) {
                    writeln!(out, "<li>Part {number}: {}</li>", part_words(&part))?;
                }
                writeln!(out, "</ul>")?;
                let parts = mesh.parts().len();
                write_cut(out, parts.min(MOST_LINES), parts, "parts")?;
            }
            writeln!(out, "</li>")?;
        }
        writeln!(out, "</ul>")?;
        write_cut(out, meshes.min(MOST_LINES), meshes, "meshes")?;
    }
    writeln!(out, "</div>")
}

fn part_words(part: &MeshPart) -> String {
    let buffer = |id: Option<u32>, there: bool, what: &str| match (id, there) {
        (Some(id), true) => format!("{what} shared {id}"),
        (Some(id), false) => format!("{what} shared {id}, which is null"),
        (None, _) => format!("no {what}"),
    };
    format!(
        "{} from vertex {} on, {} from index {} on; {}, {}",
        counted(part.vertex_count as usize, "vertex", "vertices"),
        grouped(part.vertex_offset as usize),
        counted(part.primitive_count as usize, "triangle", "triangles"),
        grouped(part.start_index as usize),
        buffer(
            part.vertex_buffer_id,
            part.vertex_buffer().is_some(),
            "vertex buffer"
        ),
        buffer(
            part.index_buffer_id,
            part.index_buffer().is_some(),
            "index buffer"
        )
    )
}

/// Writes the buffers and declarations in words; with a picture of the vertices where no model draws them.
fn write_buffers(out: &mut dyn Write, shown: &Shown, draw: bool) -> io::Result<()> {
    let table = shown.table;
    let (vertices, indices) = (
        rows(table, Kind::VertexBuffer),
        rows(table, Kind::IndexBuffer),
    );
    let all = vertices.len() + indices.len();
    if all == 0 {
        return Ok(());
    }
    writeln!(out, "<div class=\"panel wide\"><h3>Buffers</h3>")?;
    if draw {
        let mut drawing = Drawing::default();
        for row in vertices.iter().take(MOST_LINES) {
            let buffer = table.vertex_buffer(*row).expect("the row of its kind");
            let places = buffer.positions().into_iter().flatten();
            drawing.add_points(places.map(|place| place.map(f64::from)));
        }
        drawing.write(out)?;
    }
    writeln!(out, "<ul class=\"words\">")?;
    for row in vertices.iter().take(MOST_LINES) {
        let buffer = table.vertex_buffer(*row).expect("the row of its kind");
        writeln!(
            out,
            "<li>{}: {}</li>",
            shown.link(*row, "Vertex buffer"),
            vertex_words(&buffer)
        )?;
    }
    for row in indices.iter().take(MOST_LINES) {
        let buffer = table.index_buffer(*row).expect("the row of its kind");
        writeln!(
            out,
            "<li>{}: {}</li>",
            shown.link(*row, "Index buffer"),
            index_words(&buffer)
        )?;
    }
    writeln!(out, "</ul>")?;
    let told = vertices.len().min(MOST_LINES) + indices.len().min(MOST_LINES);
    write_cut(out, told, all, "buffers")?;
    writeln!(out, "</div>")
}

fn vertex_words(buffer: &VertexBuffer) -> String {
    let elements = buffer.declaration.elements();
    let elements: Vec<String> = elements
        .take(MOST_ELEMENTS)
        .map(|it| {
            format!(
                "{} {} as {} at {}",
                it.usage, it.usage_index, it.format, it.offset
            )
        })
        .collect();
    let left = buffer.declaration.elements().len() - elements.len();
    let elements = match (elements.is_empty(), left) {
        (true, _) => "no element".to_string(),
        (false, 0) => elements.join(", "),
        (false, left) => format!("{} and {} more", elements.join(", "), grouped(left)),
    };
    let stride = counted(buffer.declaration.stride as usize, "byte", "bytes");
    let vertices = counted(buffer.vertex_count as usize, "vertex", "vertices");
    format!("{vertices} of {stride} each: {elements}")
}

fn index_words(buffer: &IndexBuffer) -> String {
    let bits = if buffer.is_16_bit { 16 } else { 32 };
    let most = buffer.indices().max();
    let most = most.map_or(String::new(), |it| {
        format!(", the largest {}", grouped(it as usize))
    });
    let indices = counted(buffer.indices().len(), "index", "indices");
    format!("{indices} of {bits} bits{most}")
}

/// All parts of a model, each where its bone has it.
fn drawing(model: &Model) -> Drawing {
    let mut drawing = Drawing::default();
    let bones: Vec<(Matrix, Option<usize>)> = model
        .bones()
        .map(|bone| (bone.transform.map(f64::from), bone.parent))
        .collect();
    for mesh in model.meshes() {
        let transform = mesh.bone.map(|bone| in_model(&bones, bone));
        for part in mesh.parts() {
            drawing.add_part(&part, transform.as_ref());
        }
    }
    drawing
}

/// Where a bone is in the model: its own transform, then that of each above it.
fn in_model(bones: &[(Matrix, Option<usize>)], bone: usize) -> Matrix {
    let (mut matrix, mut above) = match bones.get(bone) {
        Some((matrix, parent)) => (*matrix, *parent),
        None => return std::array::from_fn(|at| f64::from(u8::from(at % 5 == 0))),
    };
    // Parents may lead in a ring: no bone counts twice.
    for _ in 0..bones.len() {
        let Some((other, parent)) = above.and_then(|it| bones.get(it)) else {
            break;
        };
        matrix = product(&matrix, other);
        above = *parent;
    }
    matrix
}

/// The product of two matrices, row by row.
fn product(one: &Matrix, other: &Matrix) -> Matrix {
    std::array::from_fn(|at| {
        let (row, column) = (at / 4, at % 4);
        (0..4)
            .map(|it| one[4 * row + it] * other[4 * it + column])
            .sum()
    })
}

/// A place as a row of numbers times a matrix.
fn moved([x, y, z]: Place, matrix: &Matrix) -> Place {
    std::array::from_fn(|column| {
        x * matrix[column] + y * matrix[4 + column] + z * matrix[8 + column] + matrix[12 + column]
    })
}

impl Drawing {
    fn add_part(&mut self, part: &MeshPart, transform: Option<&Matrix>) {
        let Some(buffer) = part.vertex_buffer() else {
            return;
        };
        let Some(places) = buffer.positions() else {
            return;
        };
        let own = places.skip(part.vertex_offset as usize);
        let own = own.map(|place| {
            let place = place.map(f64::from);
            transform.map_or(place, |matrix| moved(place, matrix))
        });
        let Some(indices) = part.index_buffer() else {
            self.add_points(own.take(part.vertex_count as usize));
            return;
        };
        // Every index counts from the part's first vertex.
        let own: Vec<Place> = own.collect();
        let indices: Vec<u32> = indices
            .indices()
            .skip(part.start_index as usize)
            .take((part.primitive_count as usize).saturating_mul(3))
            .collect();
        for triangle in indices.chunks_exact(3) {
            let corner = |at: usize| own.get(triangle[at] as usize).copied();
            let (Some(a), Some(b), Some(c)) = (corner(0), corner(1), corner(2)) else {
                continue;
            };
            if [a, b, c].iter().flatten().all(|it| it.is_finite()) {
                self.all_triangles += 1;
                if self.triangles.len() < MOST_TRIANGLES {
                    self.triangles.push([a, b, c]);
                }
            }
        }
    }

    fn add_points(&mut self, points: impl Iterator<Item = Place>) {
        for point in points.filter(|it| it.iter().all(|it| it.is_finite())) {
            self.all_points += 1;
            if self.points.len() < MOST_POINTS {
                self.points.push(point);
            }
        }
    }

    /// Writes what there is in one picture: from the front where it is flat, else turned a little.
    fn write(&self, out: &mut dyn Write) -> io::Result<()> {
        let places = || self.triangles.iter().flatten().chain(&self.points);
        if places().next().is_none() {
            return Ok(());
        }
        let extent = |of: &dyn Fn(&Place) -> f64| {
            let ends = (f64::INFINITY, f64::NEG_INFINITY);
            places()
                .map(of)
                .fold(ends, |(least, most), it| (it.min(least), it.max(most)))
        };
        let (near, far) = extent(&|place| place[2]);
        let is_flat = far - near < 1e-6;
        let project = |[x, y, z]: &Place| match is_flat {
            true => [*x, -*y],
            false => {
                let (yaw, pitch) = (0.6_f64, 0.4_f64);
                let (side, depth) = (x * yaw.cos() - z * yaw.sin(), x * yaw.sin() + z * yaw.cos());
                [side, depth * pitch.sin() - y * pitch.cos()]
            }
        };
        let (left, right) = extent(&|place| project(place)[0]);
        let (top, bottom) = extent(&|place| project(place)[1]);
        let size = (right - left).max(bottom - top).max(1e-9);
        let scale = (SIDE - 2.0 * MARGIN) / size;
        let (across, down) = ((right - left) * scale, (bottom - top) * scale);
        let at = |place: &Place| {
            let [x, y] = project(place);
            let x = (x - left) * scale + (SIDE - across) / 2.0;
            let y = (y - top) * scale + MARGIN;
            format!("{} {}", coordinate(x), coordinate(y))
        };
        let view = if is_flat {
            "from the front"
        } else {
            "turned a little"
        };
        writeln!(
            out,
            "<figure><svg class=\"model\" viewBox=\"0 0 {SIDE} {}\" role=\"img\" aria-label=\"the vertices, seen {view}\">",
            coordinate(down + 2.0 * MARGIN)
        )?;
        if !self.triangles.is_empty() {
            write!(out, "<path d=\"")?;
            for [a, b, c] in &self.triangles {
                write!(out, "M{}L{}L{}Z", at(a), at(b), at(c))?;
            }
            writeln!(out, "\"/>")?;
        }
        for point in &self.points {
            let place = at(point);
            let (x, y) = place.split_once(' ').expect("two numbers");
            writeln!(out, "<circle cx=\"{x}\" cy=\"{y}\" r=\"2.5\"/>")?;
        }
        let counts = [
            (self.all_triangles, "triangle", "triangles"),
            (self.all_points, "point", "points"),
        ];
        let counts = counts.into_iter().filter(|(count, _, _)| *count > 0);
        let counts: Vec<String> = counts
            .map(|(count, one, many)| counted(count, one, many))
            .collect();
        writeln!(
            out,
            "</svg><figcaption>{}, seen {view}</figcaption></figure>",
            counts.join(", ")
        )?;
        write_cut(out, self.triangles.len(), self.all_triangles, "triangles")?;
        write_cut(out, self.points.len(), self.all_points, "points")
    }
}

#[cfg(test)]
mod tests {
    use super::*;

    /// A transform that moves, as XNA has it: the last row is the way.
    fn way(x: f64, y: f64, z: f64) -> Matrix {
        [
            1.0, 0.0, 0.0, 0.0, 0.0, 1.0, 0.0, 0.0, 0.0, 0.0, 1.0, 0.0, x, y, z, 1.0,
        ]
    }

    #[test]
    fn a_bone_moves_with_all_above_it() {
        let double: Matrix = std::array::from_fn(|at| match at {
            0 | 5 | 10 => 2.0,
            15 => 1.0,
            _ => 0.0,
        });
        let bones = [
            (double, None),
            (way(1.0, 2.0, 3.0), Some(0)),
            (way(0.5, 0.0, 0.0), Some(2)),
        ];
        let place = moved([1.0, 1.0, 1.0], &in_model(&bones, 1));
        assert_eq!(place, [4.0, 6.0, 8.0]);
        // A bone below itself, and one that is not there, end.
        assert!(in_model(&bones, 2)[12].is_finite());
        assert_eq!(
            moved([1.0, 2.0, 3.0], &in_model(&bones, 9)),
            [1.0, 2.0, 3.0]
        );
    }

    #[test]
    fn a_drawing_says_where_it_is_cut() {
        let mut drawing = Drawing::default();
        let points = (0..MOST_POINTS + 3).map(|it| [it as f64, 0.0, f64::NAN * 0.0]);
        drawing.add_points(points);
        assert_eq!(drawing.all_points, 0);
        drawing.add_points((0..MOST_POINTS + 3).map(|it| [it as f64, 0.0, 0.0]));
        let mut out = Vec::new();
        drawing.write(&mut out).expect("a vector takes all");
        let out = String::from_utf8(out).expect("text");
        assert_eq!(out.matches("<circle").count(), MOST_POINTS);
        assert!(
            out.contains("Cut here: 4,000 of 4,003 points are shown."),
            "{out}"
        );
    }
}
