//! `wattle volume`: the carved grid as samples for programs that show volumes.

use crate::args::Args;
use crate::body::Body;
use crate::file::{refusal, Scan};
use crate::frame::Frame;
use crate::start::Start;
use crate::{Answer, Failure};
use wattlerugby::Sides;

/// A field's name, its type in VTK and in NRRD, and its samples, low byte first.
struct Field {
    name: &'static str,
    vtk: &'static str,
    nrrd: &'static str,
    width: usize,
    bytes: Vec<u8>,
}

const NAMES: [&str; 4] = ["values", "distances", "status", "kinds"];

pub fn volume(args: &Args) -> Result<Answer, Failure> {
    let (format, frame) = (args.format(["--vtk", "--nrrd"])?, Frame::of(args)?);
    let named = args.value("--field");
    if let Some(name) = named.filter(|name| !NAMES.contains(name)) {
        return Err(Failure::unusable(format!("there is no field {name}; the fields are {}", NAMES.join(", "))));
    }
    let scan = Scan::open(&args.files[0])?.allowing(args)?;
    let body = Body::carve(&scan, Start::of(args, &scan)?).map_err(|refused| refusal(&scan.name, refused))?;
    body.note();
    let bytes = match format {
        "--nrrd" => nrrd(&body, &frame, field(&body, named.unwrap_or("distances"))),
        _ => vtk(&body, &frame, named.map_or(NAMES.to_vec(), |name| vec![name])),
    };
    Ok(Answer::file(bytes))
}

fn field(body: &Body, name: &str) -> Field {
    match name {
        "values" => Field {
            name: "values",
            vtk: "int",
            nrrd: "int",
            width: 4,
            bytes: body.scan.values.iter().flat_map(|v| v.to_le_bytes()).collect(),
        },
        "distances" => Field {
            name: "distances",
            vtk: "int",
            nrrd: "int",
            width: 4,
            bytes: body.grid.distances().iter().flat_map(|d| d.to_le_bytes()).collect(),
        },
        "status" => Field { name: "status", vtk: "unsigned_char", nrrd: "uchar", width: 1, bytes: body.grid.status().to_vec() },
        _ => Field { name: "kinds", vtk: "unsigned_char", nrrd: "uchar", width: 1, bytes: body.kinds.iter().map(|&k| k as u8).collect() },
    }
}

/// The axes are named so that 3D Slicer shows a voxel's own coordinates: it turns the others round.
fn nrrd(body: &Body, frame: &Frame, field: Field) -> Vec<u8> {
    let (Sides { a, b, c }, [u, v, w], [x, y, z]) = (body.scan.sides, frame.voxel, frame.origin);
    let header = format!(
        "NRRD0004\n# {}: {}, {}\ntype: {}\ndimension: 3\nspace: right-anterior-superior\nsizes: {a} {b} {c}\n\
         space directions: ({u},0,0) (0,{v},0) (0,0,{w})\nkinds: domain domain domain\nendian: little\nencoding: raw\n\
         space origin: ({x},{y},{z})\nfield:={}\nresult:={}\n\n",
        body.scan.name,
        body.line(),
        body.scan.allowed_told(),
        field.nrrd,
        field.name,
        body.line()
    );
    [header.into_bytes(), field.bytes].concat()
}

/// Legacy VTK, version 3.0. Its title line takes 256 characters at most, and its samples stand high byte first.
fn vtk(body: &Body, frame: &Frame, names: Vec<&str>) -> Vec<u8> {
    let (Sides { a, b, c }, [u, v, w], [x, y, z]) = (body.scan.sides, frame.voxel, frame.origin);
    let title: String = body.scan.name.chars().take(100).collect();
    let mut file = format!(
        "# vtk DataFile Version 3.0\n{title}: {}, {}\nBINARY\nDATASET STRUCTURED_POINTS\nDIMENSIONS {a} {b} {c}\n\
         ORIGIN {x} {y} {z}\nSPACING {u} {v} {w}\nPOINT_DATA {}\n",
        body.line(),
        body.scan.allowed_told(),
        a * b * c
    )
    .into_bytes();
    for field in names.into_iter().map(|name| field(body, name)) {
        file.extend(format!("SCALARS {} {} 1\nLOOKUP_TABLE default\n", field.name, field.vtk).bytes());
        file.extend(field.bytes.chunks(field.width).flat_map(|sample| sample.iter().rev()));
        file.push(b'\n');
    }
    file
}
