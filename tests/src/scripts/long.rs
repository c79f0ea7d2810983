//! Files with thousands of patches, with indices that two bytes do not hold, and of as many bytes as the program takes, or more (document 02, CR 2),
//! such as have their layers out of order (CR 4), and such as have wide layers (CR 5).

use super::patching::{appended, many, marked};
use crate::files::{file_of, file_of_widths, hex, layer, patch};
use crate::grids::Grid;
use crate::records::{written_length, GREATEST, LONGEST_INPUT, NARROW, NARROW_MISSING, PATCH_LENGTH, WIDE};
use reference::grid::Sides;

/// Asked for after 254 to 257 patches, and after 2,000; the last one is another value each time.
fn two_thousand() -> String {
    let mut text = "# up to 2,000 patches to 60 voxels\nsides 5 4 3\nT 2\nvalues fill 6\nvalues set 26 -6\nwrite 136\n".to_string();
    let mut so_far = 0;
    for count in [253, 254, 255, 256, 1999] {
        text += &appended(&many(count - so_far, 60));
        text += &appended(&patch(27, 1000 + count as i16));
        text += "values fill 77\nread\nprogram\n";
        so_far = count + 1;
    }
    text + "append 5650\nread\nprogram\nreadlayer 136\nappend 3C000000FFFF\nread\nprogram\nappend 5650\nread\nprogram\ndump values\n"
}

/// Indices that two bytes do not hold, in files that are longer than the program takes.
fn over_16_bits() -> String {
    let file = |[a, b, c]: [u64; 3]| {
        let n = (a * b * c) as u32;
        let length = written_length(&Sides { a, b, c }, NARROW);
        let patches =
            [patch(65536, -2), patch(0, 5), patch(n - 1, 7), patch(65535, 9), patch(65536 + 17, NARROW_MISSING), patch(17, 11)].concat();
        let set = format!("sides {a} {b} {c}\nT 513\nvalues fill 1027\nwrite {length}\nvalues fill 77\n");
        let more = format!("{}values fill 77\nread\n{}read\nprogram\n", appended(&patch(n, 3)), appended(&patch(0, 1)));
        format!("{set}{}read\nprogram\nreadlayer {length}\n{more}", appended(&patches))
    };
    format!("# indices over 65,535\n{}", file([64, 64, 17]) + &file([64, 17, 64]) + &file([64, 64, 64]))
}

/// Read counts no patches: here are 65,537 of them.
fn over_65_535_patches() -> String {
    let last = appended(&patch(13, -77));
    let go_on = "values fill 77\nread\nprogram\n";
    format!(
        "# 65,535, 65,536 and 65,537 patches\nsides 3 3 3\nT 1\nvalues fill 6\nwrite 70\n{}{last}{go_on}{}{go_on}{last}{go_on}dump values\n",
        appended(&many(65534, 27)),
        appended(&patch(13, 78))
    )
}

/// Case D's grid in 112 bytes and 8,178 patches: 65,536 bytes, which the program takes. Then a byte more, and what else can be wrong beside 25.
fn full() -> String {
    let ask = "program\nvalues fill 77\nread\n";
    let steps = [
        patch(21, -6),
        patch(26, -6),
        vec![0x56],
        patch(0, -1)[1..].to_vec(),
        [patch(0, 6), patch(21, 6), patch(26, 0)].concat(),
        patch(48, 9),
        marked([0x56, 0x4C]),
        vec![0],
    ];
    let steps = steps.map(|step| appended(&step) + ask).concat();
    format!("# 65,536 bytes and more\nsides 4 4 3\nT 0\nvalues fill 6\nwrite 112\n{}{ask}{steps}", appended(&many(8176, 48)))
}

/// Good files of 65,529 and 65,537 bytes, by 24, 24, 22 in 25,417 bytes; and written ones of 65,639 bytes that have a side over 24.
fn a_byte_over() -> String {
    let small = "sides 24 24 22\nT 1\nvalues fill 4\nvalues set 601 -4\nvalues set 602 -4\nvalues set 603 -4\nwrite 25417\n";
    let ask = "program\nvalues fill 77\nread\n";
    let filled = appended(&many(5014, 576));
    let written = "sides 32 32 32\nT 1\nvalues fill 4\nwrite 65639\nprogram\nvalues set 1057 -4\nwrite 65639\nprogram\nvalues set 0 -4\nwrite 65639\n";
    format!("# good files of 65,529 and 65,537 bytes\n{small}{filled}{ask}{}{ask}{written}{ask}", appended(&patch(602, 4)))
}

/// So much input is 25 whatever it is: with a wrong mark, unfit sides, and layers with each fault, or cut off.
fn whatever_it_is() -> String {
    let grid = |sides: [usize; 3]| {
        let values = vec![6; sides.iter().product()];
        file_of(&Grid { sides, allowed: 0, values }, &(0..sides[2]).collect::<Vec<_>>())
    };
    let changed = |mut file: Vec<u8>, changes: &[(usize, u8)]| {
        changes.iter().for_each(|&(at, byte)| file[at] = byte);
        file
    };
    let layers = [(7, 0x57), (7 + 35 + 2, 3), (7 + 70 + 2, 0)];
    let starts = [
        changed(grid([4, 4, 3]), &[(0, 0)]),
        changed(grid([65, 3, 3]), &[(1, 0x4C)]),
        grid([3, 3, 65]),
        changed(grid([4, 4, 3]), &layers),
        grid([64, 64, 64]),
    ];
    let each = starts.map(|start| {
        let n: usize = start[2..5].iter().map(|&side| usize::from(side)).product();
        let file = [&start[..], &many(LONGEST_INPUT / PATCH_LENGTH, 12)].concat();
        let (most, rest) = file.split_at(LONGEST_INPUT);
        let over = hex(&rest[..1]);
        format!("values len {n}\nvalues fill 77\nfile {}\nprogram\nappend {over}\nprogram\nread\nappend 56\nprogram\n", hex(most))
    });
    format!("# 25 before all else, but not at 65,536 bytes\n{}", each.concat())
}

/// Layers out of order in a file of 65,536 bytes, and a byte more: 27, and then 25 for the program alone.
fn out_of_order() -> String {
    let values = (0..48).map(|i| if i == 21 { -6 } else { 6 + i }).collect();
    let g = Grid { sides: [4, 4, 3], allowed: 0, values };
    let each = [[2, 1, 0], [0, 2, 1], [1, 2, 0]].map(|order| {
        let layers = file_of(&g, &order);
        let most = [&layers[..], &many((LONGEST_INPUT - layers.len()) / PATCH_LENGTH, 12)].concat();
        format!("file {}\nprogram\nread\nappend 56\nprogram\nread\n", hex(&most))
    });
    format!("# 27, and 25 before it\nvalues len 48\nvalues fill 77\n{}", each.concat())
}

/// A ring of 24 voxels a side in four bytes a value: 55,375 bytes. With patches up to 65,536, and a byte more; with a narrow layer among the wide
/// ones; and with a value out of range at its end: 28, and 25 before it.
fn wide() -> String {
    let side = 24;
    let value = |i: usize| {
        let v = [i % side, i / side % side, i / (side * side)].map(|v| v as f64 - 11.5);
        let ring = (v[0].hypot(v[1]) - 7.0).hypot(v[2]) - 3.0;
        (50_000.0 * ring).round() as i32
    };
    let g = Grid { sides: [side; 3], allowed: 1, values: (0..side * side * side).map(value).collect() };
    let mut layers = file_of_widths(&g, (0..side).map(|z| (z, WIDE)));
    let ask = "program\nvalues fill 77\nread\n";
    let filled = |layers: &[u8]| appended(&patch(0, 9).repeat((LONGEST_INPUT - layers.len()) / PATCH_LENGTH));
    let full = format!("file {}\nvalues len 13824\n{ask}{}{ask}append 56\n{ask}", hex(&layers), filled(&layers));
    let first = layer(0, &[7; 576], NARROW);
    let mixed = format!("file {}\n{ask}", hex(&[&layers[..7], &first, &layers[7 + 3 + 4 * 576..]].concat()));
    let last = layers.len() - WIDE;
    layers[last..].copy_from_slice(&(GREATEST + 1).to_le_bytes());
    let spoilt = format!("file {}\n{ask}{}{ask}append 5650\n{ask}append 00\n{ask}", hex(&layers), filled(&layers));
    format!("# 24 voxels a side with wide layers\n{full}{mixed}{spoilt}")
}

pub fn scripts() -> Vec<String> {
    vec![two_thousand(), over_16_bits(), full(), a_byte_over(), whatever_it_is(), over_65_535_patches(), out_of_order(), wide()]
}
