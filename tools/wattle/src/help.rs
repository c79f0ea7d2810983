//! The commands, their options, and what the help says.

/// How many files a command takes.
#[derive(Clone, Copy, PartialEq, Eq)]
pub enum Files {
    None,
    One,
    OneOrNone,
    Two,
    Several,
    /// Words that name no file may stand behind it.
    OneAndWords,
}

impl Files {
    pub fn fits(self, given: usize) -> bool {
        match self {
            Files::None => given == 0,
            Files::One => given == 1,
            Files::OneOrNone => given <= 1,
            Files::Two => given == 2,
            Files::Several | Files::OneAndWords => given >= 1,
        }
    }
}

impl std::fmt::Display for Files {
    fn fmt(&self, f: &mut std::fmt::Formatter<'_>) -> std::fmt::Result {
        f.write_str(match self {
            Files::None => "no file",
            Files::One | Files::OneAndWords => "one file",
            Files::OneOrNone => "one file or none",
            Files::Two => "two files",
            Files::Several => "one file or more",
        })
    }
}

/// A command's name, the files it takes, its own options, and its help. An option whose name ends in `=` takes a word.
pub struct Command {
    pub name: &'static str,
    pub files: Files,
    pub options: &'static [&'static str],
    pub help: &'static str,
}

// ---- what the help of several commands says

macro_rules! openings {
    () => {
        "  --openings N    allow N openings, 0 to 65535, whatever the file says. An opening is a removal that changes how the body hangs
                  together, such as one that pierces a wall; T is how many are allowed. With T = 0 the body is always closed
"
    };
}

macro_rules! marks {
    () => {
        "  --pin VOXEL     hold that voxel: it is not removed
  --hurry VOXEL   examine that voxel before all others
                  VOXEL is X,Y,Z, an index, or @LIST, a file with one voxel a line, where # begins a remark
                  Both options may be given many times. Of a voxel that is given to both the pin alone counts
"
    };
}

macro_rules! coarse {
    () => {
        "  --coarse        carve blocks of 2 x 2 x 2 voxels first, then the voxels of the blocks that are left: for large grids with much around
                  the body. It needs even sides of 6 or more, and a border of two voxels around what is measured negative. With T limited
                  or voxels pinned the body need not be that of a plain start
"
    };
}

macro_rules! voxel {
    () => {
        "  --voxel SIZE    a voxel's size in units of your own, or SIZE,SIZE,SIZE along x, y and z: volumes are given in cubic units too
"
    };
}

macro_rules! place {
    () => {
        "  --voxel SIZE    a voxel's size in units of your own, or SIZE,SIZE,SIZE along x, y and z
  --origin X,Y,Z  where the centre of voxel (0, 0, 0) lies, in the same units; otherwise at 0,0,0
"
    };
}

pub const COMMANDS: &[Command] = &[
    Command {
        name: "look",
        files: Files::One,
        options: &["--png", "--layer=", "--layers=", "--scale=", "--openings=", "--pin=", "--hurry=", "--coarse"],
        help: concat!(
            "wattle look FILE [--layer Z | --layers A-B] [--png [--scale N]] [--openings N] [--pin VOXEL ..] [--hurry VOXEL ..] [--coarse]
                 [-o OUT]

Shows what carving leaves of a grid, layer by layer, x to the right and y down, with a key and counts. Where the grid is refused
for its values, these are shown in its place, with those that it is refused for marked.

  #  inside                  blue         o  filled: kept, but not inside             orange
  =  gap counted as inside   light blue   ?  filled, and the range point is missing   pink
  .  gone                    grey         +  opened                                   green
  -  discarded: gone, though measured     *  pinned: kept, but not inside             black
     negative                yellow

A gap counted as inside is a group of missing range points joined by faces, off the grid's edge, and every other voxel that shares a
face with it is measured negative: no shot reaches the middle of a thick wall.

  --layer Z       that layer alone
  --layers A-B    those from A to B
  --png           a picture in place of text, with the title, the line and a key of what occurs; an OUT that ends in .png is
                  one too, one that ends in .txt is text
  --scale N       pixels along a voxel in the picture, 1 to 32; chosen by the grid's size otherwise
",
            openings!(),
            marks!(),
            coarse!(),
            "
A pin holds a voxel of the box around the inside, from which carving starts; elsewhere it does nothing, and a note says so. What is pinned
may hang free in the end. A hurried voxel goes only if it may, as any other: the body can become another, since the order is. A hurry on a
voxel that is pinned does nothing either, and a note says so.
"
        ),
    },
    Command {
        name: "explain",
        files: Files::Several,
        options: &["--json", "--voxel=", "--openings=", "--pin=", "--hurry=", "--coarse"],
        help: concat!(
            "wattle explain FILE .. [--json] [--voxel SIZE] [--openings N] [--pin VOXEL ..] [--hurry VOXEL ..] [--coarse] [-o OUT]

Says why a grid file is refused: the number, the byte, the layer, the patch or the voxel, and what to do. Where it is taken, says what
its result means: how many tunnels the body has, whether a voxel is left to open, and how many tunnels there would be were openings
allowed freely, whatever T is; how much was filled, and where to scan again; what missing points count as, and why; and the volume, with
how much of it nobody measured. Of several files, each is explained, and the last line counts them.

  --json          a line of JSON for each file: what `wattle carve --json` gives, the tunnels were openings allowed freely and where the
                  first of them is, and the sentences
",
            voxel!(),
            openings!(),
            marks!(),
            coarse!()
        ),
    },
    Command {
        name: "list",
        files: Files::One,
        options: &["--csv", "--json", "--kind=", "--voxel=", "--origin=", "--openings=", "--pin=", "--hurry=", "--coarse"],
        help: concat!(
            "wattle list FILE [--kind KIND ..] [--csv | --json] [--voxel SIZE] [--origin X,Y,Z] [--openings N] [--pin VOXEL ..]
                 [--hurry VOXEL ..] [--coarse] [-o OUT]

The voxels to go back to, one a line: x, y, z, index, value and kind. The value is left empty, in JSON null, where the range point is
missing. A voxel of two kinds is listed under each.

  --kind KIND     filled      kept, but not inside
                  missing     filled, and the range point is missing: scan there again
                  dent        gone, beside the inside, and the range point is missing: scan there again
                  opened      opened, in the order of the openings, with the local test's k and m
                  discarded   measured negative, apart from the largest group
                  gap         a missing range point counted as inside
                  It may be given many times; without it, all kinds
  --csv           values with commas between, under a line of names (the default)
  --json          a list of objects
",
            place!(),
            openings!(),
            marks!(),
            coarse!(),
            "
Without --csv or --json, the ending of OUT decides. With --voxel or --origin each voxel's centre is given in units too.
"
        ),
    },
    Command {
        name: "points",
        files: Files::One,
        options: &["--ply", "--xyz", "--voxel=", "--origin=", "--openings=", "--pin=", "--hurry=", "--coarse"],
        help: concat!(
            "wattle points FILE [--ply | --xyz] [--voxel SIZE] [--origin X,Y,Z] [--openings N] [--pin VOXEL ..] [--hurry VOXEL ..] [--coarse]
                   [-o OUT]

The points where the body's surface crosses from voxel to voxel, for CloudCompare, MeshLab and others. Coordinates are in voxels:
the centre of voxel (x, y, z) is the point (x, y, z).

  --ply           with colours, and `scalar_measured` 1 where both voxels were measured, 0 where the surface is assumed (the default)
  --xyz           a line `x y z` for each point
",
            place!(),
            openings!(),
            marks!(),
            coarse!(),
            "
Without --ply or --xyz, the ending of OUT decides.
"
        ),
    },
    Command {
        name: "volume",
        files: Files::One,
        options: &["--vtk", "--nrrd", "--field=", "--voxel=", "--origin=", "--openings=", "--pin=", "--hurry=", "--coarse"],
        help: concat!(
            "wattle volume FILE [--vtk | --nrrd] [--field FIELD] [--voxel SIZE] [--origin X,Y,Z] [--openings N] [--pin VOXEL ..]
                   [--hurry VOXEL ..] [--coarse] [-o OUT]

The carved grid as a volume, for ParaView, 3D Slicer and others, a voxel a sample.

  --vtk           legacy VTK, with all fields unless one is named (the default)
  --nrrd          NRRD, which holds one field: `distances` unless another is named
  --field FIELD   values      as measured, -2147483648 where the range point is missing
                  distances   worked distances, negative in the body: its surface is the level 0
                  status      0 gone, 1 kept
                  kinds       0 gone, 1 inside, 2 filled, 3 filled over a missing range point, 4 opened, 5 gap counted as inside,
                              6 pinned: kept, but not inside, 7 discarded: gone, though measured negative
",
            place!(),
            openings!(),
            marks!(),
            coarse!(),
            "
Without --vtk or --nrrd, the ending of OUT decides. How large the body is, `wattle explain` says.
"
        ),
    },
    Command {
        name: "compare",
        files: Files::Two,
        options: &["--all"],
        help: "wattle compare A B [--all] [-o OUT]

Says which voxels of two grid files differ, in their values and in what carving leaves of them. The exit status is 0 where both are
the same, 1 where they differ, 2 where a file cannot be read as a grid.

  --all   every voxel that differs; otherwise the first 20 of each list
",
    },
    Command {
        name: "shaky",
        files: Files::OneAndWords,
        options: &["--all=", "--json", "--openings=", "--pin=", "--hurry=", "--coarse"],
        help: concat!(
            "wattle shaky FILE VOXEL E [--json] [--openings N] [--pin VOXEL ..] [--hurry VOXEL ..] [--coarse] [-o OUT]
wattle shaky FILE --all E [--json] [--openings N] [--pin VOXEL ..] [--hurry VOXEL ..] [--coarse] [-o OUT]

What one uncertain range point can do. The grid is carved with the value at VOXEL as it is, E lower and E higher. For each of the two it
says how many voxels of the body differ, and which: those kept before are gone, the others new, and ten at most are named; and whether
Euler number or openings differ. VOXEL is X,Y,Z or an index, measured and not negative. E is 1 to 1000000000, in the unit of the values. No
value goes below 0, where it would be inside, nor above 1000000000, the greatest that a grid holds.

It is proved that S, the inside, stays the same, and that no worked distance moves by more than E (theorem OneShakyShot). The body may
change all the same, and by more than that voxel: its turn comes earlier or later, and what closes a hole may be left elsewhere. Where
nothing is pinned, and nothing is left to open before and after, the body is the same, since it depends on S alone (ShakenSameBody).

  --all E         try each voxel beside the inside, the others as they are: all that are measured, not negative, and share a face with a
                  voxel measured negative. Says how many were tried, how many of them changed nothing of the body, and the ten worst, by
                  how many voxels differ with the worse of their two values; of equals the smallest index comes first
  --json          a line of JSON: what `wattle carve --json` gives, and the voxel, or the ten worst, with all voxels that differ
",
            openings!(),
            marks!(),
            coarse!(),
            "
    wattle shaky scan.grid 5,6,7 2
    wattle shaky scan.grid --all 2
"
        ),
    },
    Command {
        name: "page",
        files: Files::One,
        options: &["--voxel=", "--origin=", "--openings=", "--pin=", "--hurry=", "--coarse"],
        help: concat!(
            "wattle page FILE [--voxel SIZE] [--origin X,Y,Z] [--openings N] [--pin VOXEL ..] [--hurry VOXEL ..] [--coarse] [-o OUT]

One HTML page that opens in any browser without a network: what `wattle explain` says, layers to scroll through, and the surface's
points to turn, with a key of their own; the openings, in the picture and as a list that leads to each. Where openings allowed freely make
another body, a switch shows that one. A grid of up to 32,768 voxels, such as 32 x 32 x 32, can be watched being carved, one removal after
the other: each voxel slides out by its first bare side. Hand and keyboard reach everything; it is dark where the reader's screen is, keeps
still where the reader wants no motion, has letters in the squares for grey print, and without scripts the layers as a picture.

",
            place!(),
            openings!(),
            marks!(),
            coarse!()
        ),
    },
    Command {
        name: "removals",
        files: Files::One,
        options: &["--openings=", "--pin=", "--hurry=", "--coarse"],
        help: concat!(
            "wattle removals FILE [--openings N] [--pin VOXEL ..] [--hurry VOXEL ..] [--coarse] [-o LIST]

The removals that carving makes, in their order, as a list that another firm can judge (docs/SECOND-SUPPLIER.md): for each voxel 6 bytes,
hex 56 52, or 56 4F for an opening, and its index in four bytes, low byte first. Where voxels are pinned that pass, `wattle judge` refuses
the list, since it knows no pins, and a note says so.

",
            openings!(),
            marks!(),
            coarse!(),
            "
    wattle removals scan.grid -o scan.list
    wattle judge scan.grid scan.list
"
        ),
    },
    Command {
        name: "judge",
        files: Files::Two,
        options: &["--openings=", "--pin=", "--coarse"],
        help: concat!(
            "wattle judge FILE LIST [--openings N] [--coarse [--pin VOXEL ..]] [-o OUT]

Says whether a list of removals, another firm's or your own, keeps the rules on a grid: each voxel is kept and not inside at its turn; an
ordinary removal passes the local test; an opening lies bare, and comes when no voxel passes; there are at most T openings; and at the end
no voxel passes. The order of distances is free. Where the list is accepted, says its removals, openings and Euler number, how many voxels
it leaves, and whether our own removals leave the same. Where it is refused, says the number, the entry, the voxel, and which rule is
broken. The exit status is 0 where it is accepted, 1 where it or the grid is refused.

",
            openings!(),
            coarse!(),
            "  --pin VOXEL     of a coarse start, hold the block that the voxel lies in: X,Y,Z, an index, or @LIST. Judge itself knows no pins
"
        ),
    },
    Command {
        name: "make",
        files: Files::OneOrNone,
        options: &["--shape=", "--sides=", "--noise=", "--missing=", "--seed=", "--sparse", "--openings="],
        help: concat!(
            "wattle make FILE [--sides A,B,C] [--sparse] [--openings N] [-o OUT]
wattle make --shape SHAPE [--sides A,B,C] [--noise N] [--missing N] [--seed N] [--openings N] [-o OUT]

A grid file from samples or rows of your own, or of a simple shape. A FILE that begins with the letters NRRD is NRRD, any other CSV. What
is wrong gets one line, and nothing is written. What carving makes of the grid is not asked: `wattle explain` says.

  NRRD  three sizes of 3 to 64, whole numbers of 8 to 64 bits as samples, raw or ascii, right behind the header, as `wattle volume --nrrd`
        writes them. -2147483648 is a missing range point, and of two bytes -32768 is. Where the samples lie in space is not kept: a grid
        file does not say
  CSV   a row x,y,z,value for each voxel, in any order; or columns under a line of names, with these four among them. x, y and z count
        from 0. An empty value, or the word `missing`, is a missing range point. Empty lines and those that begin with # are passed over.
        A voxel without a row is an error, and so is one with two

  --sides A,B,C   the grid's sides; otherwise those of CSV just hold its rows, and a shape's are 24,24,24, of 12 to 64 voxels
  --sparse        a voxel without a row in CSV is a missing range point
  --shape SHAPE   sphere, torus, wall, or tunnel: a tube along z, open at both ends. It lies about the grid's middle, 1.5 voxels or more
                  off its outermost ones. A value is the distance from the surface in tenths of a voxel, roots rounded down
  --noise N       add to each value a number from -N to N, 0 to 1000, but not on the grid's edge
  --missing N     so many range points in a hundred are missing, 0 to 100, but not on the grid's edge
  --seed N        another number, 0 to 4294967295, gives other noise and other missing points; 1 unless given. The same words give the
                  same file on every machine
",
            openings!(),
            "                  Without it T is 0

    wattle make --shape torus --noise 5 --seed 7 --openings 1 -o torus.grid
"
        ),
    },
    Command {
        name: "practice",
        files: Files::None,
        options: &["--sides=", "--seed=", "--openings="],
        help: concat!(
            "wattle practice --sides A,B,C --seed N [--openings N] [-o OUT]

The grid file of a practice grid, for a training course (docs/COURSE.md): values by rule alone, so that the same words give the same file on
every instrument. A voxel on the grid's edge has 1000, any other a number from -1000 to 1000. Where none is negative, the grid is refused 4:
take another seed.

  --sides A,B,C   the grid's sides, 3 to 64 voxels each
  --seed N        0 to 4294967295
",
            openings!(),
            "                  Without it T is 0

    wattle practice --sides 9,9,9 --seed 1 | wattle carve -
"
        ),
    },
    Command {
        name: "rewrite",
        files: Files::One,
        options: &["--sort", "--set=", "--openings="],
        help: concat!(
            "wattle rewrite FILE [--sort] [--set VOXEL=VALUE ..] [--openings N] [-o OUT]

The same grid as a file in its written form: layers in rising z and no patches; what patches correct goes into the layers. These have
two bytes a value where every measured value lies in -32767 to 32767, otherwise four, all of them. Sides stay as they are, and so do values
and T unless --set and --openings are given. A grid has one written form, so files of the same grid become the same bytes. What carving
makes of the grid is not asked.

  --sort          take a file with its layers in any order too, where each is there once: they are put in rising z before the file is
                  read. Up to version 0.4 such files were read as they are
  --set VOXEL=VALUE
                  give that voxel that value; it may be given many times, and of two values the later one stands. VOXEL is X,Y,Z or an
                  index; VALUE is -1000000000 to 1000000000, negative inside the body, or `missing`. A patch takes less: two bytes
",
            openings!()
        ),
    },
    Command {
        name: "patch",
        files: Files::One,
        options: &["--set="],
        help: "wattle patch FILE --set VOXEL=VALUE [--set ..] [-o OUT]

The file with single voxels corrected: its own bytes, and after them a patch record for each --set, in the order given. Of two patches
to a voxel the later one stands. FILE stays as it is. `wattle rewrite` puts patches into the layers.

  --set VOXEL=VALUE   VOXEL is X,Y,Z or an index, x + a (y + b z) with sides a, b, c
                      VALUE is -32767 to 32767, negative inside the body, or `missing`: a patch has two bytes for it, also behind
                      layers with four bytes a value

    wattle patch scan.grid --set 5,6,7=-12 --set 5,6,8=missing -o mended.grid
",
    },
    Command {
        name: "carve",
        files: Files::Several,
        options: &["--large", "--json", "--voxel=", "--openings=", "--pin=", "--hurry=", "--coarse"],
        help: concat!(
            "wattle carve FILE .. [--large] [--json] [--voxel SIZE] [--openings N] [--pin VOXEL ..] [--hurry VOXEL ..] [--coarse] [-o OUT]

Prints the line that the program `carve` prints, with an exit status: 0 carved, 1 refused, 2 usage or a file that cannot be read.
As the program does, it refuses input over 65,536 bytes with number 25, before all else, and a side over 24 with number 1; where --large
takes the grid, a note on the standard error says so. Of several files, each line begins with the file's name, the last line counts them,
and the status is that of the worst.

  --large         files of any length and sides up to 64, as all other commands take them
  --json          a line of JSON for each file in place of the line: its numbers, pieces and tunnels, how many voxels are left to open, and
                  the volume in voxels: kept; of these inside, of which gaps; filled, of which over missing points; pinned; unmeasured
",
            voxel!(),
            openings!(),
            marks!(),
            coarse!(),
            "
After a coarse start the line ends with the examinations of blocks, `coarse 57`, and JSON has them as `coarse_examined`. The program itself
starts plainly, marks no voxel, and takes T from the file.
"
        ),
    },
];

/// What `wattle help` prints.
pub fn overview() -> String {
    format!(
        "wattle {}: looks at grid files and at the bodies carved from them

  wattle look FILE          layers as text, or as a picture (--png)
  wattle explain FILE ..    why a file is refused, or what its result means
  wattle list FILE          the voxels to go back to: filled, missing, opened, discarded
  wattle points FILE        the surface's points: PLY, XYZ
  wattle volume FILE        values, distances, status: VTK, NRRD
  wattle compare A B        which voxels differ
  wattle shaky FILE VOXEL E what one uncertain range point can do to the body (--all E)
  wattle page FILE          a page to look at it in a browser, offline
  wattle removals FILE      the removals that carving makes, as a list
  wattle judge FILE LIST    whether a list of removals keeps the rules, and which entry breaks which
  wattle make FILE          a grid file from NRRD or CSV, or of a shape (--shape)
  wattle practice           a grid file for training, the same from a seed on every instrument (--sides, --seed)
  wattle patch FILE         the file with single voxels corrected (--set)
  wattle rewrite FILE       the same grid in its written form: layers in rising z, no patches
  wattle carve FILE ..      the program's line, with an exit status
  wattle help COMMAND       more about a command

FILE may be -, the standard input; after --, every word is a file. With -o OUT the answer goes to a file, which is not overwritten unless
--force is given, and is never left half written; otherwise, or with -o -, it goes to the standard output. Sides may be 3 to 64 voxels.
What takes long shows its progress on a terminal. Several files are shared out among the processor's cores, and so is what shaky tries.

All but compare and patch take --openings N in place of the file's T, the number of openings allowed. All but compare, make, practice,
patch and rewrite take --pin VOXEL, which holds a voxel, --hurry VOXEL, which has it examined before all others unless it is pinned, and
--coarse, which carves blocks of 2 x 2 x 2 voxels first; judge, which examines nothing, takes no --hurry. VOXEL is X,Y,Z, an index, or
@LIST, a file with one voxel a line.

Exit status: 0 done; 1 the grid, or judge's list, is refused (compare: the two differ); 2 usage, or a file cannot be read or written.
",
        env!("CARGO_PKG_VERSION")
    )
}
