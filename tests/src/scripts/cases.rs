//! Document 01's worked cases, each with the lines that the paper gives for it; the faces in them are by document 02, CR 8.

/// The worked cases: name, script.
pub const SCRIPTS: &[(&str, &str)] = &[
    ("A", "sides 3 3 3\nT 0\nvalues fill 5\nvalues set 13 -5\nbegin\ndump dist\ndump status\ncarve 10\nfinish\ncrossing 13 0"),
    (
        "C, T = 0",
        "sides 5 5 3\nT 0\nvalues fill 4\nvalues set 31 -4\nvalues set 32 -4\nvalues set 33 -4\nvalues set 36 -4\nvalues set 38 -4\n\
         values set 41 -4\nvalues set 42 -4\nvalues set 43 -4\nbegin\ncarve 1000\nopen\nfinish\ndump dist\ncrossing 36 0\ncrossing 37 2",
    ),
    (
        "C, T = 1",
        "sides 5 5 3\nT 1\nvalues fill 4\nvalues set 31 -4\nvalues set 32 -4\nvalues set 33 -4\nvalues set 36 -4\nvalues set 38 -4\n\
         values set 41 -4\nvalues set 42 -4\nvalues set 43 -4\nbegin\ncarve 1000\ntake 37\nopen",
    ),
    (
        "D",
        "sides 4 4 3\nT 0\nvalues fill 6\nvalues set 21 -6\nvalues set 26 -6\nbegin\ndump status\ncarve 1\ndump status\ncarve 1\ndump status",
    ),
    (
        "D's file",
        "file 56480404030000\n\
         append 564C000600060006000600060006000600060006000600060006000600060006000600\n\
         append 564C0106000600060006000600FAFF0600060006000600FAFF06000600060006000600\n\
         append 564C020600060006000600060006000600060006000600060006000600060006000600\n\
         program",
    ),
    ("local tests", "local 0\nlocal 7ffdfff\nlocal 10\nlocal 1\nlocal 400010\nlocal 15400\nlocal 15410\nlocal 5140145\nlocal 7be8bef"),
];

/// Lines that each case must print, from the paper.
pub const LINES: &[(&str, &[&str])] = &[
    (
        "A",
        &[
            "[8, 7, 8, 7, 5, 7, 8, 7, 8, 7, 5, 7, 5, -5, 5, 7, 5, 7, 8, 7, 8, 7, 5, 7, 8, 7, 8]",
            "[0, 0, 0, 0, 0, 0, 0, 0, 0, 0, 0, 0, 0, 1, 0, 0, 0, 0, 0, 0, 0, 0, 0, 0, 0, 0, 0]",
            "carve ok examined 0 removed 0 pending 0 face 6 | rec 3 3 3 T 0 openings 0 removals 0 examinations 0 euler 1 finished 0",
            "crossing ok point 3ff8000000000000 3ff0000000000000 3ff0000000000000",
        ],
    ),
    (
        "C, T = 0",
        &[
            "carve ok examined 1 removed 0 pending 0 face 6 | rec 5 5 3 T 0 openings 0 removals 0 examinations 1 euler 1 finished 0",
            "open refused 14",
            // the middle is -4, so that no surface lies between it and the ring, and p is 4 against the 6 of the voxel above it
            "crossing ok none",
            "crossing ok point 4000000000000000 4000000000000000 3ff6666666666666",
        ],
    ),
    (
        "C, T = 1",
        &["take refused 12", "open ok opened 37 k 1 m 2 face 4 | rec 5 5 3 T 1 openings 1 removals 1 examinations 1 euler 0 finished 0"],
    ),
    (
        "D",
        &[
            // 22 has 21 at its low x, and the border at its high x; 25 has the border at its low x
            "carve ok examined 1 removed 1 pending 1 face 1 | rec 4 4 3 T 0 openings 0 removals 1 examinations 1 euler 1 finished 0",
            "carve ok examined 1 removed 1 pending 0 face 0 | rec 4 4 3 T 0 openings 0 removals 2 examinations 2 euler 1 finished 0",
            "[0, 0, 0, 0, 0, 0, 0, 0, 0, 0, 0, 0, 0, 0, 0, 0, 0, 0, 0, 0, 0, 1, 0, 0, 0, 3, 1, 0, 0, 0, 0, 0, 0, 0, 0, 0, 0, 0, 0, 0, 0, 0, 0, 0, 0, 0, 0, 0]",
            "[0, 0, 0, 0, 0, 0, 0, 0, 0, 0, 0, 0, 0, 0, 0, 0, 0, 0, 0, 0, 0, 1, 0, 0, 0, 0, 1, 0, 0, 0, 0, 0, 0, 0, 0, 0, 0, 0, 0, 0, 0, 0, 0, 0, 0, 0, 0, 0]",
        ],
    ),
    ("D's file", &["kept 2 removed 2 opened 0 examined 2 euler 1"]),
    (
        "local tests",
        &[
            "local ok k 0 m 1 corners 0 edges 0 faces 0 face 0",
            "local ok k 1 m 0 corners 8 edges 12 faces 6 face 6",
            "local ok k 1 m 1 corners 4 edges 4 faces 1 face 0",
            "local ok k 1 m 1 corners 1 edges 0 faces 0 face 0",
            "local ok k 2 m 1 corners 8 edges 8 faces 2 face 0",
            "local ok k 1 m 2 corners 8 edges 12 faces 4 face 4",
            "local ok k 1 m 1 corners 8 edges 12 faces 5 face 5",
            "local ok k 8 m 1 corners 8 edges 0 faces 0 face 0",
            "local ok k 1 m 6 corners 8 edges 12 faces 0 face 0",
        ],
    ),
];

/// The scripts in the order above.
pub fn scripts() -> Vec<String> {
    SCRIPTS.iter().map(|(name, script)| format!("# case {name}\nautohash 0\n{script}\nautohash 1\nhash\n")).collect()
}
