// Uses the page as a hand does, and reports in lines of `name: words`. Written at the page's end by tests/page.rs.

const hex = (d, i) => "#" + [d[i], d[i + 1], d[i + 2]].map((n) => n.toString(16).padStart(2, "0")).join("");
const frames = (then) => requestAnimationFrame(() => requestAnimationFrame(then));
const lines = [];
const say = (name, words) => lines.push(name + ": " + words);

// the colour in the middle of each voxel of the layer shown
function seenLayer(wide, high) {
  const data = layer.getContext("2d").getImageData(0, 0, layer.width, layer.height).data;
  const { cell, left, top } = layout(), colours = [];
  for (let v = 0; v < high; v++)
    for (let u = 0; u < wide; u++)
      colours.push(hex(data, 4 * ((top + v * cell + (cell >> 1)) * layer.width + left + u * cell + (cell >> 1))));
  return colours.join(" ");
}

function seenCloud() {
  const data = cloud.getContext("2d").getImageData(0, 0, cloud.width, cloud.height).data;
  let sum = 0, drawn = 0;
  for (let i = 0; i < data.length; i++) sum = (31 * sum + data[i]) >>> 0;
  for (let i = 3; i < data.length; i += 4) drawn += data[i] > 0;
  return [sum, drawn];
}

function allLayers(body) {
  for (const [name, wide, high] of [["2", 0, 1], ["1", 0, 2], ["0", 1, 2]]) {
    axis.value = name;
    axis.dispatchEvent(new Event("change"));
    for (let i = 0; i < sides[Number(name)]; i++) {
      slider.value = i;
      slider.dispatchEvent(new Event("input"));
      say(body + "layer " + name + " " + i, seenLayer(sides[wide], sides[high]));
    }
  }
  axis.value = "2";
  axis.dispatchEvent(new Event("change"));
}

function pointAt(x, y) {
  const { cell, left, top } = layout(), box = layer.getBoundingClientRect(), ratio = box.width / layer.width;
  const at = (low, n) => (low + (n + 0.5) * cell) * ratio;
  layer.dispatchEvent(new PointerEvent("pointermove", { clientX: box.left + at(left, x), clientY: box.top + at(top, y) }));
  say("voxel", voxelLine());
}

const key = (canvas, name) => canvas.dispatchEvent(new KeyboardEvent("keydown", { key: name, cancelable: true }));
const voxelLine = () => element("voxel").textContent;

// the line goes with the layer and the pointer, and without a pointer says the voxel that is held
function voxels() {
  element("axis").value = "2";
  chooseAxis();
  slider.value = 4;
  slider.dispatchEvent(new Event("input"));
  say("no voxel", voxelLine());
  pointAt(7, 2);
  layer.dispatchEvent(new WheelEvent("wheel", { deltaY: 5, cancelable: true }));
  say("voxel below", voxelLine());
  layer.dispatchEvent(new PointerEvent("pointerleave"));
  say("voxel left", voxelLine());
  ["ArrowLeft", "ArrowLeft", "ArrowUp", "PageUp", "x"].forEach((name) => key(layer, name));
  say("voxel by key", voxelLine());
  "x".repeat(99).split("").forEach(() => key(layer, "ArrowRight"));
  say("voxel at the edge", voxelLine());
}

// every opening in the list that is shown, by choosing it, with the layer that it leads to
function openings(name) {
  const list = [...document.querySelectorAll(".openings")].find((l) => l.offsetParent);
  const choose = ({ value }) => { list.value = value; list.dispatchEvent(new Event("change")); return voxelLine() + " in " + element("which").textContent; };
  say(name, list ? [...list.options].map(choose).join("; ") : "");
}

// the words, the layers and the openings of the other body
function freely() {
  const choice = element("body");
  openings("openings");
  if (!choice) return;
  choice.value = "1";
  choice.dispatchEvent(new Event("change"));
  say("free line", [...document.querySelectorAll(".line")].filter((l) => l.offsetParent).map((l) => l.textContent).join(", "));
  allLayers("free ");
  openings("free openings");
}

// One removal at a time from the beginning: what is told of each, whether the voxel slides, and whether it ends where it is gone. Then the layer as
// it was before the first, and the end again.
function removals() {
  const seen = () => layer.toDataURL(), click = () => element("next").dispatchEvent(new Event("click"));
  const told = [], moved = [], ends = [];
  say("removals", element("removals").hidden ? "none" : element("last").textContent);
  if (element("removals").hidden) return;
  click();
  say("no removal", element("last").textContent);
  say("still to go in", element("which").textContent);
  say("still to go", seenLayer(sides[0], sides[1]));
  for (let i = 0; i < 12; i++) {
    click();
    told.push(voxelLine() + " in " + element("which").textContent + "; " + element("last").textContent);
    // half way, unless it does not move at all
    if (since > 0) since = performance.now() - 200;
    drawLayer();
    const moving = seen();
    since = -Infinity;
    drawLayer();
    moved.push(moving !== seen());
    const { cell, left, top } = layout(), [x, y] = held, pen = layer.getContext("2d");
    ends.push(hex(pen.getImageData(left + x * cell + (cell >> 1), top + y * cell + (cell >> 1), 1, 1).data, 0));
  }
  say("each removal", told.join(" | "));
  say("slides", moved.join(" "));
  say("gone after", ends.join(" "));
  moment.value = moment.max;
  moment.dispatchEvent(new Event("input"));
  say("jumps", slid() === 1);
}

function lettered() {
  const seen = () => layer.toDataURL(), before = seen();
  letters.checked = true;
  letters.dispatchEvent(new Event("change"));
  const with_letters = seen();
  letters.checked = false;
  letters.dispatchEvent(new Event("change"));
  say("letters", [before !== with_letters, before === seen()].join(" "));
}

function zoomed() {
  const seen = ["+", "+", "-", "0"].map((name) => { key(cloud, name); return nearness; });
  say("zoomed", seen.map((n) => n.toFixed(2)).join(" "));
}

const finger = (name, id, x, y) => cloud.dispatchEvent(new PointerEvent(name, { pointerId: id, clientX: x, clientY: y }));

// right, up and towards the viewer, as x, y and z have to be: 1, and -1 in a mirror
function handedness() {
  const o = onScreen(0, 0, 0, 100);
  const [x, y, z] = [onScreen(1, 0, 0, 100), onScreen(0, 1, 0, 100), onScreen(0, 0, 1, 100)].map((p) => [p[0] - o[0], o[1] - p[1], p[2] - o[2]]);
  return Math.sign(x[0] * (y[1] * z[2] - y[2] * z[1]) - x[1] * (y[0] * z[2] - y[2] * z[0]) + x[2] * (y[0] * z[1] - y[1] * z[0]));
}

// the corner nearest to the viewer goes with the finger: to the right, then down
function follow() {
  const corners = [0, 1, 2, 3, 4, 5, 6, 7].map((i) => sides.map((side, axis) => (i >> axis & 1) * (side - 1)));
  const near = corners.sort((p, q) => onScreen(...q, 100)[2] - onScreen(...p, 100)[2])[0];
  const start = onScreen(...near, 100);
  finger("pointermove", 1, 60, 50);
  const right = onScreen(...near, 100);
  finger("pointermove", 1, 60, 60);
  say("follows", [right[0] > start[0], onScreen(...near, 100)[1] > right[1]].join(" "));
}

const steps = [
  () => say("cloud first", seenCloud()),
  // no pointer is there that the browser could capture
  () => { cloud.setPointerCapture = () => {}; finger("pointerdown", 1, 50, 50); follow(); finger("pointerup", 1, 60, 60); },
  () => { say("cloud turned", seenCloud()); finger("pointermove", 1, 150, 150); },
  () => say("cloud let go", seenCloud()),
  () => { finger("pointerdown", 1, 50, 50); finger("pointerdown", 2, 60, 50); finger("pointermove", 2, 70, 50); [1, 2].forEach((i) => finger("pointerup", i, 0, 0)); },
  () => { say("cloud nearer", seenCloud()); say("nearness", nearness); cloud.dispatchEvent(new WheelEvent("wheel", { deltaY: 100, cancelable: true })); },
  () => { say("cloud farther", seenCloud()); cloud.dispatchEvent(new KeyboardEvent("keydown", { key: "ArrowLeft" })); },
  () => { say("cloud by key", seenCloud()); say("hand", handedness()); cloud.dispatchEvent(new Event("dblclick")); },
  () => say("cloud again", seenCloud()),
  () => { const z = slider.value; layer.dispatchEvent(new WheelEvent("wheel", { deltaY: 5, cancelable: true })); say("scrolled", slider.value - z); },
  voxels,
  lettered,
  zoomed,
  () => { say("wide", document.documentElement.scrollWidth <= innerWidth); say("surface", !element("surface").hidden); },
  () => say("dark", matchMedia("(prefers-color-scheme: dark)").matches),
  removals,
  () => allLayers(""),
  freely,
];

function next() {
  const step = steps.shift();
  if (step) return frames(() => { try { step(); } catch (e) { faults.push(String(e)); } next(); });
  say("faults", faults.join("; "));
  document.body.innerHTML = "<pre id='report'></pre>";
  element("report").textContent = lines.join("\n");
}
next();
