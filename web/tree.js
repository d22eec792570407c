"use strict";
// Draws the tree of a bus: the root at the top, and below each node those on its ports to children, the lowest port at
// the left.

const SVG = "http://www.w3.org/2000/svg";
const BOX = { width: 124, height: 46 };
const STEP = { x: 140, y: 108 };
const EDGE = 12;

// A cable has the lower speed of its two ends; the code 3 counts as S400.
const speedOf = (one, other) => `S${100 << Math.min(one.speed, other.speed, 2)}`;

// The cables from a node to its children, by rising port.
function cablesBelow(bus, id) {
  const cables = [];
  bus.nodes[id].slots.forEach((slot, port) => {
    if (slot.status !== SLOT.down) return;
    const child = bus.nodes[slot.peer];
    const back = child.slots.findIndex((it) => it.status === SLOT.up);
    cables.push({ parent: id, child: child.id, port, back, speed: speedOf(bus.nodes[id], child) });
  });
  return cables;
}

// The column and the row of each node, by ID. A node stands over the middle of its children; each leaf has a column.
function placesOf(bus) {
  const places = [];
  let columns = 0;
  const place = (id, row) => {
    const below = cablesBelow(bus, id).map((cable) => place(cable.child, row + 1));
    const column = below.length > 0 ? (below[0] + below.at(-1)) / 2 : columns++;
    places[id] = { column, row };
    return column;
  };
  place(bus.root, 0);
  return places;
}

// The cables on the longest path of the bus.
function hopsOf(bus) {
  let most = 0;
  const depth = (id) => {
    const below = cablesBelow(bus, id).map((cable) => 1 + depth(cable.child)).sort((a, b) => b - a);
    most = Math.max(most, (below[0] ?? 0) + (below[1] ?? 0));
    return below[0] ?? 0;
  };
  depth(bus.root);
  return most;
}

function element(name, attributes, ...inside) {
  const made = document.createElementNS(SVG, name);
  for (const [key, value] of Object.entries(attributes)) made.setAttribute(key, value);
  made.append(...inside);
  return made;
}

function drawTree(bus) {
  const places = placesOf(bus).map(({ column, row }) => ({ x: EDGE + column * STEP.x, y: EDGE + row * STEP.y }));
  const width = Math.max(...places.map((it) => it.x)) + BOX.width + EDGE;
  const height = Math.max(...places.map((it) => it.y)) + BOX.height + EDGE;
  const cables = bus.nodes.flatMap((node) => cablesBelow(bus, node.id));
  const title = `The tree of a bus of ${bus.nodes.length} nodes with node ${bus.root} as its root`;
  return element("svg", { viewBox: `0 0 ${width} ${height}`, width, height, role: "img", "aria-label": title },
    ...cables.map((cable) => drawCable(cable, places)),
    ...bus.nodes.map((node) => drawNode(bus, node, places[node.id])));
}

// The text of a drawing as a file of its own, in which each shape has the colours and the letters that it has here.
function textOfDrawing(drawing) {
  const copy = drawing.cloneNode(true);
  copy.removeAttribute("class");
  copy.setAttribute("xmlns", SVG);
  const shapes = (it) => [...it.querySelectorAll("rect, path, text")];
  shapes(copy).forEach((shape, at) => {
    const style = getComputedStyle(shapes(drawing)[at]);
    for (const name of ["fill", "stroke", "stroke-width", "font-family", "font-size", "font-weight", "text-anchor"]) {
      shape.setAttribute(name, style.getPropertyValue(name));
    }
  });
  const paper = element("rect", { width: "100%", height: "100%", fill: getComputedStyle(document.body).backgroundColor });
  copy.prepend(paper);
  return `<?xml version="1.0" encoding="UTF-8"?>\n${new XMLSerializer().serializeToString(copy)}\n`;
}

function drawCable(cable, places) {
  const from = { x: places[cable.parent].x + BOX.width / 2, y: places[cable.parent].y + BOX.height };
  const to = { x: places[cable.child].x + BOX.width / 2, y: places[cable.child].y };
  const bend = from.y + 22;
  return element("g", { class: "cable" },
    element("path", { d: `M${from.x} ${from.y} V${bend} H${to.x} V${to.y}` }),
    element("text", { x: to.x + 5, y: to.y - 18 }, `${cable.port} to ${cable.back}`),
    element("text", { x: to.x + 5, y: to.y - 5 }, cable.speed));
}

function drawNode(bus, node, { x, y }) {
  const marks = [node.id === bus.root && "root", node.id === bus.manager && "irm"].filter(Boolean);
  const middle = x + BOX.width / 2;
  const box = { x, y, width: BOX.width, height: BOX.height, rx: 6 };
  const inner = { x: x + 3, y: y + 3, width: BOX.width - 6, height: BOX.height - 6, rx: 4 };
  return element("g", { class: ["node", ...marks].join(" "), "data-id": node.id },
    element("title", {}, lineOfNode(node)),
    element("rect", box),
    ...(node.id === bus.root ? [element("rect", inner)] : []),
    element("text", { x: middle, y: y + 19, class: "name" }, `node ${node.id}`),
    element("text", { x: middle, y: y + 36 }, [...marks, `gap ${node.gap}`].join(" \u00b7 ")));
}
