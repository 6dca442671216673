// What all pages of this folder do. A page has its data in DATA, which tools/page.py writes; that tool puts this file into a page that stands
// alone. A drawing is spelled short: shapes behind each other, with a semicolon between, each a word or a number and what it needs.
"use strict";
document.body.insertAdjacentHTML("afterbegin", `<svg id="map" xmlns="http://www.w3.org/2000/svg" preserveAspectRatio="xMidYMid meet"><defs id="defs"></defs>
<g id="tiles"></g><g id="changed"></g><g class="borders" id="borders"></g><g id="obstacles"></g><g class="questions" id="questions"></g></svg>
<div id="side">
<h1></h1>
<label for="version">published length <b id="length"></b> <small id="counts"></small></label>
<input type="range" id="version" min="0" step="1" value="0">
<label for="storey">floors up to <b id="top"></b></label>
<input type="range" id="storey" min="0" step="1">
<div id="told">Drag to move, turn the wheel to zoom, double click to see all. Hover over a polygon. Click a path, a hop walk or a ray below.</div>
<div id="alive"></div>
<ol id="script"></ol>
<small>Yellow tiles with dotted edges changed at this length. White is no free ground.</small>
</div>`);
const get = id => document.getElementById(id);
const map = get("map"), version = get("version"), storey = get("storey");
const all = {x: -1, y: -1, width: DATA.width + 2, height: DATA.depth + 2};
// How many pixels a cell has where all are seen.
const cell = 1000 / Math.max(DATA.width, DATA.depth);
let view = {...all}, drawn = [], chosen = -1;

// A rectangle's corners, or the corners that are given one by one.
function corners(numbers) {
  const [x, y, width, height] = numbers.map(Number);
  if (numbers.length === 4) numbers = [x, y + height, x + width, y + height, x + width, y, x, y];
  const points = [];
  for (let at = 0; at < numbers.length; at += 2) points.push(numbers[at] + "," + numbers[at + 1]);
  return points.join(" ");
}

// The ground of a tile, `gCOLOUR FLOOR X Y WIDTH HEIGHT,..`, and its polygons, `NUMBER LOW HIGH CORNERS`, which have the area of the last
// `aAREA` before them.
function tileDrawing(short, tile) {
  let area = 0;
  return short.split(";").filter(shape => shape).map(shape => {
    const words = shape.split(" ");
    if (shape[0] === "a") {
      area = shape.slice(1);
      return "";
    }
    if (shape[0] === "g") {
      const runs = shape.slice(words[0].length + words[1].length + 2).split(",").map(run => run.split(" "));
      const course = runs.map(([x, y, width, height]) => `M${x} ${y}h${width}v${height}h-${width}z`).join("");
      return `<path class="g" fill="#${words[0].slice(1)}" data-h="${words[1]}" d="${course}"/>`;
    }
    const [number, low, high, ...points] = words;
    return `<polygon class="p" fill="${DATA.areas[area]}" data-h="${low}" data-p="${tile} ${number} ${area} ${low} ${high}" points="${corners(points)}"/>`;
  }).join("");
}

// What a question was answered: polygons, marks, turns, and lines by their names.
function questionDrawing(short, title) {
  const shapes = short.split(";").map(shape => {
    const [name, ...rest] = shape.split(" ");
    if (name === "in") return `<polygon class="in" points="${corners(rest)}"/>`;
    if (name === "from") return `<circle class="from" cx="${rest[0]}" cy="${rest[1]}" r="${rest[2]}"/>`;
    if (name === "to") return `<rect class="to" x="${rest[0]}" y="${rest[1]}" width="${rest[2]}" height="${rest[2]}"/>`;
    if (name === "turn") {
      const [x, y, size, end, portal] = rest;
      return `<circle class="turn" cx="${x}" cy="${y}" r="${size}"><title>turn at the ${end} end of portal ${portal}</title></circle>`;
    }
    return `<path class="${name}" d="${rest.join(" ")}"/>`;
  });
  return `<g class="q"><title>${title}</title>${shapes.join("")}</g>`;
}

function rectangle(name, [x, y, width, height]) {
  return `<rect class="${name}" x="${x}" y="${y}" width="${width}" height="${height}"/>`;
}

function look() {
  map.setAttribute("viewBox", [view.x, view.y, view.width, view.height].join(" "));
}

function zoom(factor, x, y) {
  view = {x: x + (view.x - x) * factor, y: y + (view.y - y) * factor, width: view.width * factor, height: view.height * factor};
  look();
}

// A point of the window, in cells.
function place(event) {
  const point = new DOMPoint(event.clientX, event.clientY).matrixTransform(map.getScreenCTM().inverse());
  return [point.x, point.y];
}

// Only the tiles that are not drawn yet as the version has them are drawn anew.
function draw() {
  const now = DATA.versions[version.value];
  now.tiles.forEach((piece, tile) => {
    if (drawn[tile] !== piece) {
      get("tiles").children[tile].innerHTML = tileDrawing(DATA.pieces[piece], tile);
      drawn[tile] = piece;
    }
  });
  get("changed").innerHTML = now.changed.map(tile => rectangle("changed", DATA.tiles[tile])).join("");
  const obstacles = now.obstacles.map(place => DATA.obstacles[place]);
  get("obstacles").innerHTML = obstacles.map(one => one[1]).join("");
  get("length").textContent = now.length;
  get("counts").textContent = now.polygons + " polygons, " + now.links + " links, " + now.changed.length + (now.changed.length === 1 ? " tile changed" : " tiles changed");
  get("alive").textContent = obstacles.length ? "alive: " + obstacles.map(one => one[0]).join("; ") : "no obstacle is alive";
  const top = DATA.heights[storey.value];
  get("top").textContent = top;
  for (const part of get("tiles").querySelectorAll("[data-h]")) part.style.display = +part.dataset.h <= top ? "" : "none";
  for (const row of get("script").children) row.classList.toggle("later", +row.dataset.length > now.length);
  const [text, length, short] = chosen >= 0 ? DATA.script[chosen] : ["", -1];
  get("questions").innerHTML = length === now.length ? questionDrawing(short, "line " + text.replace("  ", ": ").replace(/\n */, " - ")) : "";
  for (const row of get("script").children) row.classList.toggle("chosen", row.dataset.line == chosen);
}

// Shows what a path, a hop walk or a ray was answered, at the length of its answer.
function choose(line) {
  chosen = chosen === line ? -1 : line;
  if (chosen >= 0) {
    const [text, length, , more] = DATA.script[line];
    const [asked, answered] = text.split("\n");
    version.value = DATA.versions.findIndex(one => one.length === length);
    get("told").innerText = "line " + asked.split(" ")[0] + ", published length " + length + "\n" + answered.trim() + more;
  }
  draw();
}

function begin() {
  get("side").querySelector("h1").textContent = document.title;
  document.documentElement.style.setProperty("--part", Math.max(0.3, Math.min(1, cell / 10)));
  get("defs").innerHTML = `<pattern id="hatch" width="${6 / cell}" height="${6 / cell}" patternUnits="userSpaceOnUse" patternTransform="rotate(45)">
    <rect width="${6 / cell}" height="${6 / cell}" fill="#fff" fill-opacity=".75"/><rect width="${1.6 / cell}" height="${6 / cell}" fill="#000"/></pattern>`;
  version.max = DATA.versions.length - 1;
  version.value = version.max;
  storey.max = DATA.heights.length - 1;
  storey.value = storey.max;
  get("tiles").innerHTML = DATA.tiles.map((_, tile) => '<g class="t" data-t="' + tile + '"></g>').join("");
  const size = DATA.labels;
  get("borders").innerHTML = DATA.tiles.map((one, tile) => rectangle("tile", one) +
    (size ? `<text x="${one[0] + size * 0.3}" y="${one[1] + size * 1.1}" font-size="${size}">tile ${tile}</text>` : "")).join("");
  DATA.script.forEach(([text, length, short], number) => {
    const row = document.createElement("li");
    row.textContent = text;
    row.dataset.length = length;
    row.dataset.line = number;
    if (short) {
      row.className = "ask";
      row.tabIndex = 0;
      row.onclick = () => choose(number);
      row.onkeydown = event => { if (event.key === "Enter") choose(number); };
    }
    get("script").append(row);
  });
  version.oninput = draw;
  storey.oninput = draw;
  map.onwheel = event => {
    event.preventDefault();
    zoom(event.deltaY > 0 ? 1.2 : 1 / 1.2, ...place(event));
  };
  map.ondblclick = () => { view = {...all}; look(); };
  let held = null;
  map.onpointerdown = event => { held = place(event); map.setPointerCapture(event.pointerId); };
  map.onpointerup = () => { held = null; };
  map.onpointermove = event => {
    if (!held) return;
    const [x, y] = place(event);
    view.x += held[0] - x;
    view.y += held[1] - y;
    look();
  };
  map.onmouseover = event => {
    const told = event.target.dataset;
    if (told && told.p) {
      const [tile, number, area, low, high] = told.p.split(" ");
      get("told").innerText = "tile " + tile + ", polygon " + number + "\narea " + area + "\nfloors " + low + " to " + high;
    }
  };
  look();
  draw();
}

begin();
