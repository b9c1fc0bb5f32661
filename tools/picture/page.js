"use strict";
// Draws what is in view of a run: rows of entries and of frames that were taken, lanes, and bands of owners.
const data = JSON.parse(document.getElementById("data").textContent);
const byId = (id) => document.getElementById(id);
const view = byId("view"), scroll = byId("scroll"), map = byId("map");
window.onerror = (what) => { document.body.dataset.error = what; };

const [GUTTER, ENTRY, TAKE, BAND, MOST_BANDS, KEPT_BANDS] = [56, 22, 11, 32, 40, 12];
const [LEAST_LANE, GREATEST_LANE, LETTER] = [150, 300, 6.95];
const KINDS = {
  ok: "done", fork: "forks", end: "ends", notready: "not ready", refused: "refused", waits: "waits", woken: "wakes",
};
const nodeLanes = new Map(data.processes.map((it, at) => [it[1], at]).filter((it) => it[0]));
const hue = (node) => `hsl(${(node * 67 + 145) % 360} 50% 43%)`;
const colorOf = (lane) => hue(data.processes[lane][1] || data.processes[lane][0]);
const kindColor = (kind) => kind === "ok" ? "var(--ink)" : `var(--${kind})`;
const labelOf = (name) => `${name[0]} ${name[1]}`;

// ---- what is shown

const state = { only: "", hidden: new Set(), events: data.made.length > 0, row: -1 };
// of each row the entry, or where a frame is taken, -1 less the event; where it begins; and the row of each entry
let rows = [], tops = [], rowOf = new Int32Array(0), lanes = [], laneAt = [], laneWidth = LEAST_LANE;
// the queues and sets that have a band: all, or where they are many those that the entries in view are about
let bands = [], areMany = false;

function concerns(entry, at) {
  if (state.hidden.has(data.kinds[entry[4]])) return false;
  const wanted = state.only.trim();
  if (!wanted) return true;
  const named = /^(process|queue|set) (\d+)$/.exec(wanted);
  if (named && named[1] === "process") return entry[6].some((it) => data.processes[it][0] === Number(named[2]));
  if (named) return entry[5] >= 0 && labelOf(data.names[entry[5]]) === wanted;
  const blocks = data.processes.flatMap((it, lane) => it[2] === wanted ? [lane] : []);
  if (blocks.length) return entry[6].some((it) => blocks.includes(it));
  return lineOf(at).includes(wanted);
}

function lineOf(at) {
  const [lane, call, reply, by] = data.entries[at];
  return `${data.processes[lane][0]} ${call} = ${reply} by ${by}`;
}

function arrange() {
  const isWhole = !state.only.trim() && !state.hidden.size;
  const shown = [];
  data.entries.forEach((entry, at) => { if (isWhole || concerns(entry, at)) shown.push(at); });
  const here = new Set(), named = new Set();
  for (const at of shown) {
    for (const lane of data.entries[at][6]) here.add(lane);
    if (data.entries[at][5] >= 0) named.add(data.entries[at][5]);
  }
  lanes = data.processes.map((_, lane) => lane).filter((lane) => !state.only.trim() || here.has(lane));
  laneAt = data.processes.map(() => -1);
  lanes.forEach((lane, at) => { laneAt[lane] = at; });
  areMany = named.size > MOST_BANDS;
  bands = areMany ? [] : [...named].sort((a, b) => a - b);
  byId("totals").textContent = [data.totals, data.skipped ? `${data.skipped} other lines` : "",
    areMany ? `of ${named.size} queues and sets those in view have a band` : "",
    data.events.length && !data.made.length ? "the events don't fit the entries" : ""].filter(Boolean).join("; ");
  place(shown, isWhole);
}

// Puts entries, and before each the frames that were taken until then, into rows. Of some entries only those frames are
// shown whose taking made one.
function place(shown, isWhole) {
  rows = []; tops = [0]; rowOf = new Int32Array(data.entries.length).fill(-1);
  let top = 0, event = 0;
  const add = (row, height) => { rows.push(row); top += height; tops.push(top); };
  const takes = (behind) => {
    for (; state.events && event < behind; event++) {
      const [node, source] = data.events[event];
      if (source && laneOf(node) >= 0 && laneOf(source) >= 0) add(-1 - event, TAKE);
    }
  };
  for (const at of shown) {
    if (state.events && !isWhole) event = Math.max(event, data.made[at]);
    if (state.events) takes(data.made[at] + 1);
    rowOf[at] = rows.length;
    add(at, ENTRY);
  }
  if (isWhole) takes(data.events.length);
  // an entry that isn't shown stands where the next one does
  for (let at = data.entries.length - 1, next = rows.length; at >= 0; at--) {
    if (rowOf[at] < 0) rowOf[at] = next; else next = rowOf[at];
  }
}

function laneOf(node) {
  const lane = nodeLanes.get(node);
  return lane === undefined ? -1 : laneAt[lane];
}

// ---- where things are

const middle = (column) => GUTTER + column * laneWidth + 9;
const lanesTo = () => GUTTER + lanes.length * laneWidth + 14;
const wholeWidth = () => lanesTo() + (areMany ? MOST_BANDS : bands.length) * BAND + 10;
// the first bands stay in view where the lanes are too many to be seen at once
const bandsFrom = () => Math.min(lanesTo(),
  scroll.scrollLeft + scroll.clientWidth - Math.min(bands.length, KEPT_BANDS) * BAND - 10);
const entryTop = (at) => at >= data.entries.length ? tops[rows.length] : tops[Math.min(rowOf[at], rows.length)];

function size() {
  const whole = byId("whole");
  // what is asked of the window below rests on the bars that this height brings
  view.setAttribute("width", 0);
  view.setAttribute("height", scroll.clientHeight);
  whole.style.height = `${Math.max(0, tops[rows.length] + 30 - scroll.clientHeight)}px`;
  const free = scroll.clientWidth - GUTTER - 24 - Math.min(areMany ? KEPT_BANDS : bands.length, KEPT_BANDS) * BAND;
  laneWidth = Math.max(LEAST_LANE, Math.min(GREATEST_LANE, Math.floor(free / Math.max(lanes.length, 1))));
  whole.style.width = `${wholeWidth()}px`;
  view.setAttribute("height", scroll.clientHeight);
  view.setAttribute("width", scroll.clientWidth);
}

function rowAt(y) {
  let low = 0, high = rows.length;
  while (low < high) { const at = (low + high) >> 1; if (tops[at + 1] <= y) low = at + 1; else high = at; }
  return low;
}

// ---- drawing

const escaped = (text) => text.replace(/[&<>"]/g, (it) => `&#${it.charCodeAt(0)};`);
const cut = (text, most) => text.length > most ? `${text.slice(0, most - 1)}\u2026` : text;
// A call and its reply in so many letters: a last word that says nothing new goes first, and of what is left the reply
// is seen.
function brief(call, reply, most) {
  const short = call.replace(/ (nowait|nohang)$/, "");
  if (call.length + 3 + reply.length <= most) return `${call} = ${reply}`;
  if (short.length + 3 + reply.length <= most) return `${short} = ${reply}`;
  const end = cut(reply, Math.max(6, most >> 1));
  return `${cut(short, Math.max(4, most - 3 - end.length))} = ${end}`;
}
const line = (x1, y1, x2, y2, rest) => `<line x1="${x1}" y1="${y1}" x2="${x2}" y2="${y2}" ${rest}/>`;
const arrow = (x1, x2, y, of) => {
  const back = x2 + (x2 > x1 ? -5 : 5);
  const head = `<path d="M${back} ${y - 3}L${x2} ${y}L${back} ${y + 3}" class="${of}" fill="none"/>`;
  return line(x1, y, x2, y, `class="${of}"`) + head;
};

function draw() {
  const top = scroll.scrollTop, left = scroll.scrollLeft, high = scroll.clientHeight;
  const first = rowAt(top), last = Math.min(rows.length - 1, rowAt(top + high));
  const out = [`<g transform="translate(${-left} ${-top})">`];
  if (state.row >= first && state.row <= last) {
    const [y, below] = [tops[state.row], tops[state.row + 1]];
    out.push(`<rect class="hover" x="0" y="${y}" width="${wholeWidth()}" height="${below - y}"/>`);
  }
  if (areMany) {
    const seen = rows.slice(first, last + 1).filter((it) => it >= 0).map((it) => data.entries[it][5]);
    bands = [...new Set(seen.filter((it) => it >= 0))].sort((a, b) => a - b).slice(0, MOST_BANDS);
  }
  drawLives(out, top, high);
  for (let row = first; row <= last; row++) {
    if (rows[row] >= 0) drawEntry(out, rows[row], tops[row]); else drawTake(out, -1 - rows[row], tops[row]);
  }
  drawBands(out, top, high);
  out.push("</g>");
  view.innerHTML = out.join("");
  drawHeads(left);
  drawMap();
}

function drawLives(out, top, high) {
  lanes.forEach((lane, column) => {
    const [, , , , begins, ends] = data.processes[lane], x = middle(column);
    const from = Math.max(lane ? entryTop(begins) + ENTRY / 2 : 0, top - 9);
    const last = Math.min(tops[rows.length], top + high + 9);
    const to = ends < 0 ? last : Math.min(entryTop(ends) + ENTRY / 2, last);
    // a node may take frames when its process has ended
    if (state.events && from < last) out.push(line(x, from, x, last, 'class="node"'));
    if (from < to) out.push(line(x, from, x, to, `class="life" stroke="${colorOf(lane)}"`));
    drawWaits(out, data.processes[lane][6], x, from, to);
  });
}

// A process's line is broken where it waits.
function drawWaits(out, waits, x, from, to) {
  for (const [first, last] of waits) {
    const begins = Math.max(entryTop(first) + ENTRY / 2, from);
    const ends = Math.min(last < 0 ? tops[rows.length] : entryTop(last) + ENTRY / 2, to);
    if (begins < ends) out.push(line(x, begins, x, ends, 'class="wait"'));
  }
}

// Whom an entry wakes, and with which reply.
function drawWoken(out, at, x, half) {
  for (const lane of data.entries[at][6]) {
    const wait = lane === data.entries[at][0] ? undefined : data.processes[lane][6].find((it) => it[1] === at);
    if (!wait || laneAt[lane] < 0) continue;
    const to = middle(laneAt[lane]), shown = cut(`= ${wait[2]}`, Math.floor((laneWidth - 30) / LETTER));
    out.push(arrow(x, to, half, "woke"));
    const box = `x="${to + 7}" y="${half - 9}" width="${shown.length * LETTER + 8}" height="${ENTRY - 4}" rx="3"`;
    out.push(`<rect ${box} fill="var(--paper)" stroke="var(--woken)"/>`);
    out.push(`<text x="${to + 11}" y="${half + 4}" style="fill:var(--woken)">${escaped(shown)}</text>`);
  }
}

function drawEntry(out, at, y) {
  const [lane, call, reply, by, kindAt, , about] = data.entries[at];
  const kind = data.kinds[kindAt], column = laneAt[lane], x = middle(column), half = y + ENTRY / 2;
  out.push(`<text class="number" x="${GUTTER - 10}" y="${y + 15}" text-anchor="end">${at + 1}</text>`);
  const other = laneOf(by);
  if (other >= 0 && other !== column) {
    out.push(line(x, half, middle(other), half, `class="by" stroke="${hue(by)}"`));
    out.push(`<circle cx="${middle(other)}" cy="${half}" r="3.4" fill="${hue(by)}"/>`);
  }
  if (kind === "fork" && about.length > 1 && laneAt[about[1]] >= 0) {
    out.push(arrow(x, middle(laneAt[about[1]]), half, "born"));
  }
  drawWoken(out, at, x, half);
  const shown = brief(call, reply, Math.floor((laneWidth - 30) / LETTER)), wide = shown.length * LETTER + 8;
  const box = `x="${x + 7}" y="${y + 2}" width="${wide}" height="${ENTRY - 4}" rx="3" fill="var(--paper)"`;
  out.push(`<rect ${box} stroke="${kindColor(kind)}" stroke-opacity="${kind === "ok" ? 0.25 : 1}"/>`);
  out.push(`<text x="${x + 11}" y="${y + 15}" style="fill:${kindColor(kind)}">${escaped(shown)}</text>`);
  out.push(mark(kind, x, half, colorOf(lane)));
}

// What stands on a process's line: a dot, and for an end a cross, where it was refused or not ready an empty ring.
function mark(kind, x, y, color) {
  const stroke = `stroke="${color}" stroke-width="2"`;
  if (kind === "end") return line(x - 5, y - 5, x + 5, y + 5, stroke) + line(x - 5, y + 5, x + 5, y - 5, stroke);
  const hollow = kind === "notready" || kind === "refused" || kind === "waits";
  const [inside, ring] = hollow ? ["var(--paper)", kindColor(kind)] : [kind === "ok" ? color : kindColor(kind), color];
  return `<circle cx="${x}" cy="${y}" r="4.2" fill="${inside}" stroke="${ring}" stroke-width="1.6"/>`;
}

function drawTake(out, event, y) {
  const [node, source] = data.events[event];
  out.push(arrow(middle(laneOf(source)), middle(laneOf(node)), y + TAKE / 2, "take"));
}

function drawBands(out, top, high) {
  const left = bandsFrom();
  if (left < lanesTo()) out.push(`<rect class="over" x="${left - 4}" y="${top}" width="9999" height="${high}"/>`);
  bands.forEach((place, column) => {
    const [, , spans, removed] = data.names[place], x = left + column * BAND;
    spans.forEach(([from, to, node], at) => {
      const y1 = entryTop(from), next = spans[at + 1], whole = !next && removed < 0;
      const y2 = whole ? tops[rows.length] : entryTop(to) + ENTRY, y3 = next ? entryTop(next[0]) : y2;
      if (y3 < top || y1 > top + high) return;
      const a = Math.max(y1, top - 20), b = Math.min(y2, top + high + 20);
      if (b > a) out.push(`<rect x="${x + 4}" y="${a}" width="18" height="${b - a}" fill="${hue(node)}"/>`);
      // it moved in between, and nobody saw when
      const [c, d] = [Math.max(y2, top - 20), Math.min(y3, top + high + 20)];
      if (d > c) out.push(line(x + 13, c, x + 13, d, `stroke="${hue(node)}" stroke-width="2" stroke-dasharray="2 4"`));
      const label = Math.min(Math.max(y1, top) + 14, y2 - 4);
      out.push(`<text class="band" x="${x + 13}" y="${label}" text-anchor="middle">${node}</text>`);
      if (at) out.push(`<path d="M${x - 1} ${y1}L${x + 4} ${y1 + 4}L${x - 1} ${y1 + 8}Z" fill="${hue(node)}"/>`);
    });
    if (removed >= 0) {
      const y = entryTop(removed) + ENTRY;
      out.push(line(x + 2, y, x + 24, y, 'stroke="var(--refused)" stroke-width="3"'));
    }
  });
}

function drawHeads(left) {
  const heads = lanes.map((lane, column) => {
    const [pid, node, block] = data.processes[lane];
    const style = `left:${middle(column) - left - 4}px;width:${laneWidth - 10}px;color:${colorOf(lane)}`;
    const who = `<b>${pid}</b> ${escaped(block)}<small>node ${node || "?"}</small>`;
    return `<div data-only="process ${pid}" style="${style}">${who}</div>`;
  });
  bands.forEach((place, column) => {
    const name = data.names[place], label = labelOf(name);
    const style = `left:${bandsFrom() + column * BAND - left - 3}px;width:${BAND}px`;
    const who = `${name[0][0]}${name[1]}<small>${column ? "" : "owner"}</small>`;
    heads.push(`<div class="name" data-only="${label}" title="${label}" style="${style}">${who}</div>`);
  });
  byId("heads").innerHTML = heads.join("");
}

// ---- the map of the whole run

let mapped = "";

function drawMap() {
  const wide = map.clientWidth, high = map.clientHeight, whole = Math.max(1, tops[rows.length]);
  const paper = map.getContext("2d");
  const key = [wide, high, rows.length, state.only, [...state.hidden], state.events].join();
  if (key !== mapped) {
    mapped = key;
    map.width = wide; map.height = high;
    drawMap.kept = new OffscreenCanvas(Math.max(1, wide), Math.max(1, high));
    const brush = drawMap.kept.getContext("2d"), style = getComputedStyle(document.documentElement);
    const step = (wide - 8) / Math.max(1, lanes.length), tall = Math.max(1, ENTRY / whole * high - 0.5);
    rows.forEach((at, row) => {
      if (at < 0) return;
      const [lane, , , , kindAt] = data.entries[at], kind = data.kinds[kindAt];
      brush.fillStyle = kind === "ok" ? colorOf(lane) : style.getPropertyValue(`--${kind}`);
      brush.fillRect(4 + laneAt[lane] * step, tops[row] / whole * high, Math.max(1.5, step - 1), tall);
    });
  }
  paper.clearRect(0, 0, wide, high);
  paper.drawImage(drawMap.kept, 0, 0);
  paper.strokeStyle = "#1c2330";
  const seen = Math.min(1, scroll.clientHeight / whole) * high;
  paper.strokeRect(0.5, scroll.scrollTop / whole * high + 0.5, wide - 1, Math.max(4, seen - 1));
}

// ---- what the reader does

function show() { arrange(); size(); draw(); }

function only(what) {
  state.only = what;
  byId("only").value = what;
  byId("all").hidden = !what;
  scroll.scrollTop = 0;
  show();
}

function tell(row) {
  const at = rows[row];
  if (at === undefined) return "";
  if (at < 0) {
    const [node, source] = data.events[-1 - at];
    return `node ${node} takes a frame that node ${source} has sent`;
  }
  const entry = data.entries[at], [lane, , , by, kindAt, name] = entry, own = data.processes[lane][1];
  const where = by === own ? "at its own node" : `by node ${by}`;
  const about = name < 0 ? "" : ` \u2014 ${labelOf(data.names[name])}`;
  return `${at + 1}: ${lineOf(at)}\u2003(${KINDS[data.kinds[kindAt]]}, ${where}${about})`;
}

let asked = 0;
const later = () => { if (!asked) asked = requestAnimationFrame(() => { asked = 0; draw(); }); };
scroll.addEventListener("scroll", later);
window.addEventListener("resize", () => { size(); draw(); });
scroll.addEventListener("mousemove", (it) => {
  const row = rowAt(it.clientY - scroll.getBoundingClientRect().top + scroll.scrollTop);
  if (row !== state.row) { state.row = row; byId("detail").textContent = tell(row); later(); }
});
byId("heads").addEventListener("click", (it) => {
  const head = it.target.closest("[data-only]");
  if (head) only(head.dataset.only);
});
byId("only").addEventListener("input", (it) => only(it.target.value));
byId("all").addEventListener("click", () => only(""));
byId("events").addEventListener("change", (it) => { state.events = it.target.checked; show(); });
byId("kinds").addEventListener("change", (it) => {
  if (it.target.checked) state.hidden.delete(it.target.value); else state.hidden.add(it.target.value);
  show();
});
const go = (it) => {
  scroll.scrollTop = (it.offsetY / map.clientHeight) * tops[rows.length] - scroll.clientHeight / 2;
};
map.addEventListener("mousedown", go);
map.addEventListener("mousemove", (it) => { if (it.buttons) go(it); });

const there = new Set(data.entries.map((it) => data.kinds[it[4]]));
const box = (it) => `<label><input type="checkbox" value="${it}" checked><i style="background:${kindColor(it)}"></i>` +
  `${KINDS[it]}</label>`;
byId("kinds").innerHTML = data.kinds.filter((it) => there.has(it)).map(box).join("");
byId("names").innerHTML = [...data.processes.map((it) => `process ${it[0]}`), ...data.names.slice(0, 500).map(labelOf)]
  .map((it) => `<option value="${it}">`).join("");
byId("with-events").hidden = !data.made.length;

// the part of the address behind # may say what is shown: #only=queue 1&at=120
const given = new URLSearchParams(location.hash.slice(1));
only(given.get("only") ?? data.only);
if (given.has("at")) { scroll.scrollTop = entryTop(Number(given.get("at")) - 1) - scroll.clientHeight / 3; draw(); }
document.body.dataset.ready = rows.length;
