"use strict";
// The lanes: a bar for each job, over the places of the journal's entries.
const D = JSON.parse(document.getElementById("data").textContent);
const TOTAL = Math.max(1, D.lines.length);
const COLOURS = ["#8b939c", "#3f7fd6", "#e0813c", "#3d9c62", "#a95fb0", "#c29b1f", "#2aa3a3", "#d15563", "#6f6acb", "#7f9a35", "#b06f3a", "#5891ad", "#a8557f"];
const GOOD = new Set(["stored", "got", "present", "dropped", "renamed", "ok"]);
const ODD = new Set(["absent", "unknown", "unsupported", "advice", "skipped", ""]);
const LEFT = 132, ROW = 15, PAD = 5, AXIS = 20, MOST_ROWS = 12;
// The fields of a job; the last two are set here.
const [CHILD, NUMBER, TASK, ASKED, SETTLED, BY, VERDICT, AT_ROW, LANE] = [0, 1, 2, 3, 4, 5, 6, 7, 8];
const state = { from: 0, to: TOTAL, child: 0, wanted: null, task: 0, job: -1 };
const style = name => getComputedStyle(document.documentElement).getPropertyValue(name).trim();
const colourOf = by => by === 0 ? COLOURS[0] : COLOURS[1 + (by - 1) % (COLOURS.length - 1)];
const answerClass = answer => { const word = answer.split(/[ :]/)[0]; return GOOD.has(word) ? "good" : ODD.has(word) ? "odd" : "bad"; };
const number = n => n.toLocaleString("en");

const WORDS = { STORE: "store", RETRIEVE: "get", CHECKPRESENT: "check", REMOVE: "drop" };
const requestOf = place => {
  const line = D.lines[place];
  let text = line.split(" ").slice(5).join(" ");
  const tag = /^J \d+ /.exec(text);
  if (tag) text = text.slice(tag[0].length);
  return { tag: tag ? tag[0] : "", text };
};
function jobLabel(job) {
  const { text } = requestOf(job[ASKED]);
  const words = text.split(" ");
  const word = words[0].startsWith("TRANSFER") ? WORDS[words[1]] || words[1] : WORDS[words[0].replace("EXPORT", "")] || words[0];
  const chunk = /-S\d+-C(\d+)--/.exec(text);
  return word + (chunk ? " chunk " + chunk[1] : "");
}

// Each turn of a task has a row of its child's lane; its jobs are drawn there.
const lanes = new Map();
for (const child of D.children) lanes.set(child[0], { child, rows: [], top: 0 });
const laneOf = name => { if (!lanes.has(name)) lanes.set(name, { child: [name, 0, null, "", false, "", null], rows: [], top: 0 }); return lanes.get(name); };
const rowOfTurn = new Map();
for (const turn of D.turns.filter(turn => turn[4] > 0).sort((a, b) => a[1] - b[1])) {
  const lane = laneOf(turn[4]);
  let row = lane.rows.findIndex(end => end <= turn[1]);
  if (row < 0) row = lane.rows.length < MOST_ROWS ? lane.rows.length : MOST_ROWS - 1;
  lane.rows[row] = turn[2] === null ? TOTAL : turn[2];
  if (!rowOfTurn.has(turn[0])) rowOfTurn.set(turn[0], []);
  rowOfTurn.get(turn[0]).push([turn[1], turn[4], row]);
  turn[6] = row;
}
for (const job of D.jobs) {
  job[LANE] = laneOf(job[CHILD]);
  let row = 0;
  for (const [claimed, child, of] of rowOfTurn.get(job[TASK]) || []) if (child === job[CHILD] && claimed <= job[ASKED]) row = of;
  job[AT_ROW] = row;
}
const lostTurns = D.turns.filter(turn => turn[4] > 0 && turn[2] !== null && /^(ended|unsent)/.test(turn[5]));
const laneList = () => [...lanes.values()].filter(lane => state.child === 0 || lane.child[0] === state.child).sort((a, b) => a.child[0] - b.child[0]);
const laneHeight = lane => Math.max(1, lane.rows.length) * ROW + 2 * PAD;

const box = document.getElementById("lanes"), canvas = box.firstElementChild, map = document.getElementById("map");
const pen = canvas.getContext("2d"), mapPen = map.getContext("2d");
let width = 0, height = 0, shown = [];

function sized(target, pen, wide, high) {
  const scale = window.devicePixelRatio || 1;
  target.width = Math.round(wide * scale); target.height = Math.round(high * scale);
  target.style.height = high + "px";
  pen.setTransform(scale, 0, 0, scale, 0, 0);
}
function layOut() {
  shown = laneList();
  let top = AXIS;
  for (const lane of shown) { lane.top = top; top += laneHeight(lane); }
  width = box.clientWidth; height = top + 4;
  sized(canvas, pen, width, height);
  sized(map, mapPen, map.clientWidth, 30);
  drawMap(); draw();
}
const atPlace = place => LEFT + (place - state.from) / (state.to - state.from) * (width - LEFT - 8);
const placeAt = x => state.from + (x - LEFT) / (width - LEFT - 8) * (state.to - state.from);
const isWanted = task => state.wanted === null || state.wanted[task] === 1;

function draw() {
  pen.clearRect(0, 0, width, height);
  pen.font = "11.5px system-ui, 'DejaVu Sans', sans-serif";
  pen.textBaseline = "middle";
  const ink = style("--ink"), soft = style("--soft"), lineColour = style("--line"), bad = style("--bad");
  drawAxis(soft, lineColour);
  pen.save();
  pen.beginPath(); pen.rect(LEFT, 0, width - LEFT, height); pen.clip();
  drawBacks();
  drawJobs(ink);
  drawEvents(bad, ink);
  pen.restore();
  for (const lane of shown) drawLabel(lane, ink, soft, bad, lineColour);
  drawEnds(bad);
}
function drawAxis(soft, lineColour) {
  const span = state.to - state.from;
  let step = Math.pow(10, Math.floor(Math.log10(Math.max(1, span / 6))));
  for (const factor of [1, 2, 5, 10]) if (span / (step * factor) <= 10) { step *= factor; break; }
  step = Math.max(1, step);
  pen.fillStyle = soft; pen.strokeStyle = lineColour; pen.textAlign = "center"; pen.lineWidth = 1;
  for (let place = Math.ceil(state.from / step) * step; place <= state.to; place += step) {
    const x = Math.round(atPlace(place)) + 0.5;
    pen.beginPath(); pen.moveTo(x, AXIS - 4); pen.lineTo(x, height); pen.stroke();
    if (x > LEFT + 14 && x < width - 20) pen.fillText(number(place), x, 9);
  }
  pen.textAlign = "left";
  pen.fillText("entry", 10, 9);
}
function drawBacks() {
  const laneColour = style("--lane"), band = style("--band");
  for (const lane of shown) {
    const [, start, end] = lane.child;
    const x = atPlace(start), until = atPlace(end === null ? TOTAL : end);
    pen.fillStyle = laneColour;
    pen.fillRect(x, lane.top + 2, until - x, laneHeight(lane) - 4);
  }
  pen.fillStyle = band;
  const last = new Map();
  for (const turn of D.turns) {
    const lane = lanes.get(turn[4]);
    if (!lane || turn[4] === 0 || state.child && state.child !== turn[4] || !isWanted(turn[0])) continue;
    const end = turn[2] === null ? TOTAL : turn[2];
    if (end < state.from || turn[1] > state.to) continue;
    const x = atPlace(turn[1]), cell = turn[4] * 64 + turn[6];
    if (last.get(cell) > x + 1 && atPlace(end) - x < 1.5) continue;
    last.set(cell, x + 1.5);
    pen.fillRect(x, lane.top + PAD + turn[6] * ROW, Math.max(1, atPlace(end) - x), ROW - 1);
  }
}
const jobEnd = job => job[SETTLED] !== null ? job[SETTLED] : job[LANE].child[2] ?? TOTAL;
// The wanted jobs stand over the others, so that none is hidden where many share a pixel.
function drawJobs(ink) {
  const colours = { ink, bad: style("--bad"), odd: style("--odd") };
  if (state.wanted) {
    pen.globalAlpha = 0.12;
    drawBars(colours, job => !isWanted(job[TASK]));
    pen.globalAlpha = 1;
  }
  drawBars(colours, job => isWanted(job[TASK]));
}
function drawBars(colours, isDrawn) {
  const last = new Map(), perEntry = (width - LEFT - 8) / (state.to - state.from);
  D.jobs.forEach((job, at) => {
    if (state.child && job[CHILD] !== state.child || job[ASKED] > state.to || !isDrawn(job)) return;
    const end = jobEnd(job);
    if (end < state.from) return;
    const x = LEFT + (job[ASKED] - state.from) * perEntry, wide = Math.max(1.5, (end - job[ASKED]) * perEntry - 1);
    const isBad = job[VERDICT] && job[VERDICT] !== "done" && job[VERDICT] !== "absent" && job[VERDICT] !== "unsupported";
    const cell = job[CHILD] * 64 + job[AT_ROW], pixel = Math.floor(x);
    if (wide < 2 && last.get(cell) === pixel && !isBad && at !== state.job) return;
    last.set(cell, pixel);
    const y = job[LANE].top + PAD + job[AT_ROW] * ROW + 2, high = ROW - 5;
    pen.fillStyle = colourOf(job[BY]);
    pen.fillRect(x, y, wide, high);
    if (job[VERDICT] && job[VERDICT] !== "done" && (isBad || wide > 6)) {
      pen.fillStyle = isBad ? colours.bad : colours.odd;
      pen.fillRect(x + Math.max(0, wide - 4), y, Math.min(4, wide), high);
    }
    if (at === state.job || job[TASK] && job[TASK] === state.task) {
      pen.strokeStyle = colours.ink; pen.lineWidth = at === state.job ? 2 : 1;
      pen.strokeRect(x - 0.5, y - 0.5, wide + 1, high + 1);
    }
    if (wide > 40 && perEntry > 1) label(job, x, y, wide, high);
  });
}
function label(job, x, y, wide, high) {
  const text = (job[TASK] ? job[TASK] + " " : "") + jobLabel(job);
  pen.save();
  pen.beginPath(); pen.rect(x, y, wide - 3, high); pen.clip();
  pen.fillStyle = "#fff"; pen.font = "10px system-ui, 'DejaVu Sans', sans-serif";
  pen.fillText(text, x + 4, y + high / 2 + 0.5);
  pen.restore();
}
function cross(x, y, colour) {
  pen.fillStyle = style("--paper"); pen.beginPath(); pen.arc(x, y, 7, 0, 7); pen.fill();
  pen.strokeStyle = colour; pen.lineWidth = 1.2; pen.stroke(); pen.lineWidth = 2.2;
  pen.beginPath(); pen.moveTo(x - 4, y - 4); pen.lineTo(x + 4, y + 4); pen.moveTo(x + 4, y - 4); pen.lineTo(x - 4, y + 4); pen.stroke();
}
function drawEvents(bad, ink) {
  for (const lane of shown) {
    const [, , end, , , why, mute] = lane.child;
    const middle = lane.top + laneHeight(lane) / 2;
    if (end !== null && why !== "closed") cross(atPlace(end) + 6, middle, bad);
    if (mute !== null) { pen.fillStyle = bad; pen.fillRect(atPlace(mute) - 1, lane.top + 2, 2, laneHeight(lane) - 4); }
  }
  for (const turn of lostTurns) {
    const lane = lanes.get(turn[4]);
    if (!lane || state.child && state.child !== turn[4] || turn[2] < state.from || turn[2] > state.to) continue;
    const x = atPlace(turn[2]) + 14, y = lane.top + PAD + turn[6] * ROW;
    pen.fillStyle = bad;
    pen.beginPath(); pen.moveTo(x, y + 1); pen.lineTo(x + 7, y + ROW / 2); pen.lineTo(x, y + ROW - 2); pen.fill();
  }
  pen.fillStyle = ink;
  for (const [place, task] of D.notes) {
    if (place < state.from || place > state.to || !isWanted(task)) continue;
    const turn = (rowOfTurn.get(task) || []).filter(one => one[0] <= place).pop();
    const lane = turn && lanes.get(turn[1]);
    if (!lane || state.child && state.child !== turn[1]) continue;
    const x = atPlace(place), y = lane.top + PAD + turn[2] * ROW + ROW / 2;
    pen.beginPath(); pen.moveTo(x, y - 5); pen.lineTo(x + 4, y); pen.lineTo(x, y + 5); pen.lineTo(x - 4, y); pen.fill();
  }
}
function drawLabel(lane, ink, soft, bad, lineColour) {
  const [name, , end, slot, tags, why] = lane.child, middle = lane.top + laneHeight(lane) / 2;
  pen.strokeStyle = lineColour; pen.lineWidth = 1;
  pen.beginPath(); pen.moveTo(0, lane.top + 0.5); pen.lineTo(width, lane.top + 0.5); pen.stroke();
  pen.fillStyle = ink; pen.textAlign = "left";
  pen.fillText((D.childWord || "child") + " " + name, 10, middle);
  pen.fillStyle = end !== null && why && why !== "closed" ? bad : soft;
  const said = end !== null && why && why !== "closed" ? why.split(" ")[0] : tags ? "tags" : "";
  pen.fillText(said, 78, middle);
}
function flag(place, text, colour, dashed) {
  if (place < state.from || place > state.to + 1) return;
  const x = Math.min(width - 4, atPlace(place));
  pen.strokeStyle = colour; pen.lineWidth = 2;
  pen.setLineDash(dashed ? [5, 4] : []);
  pen.beginPath(); pen.moveTo(x, AXIS); pen.lineTo(x, height); pen.stroke();
  pen.setLineDash([]);
  const wide = pen.measureText(text).width + 10, left = x + wide > width ? x - wide : x;
  pen.fillStyle = colour; pen.fillRect(left, 2, wide, 15);
  pen.fillStyle = "#fff"; pen.textAlign = "left"; pen.fillText(text, left + 5, 10);
}
function drawEnds(bad) {
  if (D.wrong !== null && D.wrong !== undefined) flag(D.wrong, "audit stops here", bad, false);
  if (D.end) flag(TOTAL, "cut off here", style("--odd"), true);
}

let mapImage = null;
function drawMap() {
  const wide = map.clientWidth, high = 30;
  if (!mapImage || mapImage.width !== wide) {
    mapImage = document.createElement("canvas"); mapImage.width = wide; mapImage.height = high;
    const drawn = mapImage.getContext("2d"), order = [...lanes.values()].sort((a, b) => a.child[0] - b.child[0]);
    const place = new Map(order.map((lane, at) => [lane.child[0], at])), step = (high - 4) / Math.max(1, order.length);
    for (const job of D.jobs) {
      drawn.fillStyle = colourOf(job[BY]);
      const x = LEFT + job[ASKED] / TOTAL * (wide - LEFT - 8);
      drawn.fillRect(x, 2 + place.get(job[CHILD]) * step, Math.max(0.7, (jobEnd(job) - job[ASKED]) / TOTAL * (wide - LEFT - 8)), Math.max(1, step - 1));
    }
  }
  mapPen.clearRect(0, 0, wide, high);
  mapPen.fillStyle = style("--soft"); mapPen.font = "11.5px system-ui, 'DejaVu Sans', sans-serif"; mapPen.textBaseline = "middle";
  mapPen.fillText("whole run", 10, high / 2);
  mapPen.drawImage(mapImage, 0, 0);
  const scale = (wide - LEFT - 8) / TOTAL, x = LEFT + state.from * scale, until = LEFT + state.to * scale;
  mapPen.fillStyle = style("--paper"); mapPen.globalAlpha = 0.72;
  mapPen.fillRect(LEFT, 0, x - LEFT, high); mapPen.fillRect(until, 0, wide - until, high);
  mapPen.globalAlpha = 1; mapPen.strokeStyle = style("--link"); mapPen.lineWidth = 1.5;
  mapPen.strokeRect(x, 1, Math.max(2, until - x), high - 2);
}
