// What is around the lanes: the head, the filters, the list of tasks, and the lines of what was clicked.
const byId = id => document.getElementById(id);
const made = (name, text, kind) => { const one = document.createElement(name); if (text !== undefined) one.textContent = text; if (kind) one.className = kind; return one; };

function show(from, to) {
  const least = Math.min(TOTAL, 10), span = Math.min(TOTAL, Math.max(least, to - from));
  from = Math.max(0, Math.min(TOTAL - span, from));
  state.from = from; state.to = from + span;
  byId("shown").textContent = span >= TOTAL ? "" : "entries " + number(Math.floor(from)) + " to " + number(Math.floor(from + span));
  drawMap(); draw();
}
function zoom(factor, at) {
  const span = (state.to - state.from) * factor;
  show(at - (at - state.from) * factor, at - (at - state.from) * factor + span);
}

// The head.
function head() {
  byId("name").textContent = D.title || "Journal " + D.name;
  const facts = D.facts || [];
  if (!D.facts) {
    const began = D.head.stamp && D.head.stamp !== "0" ? new Date(Number(D.head.stamp) / 1000) : null;
    facts.push(number(D.tasks.length) + (D.tasks.length === 1 ? " task" : " tasks"), number(D.children.length) + (D.children.length === 1 ? " child" : " children"));
    if (D.nostarts.length) facts.push(D.nostarts.length + " starts failed");
    facts.push(number(D.jobs.length) + " jobs", number(D.lines.length) + " entries");
    if (Number(D.head.again || 0)) facts.push("--again " + D.head.again);
    if (began) facts.push("began " + began.toISOString().slice(0, 19).replace("T", " ") + " UTC");
  }
  byId("facts").textContent = facts.join(" \u00b7 ");
  const audit = byId("audit");
  audit.className = D.legal === true ? "good" : D.legal === false ? "bad" : "odd";
  audit.firstElementChild.textContent = [D.audit && "Audit: " + D.audit, D.end && "The text isn't whole, so it isn't audited: " + D.end].filter(Boolean).join(". ");
  const button = audit.querySelector("button");
  if (D.wrong !== null && D.wrong !== undefined) { button.hidden = false; button.onclick = showWrong; }
  const order = Object.entries(D.counts).sort((a, b) => b[1] - a[1]);
  for (const [word, count] of order) {
    const chip = made("button", undefined, "chip");
    chip.append(made("b", number(count)), " ", made("span", word, word === "unanswered" ? "bad" : answerClass(word)));
    chip.title = "Filter by this answer";
    chip.onclick = () => { byId("filter").value = byId("filter").value === word ? "" : word; filter(); };
    byId("counts").append(chip);
  }
  const select = byId("child");
  select.append(new Option(D.childWord ? "all " + D.childWord + "s" : "all children", 0));
  for (const lane of laneList()) select.append(new Option((D.childWord || "child") + " " + lane.child[0], lane.child[0]));
  legend();
}
function legend() {
  const used = [...new Set(D.jobs.map(job => job[BY]))].sort((a, b) => a - b);
  for (const by of used.slice(0, 16)) {
    const one = made("span"), spot = made("i");
    spot.style.background = colourOf(by);
    one.append(spot, D.workers ? D.workers[by] || "" : by === 0 ? "main thread" : "thread " + by);
    byId("legend").append(one);
  }
  const marks = [["\u2715", "child ended", "bad"], ["\u25b6", "run again", "bad"], ["\u25c6", "chunks noted", ""], ["\u25ae", "not done", "bad"], ["\u25ae", "absent or unsupported", "odd"]];
  for (const [mark, text, kind] of D.workers ? marks.slice(3) : marks) { const one = made("span"); one.append(made("b", mark, kind), " " + text); byId("legend").append(one); }
}
function showWrong() {
  show(D.wrong - 40, D.wrong + 40);
  fill("Where the audit stops", [[null, range(Math.max(0, D.wrong - 30), Math.min(TOTAL, D.wrong + 10))]]);
}

// The list of tasks: only the rows that can be seen are made.
const TALL = 24, list = byId("list"), space = list.firstElementChild;
let rows = [];
const hay = D.tasks.map(([text, answer], at) => (at + 1 + " " + text + "\n" + answer).toLowerCase());
function filter() {
  const began = performance.now();
  const text = byId("filter").value.trim().toLowerCase(), child = Number(byId("child").value), bad = byId("bad").checked;
  const onChild = child ? new Set(D.turns.filter(turn => turn[4] === child).map(turn => turn[0])) : null;
  const exact = /^\d+$/.test(text) ? Number(text) : 0;
  const wanted = new Uint8Array(D.tasks.length + 1);
  rows = [];
  D.tasks.forEach((task, at) => {
    if (onChild && !onChild.has(at + 1) || bad && answerClass(task[1]) === "good") return;
    if (exact ? at + 1 !== exact && !hay[at].includes(text, hay[at].indexOf(" ")) : text && !hay[at].includes(text)) return;
    rows.push(at + 1);
    wanted[at + 1] = 1;
  });
  const isSame = width > 0 && state.child === child;
  state.child = child;
  state.wanted = text || bad ? wanted : null;
  byId("found").textContent = text || bad || child ? number(rows.length) + " of " + number(D.tasks.length) + " " + (D.taskWord || "tasks") : "";
  space.style.height = rows.length * TALL + "px";
  list.scrollTop = 0;
  listRows();
  if (isSame) draw(); else layOut();
  document.body.dataset.filtered = Math.round(performance.now() - began);
}
function listRows() {
  const first = Math.max(0, Math.floor(list.scrollTop / TALL) - 5), last = Math.min(rows.length, first + Math.ceil(list.clientHeight / TALL) + 10);
  space.replaceChildren();
  for (let at = first; at < last; at++) {
    const task = rows[at], [text, answer] = D.tasks[task - 1];
    const row = made("div", undefined, "row" + (task === state.task ? " chosen" : ""));
    row.style.top = at * TALL + "px";
    const said = made("span", answer || "no answer", answer ? answerClass(answer) : "bad");
    row.append(made("span", task), made("span", text), said);
    row.title = text + "\n" + answer;
    row.onclick = () => chooseTask(task);
    space.append(row);
  }
}

// The lines of a job or a task.
const range = (from, to) => Array.from({ length: to - from }, (_, at) => from + at);
function jobPlaces(job) {
  const { tag } = requestOf(job[ASKED]), child = " " + job[CHILD] + " ", places = [];
  const end = job[SETTLED] !== null ? job[SETTLED] : Math.min(TOTAL - 1, jobEnd(job));
  if (job[ASKED] > 0 && D.lines[job[ASKED] - 1].includes(" lead" + child + job[NUMBER] + " ")) places.push(job[ASKED] - 1);
  for (let place = job[ASKED]; place <= end; place++) {
    const line = D.lines[place], word = line.slice(line.indexOf(" ") + 1);
    if (word.startsWith("got" + child)) { if (tag === "" || word.startsWith("got" + child + tag) || word.startsWith("got" + child + "ERROR")) places.push(place); }
    else if (["ask", "put", "verdict"].some(one => word.startsWith(one + child + job[NUMBER] + " ")) || word.startsWith("end" + child) || word.startsWith("mute" + child)) places.push(place);
  }
  return places;
}
const WAYS = { lead: ["\u2192", "host", 5], ask: ["\u2192", "host", 5], put: ["\u2192", "host", 4], got: ["\u2190", "", 3] };
function lineRow(place) {
  const line = D.lines[place], words = line.split(" "), way = WAYS[words[1]];
  const row = made("div", undefined, place === D.wrong ? "wrong" : "");
  const skip = words[1] === "lead" ? 4 : way && way[2];
  row.append(made("span", number(place), "place"), made("span", way ? way[0] : "\u00b7", "mark"),
    made("span", way ? words.slice(skip).join(" ") : words.slice(1).join(" "), way ? way[1] : "event"));
  row.title = "line " + (D.first + place) + " of the journal: " + line;
  return row;
}
function fill(title, parts) {
  byId("title").textContent = title;
  const lines = byId("lines");
  lines.replaceChildren();
  let left = 3000;
  for (const [heading, places] of parts) {
    if (heading) lines.append(made("h3", heading));
    for (const place of places.slice(0, left)) lines.append(lineRow(place));
    left -= places.length;
    if (left <= 0) { lines.append(made("div", "more lines aren't shown", "event")); break; }
  }
  lines.scrollTop = 0;
}
const jobTitle = job => jobLabel(job) + ", job " + job[NUMBER] + " of " + (D.childWord || "child") + " " + job[CHILD] + ": " + (job[VERDICT] || "not settled");
function chooseJob(at) {
  const job = D.jobs[at];
  state.job = at; state.task = job[TASK];
  const about = job[TASK] ? (D.tasks[job[TASK] - 1] || [""])[0] : "no task";
  fill(job[TASK] ? "Task " + job[TASK] + ": " + about : jobLabel(job), [[jobTitle(job), jobPlaces(job)]]);
  scrollToTask(job[TASK]);
  draw();
}
function chooseTask(task) {
  state.task = task; state.job = -1;
  const turns = D.turns.filter(turn => turn[0] === task), jobs = D.jobs.filter(job => job[TASK] === task);
  const parts = [];
  turns.forEach((turn, at) => {
    const end = turn[2] === null ? TOTAL : turn[2];
    const where = turn[4] ? "on " + (D.childWord || "child") + " " + turn[4] : "on no child";
    parts.push([(turns.length > 1 ? "Turn " + (at + 1) + " " : "") + where + ": " + (turn[5] || "no answer"), []]);
    for (const job of jobs.filter(job => job[ASKED] >= turn[1] && job[ASKED] <= end && (!D.workers || job[CHILD] === turn[4]))) parts.push([jobTitle(job), jobPlaces(job)]);
  });
  const [text, answer] = D.tasks[task - 1];
  fill((D.taskWord ? "" : "Task " + task + ": ") + text + " \u2013 " + (answer || "no answer"), parts);
  if (turns.length) {
    const from = Math.min(...turns.map(turn => turn[1])), to = Math.max(...turns.map(turn => turn[2] === null ? TOTAL : turn[2]));
    if (from < state.from || to > state.to || (to - from) * 60 < state.to - state.from) show(from - (to - from) * 0.5 - 10, to + (to - from) * 0.5 + 10);
  }
  scrollToTask(task); draw();
}
function scrollToTask(task) {
  const at = rows.indexOf(task);
  if (at >= 0 && (at * TALL < list.scrollTop || (at + 1) * TALL > list.scrollTop + list.clientHeight)) list.scrollTop = at * TALL - list.clientHeight / 2;
  listRows();
}

// The mouse and the keys.
function jobAt(x, y) {
  const place = placeAt(x), slack = (state.to - state.from) / (width - LEFT) * 2;
  let best = -1;
  D.jobs.forEach((job, at) => {
    const lane = job[LANE];
    if (state.child && job[CHILD] !== state.child || job[ASKED] - slack > place || jobEnd(job) + slack < place) return;
    const top = lane.top + PAD + job[AT_ROW] * ROW;
    if (y >= top && y < top + ROW && (best < 0 || job[ASKED] >= D.jobs[best][ASKED])) best = at;
  });
  return best;
}
let dragged = null, mapDragged = null;
canvas.onmousedown = event => { dragged = { x: event.offsetX, from: state.from, to: state.to, moved: false }; };
canvas.onmousemove = event => {
  const tip = byId("tip");
  if (dragged) {
    const by = (dragged.x - event.offsetX) / (width - LEFT - 8) * (dragged.to - dragged.from);
    dragged.moved = dragged.moved || Math.abs(dragged.x - event.offsetX) > 3;
    if (dragged.moved) show(dragged.from + by, dragged.to + by);
    tip.hidden = true;
    return;
  }
  const at = event.offsetX > LEFT ? jobAt(event.offsetX, event.offsetY) : -1;
  tip.hidden = at < 0;
  if (at >= 0) {
    const job = D.jobs[at];
    tip.replaceChildren(made("b", jobTitle(job)), made("div", (job[TASK] ? "task " + job[TASK] + ": " + (D.tasks[job[TASK] - 1] || [""])[0] : requestOf(job[ASKED]).text).slice(0, 300)));
    tip.style.left = Math.min(event.clientX + 12, innerWidth - 500) + "px"; tip.style.top = event.clientY + 14 + "px";
  }
};
canvas.onmouseleave = () => { byId("tip").hidden = true; };
canvas.onclick = event => { if (event.offsetX > LEFT && !(dragged && dragged.moved)) { const at = jobAt(event.offsetX, event.offsetY); if (at >= 0) chooseJob(at); } };
canvas.ondblclick = event => zoom(0.3, placeAt(event.offsetX));
canvas.addEventListener("wheel", event => {
  if (event.ctrlKey || event.metaKey) { event.preventDefault(); zoom(event.deltaY > 0 ? 1.25 : 0.8, placeAt(event.offsetX)); }
  else if (event.deltaX || event.shiftKey) { event.preventDefault(); const by = (event.deltaX || event.deltaY) / width * (state.to - state.from); show(state.from + by, state.to + by); }
}, { passive: false });
const mapPlace = event => Math.max(0, Math.min(TOTAL, (event.clientX - map.getBoundingClientRect().left - LEFT) / (map.clientWidth - LEFT - 8) * TOTAL));
map.onmousedown = event => { mapDragged = mapPlace(event); };
window.addEventListener("mousemove", event => { if (mapDragged !== null) { const at = mapPlace(event); if (Math.abs(at - mapDragged) > TOTAL / 300) show(Math.min(at, mapDragged), Math.max(at, mapDragged)); } });
window.addEventListener("mouseup", event => {
  if (mapDragged !== null && Math.abs(mapPlace(event) - mapDragged) <= TOTAL / 300) { const half = (state.to - state.from) / 2; show(mapDragged - half, mapDragged + half); }
  mapDragged = null;
  setTimeout(() => { dragged = null; });
});
document.addEventListener("keydown", event => {
  if (/INPUT|SELECT/.test(event.target.tagName)) return;
  const span = state.to - state.from, middle = (state.from + state.to) / 2;
  const moves = { "+": () => zoom(0.6, middle), "=": () => zoom(0.6, middle), "-": () => zoom(1.6, middle), "0": () => show(0, TOTAL),
    ArrowLeft: () => show(state.from - span / 5, state.to - span / 5), ArrowRight: () => show(state.from + span / 5, state.to + span / 5) };
  if (moves[event.key] && !event.ctrlKey && !event.metaKey) { event.preventDefault(); moves[event.key](); }
});
byId("in").onclick = () => zoom(0.5, (state.from + state.to) / 2);
byId("out").onclick = () => zoom(2, (state.from + state.to) / 2);
byId("whole").onclick = () => show(0, TOTAL);
list.onscroll = listRows;
for (const id of ["filter", "child", "bad"]) byId(id).addEventListener("input", filter);
window.addEventListener("resize", layOut);
matchMedia("(prefers-color-scheme: dark)").addEventListener("change", layOut);
head();
filter();
document.body.dataset.opened = Math.round(performance.now());
// A link may name what to show: #task=3, or #filter=TEXT.
const asked = /^#(task|filter)=(.*)$/.exec(decodeURIComponent(location.hash));
if (asked && asked[1] === "task" && D.tasks[Number(asked[2]) - 1]) chooseTask(Number(asked[2]));
if (asked && asked[1] === "filter") { byId("filter").value = asked[2]; filter(); }
