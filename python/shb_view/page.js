// Draws a group when its row is opened: its code, its picture, its stacks and its lines; sorts and filters the rows. Names are put in
// as text alone. Without it each row opens to the group's text.
"use strict";

const DATA = JSON.parse(document.getElementById("data").textContent), FEW = 3;  // of so many groups all are open from the start, of more the first
const main = document.getElementById("groups"), rows = [...main.querySelectorAll(".group")], known = document.getElementById("known");
const numberOf = (row) => Number(row.id.slice(6));
const cell = (row, name) => row.querySelector(`summary .${name}`).textContent;

// An element; `kids` are texts, elements, and parts of which names stand in lists.
function make(tag, attributes, ...kids) {
  return filled(document.createElement(tag), attributes, kids);
}

function filled(it, attributes, kids) {
  for (const [name, value] of Object.entries(attributes || {})) {
    if (name.startsWith("on")) it.addEventListener(name.slice(2), value);
    else if (value !== undefined && value !== false) it.setAttribute(name, value === true ? "" : value);
  }
  it.append(...kids.flat(2).filter((kid) => kid !== "" && kid != null));
  return it;
}

const told = (parts) => parts.map((part) => Array.isArray(part) ? make("code", null, part[0]) : part);
const count = (number, word) => `${number.toLocaleString("en")} ${word}${number === 1 ? "" : "s"}`;

// Copying by a selection works in a file too, where browsers keep the clipboard from scripts.
function copier(text, what = "", words = "Copy") {
  return make("button", { type: "button", class: "copy", "aria-label": what ? `Copy: ${what}` : undefined, onclick: ({ target }) => {
    const area = make("textarea", null, text.textContent);
    target.after(area);
    area.select();
    const isCopied = document.execCommand("copy");
    area.remove();
    target.focus();
    target.textContent = isCopied ? "Copied" : "Press Ctrl+C";
    if (isCopied) return;
    if (text.closest("details.part")) text.closest("details.part").open = true;
    getSelection().selectAllChildren(text);
  } }, words);
}

function frame(number) {
  const [parts, inSystem] = DATA.frames[number];
  return make("li", { class: inSystem ? "faint" : undefined }, told(parts));
}

// A stack; of frames in libraries several are one line that opens.
function stack(number) {
  if (number < 0) return make("p", { class: "faint" }, "no stack is known");
  const list = make("ol", { class: "stack" }), frames = DATA.stacks[number], isFar = frames.every((frame) => DATA.frames[frame][1]);
  for (let at = 0; at < frames.length;) {
    let end = at;
    while (end < frames.length && DATA.frames[frames[end]][1]) end++;
    if (end - at > 1) {
      const inner = make("ol", { class: "stack", start: at + 1 }, frames.slice(at, end).map(frame));
      list.append(make("li", { class: "folded" }, make("details", { open: isFar }, make("summary", null, `${end - at} frames of libraries`), inner)));
      at = end;
    } else {
      list.append(frame(frames[at++]));
      list.lastChild.value = at;
    }
  }
  return list;
}

function side(it, number) {
  const head = make("figcaption", null, make("b", { class: "mark" }, number), " ", make("b", null, it.verb), " at ", told(it.at), ", ",
    make("span", { class: it.bare ? "none" : "held" }, told(it.locks)), make("br"),
    make("span", { class: "faint" }, "thread ", make("code", null, it.thread), it.head ? [", in ", make("code", null, it.head)] : ""));
  const body = (it.lines || []).map((line, at) => {
    const row = it.first + at, isHit = row === it.hit;
    return make("tr", { class: isHit ? "hit" : undefined, "data-line": row }, make("td", { class: it.held.includes(row) ? "bar on" : "bar" }), make("td", { class: "n" }, row),
      make("td", { class: "n" }, isHit ? make("b", { class: "mark" }, number) : it.atomics.includes(row) ? "•" : ""), make("td", null, make("code", null, line)));
  });
  const called = it.stack >= 0 ? [make("p", { class: "faint" }, "Call stack"), stack(it.stack)] : [];
  return make("figure", { "aria-label": `Access ${number}, by thread ${it.thread}` }, head, it.fault && make("p", { class: "some" }, it.fault),
    body.length ? make("div", { class: "wide" }, make("table", { class: "code" }, make("tbody", null, body))) : "", called);
}

function sites(group) {
  const heads = ["Line", "Code", "Accesses", "Threads", "Locks", "Races with"], hasCode = group.sites.some((site) => site[1]);
  const body = group.sites.map(([line, code, accesses, threads, locks, partners, isRacing]) => {
    const held = locks.flatMap(([kind, parts], at) => [at ? "; " : "", make("span", { class: kind }, told(parts))]);
    const cells = [told(line), code && make("code", null, code), accesses, told(threads), held, partners.length ? told(partners) : "–"];
    return make("tr", { class: isRacing ? "racing" : undefined }, heads.map((head, at) => at === 1 && !hasCode ? "" : make("td", { "data-head": head }, make("span", null, cells[at]))));
  });
  return [make("table", { class: "sites" }, make("thead", null, make("tr", null, heads.filter((head, at) => at !== 1 || hasCode).map((head) => make("th", { scope: "col" }, head)))),
    make("tbody", null, body)), group.more ? make("p", null, `and ${count(group.more, "more line")}`) : ""];
}

const folded = (words, ...kids) => make("details", { class: "part" }, make("summary", null, words), ...kids);

function stacks(group) {
  const parts = [];
  if (group.stacks.length) {
    parts.push(folded("Further stacks of the racing lines", group.stacks.map(([line, found, more]) => make("div", null, make("p", null, told(line)),
      found.map(([words, number]) => [make("p", { class: "faint" }, told(words)), stack(number)]).flat(), more ? make("p", null, `and ${count(more, "more stack")}`) : ""))));
  }
  if (group.origins.length) {
    parts.push(folded("Where the threads were created, the blocks allocated and the locks taken",
      group.origins.map(([words, number]) => make("div", null, make("p", null, told(words), " at"), stack(number)))));
  }
  return parts;
}

// The picture. picture.py decides where all stands; here it is drawn, and texts are cut in a narrow window.
const COLUMN = 7.3, BAR = 14, ACCESS = 8;  // pixels of a letter, about; a bar's width; the circle of an access

function svg(tag, attributes, ...kids) {
  return filled(document.createElementNS("http://www.w3.org/2000/svg", tag), attributes, kids);
}

const MOST_BESIDE = 3;  // lanes of a picture that stands beside the code: one with more is as wide as the page, and scrolls where that isn't enough
const NARROW = 44, ROOM = 352;  // of a window in em; of a picture there, so that its texts can still be read
const cut = (text, most) => text.length > most ? `${text.slice(0, most - 1)}…` : text;
const cutMiddle = (text, most) => text.length > most ? `${text.slice(0, (most - 1) >> 1)}…${text.slice(-(most >> 1))}` : text;

function laneLines({ lanes, x, events, gaps }) {
  return lanes.flatMap((name, at) => {
    let from = 19 * (at + 1);
    const parts = [svg("text", { class: `thread lane${Math.min(at, 2)}`, x: x[at] - 4, y: from - 6 }, name)];
    events.forEach(([, its, y], row) => {
      if (its !== at) return;
      parts.push(svg("line", { class: gaps[row] ? "lane gap" : "lane", x1: x[at], y1: from, x2: x[at], y2: y }));
      from = y;
    });
    return parts;
  });
}

function lockBars({ bars }) {
  const colours = [...new Set(bars.map((bar) => bar[3]))];
  return bars.map(([x, y, height, name, shown]) => svg("g", { class: `bar lock${colours.indexOf(name) % 6}` }, svg("title", null, name),
    svg("rect", { x, y, width: BAR, height, rx: 3 }), svg("text", { transform: `translate(${x + 4} ${y + 4}) rotate(90)` }, shown)));
}

const arrows = ({ edges }) => edges.flatMap(([d, x, y, back, isSeen]) => [svg("path", { class: isSeen ? "edge seen" : "edge", d }),
  svg("path", { class: "head", d: `M${x} ${y}l${back} -4v8z` })]);

function eventTexts({ x, texts, events }, held, most) {
  const last = events.length - 2;
  return events.map(([, lane, y, text, operation, place, tip], at) => svg("g", { class: at >= last ? "access" : "event" }, svg("title", null, tip),
    at >= last ? "" : svg("line", { class: "guide", x1: x[lane] + 7, y1: y, x2: texts - 6, y2: y }),
    svg("circle", { class: `lane${Math.min(lane, 2)}`, cx: x[lane], cy: y, r: at >= last ? ACCESS : 4 }),
    at >= last ? svg("text", { class: "number", x: x[lane], y: y + 4 }, at - last + 1) : "",
    svg("text", { x: texts, y: text }, cutMiddle(operation, most)), svg("text", { class: "at", x: texts, y: text + 14 }, cut(place, Math.floor(most * 1.09))),
    at >= last ? svg("text", { class: "at", x: texts, y: text + 28 }, cut(held[at - last], Math.min(36, most))) : ""));
}

function picture(its, sides) {
  const { lanes, x, texts, band, height, events } = its, last = events.length - 2;
  const most = matchMedia(`(max-width: ${NARROW}rem)`).matches ? Math.max(16, Math.floor((ROOM - texts) / COLUMN)) : 64;
  const held = sides.map((side) => side.locks.flat().join(""));
  const columns = [21, ...events.map(([, , , , operation, place]) => Math.max(operation.length, place.length * .92)), ...held.map((words) => Math.min(36, words.length) * .92)];
  const width = Math.ceil(Math.max(...lanes.map((name, at) => x[at] + COLUMN * name.length), texts + COLUMN * Math.min(most, Math.max(...columns)))) + 8;
  const [, one, y] = events[last], [, other] = events[last + 1];
  const drawn = svg("svg", { viewBox: `0 0 ${width} ${height}`, role: "img", "aria-label": "The interleaving; its events as text are below" },
    svg("rect", { class: "band", x: 1, y: band, width: width - 2, height: height - band - 1, rx: 6 }), laneLines(its), lockBars(its), arrows(its),
    svg("text", { class: "both", x: texts, y: band + 17 }, "both can execute next"), svg("line", { class: "next", x1: x[one], y1: y, x2: x[other], y2: y }),
    eventTexts(its, held, most), svg("rect", { class: "cover", x: 0, y: height, width, height }));
  drawn.style.width = `${width / 12}em`;
  return drawn;
}

function pictureFigure(group) {
  const list = group.picture.events.map(([number, , , , , , tip]) => make("li", { value: number }, make("code", null, tip)));
  const kind = group.picture.lanes.length > MOST_BESIDE ? "picture full" : "picture";
  return make("figure", { class: kind, "aria-label": "The interleaving" }, make("figcaption", null, make("b", null, "The interleaving"), make("br"), make("span", { class: "faint" },
    group.note.split("`").map((words, at) => at % 2 ? make("code", null, words) : words))), make("div", { class: "wide" }, picture(group.picture, group.sides)),
    make("p", { class: "faint" }, "Time runs down; dashed where events are left out. Bars: locks held. Arrows: release to acquire, start, join; dashed: a read sees a write. The number after a location is the event's."),
    folded("Its events as text", make("ol", { class: "stack events" }, list)));
}

// The schedule, an event at a time: the picture is covered below the present event, and the code of both threads shows where they are.
const sameFile = (one, other) => one.replace(/:\d+$/, "") === other.replace(/:\d+$/, "");

function stepper(row, { picture: { lanes, events }, sides, steps }) {
  const end = events.length - 2, said = make("output");
  if (!end) return "";
  const slider = make("input", { type: "range", min: 0, max: end, value: end, "aria-label": "Event of the schedule", oninput: show });
  const button = (sign, label, by) => make("button", { type: "button", "aria-label": label, onclick: () => go(by) }, sign);
  function show() {
    const now = Number(slider.value), isEnd = now === end, [, lane, y, , operation] = events[now];
    slider.setAttribute("aria-valuetext", isEnd ? "both accesses" : `event ${now + 1} of ${end}`);
    said.textContent = isEnd ? "Both accesses can execute next." : `${now + 1} of ${end}: ${lanes[lane]} ${operation}`;
    row.querySelector(".cover").setAttribute("y", isEnd ? 1e6 : y + 18);
    row.querySelectorAll(".both figure").forEach((figure, number) => showSide(figure, number, now, isEnd));
  }
  function showSide(figure, number, now, isEnd) {
    const its = events[end + number][1];
    const last = isEnd ? end + number : events.slice(0, now + 1).map((event) => event[1]).lastIndexOf(its);
    const [at, code, locks] = steps[last] || [["no event of this thread yet"], "", []], isShown = last >= 0 && sameFile(at.flat().join(""), sides[number].at.flat().join(""));
    for (const line of figure.querySelectorAll("tr")) line.classList.toggle("now", isShown && at.flat().join("").endsWith(`:${line.dataset.line}`));
    figure.classList.toggle("going", !isEnd);
    figure.querySelector(".step")?.remove();
    if (!isEnd) figure.firstChild.after(make("p", { class: "step" }, told(at), " ", code && make("code", { class: "faint" }, code), " ", make("span", { class: "held" }, told(locks))));
  }
  function go(by) {
    slider.value = Number(slider.value) + by;
    show();
  }
  row.addEventListener("keydown", (event) => {
    const by = { ArrowLeft: -1, ArrowRight: 1 }[event.key];
    if (!by || event.ctrlKey || event.metaKey || event.altKey || /^(INPUT|SELECT|TEXTAREA)$/.test(event.target.nodeName)) return;
    go(by);
    event.preventDefault();
  });
  const found = make("div", { class: "steps" }, make("b", null, "Step through the race"), button("\u25C0", "Step back", -1), button("\u25B6", "Step forward", 1), slider, said);
  said.textContent = `${count(end, "event")}, then both accesses can execute`;
  return found;
}

function draw(row) {
  const group = DATA.groups[numberOf(row) - 1], text = row.querySelector("pre");
  if (row.classList.contains("drawn") || !group) return;
  row.classList.add("drawn");
  const commands = group.again.map(([what, words]) => {
    const line = make("pre", { class: "command" }, words);
    return make("div", { class: "line" }, make("span", null, what), line, copier(line, what));
  });
  const asText = folded("As text, for an issue", copier(text, "as text")), head = `#${row.id}`;
  text.before(make("div", { class: "body" }, group.about.map((parts) => make("p", null, told(parts))),
    make("p", { class: "links" }, make("a", { href: head, "aria-label": `Link to group ${numberOf(row)}` }, head), copier(text, "", "Copy as text")),
    stepper(row, group), make("div", { class: "pair wide-left" }, make("div", { class: "both" }, group.sides.map((it, at) => side(it, at + 1))), pictureFigure(group),
      make("div", null, commands.length ? [make("h3", null, "Run this interleaving again"), ...commands] : [], stacks(group))), make("h3", null, "Every line that uses the variable"), make("div", { class: "wide" }, sites(group)), asText));
  asText.append(text);
}

for (const row of rows) row.addEventListener("toggle", () => { if (row.open) draw(row); });
matchMedia(`(max-width: ${NARROW}rem)`).addEventListener("change", () => {
  for (const row of main.querySelectorAll(".drawn")) {
    const group = DATA.groups[numberOf(row) - 1];
    row.querySelector("svg").replaceWith(picture(group.picture, group.sides));
  }
});

// Rows in an order, and those that a filter leaves.
const numeric = new Intl.Collator("en", { numeric: true });
let sorted = ["no", 1], summaries = rows.map((row) => row.firstElementChild);

function sort(name, direction) {
  sorted = [name, direction];
  const order = [...rows].sort((a, b) => direction * numeric.compare(cell(a, name), cell(b, name)) || numberOf(a) - numberOf(b));
  for (const row of order) (known && known.contains(row) ? known : main).append(row);
  if (known) main.append(known);
  summaries = order.map((row) => row.firstElementChild);
  for (const button of document.querySelectorAll(".heads button")) button.setAttribute("aria-pressed", button.name === name ? (direction > 0 ? "true" : "mixed") : "false");
}

const fileOf = (row) => cell(row, "at").replace(/:\d+$/, "");
const factOf = (row) => [...row.querySelector(".fact").childNodes].map((part) => part.nodeName === "CODE" ? "…" : part.className ? "" : part.data).join("").trim();
// What a filter looks at: the row and the text, threads, lines with their code, and functions of the stacks. Made when it is first used.
let words = null;
function wordsOf(row) {
  const group = DATA.groups[numberOf(row) - 1];
  const used = group ? [...group.sides.map((it) => it.stack), ...group.stacks.flatMap((it) => it[1].map((one) => one[1]))].filter((one) => one >= 0) : [];
  const functions = used.flatMap((one) => DATA.stacks[one]).map((one) => DATA.frames[one][0].flat().join(" "));
  return [row.firstElementChild.textContent, row.querySelector("pre:not(.command)").textContent, group ? [...group.sites.flat(4), ...group.sides.map((it) => it.head)].join(" ") : "", ...new Set(functions)].join("\n").toLowerCase();
}

function chooser(label, of) {
  const counts = new Map();
  for (const row of rows) counts.set(of(row), (counts.get(of(row)) || 0) + 1);
  const names = [...counts.keys()].sort(numeric.compare);
  return make("select", { "aria-label": label, onchange: filter }, make("option", { value: "" }, label),
    names.map((name) => make("option", { value: name }, `${name} (${counts.get(name)})`)));
}

const field = make("input", { type: "search", "aria-label": "Filter the groups", placeholder: "Filter: variable, line, function, thread", oninput: filter });
const file = chooser("All files", fileOf), fact = chooser("All facts", factOf), output = make("output");

function filter() {
  const asked = field.value.toLowerCase().split(/\s+/).filter(Boolean);
  let left = 0;
  if (asked.length && !words) words = rows.map(wordsOf);
  rows.forEach((row, at) => {
    const isLeft = asked.every((word) => words[at].includes(word)) && (!file.value || file.value === fileOf(row)) && (!fact.value || fact.value === factOf(row));
    row.hidden = !isLeft;
    left += isLeft;
    if (isLeft && known && known.contains(row) && asked.length) known.open = true;
  });
  output.textContent = left < rows.length ? `${left} of ${rows.length} groups` : count(rows.length, "group");
}

function move(event) {
  const seen = summaries.filter((it) => it.getClientRects().length), at = seen.indexOf(event.target);
  if (event.target === field && /^(Escape|ArrowDown|Enter)$/.test(event.key)) {
    if (event.key !== "Escape") seen[0]?.focus();
    else if (!field.value) field.blur();
    else field.value = "", filter();
    event.preventDefault();
  }
  if (event.ctrlKey || event.metaKey || event.altKey || /^(INPUT|SELECT|TEXTAREA)$/.test(event.target.nodeName)) return;
  const next = { ArrowDown: at + 1, ArrowUp: at - 1, Home: 0, End: seen.length - 1 }[event.key];
  const row = event.target.closest(".group");
  if (event.key === "/") field.focus();
  else if (seen.length && next !== undefined && (at >= 0 || event.target === document.body)) (seen[next] || seen[at] || seen[0]).focus();
  else if (event.key === "Escape" && row) row.firstElementChild.focus(), row.open = at < 0 && row.open;
  else return;
  event.preventDefault();
}

function openTarget() {
  const row = /^#group-\d+$/.test(location.hash) && document.getElementById(location.hash.slice(1));
  if (!row) return;
  if (known && known.contains(row)) known.open = true;
  row.hidden = false;
  row.open = true;
  draw(row);
  row.scrollIntoView();
  row.firstElementChild.focus({ preventScroll: true });
}

if (rows.length > 1) {
  const heads = { no: "No.", var: "Variable", fact: "Fact", at: "Line", races: "Places" };
  main.before(make("div", { class: "filter" }, field, file, fact, output, make("span", { class: "faint keys" },
    make("kbd", null, "/"), " filter, ", make("kbd", null, "↑↓"), " rows, ", make("kbd", null, "Enter"), " opens, ", make("kbd", null, "←→"), " step, ", make("kbd", null, "Esc"), " back")),
  make("div", { class: "heads", role: "group", "aria-label": "Sort by" }, Object.entries(heads).map(([name, label]) => make("button", { type: "button", name, class: name,
    onclick: () => sort(name, sorted[0] === name ? -sorted[1] : name === "races" ? -1 : 1) }, label))));
  document.querySelector(".heads .no").setAttribute("aria-pressed", "true");
  filter();
  addEventListener("keydown", move);
}
const asked = rows.filter((row) => !known || !known.contains(row));
for (const row of asked.slice(0, rows.length > FEW ? 1 : FEW)) row.open = true;
addEventListener("hashchange", openTarget);
// On paper all are open that are asked for.
addEventListener("beforeprint", () => rows.forEach((row) => {
  row.toggleAttribute("data-closed", !row.open && asked.includes(row));
  row.open = row.open || asked.includes(row);
  draw(row);
}));
addEventListener("afterprint", () => document.querySelectorAll("[data-closed]").forEach((row) => row.open = false));
openTarget();
