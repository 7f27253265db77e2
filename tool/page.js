"use strict";
(() => {
const D = JSON.parse(document.getElementById("data").textContent);
const n = D.books[0].num.length, m = D.books[1].num.length, SIDES = ["old", "new"];
const FORM = D.oneWay
  ? {matched: "covered", Matched: "Covered.", alone: "covered by none", near: "the closest, where no new cell covers"}
  : {matched: "matched", Matched: "Matched.", alone: "no partner", near: "the closest, where no new cell is a partner"};
const $ = id => document.getElementById(id);
const esc = s => String(s).replace(/[&<>"]/g, c => ({"&": "&amp;", "<": "&lt;", ">": "&gt;", '"': "&quot;"}[c]));
const svg = (tag, at) => {
  const e = document.createElementNS("http://www.w3.org/2000/svg", tag);
  for (const k in at) e.setAttribute(k, at[k]);
  return e;
};
const long = name => name.length > 24 ? " long" : ""; /* may be broken into lines */
const num = (side, i) => D.books[side].num[i];
const called = (side, i) => num(side, i) + (D.books[side].names[i] ? " “" + D.books[side].names[i] + "”" : "");
const chip = (side, i) => {
  const name = D.books[side].names[i];
  return `<span class="chip ${SIDES[side]}${long(name)}"><b>${num(side, i)}</b>${name ? ` <span>${esc(name)}</span>` : ""}</span>`;
};
const wide = c => c.codePointAt(0) > 0x2e7f ? 2 : /[mwMW@%]/.test(c) ? 1.4 : 1; /* a letter, in letters of middle width */
const brief = (name, most) => { /* for the map and the pictures */
  const size = s => [...s].reduce((sum, c) => sum + wide(c), 0);
  if (size(name) <= most) return name;
  const letters = [...name];
  while (size(letters.join("")) > most - 1) letters.pop();
  return letters.join("") + "…";
};
const rec = (side, i) => `<span class=rec>${D.books[side].rec[i] ? "♪ " + D.books[side].rec[i] : "silent"}</span>`;
const lab = k => `<b class="lab${long(D.labels[k])}">${esc(D.labels[k])}</b>`;
let here = D.start, order = [D.rows, D.columns], markedQuestion = -1, later = 0;

/* The ways to practise as a table: what to do, and what it leads to in the old and in the new book. */
const labels = ks => {
  const runs = [];
  for (const k of ks) if (runs.length && runs[runs.length - 1][0] === k) runs[runs.length - 1][1]++; else runs.push([k, 1]);
  const times = c => c === 1 ? "" : c === 2 ? " twice" : ` ${c} times`;
  return runs.length ? runs.map(([k, c]) => lab(k) + times(c)).join(" then ") : "stay here";
};
const chain = (side, start, cells, upto) => {
  if (!cells.length) return chip(side, start);
  let all = cells.slice(0, upto).map(c => `<span class=hop><span class=arrow>→</span> ${chip(side, c)}</span>`);
  if (all.length > 9) all = [...all.slice(0, 4), `<span class=note>… ${all.length - 7} cells …</span>`, ...all.slice(-3)];
  return all.join("");
};
const line = s => `<div class=line>${s}</div>`;
const letters = "abcdefgh";
const say = {
  same: "<span class='say same'>the same</span>", differ: "<span class='say diff'>different</span>",
  different: "<span class='say diff'>different</span>", silent: "<span class='say none'>silent: no sound to compare</span>",
};

function levels(s, max = 60) {
  const out = [];
  while (s >= 0 && out.length < max) {
    const st = D.stories[s];
    out.push(st);
    s = st.ways && "sub" in st.ways[0] ? st.ways[0].sub : -1;
  }
  return out;
}

const row = (kind, what, cells) => `<tr class="${kind}"><th scope=row class=do>${what}</th><td>${cells[0]}</td><td>${cells[1]}</td></tr>`;
const starts = st => st.lead ? [st.y, st.x] : [st.x, st.y];
const lettered = (st, k) => st.ways && st.ways.length > 1 ? `<span class=note>(${letters[k]})</span>` : "";

function wayRow(st, which) { /* one way of a story, in both books */
  const two = "v" in st, lead = st.lead, other = 1 - lead, at = starts(st), ks = which ? st.v : st.w, path = which ? st.vp : st.wp, cells = [];
  const sound = (side, c) => two ? rec(side, c.length ? c[c.length - 1] : at[side]) : "";
  cells[lead] = line(chain(lead, st.x, path) + sound(lead, path));
  if (st.stuck) {
    const gone = st.stuck.length ? chain(other, st.y, st.stuck) : "";
    cells[other] = (st.which || 0) !== which ? line("<span class=note>not needed</span>")
      : line(gone + `<span class="say none">${lab(ks[st.stuck.length])} leads nowhere</span>`);
  } else {
    cells[other] = !ks.length ? line(chip(other, st.y) + sound(other, [])) : st.ways.map((w, k) => {
      const c = which ? w.vp : w.wp, upto = w.at && w.at[0] === which && !two ? w.at[1] + 1 : c.length;
      return line(lettered(st, k) + chain(other, st.y, c, upto) + sound(other, c));
    }).join("") + (st.more && !two ? line(`<span class=note>and ${st.more} more, none of which does</span>`) : "");
  }
  return row("", (two ? `<span class="way w${which + 1}">${which + 1}</span>` : "") + labels(ks), cells);
}

function endRow(st) { /* how the ends of two ways sound */
  const other = 1 - st.lead, cells = [];
  const one = (w, k) => "sub" in w
    ? `<span class="say below">${chip(other, (w.at[0] ? w.vp : w.wp)[w.at[1]])} is not alike${k ? "" : ", see below"}</span>` : say[w.end];
  cells[st.lead] = say[st.kind];
  cells[other] = st.stuck ? "<span class='say none'>cannot be done</span>"
    : st.ways.map((w, k) => line(lettered(st, k) + one(w, k))).join("")
      + (st.more ? line(`<span class=note>and ${st.more} more, none of which does</span>`) : "");
  return row("end", "1 and 2 sound", cells);
}

function rowsOf(st, first) {
  const at = starts(st), begin = row("from", first ? "Start at" : "From there", [0, 1].map(s => chip(s, at[s])));
  if (st.kind === "heard") return begin + row("end", "Listen", [0, 1].map(s => rec(s, at[s])));
  return begin + wayRow(st, 0) + ("v" in st ? wayRow(st, 1) + endRow(st) : "");
}

function table(s) {
  let shown = levels(s).map((st, k) => rowsOf(st, k === 0));
  const between = k => `<tr><th class=do></th><td colspan=2 class=note>… ${k} further steps in the same manner …</td></tr>`;
  if (shown.length > 12) shown = [...shown.slice(0, 8), between(shown.length - 11), ...shown.slice(-3)];
  const head = SIDES.map(side => `<th><span class="tag ${side}">${side} book</span></th>`).join("");
  return `<table class=walktable><thead><tr><th>Do</th>${head}</tr></thead><tbody>${shown.join("")}</tbody></table>`;
}
function others(s) { /* the follower's other ways that fail at a cell */
  const out = [];
  levels(s).forEach((st, level) => (st.ways || []).slice(1).forEach((w, k) => {
    if (!("sub" in w)) return;
    const other = 1 - st.lead, cell = num(other, (w.at[0] ? w.vp : w.wp)[w.at[1]]);
    const why = `${level ? "Further on, why" : "Why"} not (${letters[k + 1]}), ${SIDES[other]} ${cell}?`;
    out.push(`<details class=screen><summary>${why}</summary>${table(w.sub)}</details>`);
  }));
  return out.slice(0, 6).join("");
}
document.querySelectorAll(".walk[data-story]").forEach(e => { e.innerHTML = table(+e.dataset.story); });

/* Questions in notation, with shared parts named: what is used twice and is not short gets a name, and long texts are cut. */
function readSheet(b64) {
  const b = Uint8Array.from(atob(b64), c => c.charCodeAt(0)), wide = b[4], size = wide + 2, out = [];
  const two = k => b[k] * 256 + b[k + 1];
  const steps = (from, count) => {
    const s = [];
    for (let k = from; k < from + size * count; k += size) s.push(wide === 1 ? b[k] : two(k), two(k + wide));
    return s;
  };
  for (let at = 8; at < b.length; at += 1 + b[at]) {
    const kind = b[at + 1];
    if (kind === 0) out.push([0]);
    else if (kind === 1) out.push([1, two(at + 2)]);
    else if (kind < 4) out.push([kind, two(at + 2), two(at + 4)]);
    else if (kind === 4) out.push([4, steps(at + 3, b[at + 2])]);
    else out.push([kind, steps(at + 4, b[at + 2]), steps(at + 4 + size * b[at + 2], b[at + 3])]);
  }
  return out;
}
let sheet = null;
const libSheet = () => sheet || (sheet = readSheet(D.sheet));
const refs = e => e[0] === 0 ? [] : e[0] < 4 ? e.slice(1) : e.slice(1).flatMap(s => s.filter((_, k) => k % 2));

function textLength(e, size) { /* exact, without writing; size has the lengths of the parts */
  const way = s => s.length ? s.reduce((a, v, k) => k % 2 ? a + size.get(v) : a + 3n + BigInt(String(v).length), 0n) : 1n;
  if (e[0] === 0) return 3n;
  if (e[0] < 4) return e.slice(1).reduce((a, r) => a + size.get(r), 3n);
  return e.slice(1).reduce((a, s) => a + way(s), [2n, 3n, 4n][e[0] - 4]);
}

function written(entries, root, letter) {
  const count = new Map(), size = new Map(), todo = [root], seen = new Set([root]);
  while (todo.length) for (const r of refs(entries[todo.pop()])) {
    count.set(r, (count.get(r) || 0) + 1);
    if (!seen.has(r)) { seen.add(r); todo.push(r); }
  }
  for (const r of [...seen].sort((a, b) => a - b)) size.set(r, textLength(entries[r], size));
  const total = size.get(root), wanted = [];
  const named = r => r !== root && size.get(r) > 24n && (count.get(r) > 1 || total > 600n && size.get(r) > 90n);
  const part = x => { if (!named(x)) return text(x); if (!wanted.includes(x)) wanted.push(x); return letter + x; };
  const way = s => { let t = ""; for (let k = 0; k < s.length; k += 2) t += `/${s[k]}[${part(s[k + 1])}]`; return t || "."; };
  function text(r) {
    const e = entries[r];
    if (e[0] === 0 || e[0] === 4 && !e[1].length) return "<.>";
    if (e[0] === 1) return `!(${part(e[1])})`;
    if (e[0] < 4) return `(${part(e[1])}${e[0] === 2 ? "&" : "|"}${part(e[2])})`;
    return e[0] === 4 ? `<${way(e[1])}>` : `<${way(e[1])}${e[0] === 5 ? "=" : "!="}${way(e[2])}>`;
  }
  const lines = [[root, text(root)]];
  for (let k = 0; k < wanted.length && lines.length < 25; k++) lines.push([wanted[k], text(wanted[k])]);
  return {total, lines, left: wanted.length - (lines.length - 1)};
}
const code = (t, letter) => {
  const pale = esc(t).replace(/\[&lt;\.&gt;\]/g, "<i>[&lt;.&gt;]</i>");
  return `<code>${letter ? pale.replace(new RegExp(letter + "\\d+", "g"), "<b>$&</b>") : pale}</code>`;
};
const big = x => x < 10n ** 15n ? x.toString().replace(/\B(?=(\d{3})+$)/g, ",") : `about 10 to the power of ${x.toString().length - 1}`;
const parts = (w, letter) => {
  const all = w.lines.map(([r, t], k) => `<li>${k ? `<b>${letter}${r}</b> = ` : ""}${code(t, letter)}</li>`).join("");
  return `<ul class=parts>${all}${w.left > 0 ? `<li class=note>and ${w.left} parts more</li>` : ""}</ul>`;
};

/* The pair. */
function matchedPanel(i, j) {
  const what = D.oneWay ? "Every question without “not” that is true at the old cell is true at the new one, which may offer more."
    : "No question within the bound tells them apart. They behave alike.";
  const silent = [i, j].map((k, side) => !D.books[side].rec[k]), both = `${rec(0, i)} in the old book, ${rec(1, j)} in the new one.`;
  const listen = silent[0] && silent[1] ? "Both are silent: there is nothing to listen to."
    : (silent[0] || silent[1] ? "They do not sound alike: " : "Listen whether they say the same: ") + both;
  return `<p class=state>${FORM.Matched}</p><p>${what} ${listen}</p>`;
}
function libraryQuestion(at, raw, same) { /* the library's own question, one click away */
  if (same) return "";
  const named = raw.lines.length > 1 ? "Parts that occur more than once, or are long, are named by their numbers in the sheet. " : "";
  const how = `Q${D.map[at]}, depth ${D.depth[at]}, ${big(raw.total)} characters in full`;
  return `<details><summary>As the library wrote it: ${how}</summary>${parts(raw, "Q")}
<p class=note>${named}The question above is easier to ask and tells the same pair apart; the library confirmed it.</p></details>`;
}
function panel(i, j) {
  const at = i * m + j, q = D.pair[at];
  const head = `<div class=sheethead><h2>To practise</h2><p>The old and the new book differ here. Do the same in both, from these two cells.</p></div>
<h3><span class=note>old</span> ${chip(0, i)} <span class=note>new</span> ${chip(1, j)}</h3>`;
  if (q < 0) return head + matchedPanel(i, j);
  const Q = D.questions[q], why = D.links[at] ? "their links agree, their sounds do not" : "their links do not agree";
  const raw = written(libSheet(), D.map[at], "Q"), short = written(D.entries, Q.entry, "P");
  const same = raw.total === short.total && raw.lines[0][1] === short.lines[0][1];
  const text = Q.length ? `<span class=note>${Q.length}</span>${parts(short, "P")}` : code(Q.text);
  const tag = (side, k) => `<span class="tag ${SIDES[side]}">${SIDES[side]} ${num(side, k)}</span> <b>${Q.answers[side]}</b>`;
  return head + `<p class=stateline><span class=state>Parted:</span> ${why}.</p>
<div class=ask><p class=q>${Q.ask}</p><p class=a>${tag(0, i)} ${tag(1, j)}</p></div>
<div class=walk>${table(D.story[at])}${others(D.story[at])}</div>
<p class=nota><span class=note>In notation, yes at old ${num(0, i)} and no at new ${num(1, j)}${same ? ` (Q${D.map[at]})` : ""}:</span> ${text}</p>
${libraryQuestion(at, raw, same)}<p class="buttons screen"><button data-sheet="${i},${j}">Print a sheet for the bed</button>
<button data-question=${q}>Mark the ${Q.pairs} pair${Q.pairs === 1 ? "" : "s"} of this question</button></p>`;
}

/* The map. */
const box = $("map"), S = m > 48 || n > 60 ? 11 : m > 34 ? 14 : m > 16 ? 18 : 26;
const named = D.books[0].names.some(Boolean) && S > 11;
const LEFT = named ? 132 : 34, TOP = 30, MATCH = "#0b4f8a", MARK = "#6a1b9a";
const most = Math.max(1, ...D.depth);
const shade = d => {
  const t = most === 1 ? .15 : .1 + .9 * (d - 1) / (most - 1), mix = (a, b) => Math.round(a + (b - a) * t);
  return `rgb(${mix(255, 222)},${mix(247, 128)},${mix(234, 35)})`;
};
const near = new Set(D.closest.map(([i, j]) => i * m + j));
let rowText = [], columnText = [], rowNames, cursor, cross;
function glyph(at, x, y, s, parent) {
  const d = D.depth[at], c = s / 2, frame = near.has(at), square = {x: x + .5, y: y + .5, width: s - 1, height: s - 1};
  if (d === 0) {
    parent.append(svg("rect", {...square, fill: MATCH}), svg("circle", {cx: x + c, cy: y + c, r: s * .2, fill: "#fff"}));
    return;
  }
  parent.append(svg("rect", {...square, fill: shade(d), stroke: frame ? "#000" : "none", "stroke-width": frame ? Math.max(1.4, s / 9) : 0}));
  if (D.links[at]) parent.append(svg("circle", {cx: x + c, cy: y + c, r: s * .22, fill: "none", stroke: MATCH, "stroke-width": Math.max(1, s / 11)}));
  else if (s >= 18 && most > 1) {
    const t = svg("text", {x: x + c, y: y + c + 3.4, "text-anchor": "middle"});
    t.textContent = d;
    parent.append(t);
  }
}
function drawNames(root) { /* those of the rows on a ground of their own, which stays in sight where the map scrolls */
  const alone = D.alone.map(a => new Set(a));
  rowText = []; columnText = [];
  rowNames = svg("g", {class: "names"});
  rowNames.append(svg("rect", {x: 0, y: 0, width: LEFT - 1, height: TOP + n * S + 4}));
  order[0].forEach((i, r) => {
    const t = svg("text", {x: LEFT - 5, y: TOP + r * S + S / 2 + 3.3, "text-anchor": "end"}), name = D.books[0].names[i];
    t.textContent = (named ? brief(name, 15) + " " : "") + num(0, i);
    if (alone[0].has(i)) t.setAttribute("class", "lack");
    rowText[i] = t; rowNames.append(t);
  });
  order[1].forEach((j, k) => {
    const x = LEFT + k * S + S / 2, t = svg("text", {x, y: TOP - 5, "text-anchor": S > 16 ? "middle" : "start"});
    if (S <= 16) t.setAttribute("transform", `rotate(-90 ${x} ${TOP - 5}) translate(0 3.4)`);
    t.textContent = num(1, j);
    if (alone[1].has(j)) t.setAttribute("class", "lack");
    columnText[j] = t; root.append(t);
  });
}
function draw() {
  const width = LEFT + m * S + 4, root = svg("svg", {viewBox: `0 0 ${width} ${TOP + n * S + 4}`, "aria-hidden": "true"});
  if (S < 14) root.setAttribute("class", "tight");
  root.style.setProperty("--least", Math.min(width, 680) + "px"); /* on a narrow screen, where the map scrolls so that it can be touched */
  root.style.maxWidth = 1.5 * width + "px"; /* a small map stays small */
  root.append(svg("rect", {x: LEFT, y: TOP, width: m * S, height: n * S, fill: "#e3e8ed"}));
  drawNames(root);
  const each = f => order[0].forEach((i, r) => order[1].forEach((j, k) => f(i * m + j, LEFT + k * S, TOP + r * S)));
  each((at, x, y) => glyph(at, x, y, S, root));
  if (markedQuestion >= 0) each((at, x, y) => {
    if (D.pair[at] === markedQuestion)
      root.append(svg("rect", {x: x + 1.5, y: y + 1.5, width: S - 3, height: S - 3, fill: "none", stroke: MARK, "stroke-width": 2.4}));
  });
  cross = [0, 1].map(() => svg("rect", {fill: "none", stroke: "#000", "stroke-opacity": .35}));
  cursor = svg("rect", {class: "cursor", fill: "none", stroke: "#000", "stroke-width": 2.4, rx: 1.5});
  root.append(...cross, cursor, rowNames);
  root.addEventListener("click", e => { const p = place(e, root); if (p) { choose(...p); box.focus({preventScroll: true}); } });
  root.addEventListener("mousemove", e => readout(place(e, root) || here));
  root.addEventListener("mouseleave", () => readout(here));
  box.replaceChildren(root);
  mark();
}
const scale = () => box.scrollWidth / (LEFT + m * S + 4);
function follow() { /* the names of the rows stay at the left edge of what is seen */
  rowNames.style.transform = `translateX(${box.scrollLeft / scale()}px)`;
}
box.addEventListener("scroll", follow, {passive: true});
function place(e, root) { /* the pair under the mouse */
  if (e.target.closest(".names")) return null;
  const r = root.getBoundingClientRect(), f = (LEFT + m * S + 4) / r.width;
  const k = Math.floor(((e.clientX - r.left) * f - LEFT) / S), q = Math.floor(((e.clientY - r.top) * f - TOP) / S);
  return k >= 0 && k < m && q >= 0 && q < n ? [order[0][q], order[1][k]] : null;
}
function readout([i, j]) {
  const d = D.depth[i * m + j];
  $("readout").innerHTML = `old ${esc(called(0, i))}, new ${esc(called(1, j))}: <b>${d ? "parted" : FORM.matched}</b>${d ? `, depth ${d}` : ""}`;
}
function mark() {
  const [i, j] = here, r = order[0].indexOf(i), k = order[1].indexOf(j);
  const put = (e, x, y, width, height) => { for (const [key, v] of Object.entries({x, y, width, height})) e.setAttribute(key, v); };
  put(cursor, LEFT + k * S - .5, TOP + r * S - .5, S + 1, S + 1);
  put(cross[0], LEFT, TOP + r * S, m * S, S);
  put(cross[1], LEFT + k * S, TOP, S, n * S);
  document.querySelectorAll("#map text.on").forEach(t => t.classList.remove("on"));
  rowText[i].classList.add("on");
  columnText[j].classList.add("on");
  const x = (LEFT + (k + .5) * S) * scale(), left = LEFT * scale(); /* a map that scrolls shows the pair, right of the names */
  if (x < box.scrollLeft + left + S || x > box.scrollLeft + box.clientWidth - S) box.scrollLeft = x - (box.clientWidth + left) / 2;
  follow();
}
function choose(i, j, quiet) {
  here = [i, j];
  mark(); readout(here);
  $("pair").innerHTML = panel(i, j);
  $("pair").scrollTop = 0;
  trace();
  if (quiet) return;
  clearTimeout(later); /* browsers allow few changes of the address a second */
  later = setTimeout(() => {
    try { history.replaceState(null, "", `#pair-${num(0, i)}-${num(1, j)}`); } catch { /* not from every place */ }
  }, 200);
}
box.addEventListener("keydown", e => {
  const r = order[0].indexOf(here[0]), k = order[1].indexOf(here[1]);
  const go = {
    ArrowUp: [r - 1, k], ArrowDown: [r + 1, k], ArrowLeft: [r, k - 1], ArrowRight: [r, k + 1],
    Home: [r, 0], End: [r, m - 1], PageUp: [0, k], PageDown: [n - 1, k],
  }[e.key];
  if (!go || e.ctrlKey || e.altKey || e.metaKey) return;
  e.preventDefault();
  choose(order[0][Math.min(n - 1, Math.max(0, go[0]))], order[1][Math.min(m - 1, Math.max(0, go[1]))]);
});
function sort(numbers) {
  order = numbers ? [[...Array(n).keys()], [...Array(m).keys()]] : [D.rows, D.columns];
  $("byNumber").setAttribute("aria-pressed", numbers);
  $("byPartner").setAttribute("aria-pressed", !numbers);
  draw();
}
$("byNumber").onclick = () => sort(true);
$("byPartner").onclick = () => sort(false);
$("unmark").onclick = () => markQuestion(-1);
function markQuestion(q) {
  markedQuestion = q;
  draw();
  $("unmark").hidden = q < 0;
  document.querySelectorAll("button[data-question]").forEach(b => b.setAttribute("aria-pressed", +b.dataset.question === q));
}
function legend() { /* with the map's own squares */
  const item = (words, ...shapes) => {
    const s = svg("svg", {viewBox: "0 0 18 18"}), e = document.createElement("span");
    s.append(...shapes);
    e.append(s, words);
    $("legend").append(e);
  };
  const square = (fill, more) => svg("rect", {x: .5, y: .5, width: 17, height: 17, fill, ...more}), pale = {stroke: "#c9b79d"};
  item(FORM.matched, square(MATCH), svg("circle", {cx: 9, cy: 9, r: 3.6, fill: "#fff"}));
  const depths = most <= 5 ? [...Array(most).keys()].map(k => k + 1) : [1, Math.ceil(most / 2), most];
  for (const d of depths) item((d === 1 ? "parted at depth " : "") + d, square(shade(d), pale));
  const ring = svg("circle", {cx: 9, cy: 9, r: 4, fill: "none", stroke: MATCH, "stroke-width": 1.6});
  item("links agree, sounds do not", square(shade(1), pale), ring);
  const frame = {stroke: "#000", "stroke-width": 2, x: 1.5, y: 1.5, width: 15, height: 15};
  if (D.closest.length) item(FORM.near, square(shade(1), frame));
  if (D.alone[0].length + D.alone[1].length) $("legend").insertAdjacentHTML("beforeend", `<span><b class=lack>number</b>&nbsp;${FORM.alone}</span>`);
}
legend();

/* The ways of the pair, in the pictures. */
let wholeBooks = false;
const graph = [0, 1].map(s => $("graph" + s)), fullView = graph.map(g => g.getAttribute("viewBox").split(" ").map(Number));
const centre = (side, i) => {
  const g = $(`n${side}-${i}`), t = g.transform.baseVal[0].matrix;
  return {x: t.e, y: t.f, w: +g.querySelector("rect").getAttribute("width"), h: 26};
};
function trace() {
  document.querySelectorAll(".graph .on, .graph .start").forEach(e => e.classList.remove("on", "start"));
  document.querySelectorAll(".graph .marks, .graph .words").forEach(e => e.replaceChildren());
  const seen = [new Set([here[0]]), new Set([here[1]])], at = here[0] * m + here[1], done = new Set();
  [0, 1].forEach(s => {
    graph[s].classList.toggle("telling", D.pair[at] >= 0);
    $("cap" + s).textContent = "from " + called(s, here[s]);
    $(`n${s}-${here[s]}`).classList.add("start");
  });
  if (D.pair[at] >= 0) for (const st of levels(D.story[at])) traceStory(st, seen, done);
  [0, 1].forEach(s => look(s, seen[s]));
}
function traceStory(st, seen, done) {
  const other = 1 - st.lead;
  const follow = st.stuck ? {wp: st.which ? [] : st.stuck, vp: st.which ? st.stuck : []} : st.ways ? st.ways[0] : {wp: []};
  for (const [side, from, way] of [[st.lead, st.x, st], [other, st.y, follow]]) for (const which of "v" in st ? [0, 1] : [0]) {
    let a = from;
    const cells = (which ? way.vp : way.wp) || [], ks = which ? st.v : st.w;
    cells.forEach((b, k) => { step(side, a, b, ks[k], which, done); a = b; seen[side].add(b); });
    $(`n${side}-${a}`).classList.add("on");
    if (side === other && st.stuck && (st.which || 0) === which) dead(side, a, ks[st.stuck.length]);
  }
}
function look(side, cells) { /* the whole book, or the part with the ways */
  let [x, y, w, h] = fullView[side];
  if (!wholeBooks) {
    const shown = new Set(cells), lines = graph[side].querySelectorAll(".lines path"), ends = p => p.id.split("-").slice(1).map(Number);
    const tied = [...lines].map(ends).filter(e => e.includes(here[side])), at = centre(side, here[side]);
    const close = i => { const b = centre(side, i); return Math.hypot(b.x - at.x, b.y - at.y) < 350; };
    if (cells.size < 3 && tied.length <= 7) tied.flat().filter(close).forEach(i => shown.add(i));
    const boxes = [...shown].map(i => centre(side, i));
    const x0 = Math.min(...boxes.map(b => b.x)) - 30, y0 = Math.min(...boxes.map(b => b.y)) - 34;
    const x1 = Math.max(...boxes.map(b => b.x + b.w)) + 60, y1 = Math.max(...boxes.map(b => b.y + b.h)) + 34;
    w = Math.max(400, x1 - x0, (y1 - y0) * 1.5);
    h = w / 1.5;
    x = (x0 + x1 - w) / 2;
    y = (y0 + y1 - h) / 2;
  }
  const words = graph[side].querySelector(".words").getBBox(), over = words.x + words.width + 8 - x - w; /* what is written beside the last cell */
  if (words.width && over > 0) { w += over; h += wholeBooks ? 0 : over / 1.5; }
  graph[side].setAttribute("viewBox", `${x} ${y} ${w} ${h}`);
  const figure = graph[side].parentNode, from = centre(side, here[side]); /* on a narrow screen, where it scrolls, the pair is seen */
  figure.scrollLeft = (from.x + from.w / 2 - x) / w * figure.scrollWidth - figure.clientWidth / 2;
}
function step(side, a, b, k, which, done) {
  const key = [side, a, b, which].join(), base = $(`l${side}-${Math.min(a, b)}-${Math.max(a, b)}`);
  $(`n${side}-${b}`).classList.add("on");
  if (!base || done.has(key)) return;
  done.add(key);
  const both = done.has([side, a, b, 1 - which].join()), w = "w" + (which + 1), half = base.getTotalLength() / 2;
  graph[side].querySelector(".marks").append(svg("path", {d: base.getAttribute("d"), class: w}));
  const [mid, ahead, back] = [half, half + 1, half - 1].map(d => base.getPointAtLength(d)), right = (ahead.x >= back.x) === (a <= b);
  const t = svg("text", {class: w, x: mid.x, y: mid.y + (both ? 15 : -6)});
  const label = brief(D.labels[k], 16);
  t.textContent = right ? label + " ▸" : "◂ " + label;
  graph[side].querySelector(".words").append(t);
}
function dead(side, a, k) {
  const c = centre(side, a), x = c.x + c.w + 6, y = c.y + 13, t = svg("text", {class: "dead", x, y: y - 11});
  t.textContent = brief(D.labels[k], 16);
  graph[side].querySelector(".words").append(svg("path", {class: "dead", d: `M${x} ${y}h18m5 -6l11 12m0 -12l-11 12`}), t);
}
$("whole").onclick = e => {
  wholeBooks = !wholeBooks;
  e.target.setAttribute("aria-pressed", wholeBooks);
  $("graphs").classList.toggle("stacked", wholeBooks);
  trace();
};

/* Buttons anywhere on the page, sheets for the bed, addresses of pairs. */
document.addEventListener("click", e => {
  const b = e.target.closest("button");
  if (!b) return;
  const pair = s => s.split(",").map(Number), toMap = () => $("s-map").scrollIntoView({behavior: "smooth"});
  if (b.dataset.show) { choose(...pair(b.dataset.show)); toMap(); box.focus({preventScroll: true}); }
  if (b.dataset.sheet) { choose(...pair(b.dataset.sheet)); document.body.classList.add("sheet"); window.print(); }
  if (b.dataset.question) { const q = +b.dataset.question; markQuestion(markedQuestion === q ? -1 : q); if (!b.closest("#pair")) toMap(); }
  if (b.id === "allq") { document.querySelector(".qs").classList.add("all"); b.remove(); }
});
function fitSheet() { /* a sheet for the bed is one page: smaller where it would be more, and without pictures where it would get too small */
  const tall = $("pair").scrollHeight * $("pair").clientWidth / 695 * 1.6, page = 990, pictures = 290; /* as it will be on paper, in pixels */
  let fit = Math.min(1, Math.sqrt((page - pictures) / tall));
  const alone = fit < .75;
  if (alone) fit = Math.min(1, Math.sqrt(page / tall));
  document.body.style.setProperty("--fit", Math.max(.5, fit).toFixed(2));
  document.body.classList.toggle("alone", alone && document.body.classList.contains("sheet"));
}
let before = false;
window.addEventListener("beforeprint", () => { /* on paper the whole books, on a sheet for the bed the part with the ways */
  before = wholeBooks;
  if (wholeBooks === document.body.classList.contains("sheet")) $("whole").click();
  fitSheet();
  const day = new Date().toLocaleDateString(undefined, {day: "numeric", month: "long", year: "numeric"});
  $("printed").textContent = `Printed ${day}.`;
});
window.addEventListener("afterprint", () => {
  document.body.classList.remove("sheet", "alone");
  if (wholeBooks !== before) $("whole").click();
});
function byAddress() {
  const f = /^#pair-(\d+)-(\d+)$/.exec(location.hash);
  if (!f) return false;
  const i = D.books[0].num.indexOf(+f[1]), j = D.books[1].num.indexOf(+f[2]);
  if (i < 0 || j < 0) return false;
  choose(i, j, true);
  $("s-map").scrollIntoView();
  return true;
}
draw();
if (!byAddress()) choose(...D.start, true);
window.addEventListener("hashchange", byAddress);
})();
