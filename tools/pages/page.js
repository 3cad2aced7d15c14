"use strict";

// The page shows what the program answered, epoch by epoch. A token is known by its place among all tokens of the page,
// a range by the place of the token that ends it; the last place is that of `max`.

const data = JSON.parse(document.getElementById("data").textContent);
// The parts of the ring up to each token, for pictures.
const turns = data.tokens.map((it) => (it === "max" ? 1 : Number(it) / 2 ** 64 + 0.5));
const nodeOf = new Map(data.nodes.map(([id, name, dc, rack]) => [id, { id, name, dc, rack }]));
const lastPlace = data.epochs.length - 1;
const nowPlace = data.epochs.findIndex((it) => it.epoch === data.last);
const plannedAt = new Map(data.plan.map((it) => [it.epoch, it]));

const MOST_OPEN = 60; // nodes, up to which all racks are open
const MOST_IN_RING = 24; // ranges, up to which a ring is drawn
const PAGE = 50; // rows of a table
const FILTERS = ["keyspace", "dc", "rack", "node", "token"];
const PHASES = ["PREPARED", "STARTED", "MID"];
const FILLS = {
  stay: "read and written",
  gain: "written only, read from mid on",
  lose: "read and written, but read only until mid",
  taken: "read and written, new since mid",
  late: "written only, until the finish",
  coming: "no replica yet, written from the start on",
};

// ---- Elements

function element(name, attributes = {}, ...children) {
  return filled(document.createElement(name), attributes, children);
}

function drawn(name, attributes = {}, ...children) {
  return filled(document.createElementNS("http://www.w3.org/2000/svg", name), attributes, children);
}

function filled(made, attributes, children) {
  for (const [key, value] of Object.entries(attributes)) {
    if (typeof value === "function") made.addEventListener(key, value);
    else if (value !== null && value !== false) made.setAttribute(key, value === true ? "" : value);
  }
  made.append(...children.flat(2).filter((it) => it !== null));
  return made;
}

const byId = (id) => document.getElementById(id);
const button = (said, click, attributes = {}) => element("button", { type: "button", click, ...attributes }, said);
const isPlain = (name) => /^[ -~]*$/.test(name);
/** A name stands apart from the text round it, whatever its direction. */
const nameOf = (id) => (isPlain(nodeOf.get(id).name) ? nodeOf.get(id).name : element("bdi", {}, nodeOf.get(id).name));

function namesOf(ids) {
  const names = ids.map(nameOf);
  if (names.every((it) => typeof it === "string")) return [names.join(", ") || "none"];
  return names.flatMap((it, i) => (i ? [", ", it] : [it]));
}

const counts = new Intl.NumberFormat("en");
const plural = (count, noun) => `${counts.format(count)} ${noun}${count === 1 ? "" : "s"}`;
const percent = (part) => `${(100 * part).toFixed(2)}%`;
const rangeName = (left, end) => `(${left < 0 ? "min" : data.tokens[left]},${data.tokens[end]}]`;

// ---- States

/** The state at one epoch. It goes to another one by the differences between epochs. */
class State {
  constructor() {
    this.place = -1;
    this.rows = data.groups.map(() => new Int32Array(data.tokens.length).fill(-1)); // by end: the place of the set
    this.shares = data.groups.map(() => ({}));
    this.margins = [];
    this.nodes = {};
    this.undo = [];
  }

  goTo(place) {
    while (this.place < place) this.forward();
    while (this.place > place) this.back();
  }

  forward() {
    const epoch = data.epochs[++this.place];
    const changes = [];
    const put = (store, key, value) => {
      changes.push([store, key, store[key]]);
      store[key] = value;
    };
    for (const [id, state, tokens] of epoch.nodes) put(this.nodes, id, { state, tokens });
    for (const id of epoch.gone) put(this.nodes, id, undefined);
    for (const [group, ends] of Object.entries(epoch.rows)) {
      for (let i = 0; i < ends.length; i += 2) put(this.rows[group], ends[i], ends[i + 1]);
    }
    for (const [group, shares] of Object.entries(epoch.shares)) {
      for (const [id, read, pending] of shares) put(this.shares[group], id, { read, pending });
    }
    for (const [group, margins] of Object.entries(epoch.margins)) put(this.margins, group, margins);
    this.undo.push(changes);
  }

  back() {
    for (const [store, key, value] of this.undo.pop().reverse()) store[key] = value;
    this.place--;
  }

  /** The set of the range in which a token is. */
  setAt(group, place) {
    const rows = this.rows[group];
    while (place < rows.length && rows[place] < 0) place++;
    return data.groups[group].sets[rows[place]];
  }
}

const state = new State();
const view = { place: nowPlace, keyspace: "", dc: "", rack: "", node: "", token: "", rows: "all" };
const pages = { rows: 0, nodes: 0 };
const turned = new Set(); // the racks that were opened or closed by hand
let shown; // what is shown of the state: see look()

const sameNodes = (a, b) => a && b && String(a[0]) === String(b[0]) && String(a[1]) === String(b[1]);

function groupAt(place) {
  const all = data.epochs[place].keyspaces;
  const found = all.find(([, names]) => names.includes(view.keyspace)) || all[0];
  return found ? { group: found[0], names: found[1] } : { group: -1, names: [] };
}

/** Goes to an epoch, and returns what is to be shown: its ranges, and which of them differ from the epoch before. */
function look(place) {
  const { group, names } = groupAt(place);
  const before = place > 0 ? groupAt(place - 1).group : -1;
  const old = new Map();
  if (group >= 0 && before >= 0) {
    state.goTo(place);
    const ends = before === group ? data.epochs[place].rows[group] : [...state.rows[group].keys()].flatMap((it) => [it, 0]);
    state.goTo(place - 1);
    for (let i = 0; i < ends.length; i += 2) old.set(ends[i], state.setAt(before, ends[i]));
  }
  state.goTo(place);
  const rows = group < 0 ? [] : rowsOf(group, old);
  const flights = data.epochs[place].movements.map(([at, phase]) => ({ at, phase, ...data.movements[at] }));
  const found = { place, group, names, rows, flights, epoch: data.epochs[place] };
  for (const it of flights) markStreams(found, it);
  return found;
}

function rowsOf(group, old) {
  const rows = [];
  let left = -1;
  state.rows[group].forEach((set, end) => {
    if (set < 0) return;
    const [reads, pending, needs] = data.groups[group].sets[set];
    const before = old.get(end);
    const changed = before !== undefined && !sameNodes(before, [reads, pending]);
    const row = { left, end, reads, pending, before, changed, streams: [], flight: null };
    rows.push({ ...row, needs: data.groups[group].needs[needs] });
    left = end;
  });
  return rows;
}

/** What a movement streams under the keyspace that is shown, by the plan that holds at an epoch. */
function streamsOf(movement, epoch, group) {
  const plans = movement.streams;
  const plan = plans.filter(([since]) => since <= epoch).pop() || plans[0];
  const [, share, ranges] = plan[1].find((it) => it[0] === group) || [group, "0.00%", []];
  return {
    share,
    ranges: ranges.map(([left, end, part, to, sources, strict]) => ({ left, end, part, to, sources, strict })),
  };
}

/** The number of the first row that ends at a place or past it. */
function rowNumber(rows, place) {
  let [low, high] = [0, rows.length];
  while (low < high) {
    const middle = (low + high) >> 1;
    if (rows[middle].end < place) low = middle + 1;
    else high = middle;
  }
  return low;
}

/** Tells each row of a movement that it changes it, and what is streamed there. */
function markStreams({ rows, group, epoch }, flight) {
  for (const stream of streamsOf(flight, epoch.epoch, group).ranges) {
    const { left, end } = stream;
    const parts = left < end ? [[left, end]] : [[left, data.tokens.length], [-1, end]];
    for (const [begin, past] of parts) {
      for (let i = rowNumber(rows, begin + 1); i < rows.length && rows[i].end <= past; i++) {
        rows[i].flight = flight;
        rows[i].streams.push(stream);
      }
    }
  }
}

/** How a node is a replica in a range: a key of FILLS. */
function fillOf(row, id) {
  const phase = row.flight && row.flight.phase;
  const gains = row.streams.some((it) => it.to === id);
  const loses = row.streams.some((it) => it.strict && it.sources[0] === id);
  if (row.pending.includes(id)) return gains ? "gain" : "late";
  if (!row.reads.includes(id)) return gains && phase === "PREPARED" ? "coming" : null;
  if (gains && phase === "MID") return "taken";
  return loses && phase === "STARTED" ? "lose" : "stay";
}

const replicasOf = (row) => (row.flight ? [...row.reads, ...row.pending, ...row.streams.map((it) => it.to)] : row.reads);

const least = (row) => Math.min(row.needs[0][1] - row.needs[0][0], row.needs[0][3] - row.needs[0][2]);

// ---- Filters

function isChosen(id) {
  const it = nodeOf.get(id);
  const isThere = (!view.dc || it.dc === view.dc) && (!view.rack || it.rack === view.rack);
  return isThere && it.name.includes(view.node);
}

/** The place of the token that ends the range of a token, or -1 where the words are no token. */
function endAt(token) {
  if (token === "max") return data.tokens.length - 1;
  if (!/^-?\d+$/.test(token)) return -1;
  let [low, high] = [0, data.tokens.length - 1];
  while (low < high) {
    const middle = (low + high) >> 1;
    if (BigInt(data.tokens[middle]) < BigInt(token)) low = middle + 1;
    else high = middle;
  }
  return low;
}

function rowAt(end) {
  return end < 0 ? undefined : shown.rows.find((row) => row.end >= end);
}

function chosenRows() {
  if (view.token) return [rowAt(endAt(view.token))].filter((it) => it);
  const fewest = Math.min(...(state.margins[shown.group] || [[0, 0]])[0]);
  const kinds = { moving: (row) => row.flight, changed: (row) => row.changed, least: (row) => least(row) === fewest };
  const isFiltered = view.dc || view.rack || view.node;
  const rows = kinds[view.rows] ? shown.rows.filter(kinds[view.rows]) : shown.rows;
  return isFiltered ? rows.filter((row) => replicasOf(row).some(isChosen)) : rows;
}

// ---- The head

function showHead() {
  const { epoch, place, flights, rows } = shown;
  const isPlanned = epoch.epoch > data.last;
  byId("title").textContent = `${data.cluster || data.log}: epoch ${epoch.epoch} of ${data.epochs[lastPlace].epoch}`;
  document.title = byId("title").textContent;
  byId("epoch").value = place;
  byId("epoch").setAttribute("aria-valuetext", `Epoch ${epoch.epoch}: ${epoch.said}`);
  byId("back").disabled = place === 0;
  byId("on").disabled = place === lastPlace;
  const changed = rows.filter((row) => row.changed).length;
  const told = place === 0 ? "the first epoch of this page" : `${plural(changed, "range")} changed since the epoch before`;
  byId("said").replaceChildren(
    element("code", {}, epoch.said || "nothing yet"),
    ` · ${told} · ${plural(flights.length, "movement")} in flight `,
    isPlanned ? element("span", { class: "badge" }, "planned, not in the log yet") : "",
  );
}

function showTicks() {
  const at = (place) => `${(100 * place) / Math.max(1, lastPlace)}%`;
  const ticks = data.epochs.map((it, place) => {
    const tick = element("i", { class: it.epoch > data.last ? "planned" : it.movements.length ? "moving" : "" });
    tick.style.left = at(place);
    tick.style.width = `min(${at(0.8)}, 10px)`;
    return tick;
  });
  byId("ticks").replaceChildren(...ticks);
}

function showFilters() {
  const form = byId("filters");
  const { elements } = form;
  const said = ([group, names]) => `${names.join(", ")} (${data.groups[group].replication})`;
  const keyspaces = shown.epoch.keyspaces.map((it) => [it[1][0], said(it)]);
  options(elements.keyspace, keyspaces, shown.names[0] || "");
  const dcs = [...new Set(data.nodes.map((it) => it[2]))].sort();
  const racks = [...new Set(data.nodes.filter((it) => !view.dc || it[2] === view.dc).map((it) => it[3]))].sort();
  options(elements.dc, [["", "all"], ...dcs.map((it) => [it, it])], view.dc);
  options(elements.rack, [["", "all"], ...racks.map((it) => [it, it])], view.rack);
  for (const key of ["node", "token"]) if (elements[key] !== document.activeElement) elements[key].value = view[key];
}

function options(select, pairs, chosen) {
  const key = JSON.stringify(pairs);
  if (select.dataset.key !== key) {
    select.dataset.key = key;
    select.replaceChildren(...pairs.map(([value, said]) => element("option", { value }, said)));
  }
  select.value = chosen;
}

// ---- Movements

/** The movements to tell of: those in flight, or else the next ones. */
function flightsToTell() {
  if (shown.flights.length) return { flights: shown.flights, place: shown.place };
  const next = data.epochs.findIndex((it, place) => place > shown.place && it.movements.length);
  if (next < 0) return { flights: [], place: -1 };
  return { flights: data.epochs[next].movements.map(([at, phase]) => ({ at, phase, ...data.movements[at] })), place: next };
}

function showFlights() {
  const { flights, place } = flightsToTell();
  const isComing = place > shown.place;
  const title = isComing ? `Next: from epoch ${data.epochs[place].epoch} on` : "In flight now";
  byId("movements-title").textContent = flights.length ? title : "No movement is in flight";
  const streams = flights.map((it) => streamsOf(it, shown.epoch.epoch, shown.group));
  const isOpen = streams.reduce((sum, it) => sum + it.ranges.length, 0) <= 12;
  byId("flights").replaceChildren(...flights.map((it, i) => flightCard(it, streams[i], isComing, isOpen)));
}

function flightTitle(flight) {
  const { dc, rack } = nodeOf.get(flight.node);
  const verb = { join: " joins", move: " moves", leave: " leaves", replace: " replaces " }[flight.kind];
  const gone = flight.kind === "replace" ? [nameOf(flight.gone)] : [];
  return [nameOf(flight.node), verb, ...gone, element("span", { class: "soft" }, ` in ${dc}, ${rack}`)];
}

function flightCard(flight, streams, isComing, isOpen) {
  return element(
    "article",
    { class: isComing ? "flight coming" : "flight" },
    element("h3", {}, flightTitle(flight)),
    phasesOf(flight, isComing),
    element("p", {}, takesSaid(flight, streams)),
    riskOf(flight, streams, isComing),
    nextOf(flight, isComing),
    streamTable(streams, isOpen),
  );
}

function phasesOf(flight, isComing) {
  const places = (phase) => data.epochs.findIndex((it) => it.movements.some(([at, its]) => at === flight.at && its === phase));
  const isInFlight = data.epochs.map((it) => it.movements.some(([at]) => at === flight.at));
  const end = isInFlight.lastIndexOf(true) + 1;
  const steps = [...PHASES.map((it) => [it, places(it)]), ["FINISHED", end > lastPlace ? -1 : end]];
  const item = ([phase, place]) => {
    const current = !isComing && phase === flight.phase ? "step" : null;
    const said = place < 0 ? phase : `${phase} (${data.epochs[place].epoch})`;
    return element("li", {}, button(said, () => goTo(place), { "aria-current": current, disabled: place < 0 }));
  };
  return element("ol", { class: "phases", "aria-label": "Phases, with their epochs" }, steps.map(item));
}

/** The nodes with how many ranges each has, in order of the ranges. */
function counted(ids) {
  const counts = new Map();
  for (const id of ids) counts.set(id, (counts.get(id) || 0) + 1);
  const all = [...counts].sort((a, b) => b[1] - a[1]);
  const said = all.slice(0, 6).flatMap(([id, count], i) => [i ? ", " : "", nameOf(id), ` (${plural(count, "range")})`]);
  return all.length > 6 ? [...said, ` and ${plural(all.length - 6, "node")} more`] : said;
}

function takesSaid(flight, { share, ranges }) {
  if (!ranges.length) return [`Nothing is streamed under ${shown.names.join(", ")}. `, ...othersOf(flight)];
  const strict = ranges.filter((it) => it.strict);
  const from = strict.length ? [" from ", ...counted(strict.map((it) => it.sources[0]))] : [" from any replica"];
  return [
    element("b", {}, counted(ranges.map((it) => it.to))),
    ranges.every((it) => it.to === ranges[0].to) ? " takes " : " take ",
    element("b", {}, `${share} of the ring`),
    ` of ${shown.names.join(", ")}`,
    ...from,
    ".",
  ];
}

/** The other keyspaces under which a movement streams. */
function othersOf(flight) {
  const all = shown.epoch.keyspaces.filter(([group]) => streamsOf(flight, shown.epoch.epoch, group).ranges.length);
  return all.flatMap(([group, names]) => {
    const said = `${names.join(", ")}: ${streamsOf(flight, shown.epoch.epoch, group).share} of the ring`;
    return [button(said, () => choose({ keyspace: names[0] })), " "];
  });
}

function marginsSaid(margins) {
  const said = (count) => (count < 0 ? "no quorum somewhere" : `${count}`);
  const levels = data.groups[shown.group].levels;
  return levels.map((it, i) => `${it}: reads ${said(margins[i][0])}, writes ${said(margins[i][1])}`).join("; ");
}

function riskOf(flight, { ranges }, isComing) {
  if (!ranges.length) return null;
  const mid = data.epochs.find((it) => it.movements.some(([at, phase]) => at === flight.at && phase === "MID"));
  const margins = (mid && mid.margins[shown.group]) || state.margins[shown.group];
  const losers = new Set(ranges.filter((it) => it.strict).map((it) => it.sources[0]));
  const takers = [...new Set(ranges.map((it) => it.to))];
  const isNow = !isComing && flight.phase === "MID";
  return element(
    "p",
    { class: "risk" },
    element("b", {}, isNow ? "At risk now, at mid: " : "At risk at mid: "),
    takers.length > 6 ? `${takers.length} nodes` : namesOf(takers),
    ` ${takers.length > 1 ? "are" : "is"} read in these ranges`,
    losers.size ? ` in the place of ${plural(losers.size, "node")}` : "",
    ". A write that was not streamed there by then can be missed by a quorum. ",
    margins ? `Replicas that a quorum can still lose then: ${marginsSaid(margins)}.` : "",
  );
}

function nextOf(flight, isComing) {
  const isNext = (it) => isComing || !it.movements.some(([at, phase]) => at === flight.at && phase === flight.phase);
  const next = data.epochs.findIndex((it, place) => place > shown.place && isNext(it));
  const { epoch, said } = data.epochs[next] || {};
  const jump = next < 0 ? null : [" ", button(`Epoch ${epoch}: ${said}`, () => goTo(next))];
  if (isComing) return element("p", {}, element("b", {}, "Next step: "), jump);
  const todo = flight.steps[flight.phase];
  return element(
    "div",
    {},
    element("p", {}, element("b", {}, "Next steps"), jump),
    element("ol", { class: "todo" }, todo.map((it) => element("li", {}, coded(it)))),
  );
}

/** A text whose parts in backticks are code. */
const coded = (said) => said.split("`").map((it, i) => (i % 2 ? element("code", {}, it) : it));

function streamTable({ ranges }, isOpen) {
  if (!ranges.length) return null;
  const row = (it) =>
    element(
      "tr",
      {},
      element("td", { class: "mono" }, rangeButton(it.left, it.end)),
      element("td", { class: "number" }, it.part),
      element("td", {}, nameOf(it.to)),
      element("td", { class: "nodes" }, it.strict ? [] : "any of ", namesOf(it.sources)),
    );
  const head = element("tr", {}, ...["Range", "Share", "To", "From"].map((it) => element("th", { scope: "col" }, it)));
  const most = ranges.slice(0, 4 * PAGE);
  return element(
    "details",
    { open: isOpen },
    element("summary", {}, `${plural(ranges.length, "range")}, from whom to whom`),
    element("div", { class: "wide" }, element("table", {}, element("thead", {}, head), element("tbody", {}, most.map(row)))),
  );
}

// ---- Steps

const placeOf = (epoch) => data.epochs.findIndex((it) => it.epoch === epoch);

function showSteps() {
  const key = JSON.stringify([shown.group]);
  const list = byId("step-list");
  if (list.dataset.key !== key) {
    list.dataset.key = key;
    byId("steps-title").textContent = data.plan.length ? "The plan, step by step" : "The log, epoch by epoch";
    byId("steps-note").textContent = "At the right: replicas that a QUORUM can still lose, for reads and for writes.";
    list.replaceChildren(...stepLists());
  }
  for (const it of list.querySelectorAll("[aria-current]")) it.removeAttribute("aria-current");
  const current = list.querySelector(`[data-place="${shown.place}"]`);
  if (!current) return;
  current.setAttribute("aria-current", "step");
  const below = current.offsetTop - list.offsetTop;
  if (below < list.scrollTop || below > list.scrollTop + list.clientHeight - 40) list.scrollTop = below - list.clientHeight / 3;
}

function stepLists() {
  const parts = [];
  let title = null;
  data.epochs.forEach((epoch, place) => {
    const step = plannedAt.get(epoch.epoch);
    const wanted = step ? (step.wave ? `Wave ${step.wave}` : "The plan begins") : `In the log, up to epoch ${data.last}`;
    if (wanted !== title) {
      title = wanted;
      parts.push(element("section", { class: step ? "" : "past" }, element("h3", {}, wanted), element("ol")));
    }
    parts[parts.length - 1].lastChild.append(stepItem(epoch, place, step));
  });
  return parts;
}

function stepItem(epoch, place, step) {
  const margins = epoch.margins[shown.group];
  const said = element("span", {}, element("code", {}, epoch.said || "(nothing yet)"));
  if (epoch.epoch === data.last + 1) said.append(element("span", { class: "next" }, " ← next"));
  const click = () => goTo(place);
  return element(
    "li",
    {},
    step ? step.remarks.map((it) => element("p", { class: "remark" }, it)) : null,
    element(
      "button",
      { type: "button", class: "step", "data-place": place, click },
      element("span", {}, `${epoch.epoch}`),
      said,
      element("span", { class: margins && Math.min(...margins[0]) < 0 ? "soft none" : "soft" }, margins ? margins[0].join(" / ") : ""),
    ),
  );
}

// ---- Pictures

const turnBefore = (left) => (left < 0 ? 0 : turns[left]);

function showPicture() {
  const { names, group } = shown;
  const title = names.length ? `Keyspace ${names.join(", ")} (${data.groups[group].replication})` : "No keyspace yet";
  byId("picture-title").textContent = title;
  const bands = bandsToShow();
  const found = spansOf(bands);
  byId("legend").replaceChildren(...found.map(legendItem));
  byId("bands").replaceChildren(element("div", { id: "chosen", hidden: true }), ...axisAndChanges(), ...bands.map(bandElement));
  const tracks = shown.rows.length > MOST_IN_RING ? [] : [...new Set(shown.rows.flatMap(replicasOf))].sort((a, b) => a - b);
  const isSmall = shown.rows.length > 1 && tracks.length > 0 && tracks.length <= 16;
  byId("ring").replaceChildren(...(isSmall ? ringOf(tracks) : []));
}

const legendItem = (fill) =>
  element("li", {}, drawn("svg", { "aria-hidden": "true" }, drawn("rect", { width: 26, height: 14, class: fill })), FILLS[fill]);

/** The bands from top to bottom: datacenters, racks, and the nodes of racks that are open. */
function bandsToShow() {
  const ids = Object.keys(state.nodes).map(Number).filter((id) => state.nodes[id] && isChosen(id));
  const moving = new Set(shown.flights.flatMap((it) => [it.node, it.gone]).filter((it) => it));
  const shares = state.shares[shown.group] || {};
  const isReplica = (id) => shares[id] && (shares[id].read || shares[id].pending);
  const all = ids.filter((id) => isReplica(id) || moving.has(id)).map((id) => nodeOf.get(id));
  all.sort((a, b) => compare(a.dc, b.dc) || compare(a.rack, b.rack) || a.id - b.id);
  const isLarge = all.length > MOST_OPEN;
  const bands = isLarge ? all.filter((it) => moving.has(it.id)).map((it) => ({ node: it, ids: [it.id], isMoving: true })) : [];
  if (bands.length) bands.unshift({ dc: "In movement" });
  let [dc, rack, inRack] = [null, null, null];
  for (const it of all) {
    const key = JSON.stringify([it.dc, it.rack]);
    const isOpen = isLarge === turned.has(key);
    if (it.dc !== dc) bands.push({ dc: `Datacenter ${it.dc}` });
    if (key !== rack && isLarge) bands.push((inRack = { rack: it.rack, key, isOpen, ids: [] }));
    if (isLarge) inRack.ids.push(it.id);
    if (isOpen) bands.push({ node: it, ids: [it.id], isFirst: key !== rack && !isLarge, isMoving: moving.has(it.id) });
    [dc, rack] = [it.dc, key];
  }
  return bands;
}

const compare = (a, b) => (a < b ? -1 : a > b ? 1 : 0);

/** Gives each band the parts of the ring that its fills have, in thousandths, and returns the fills that there are. */
function spansOf(bands) {
  const byNode = [];
  for (const band of bands) {
    band.spans = Object.fromEntries(Object.keys(FILLS).map((it) => [it, []]));
    for (const id of band.ids || []) (byNode[id] = byNode[id] || []).push(band);
  }
  for (const row of shown.rows) {
    const [begin, end] = [1000 * turnBefore(row.left), 1000 * turns[row.end]];
    for (const id of new Set(row.flight ? replicasOf(row) : [])) {
      const fill = fillOf(row, id);
      const past = fill === "stay" ? end : Math.max(end, begin + 4); // (what moves is to be seen)
      if (fill) for (const it of byNode[id] || []) addSpan(it.spans[fill], begin, past);
    }
    if (row.flight) continue;
    for (const id of row.reads) for (const it of byNode[id] || []) addSpan(it.spans.stay, begin, end);
  }
  return Object.keys(FILLS).filter((fill) => bands.some((it) => it.spans[fill].length));
}

/** Adds a part to a list of begins and ends; parts less than one apart become one. */
function addSpan(spans, begin, end) {
  const last = spans.length - 1;
  if (last > 0 && begin <= spans[last] + 1) spans[last] = Math.max(spans[last], end);
  else spans.push(begin, end);
}

function pathOf(spans, height) {
  let path = "";
  for (let i = 0; i < spans.length; i += 2) {
    const [begin, end] = [spans[i], spans[i + 1]].map((it) => Math.round(10 * it) / 10);
    path += `M${begin} 0H${end}V${height}H${begin}z`;
  }
  return path;
}

function bar(spans) {
  const fills = Object.keys(FILLS).filter((it) => spans[it].length);
  return strip("bar", 14, fills.map((it) => drawn("path", { class: it, d: pathOf(spans[it], 14) })));
}

function strip(name, height, paths) {
  const stretched = { viewBox: `0 0 1000 ${height}`, preserveAspectRatio: "none" };
  return drawn("svg", { class: name, "aria-hidden": "true", ...stretched }, paths);
}

function bandElement(band) {
  if (band.dc) return element("h3", { class: "dc" }, band.dc);
  if (band.rack) {
    const click = () => {
      if (!turned.delete(band.key)) turned.add(band.key);
      showPicture();
    };
    const said = `${band.isOpen ? "▾" : "▸"} ${band.rack}`;
    const opens = button(said, click, { "aria-expanded": String(band.isOpen), title: band.rack });
    const count = element("span", { class: "name" }, plural(band.ids.length, "node"));
    return element("div", { class: "band rack" }, opens, count, bar(band.spans), element("span"));
  }
  const { id, name, rack } = band.node;
  const { read, pending } = (state.shares[shown.group] || {})[id] || {};
  const share = pending ? `${read || "0.00%"} + ${pending}` : read || "";
  return element(
    "div",
    { class: band.isMoving ? "band moving" : "band" },
    element("span", { title: rack }, band.isFirst ? rack : ""),
    element("span", { class: "name", title: name }, nameOf(id)),
    bar(band.spans),
    element("span", {}, share),
  );
}

function axisAndChanges() {
  const axis = element("div", { class: "axis" }, ...["min", "-2^62", "0", "2^62", "max"].map((it) => element("span", {}, it)));
  const changed = [];
  for (const row of shown.rows) {
    const begin = 1000 * turnBefore(row.left);
    if (row.changed) addSpan(changed, begin, Math.max(1000 * turns[row.end], begin + 2));
  }
  const said = changed.length ? "changed" : "";
  const marks = strip("bar changes", 6, [drawn("path", { d: pathOf(changed, 6) })]);
  const text = (said, name = "soft") => element("span", { class: name }, said);
  const line = (it, name, share) => element("div", { class: "band" }, text(""), text(name, "name soft"), it, text(share));
  return [line(axis, "", "share read + pending"), line(marks, said, "")];
}

// ---- The ring, for few ranges

const HOLE = 46;
const APART = 15; // degrees between tokens, from which on they stand to scale

function ringOf(tracks) {
  const { rows } = shown;
  const scaled = rows.map((row) => 360 * turns[row.end]);
  const isScaled = scaled.every((it, i) => it - (i ? scaled[i - 1] : 0) >= APART);
  const ends = isScaled ? scaled : rows.map((_, i) => (360 * (i + 1)) / rows.length);
  const track = Math.min(22, 130 / tracks.length);
  const outside = HOLE + track * tracks.length;
  const parts = rows.map((row, i) => ringRow(row, tracks, track, [i ? ends[i - 1] : 0, ends[i]]));
  const label = ({ end }, i) => (i === rows.length - 1 ? `${data.tokens[end]} | min` : data.tokens[end]);
  const labels = rows.map((row, i) => ringEnd(outside, ends[i], label(row, i)));
  const [width, height] = [outside + 150, outside + 22];
  const rings = tracks.map((_, i) => drawn("circle", { class: "apart", r: HOLE + track * i }));
  const named = tracks.flatMap((id, i) => [i ? ", " : "", nameOf(id)]);
  return [
    drawn("svg", { viewBox: `${-width} ${-height} ${2 * width} ${2 * height}` }, parts, rings, labels),
    element("p", { class: "note" }, "Clockwise from min, ", isScaled ? "to scale" : "not to scale", ". Tracks from the inside: ", named, "."),
  ];
}

function ringRow(row, tracks, track, [begin, end]) {
  const part = (id, i) => {
    const fill = fillOf(row, id);
    const path = sector(HOLE + track * i, HOLE + track * (i + 1), begin, end);
    const told = fill ? drawn("title", {}, `${nodeOf.get(id).name}: ${FILLS[fill]}`) : [];
    return drawn("path", { d: path, class: fill || "track" }, told);
  };
  const tell = () => tellOf(row);
  const pin = () => choose({ token: data.tokens[row.end] });
  const key = (event) => event.key === "Enter" && pin();
  const said = `Range ${rangeName(row.left, row.end)}`;
  const listeners = { mouseenter: tell, focus: tell, click: pin, keydown: key };
  return drawn("g", { class: "row", tabindex: 0, role: "button", "aria-label": said, ...listeners }, tracks.map(part));
}

function ringEnd(outside, turn, said) {
  const [x, y] = pointAt(outside + 10, turn);
  const anchor = Math.abs(x) < 1 ? "middle" : x > 0 ? "start" : "end";
  const line = drawn("path", { class: "edge", d: `M${pointAt(HOLE - 4, turn)}L${pointAt(outside + 6, turn)}` });
  return [line, drawn("text", { x, y: y + 4 - 4 * Math.cos((turn * Math.PI) / 180), "text-anchor": anchor }, said)];
}

function pointAt(radius, turn) {
  const angle = (turn * Math.PI) / 180;
  return [radius * Math.sin(angle), -radius * Math.cos(angle)].map((it) => Number(it.toFixed(2)));
}

function sector(inner, outer, begin, end) {
  const middle = (begin + end) / 2;
  const arc = (radius, sweep, turn) => `A${radius} ${radius} 0 0 ${sweep} ${pointAt(radius, turn)}`;
  const far = `M${pointAt(outer, begin)}${arc(outer, 1, middle)}${arc(outer, 1, end)}`;
  return `${far}L${pointAt(inner, end)}${arc(inner, 0, middle)}${arc(inner, 0, begin)}Z`;
}

// ---- A range

function rowUnder(event) {
  const target = event.target.closest(".bar");
  if (!target) return undefined;
  const box = target.getBoundingClientRect();
  const turn = (event.clientX - box.left) / box.width;
  return shown.rows.find((row) => turns[row.end] >= turn);
}

function rangeButton(left, end) {
  const row = () => rowAt(end);
  const tell = () => tellOf(row());
  return button(rangeName(left, end), () => choose({ token: data.tokens[end] }), { focus: tell, mouseenter: tell });
}

/** Tells of a range beside the picture, and marks it there. */
function tellOf(row) {
  const chosen = byId("chosen");
  const bars = byId("bands").querySelector(".bar");
  chosen.hidden = !row || !bars;
  if (!row) {
    const hint = "Point at a range, tap it, or go to it by Tab: here stand its replicas and quorums.";
    byId("range-told").replaceChildren(element("p", { class: "note" }, hint));
    return;
  }
  if (bars) {
    const left = bars.getBoundingClientRect().left - byId("bands").getBoundingClientRect().left;
    chosen.style.left = `${left + turnBefore(row.left) * bars.clientWidth}px`;
    chosen.style.width = `${Math.max(2, (turns[row.end] - turnBefore(row.left)) * bars.clientWidth)}px`;
  }
  const { levels } = data.groups[shown.group];
  const told = [
    ["Range", element("span", { class: "mono" }, rangeName(row.left, row.end))],
    ["Share of the ring", percent(turns[row.end] - turnBefore(row.left))],
    ["Read and written", namesOf(row.reads)],
    ["Written only", namesOf(row.pending)],
    ...levels.map((level, i) => [level, needSaid(row.needs[i])]),
    ["Movement", movementSaid(row)],
  ];
  if (row.changed) told.push(["Epoch before", ["read ", ...namesOf(row.before[0]), "; written only ", ...namesOf(row.before[1])]]);
  byId("range-told").replaceChildren(element("dl", {}, told.flatMap(([term, it]) => [element("dt", {}, term), element("dd", {}, it)])));
}

function needSaid([readNeed, readers, writeNeed, writers]) {
  const spare = (count) => (count < 0 ? element("span", { class: "none" }, " (no quorum)") : ` (can lose ${count})`);
  const said = (word, need, count) => element("div", {}, `${word} ${need} of ${count}`, spare(count - need));
  return [said("read", readNeed, readers), said("write", writeNeed, writers)];
}

function movementSaid(row) {
  if (!row.flight) return "none changes it";
  const from = (it) => [it.strict ? " takes it from " : " takes it from any of ", ...namesOf(it.sources)];
  const takes = row.streams.flatMap((it) => ["; ", nameOf(it.to), ...from(it)]);
  return [`${row.flight.kind} of `, nameOf(row.flight.node), `, ${row.flight.phase}, locks it`, ...takes];
}

// ---- Tables

function page(kind, all, noun) {
  const most = Math.max(0, Math.ceil(all.length / PAGE) - 1);
  pages[kind] = Math.min(pages[kind], most);
  const begin = pages[kind] * PAGE;
  const turn = (by) => () => {
    pages[kind] += by;
    show();
  };
  const last = Math.min(all.length, begin + PAGE);
  byId(`${kind}-pager`).replaceChildren(
    all.length > PAGE ? `${begin + 1} to ${last} of ${plural(all.length, noun)}` : plural(all.length, noun),
    ...(most ? [button("Before", turn(-1), { disabled: !pages[kind] }), button("Next", turn(1), { disabled: pages[kind] === most })] : []),
  );
  return all.slice(begin, last);
}

function tableOf(caption, heads, rows) {
  const head = element("tr", {}, heads.map((it) => element("th", { scope: "col" }, it)));
  return element("table", {}, element("caption", {}, caption), element("thead", {}, head), element("tbody", {}, rows));
}

function showRows() {
  const rows = page("rows", chosenRows(), "range");
  const levels = shown.group < 0 ? [] : data.groups[shown.group].levels;
  const cells = (row) => [
    element("td", { class: "mono" }, rangeButton(row.left, row.end)),
    element("td", { class: "nodes" }, namesOf(row.reads)),
    element("td", { class: "nodes" }, namesOf(row.pending)),
    ...row.needs.map((it) => element("td", {}, needSaid(it))),
    element("td", {}, row.flight ? movementSaid(row) : ""),
    element("td", {}, row.changed ? "changed" : ""),
  ];
  const kindOf = (row) => `${row.flight ? "moving" : ""} ${row.changed ? "changed" : ""}`;
  const made = rows.map((row) => element("tr", { class: kindOf(row) }, cells(row)));
  const heads = ["Range", "Read and written", "Written only", ...levels, "Movement", "Since the epoch before"];
  byId("rows-table").replaceChildren(tableOf(`${shown.names.join(", ")}, epoch ${shown.epoch.epoch}`, heads, made));
  byId("rows-shown").value = view.rows;
}

function showNodes() {
  const ids = Object.keys(state.nodes).map(Number).filter((id) => state.nodes[id] && isChosen(id));
  const made = page("nodes", ids, "node").map(nodeRow);
  const shares = shown.epoch.keyspaces.map(([, names]) => `Share of ${names.join(", ")}`);
  const heads = ["Id", "Node", "Datacenter", "Rack", "State", "Tokens", ...shares];
  byId("nodes-table").replaceChildren(tableOf(`Nodes at epoch ${shown.epoch.epoch}`, heads, made));
}

function nodeRow(id) {
  const { state: said, tokens } = state.nodes[id];
  const { dc, rack } = nodeOf.get(id);
  const isNew = shown.place > 0 && shown.epoch.nodes.some((it) => it[0] === id);
  const list = tokens.map((it) => data.tokens[it]).join(", ") || "-";
  const several = () => element("details", {}, element("summary", {}, plural(tokens.length, "token")), list);
  const shares = shown.epoch.keyspaces.map(([group]) => state.shares[group][id] || {});
  return element(
    "tr",
    { class: isNew ? "changed" : "" },
    element("td", { class: "number" }, `${id}`),
    ...[nameOf(id), dc, rack, said].map((it) => element("td", {}, it)),
    element("td", { class: "mono" }, tokens.length > 1 ? several() : list),
    ...shares.map(({ read, pending }) => element("td", { class: "number" }, (read || "-") + (pending ? ` + ${pending} pending` : ""))),
  );
}

// ---- The page

function show() {
  shown = look(view.place);
  showHead();
  showFilters();
  showFlights();
  showSteps();
  showPicture();
  showRows();
  showNodes();
  tellOf(view.token ? rowAt(endAt(view.token)) : undefined);
  keepAddress();
}

function goTo(place) {
  view.place = Math.max(0, Math.min(lastPlace, place));
  show();
}

function choose(changes) {
  Object.assign(view, changes);
  pages.rows = pages.nodes = 0;
  show();
}

function keepAddress() {
  const { place, ...filters } = view;
  const said = Object.entries(filters).filter(([key, value]) => value && !(key === "rows" && value === "all"));
  history.replaceState(null, "", `#${new URLSearchParams([["epoch", data.epochs[place].epoch], ...said])}`);
}

function readAddress() {
  const said = new URLSearchParams(location.hash.slice(1));
  const place = placeOf(Number(said.get("epoch") || data.last));
  view.place = place < 0 ? nowPlace : place;
  for (const key of FILTERS) view[key] = said.get(key) || "";
  view.rows = said.get("rows") || "all";
}

let playing = 0;

function play() {
  const isOn = !playing && view.place < lastPlace;
  clearInterval(playing);
  playing = isOn ? setInterval(() => (view.place < lastPlace ? goTo(view.place + 1) : play()), 1000) : 0;
  byId("play").textContent = isOn ? "Stop" : "Play";
}

function press(event) {
  if (event.altKey || event.ctrlKey || event.metaKey || event.target.matches("input, select, .wide")) return;
  const places = { ArrowLeft: view.place - 1, ArrowRight: view.place + 1, Home: 0, End: lastPlace };
  if (!(event.key in places)) return;
  event.preventDefault();
  goTo(places[event.key]);
}

function listen() {
  const form = byId("filters");
  const read = () => choose(Object.fromEntries(FILTERS.map((it) => [it, form.elements[it].value.trim()])));
  form.addEventListener("input", read);
  form.addEventListener("submit", (event) => event.preventDefault());
  form.addEventListener("reset", (event) => {
    event.preventDefault();
    choose({ dc: "", rack: "", node: "", token: "", rows: "all" });
  });
  byId("rows-shown").addEventListener("input", (event) => choose({ rows: event.target.value }));
  byId("epoch").addEventListener("input", (event) => goTo(Number(event.target.value)));
  byId("back").addEventListener("click", () => goTo(view.place - 1));
  byId("on").addEventListener("click", () => goTo(view.place + 1));
  byId("play").addEventListener("click", play);
  byId("bands").addEventListener("mousemove", (event) => tellOf(rowUnder(event) || rowAt(endAt(view.token))));
  byId("bands").addEventListener("click", (event) => {
    const row = rowUnder(event);
    if (row) choose({ token: data.tokens[row.end] });
  });
  document.addEventListener("keydown", press);
  window.addEventListener("hashchange", () => {
    readAddress();
    show();
  });
}

byId("epoch").max = lastPlace;
byId("names").append(...data.nodes.slice(0, 1024).map((it) => element("option", { value: it[1] })));
readAddress();
showTicks();
listen();
show();
