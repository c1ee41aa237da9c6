"use strict";
// The page of a stack. All that it does is asked of the server, which makes a line of the program of it. What is shown
// is what the server says after each act; nothing of the stack is computed here.

// ---- What the page knows ----------------------------------------------------------------------------------------

const page = {
  state: null,        // what the server said last
  start: 0,           // the first part that is shown
  entries: new Map(), // lines that were answered, by their place in the session
  drafts: new Map(),  // texts that were typed and not sent: key -> {text, base, title, card}
  most: 400,          // how many of them are kept here
  typed: [],          // the lines of the message box, for its history
  typedAt: 0,
  object: null,       // the object in the inspector, as the server told it
  script: null,       // the object in the script editor, with `base`, the script that was read
  remarks: [],
  working: false,     // an act of this page is at work
  gone: false,
  slow: 0,            // the timer after which a command is told to be at work
  lists: { cards: 0, backgrounds: 0 },
};
const MOST_OF_STACK = 64000000;
const byId = (name) => document.getElementById(name);

function element(name, properties = {}, ...children) {
  const made = document.createElement(name);
  for (const [key, value] of Object.entries(properties)) {
    if (key.includes("-") || key === "role" || key === "for") made.setAttribute(key, value);
    else made[key] = value;
  }
  made.append(...children);
  return made;
}

function button(text, run, properties = {}) {
  const made = element("button", { type: "button", textContent: text, ...properties });
  made.addEventListener("click", run);
  return made;
}

// A button that looks like a link.
function link(text, run, properties = {}) {
  return button(text, run, { className: "link", ...properties });
}

// Puts other children into an element. Whoever had the focus in it has it in what bears the same id.
function refill(holder, ...children) {
  const active = document.activeElement;
  const id = active && holder.contains(active) ? active.id : "";
  holder.replaceChildren(...children);
  if (id && byId(id)) byId(id).focus();
}

function plural(count, word) {
  return `${count.toLocaleString("en")} ${word}${count === 1 ? "" : "s"}`;
}

// ---- Asking the server ------------------------------------------------------------------------------------------

class Refused extends Error {
  constructor(status, answer) {
    super(answer.error || `the server answered ${status}`);
    this.answer = answer;
  }
}

async function asked(request) {
  let reply;
  try {
    reply = await request;
  } catch (error) {
    throw new Refused(0, { error: "the server can't be reached: it may have ended", gone: true });
  }
  const answer = await reply.json().catch(() => ({}));
  if (!reply.ok) throw new Refused(reply.status, answer);
  return answer;
}

function look(name, query = {}) {
  const words = new URLSearchParams(query).toString();
  return asked(fetch(words ? `${name}?${words}` : name, { cache: "no-store" }));
}

function post(name, body = {}) {
  return send(name, "application/json", JSON.stringify(body));
}

function send(name, type, body) {
  return asked(fetch(name, { method: "POST", headers: { "Content-Type": type }, body }));
}

// Acts are done one after the other. Each says which revision this page has seen. A body that is a function is made
// when its turn comes.
let lastAct = Promise.resolve();

function act(name, body = {}) {
  const done = lastAct.then(() => doAct(name, body));
  lastAct = done.catch(() => {});
  return done;
}

// An act whose failure was told, and needs nothing more here.
function tryAct(name, body) {
  return act(name, body).catch(() => null);
}

async function doAct(name, given) {
  const body = typeof given === "function" ? given() : given;
  setWorking(true);
  try {
    const answer = await post(name, { ...body, seen: page.state.revision });
    if (answer.done && answer.done.length) showAnswer(answer.done);
    if (answer.ended) ended();
    return answer;
  } catch (error) {
    if (!error.answer || (!error.answer.unsaved && !body.quietly)) notify(error.message);
    throw error;
  } finally {
    setWorking(false);
    await refresh();
  }
}

function setWorking(working) {
  page.working = working;
  showWork();
}

// A command that takes a while is told, and can be stopped.
function showWork() {
  const busy = page.working || Boolean(page.state && page.state.busy);
  byId("stop").disabled = !busy;
  document.body.setAttribute("aria-busy", String(busy));
  clearTimeout(page.slow);
  const tell = () => { byId("work").textContent = "A command is at work. Stop takes it back."; };
  if (busy) page.slow = setTimeout(tell, 400);
  else byId("work").textContent = "";
}

// ---- The state --------------------------------------------------------------------------------------------------

let refreshing = null;
let again = false;

// Reads the state anew. Calls that come meanwhile are one more reading.
function refresh() {
  if (refreshing) {
    again = true;
    return refreshing;
  }
  refreshing = readAll();
  return refreshing;
}

async function readAll() {
  try {
    do {
      again = false;
      await readState();
    } while (again);
  } finally {
    refreshing = null;
  }
}

async function readState() {
  const old = page.state;
  const seen = old || { lines: 0, noticed: 0, session: 0 };
  const query = { start: page.start, lines: seen.lines, notices: seen.noticed, session: seen.session };
  let state;
  try {
    state = await look("state", query);
  } catch (error) {
    if (error.answer && error.answer.gone) ended();
    else notify(error.message);
    return;
  }
  if (old && (state.session < old.session || (state.session === old.session && state.revision < old.revision))) return;
  if (!old || state.session !== old.session) {
    page.entries.clear();
    page.drafts.clear();
    page.script = null;
    page.object = null;
    page.lists = { cards: 0, backgrounds: 0 };
  }
  page.state = state;
  page.start = state.card.start;
  for (const entry of state.entries) page.entries.set(entry.at, entry);
  for (const words of state.notices) notify(words);
  render(!old || !sameStanding(state, old) || state.card.start !== old.card.start);
  if (state.ended) ended();
}

function sameStanding(one, other) {
  return one.session === other.session && one.revision === other.revision;
}

function render(changed) {
  showWork();
  if (changed) {
    renderStack();
    renderCard();
    renderHistory();
    refreshPanel();
  }
  renderLines();
}

// Waits for what other tabs do, while this one can be seen.
async function follow() {
  for (;;) {
    if (document.hidden) await new Promise((go) => document.addEventListener("visibilitychange", go, { once: true }));
    if (page.gone) return;
    try {
      const { session, revision, noticed, busy } = page.state;
      const news = await look("news", { session, revision, notices: noticed, busy: busy ? 1 : 0 });
      if (news.ended) ended();
      const now = page.state;
      const same = sameStanding(news, now) && news.noticed === now.noticed && news.busy === now.busy;
      if (!same && !page.working) await refresh();
      else if (!same) await new Promise((go) => setTimeout(go, 200));
    } catch (error) {
      if (error.answer && error.answer.gone) {
        ended();
        return;
      }
      await new Promise((go) => setTimeout(go, 2000));
    }
  }
}

function ended() {
  if (page.gone) return;
  page.gone = true;
  notify("The session has ended. Start ./play again to go on; texts that stand here unsent can still be copied.");
  document.body.classList.add("gone");
}

function notify(words) {
  const known = [...byId("notices").children].find((each) => each.firstChild.textContent === words);
  if (known) known.remove();
  const line = element("div", { className: "notice" }, element("span", { textContent: words }));
  line.append(button("Close", () => line.remove()));
  byId("notices").append(line);
}

// ---- The stack and its card -------------------------------------------------------------------------------------

function renderStack() {
  const { stack, card } = page.state;
  document.title = `${stack.name || "Stack"}: ${card.title}`;
  byId("stack-name").textContent = stack.name || "Stack without a name";
  const coding = stack.coding === "utf-8" ? "UTF-8" : "Mac Roman";
  byId("stack-state").textContent = stack.unsaved ? "changed, not saved" : "saved";
  const dropped = stack.dropped ? "Dropped into the page; Save downloads it too. " : "";
  const facts = `${plural(stack.objects, "object")}; texts are read as ${coding}.`;
  byId("stack-path").textContent = `${dropped}${stack.path}. ${facts}`;
  byId("save").textContent = stack.dropped ? "Save and download" : "Save";
}

function draftKey(part) {
  return `${page.state.card.id}:${part.id}`;
}

function renderCard() {
  const { card, stack } = page.state;
  byId("card-title").textContent = `${card.title}, ${card.number} of ${stack.cards.toLocaleString("en")}`;
  const { title, number } = card.background;
  byId("background-title").textContent = `Background: ${title}, ${number} of ${stack.backgrounds.toLocaleString("en")}`;
  byId("own-title").textContent = "Of this card alone";
  const showHidden = byId("hidden-parts").checked;
  const parts = card.parts.filter((part) => part.visible || showHidden);
  placeParts(byId("background-parts"), parts.filter((part) => part.background));
  placeParts(byId("card-parts"), parts.filter((part) => !part.background));
  byId("background-group").hidden = !parts.some((part) => part.background);
  byId("card-group").hidden = !parts.some((part) => !part.background);
  byId("no-parts").hidden = card.all > 0;
  byId("hidden-count").textContent = `(${card.hidden})`;
  byId("hidden-count").parentElement.hidden = card.hidden === 0;
  const end = card.start + card.parts.length;
  byId("window").hidden = card.parts.length === card.all;
  byId("parts-shown").textContent = `Parts ${card.start + 1} to ${end} of ${card.all.toLocaleString("en")}`;
  byId("parts-before").disabled = card.start === 0;
  byId("parts-after").disabled = end === card.all;
  renderDrafts();
}

// Makes the parts of a group those that are told, in their order. What stands already stays, and so does the focus.
function placeParts(group, parts) {
  const wanted = new Map(parts.map((part) => [`part-${part.id}`, part]));
  for (const old of [...group.children]) {
    const part = wanted.get(old.id);
    if (!part || old.dataset.kind !== part.kind) old.remove();
  }
  let at = group.firstElementChild;
  for (const [name, part] of wanted) {
    let made = byId(name);
    if (!made) made = part.kind === "field" ? newField(part) : newButton(part);
    if (made === at) at = at.nextElementSibling;
    else group.insertBefore(made, at);
    if (part.kind === "field") fillField(made, part);
    else fillButton(made, part);
  }
}

function newPart(part) {
  const made = element("div", { id: `part-${part.id}`, className: `part ${part.kind}` });
  made.dataset.kind = part.kind;
  return made;
}

function newButton(part) {
  const made = newPart(part);
  const press = button("", () => clickPart(part.id), { className: "press", id: `button-${part.id}` });
  made.append(press, moreButton(part));
  return made;
}

function moreButton(part) {
  return button("\u22ef", () => openObject(part.id), { className: "more", title: "Properties and script" });
}

function fillPart(made, part) {
  made.classList.toggle("of-background", part.background);
  made.classList.toggle("is-hidden", !part.visible);
  made.querySelector(".more").setAttribute("aria-label", `Properties of ${part.title}`);
}

function fillButton(made, part) {
  fillPart(made, part);
  const press = made.querySelector(".press");
  press.textContent = part.name || part.title;
  press.setAttribute("aria-pressed", String(part.hilite));
  press.title = part.title;
}

function newField(part) {
  const made = newPart(part);
  const field = element("textarea", { id: `field-${part.id}`, spellcheck: false });
  const label = element("label", { for: field.id });
  made.append(label, moreButton(part), field, element("p", { className: "problem", role: "alert" }));
  field.addEventListener("input", () => keepDraft(part.id));
  field.addEventListener("blur", () => { if (document.activeElement !== field) leaveField(part.id); });
  field.addEventListener("click", () => {
    if (field.readOnly && field.selectionStart === field.selectionEnd) clickPart(part.id);
  });
  field.addEventListener("keydown", (event) => {
    if (event.key === "Enter" && field.readOnly) {
      event.preventDefault();
      clickPart(part.id);
    } else if (event.key === "Escape" && !field.readOnly) {
      takeTheirs(part.id);
    }
  });
  return made;
}

function clickPart(id) {
  tryAct("click", { id });
}

function fillField(made, part) {
  fillPart(made, part);
  const [label, field] = [made.querySelector("label"), made.querySelector("textarea")];
  const notes = [`${part.background ? "bkgnd" : "card"} field ${part.number}`];
  if (part.locked) notes.push("locked");
  if (part.shared) notes.push("shared by all cards");
  label.replaceChildren(part.name || part.title, " ", element("small", { textContent: notes.join(", ") }));
  field.readOnly = part.locked;
  const draft = page.drafts.get(draftKey(part));
  const text = draft ? draft.text : part.text;
  if (field.value !== text) field.value = text;
  field.rows = Math.max(1, Math.min(12, text.split("\n").length));
  showConflict(made, part, draft);
}

function showConflict(made, part, draft) {
  const problem = made.querySelector(".problem");
  if (!draft || (draft.base === part.text && !draft.problem)) {
    problem.replaceChildren();
  } else if (draft.base !== part.text) {
    problem.replaceChildren("The text was changed meanwhile; yours isn't sent. ",
      button("Send mine", () => sendMine(part.id)), " ", button("Take the other", () => takeTheirs(part.id)));
  } else {
    problem.replaceChildren(`${draft.problem} Your text isn't sent. `, button("Give it up", () => takeTheirs(part.id)));
  }
}

function partOf(id) {
  return page.state.card.parts.find((part) => part.id === id);
}

function keepDraft(id) {
  const part = partOf(id);
  if (!part) return;
  const text = byId(`field-${id}`).value;
  const key = draftKey(part);
  const old = page.drafts.get(key);
  const base = old ? old.base : part.text;
  if (text === base && base === part.text) page.drafts.delete(key);
  else page.drafts.set(key, { text, base, title: part.title, card: page.state.card.title, cardId: page.state.card.id });
}

function leaveField(id) {
  const part = partOf(id);
  if (!part || !byId(`field-${id}`)) return;
  const draft = page.drafts.get(draftKey(part));
  if (draft && draft.base === part.text) sendDraft(part, draft);
}

function sendDraft(part, draft) {
  const key = draftKey(part);
  act("type", { id: part.id, text: draft.text, was: draft.base, quietly: true }).then((answer) => {
    const refused = answer.done.find((entry) => entry.verdict.startsWith("refused"));
    if (refused) draft.problem = `${refused.verdict}. `;
    else if (page.drafts.get(key) === draft) page.drafts.delete(key);
    renderCard();
  }).catch((error) => {
    draft.problem = `${error.message}. `;
    renderCard();
  });
}

function sendMine(id) {
  const part = partOf(id);
  const draft = page.drafts.get(draftKey(part));
  draft.base = part.text;
  sendDraft(part, draft);
}

function takeTheirs(id) {
  const part = partOf(id);
  page.drafts.delete(draftKey(part));
  renderCard();
}

// Texts that were typed on other cards and not sent.
function renderDrafts() {
  const lines = [];
  for (const draft of page.drafts.values()) {
    if (draft.cardId === page.state.card.id) continue;
    lines.push(element("p", {}, `A text for ${draft.title} of ${draft.card} isn't sent. `,
      button("Go there", () => tryAct("go", { id: draft.cardId }))));
  }
  byId("drafts").replaceChildren(...lines);
}

// ---- The message box --------------------------------------------------------------------------------------------

function sendLine() {
  const box = byId("line");
  const line = box.value;
  if (!line.trim()) return;
  if (page.typed[page.typed.length - 1] !== line) page.typed.push(line);
  page.typedAt = page.typed.length;
  box.value = "";
  fitLine();
  say(line, false).catch(() => {
    if (!box.value) box.value = line;
    fitLine();
  });
}

async function say(line, unsaved) {
  try {
    return await act("line", { line, unsaved });
  } catch (error) {
    if (error.answer && error.answer.unsaved && confirm("There are changes that aren't saved. End without them?")) {
      return act("line", { line, unsaved: true });
    }
    throw error;
  }
}

function fitLine() {
  const box = byId("line");
  box.rows = Math.min(10, box.value.split("\n").length);
}

function keysOfLine(event) {
  const box = byId("line");
  if (event.key === "Enter" && !event.shiftKey && !event.isComposing) {
    event.preventDefault();
    sendLine();
  } else if (event.key === "ArrowUp" && !box.value.slice(0, box.selectionStart).includes("\n")) {
    recall(event, -1);
  } else if (event.key === "ArrowDown" && !box.value.slice(box.selectionEnd).includes("\n")) {
    recall(event, 1);
  }
}

function recall(event, step) {
  const at = page.typedAt + step;
  if (at < 0 || at > page.typed.length) return;
  event.preventDefault();
  page.typedAt = at;
  byId("line").value = page.typed[at] || "";
  fitLine();
}

function showAnswer(done) {
  const last = [];
  for (const entry of done) {
    if (entry.texts.length) last.push(element("pre", { textContent: entry.texts.join("\n") }));
    if (entry.more) last.push(element("p", { className: "quiet", textContent: "The whole answer stands in Lines." }));
    const explained = explanation(entry);
    const isLast = entry === done[done.length - 1];
    if (!explained.length && (entry.verdict !== "ok" || (isLast && !entry.texts.length))) last.push(ending(entry));
    last.push(...explained);
  }
  byId("answer").replaceChildren(...last);
}

function ending(entry) {
  return element("p", { className: entry.verdict === "ok" ? "ending" : "ending bad", textContent: entry.verdict });
}

// What explains a fault: each place of a script is a link to its line.
function explanation(entry) {
  const lines = [...entry.told.map((text) => ({ text })), ...entry.explained];
  if (!lines.length) return [];
  const made = element("pre", { className: "explained" });
  for (const line of lines) {
    const text = line.text.trimStart();
    made.append(line.text.slice(0, line.text.length - text.length));
    const open = () => openScript(line.id, line.line, line.column);
    made.append(line.id === undefined ? text : link(text, open), "\n");
  }
  return [made];
}

// ---- The history ------------------------------------------------------------------------------------------------

const labels = new Map(); // the lines that made places, as far as they were read

function renderHistory() {
  const { history } = page.state;
  const slider = byId("slider");
  labels.clear();
  if (history.undo !== null) labels.set(history.cursor, history.undo);
  if (history.redo !== null) labels.set(history.cursor + 1, history.redo);
  slider.max = history.last;
  slider.value = history.cursor;
  slider.disabled = history.last === 0;
  byId("undo").disabled = history.cursor === 0;
  byId("redo").disabled = history.cursor === history.last;
  byId("undo").title = history.undo === null ? "Nothing to undo" : `Take back: ${history.undo}`;
  byId("redo").title = history.redo === null ? "Nothing to redo" : `Do again: ${history.redo}`;
  showPlace(history.cursor);
}

function firstPlace() {
  return page.state.history.dropped ? "the oldest state that is kept" : "the stack as it was opened";
}

function showPlace(place) {
  const line = place === 0 ? firstPlace() : labels.get(place);
  const words = `Place ${place} of ${page.state.history.last}: ${line === undefined ? ".." : line}`;
  byId("place").textContent = words;
  byId("slider").setAttribute("aria-valuetext", words);
}

async function previewPlace() {
  const place = Number(byId("slider").value);
  showPlace(place);
  if (place === 0 || labels.has(place)) return;
  const found = await look("places", { around: place }).catch(() => null);
  if (!found) return;
  for (const row of found.rows) if (row.line !== null) labels.set(row.place, row.line);
  showPlace(Number(byId("slider").value));
}

function goToPlace(place) {
  if (place !== page.state.history.cursor) tryAct("place", { place }).then(() => renderHistory());
}

// The place so many steps from here, or the nearest one.
function placeBy(steps) {
  const { cursor, last } = page.state.history;
  return { place: Math.max(0, Math.min(last, cursor + steps)) };
}

async function renderPlaces() {
  const found = await latest("places", look("places", { around: page.state.history.cursor }));
  if (!found) return;
  const rows = found.rows.map((row) => {
    const name = row.place === 0 ? firstPlace() : row.line || "an empty line";
    const bad = row.ending === "ok" ? "" : `  (${row.ending})`;
    const made = link(`${row.place}  ${name}${bad}`, () => goToPlace(row.place), { id: `place-${row.place}` });
    if (row.place === found.cursor) made.setAttribute("aria-current", "true");
    return element("li", {}, made);
  });
  refill(byId("places"), ...rows.reverse());
  byId("diff-from").max = byId("diff-to").max = found.last;
  byId("diff-from").value = Math.max(0, found.cursor - 1);
  byId("diff-to").value = found.cursor;
  byId("diff").replaceChildren();
}

async function showDiff() {
  const body = { from: Number(byId("diff-from").value), to: Number(byId("diff-to").value) };
  const found = await tryAct("diff", body);
  if (!found) return;
  const made = found.changes.map((change) => {
    const text = element("pre");
    for (const [sign, line] of change.lines) {
      const kind = sign === "-" ? "minus" : sign === "+" ? "plus" : "same";
      text.append(element("div", { className: kind, textContent: `${sign} ${line}` }));
    }
    return element("div", { className: "change" }, element("h4", { textContent: change.where }), text);
  });
  if (!made.length) made.push(element("p", { textContent: "The stack's text is the same at both places." }));
  if (found.cut) made.push(element("p", { className: "quiet", textContent: "More differs than is shown here." }));
  byId("diff").replaceChildren(...made);
}

// ---- The panels -------------------------------------------------------------------------------------------------

const panels = ["stack", "object", "script", "lines", "history", "values"];
let panel = "stack";

function choosePanel(name, focus) {
  panel = name;
  for (const each of panels) {
    const chosen = each === name;
    byId(`tab-${each}`).setAttribute("aria-selected", String(chosen));
    byId(`tab-${each}`).tabIndex = chosen ? 0 : -1;
    byId(`panel-${each}`).hidden = !chosen;
  }
  if (focus) byId(`tab-${name}`).focus();
  refreshPanel();
}

function keysOfTabs(event) {
  const step = { ArrowRight: 1, ArrowLeft: -1, Home: -panels.length, End: panels.length }[event.key];
  if (step === undefined) return;
  event.preventDefault();
  const at = panels.indexOf(panel) + step;
  const around = (at + panels.length) % panels.length;
  const within = Math.max(0, Math.min(panels.length - 1, at));
  choosePanel(panels[Math.abs(step) === 1 ? around : within], true);
}

function refreshPanel() {
  if (!page.state) return;
  if (panel === "stack") {
    renderList("cards");
    renderList("backgrounds");
  } else if (panel === "object") {
    renderObject();
  } else if (panel === "script") {
    followScript();
  } else if (panel === "lines") {
    scrollLines();
  } else if (panel === "history") {
    renderPlaces();
  } else if (panel === "values") {
    renderValues();
  }
}

// What is answered, unless the same was asked again meanwhile, or it failed: then nothing.
const turns = new Map();

async function latest(name, asked) {
  const turn = (turns.get(name) || 0) + 1;
  turns.set(name, turn);
  const found = await asked.catch(() => null);
  return turns.get(name) === turn ? found : null;
}

async function renderList(name) {
  const find = name === "cards" ? byId("find").value : "";
  const found = await latest(name, look(name, { start: page.lists[name], find }));
  if (!found) return;
  if (found.start >= found.all && found.start > 0) {
    page.lists[name] = 0;
    renderList(name);
    return;
  }
  const rows = found.rows.map((row) => {
    const title = row.name ? `${row.number}  ${row.name}` : `${row.number}  id ${row.id}`;
    const go = link(title, () => tryAct("go", { id: row.id }), { id: `go-${row.id}` });
    if (row.here) go.setAttribute("aria-current", "true");
    const names = { id: `more-${row.id}`, "aria-label": `Properties of ${title}` };
    const more = link("\u22ef", () => openObject(row.id), names);
    return element("li", {}, go, row.here ? " (current) " : " ", more);
  });
  refill(byId(name), ...rows);
  const end = found.start + found.rows.length;
  const all = found.all.toLocaleString("en");
  byId(`${name}-shown`).textContent = found.all ? `${found.start + 1} to ${end} of ${all}` : "none";
  byId(`${name}-before`).disabled = found.start === 0;
  byId(`${name}-after`).disabled = end >= found.all;
  byId(`${name}-before`).parentElement.hidden = found.all <= found.window;
}

function moveList(name, step) {
  page.lists[name] = Math.max(0, page.lists[name] + step * 100);
  renderList(name);
}

// ---- The inspector ----------------------------------------------------------------------------------------------

function openObject(id) {
  page.object = { id };
  choosePanel("object", true);
}

function fillChoice() {
  const { card, stack } = page.state;
  const known = [[0, `stack "${stack.name}"`], [card.background.id, card.background.title], [card.id, card.title]];
  for (const part of card.parts) known.push([part.id, part.title]);
  const id = page.object ? page.object.id : card.id;
  if (page.object && page.object.title && !known.some(([each]) => each === id)) known.push([id, page.object.title]);
  const option = ([value, text]) => element("option", { value, textContent: text, selected: value === id });
  byId("choice").replaceChildren(...known.map(option));
}

async function renderObject() {
  if (!page.object) page.object = { id: page.state.card.id };
  const id = page.object.id;
  const found = await latest("object", look("object", { id }).catch(() => ({ gone: true })));
  if (!found || !page.object || page.object.id !== id) return;
  if (found.gone) {
    page.object = null;
    byId("object").replaceChildren(element("p", { textContent: `There is no object with the id ${id} any more.` }));
    fillChoice();
    return;
  }
  const typing = document.activeElement && document.activeElement.id === "object-name";
  page.object = found;
  fillChoice();
  if (typing) return;
  refill(byId("object"), propertiesOf(found), scriptLine(found));
}

function propertiesOf(found) {
  const rows = element("div", { className: "properties" });
  const name = element("input", { type: "text", id: "object-name", value: found.name });
  name.addEventListener("change", () => setProperty(found, "name", name.value));
  rows.append(element("label", { for: "object-name", textContent: "name" }), name);
  const row = (label, shown) => rows.append(element("span", { textContent: label }), shown);
  row("kind", found.kind);
  if (found.kind !== "stack") {
    row("id", element("span", { textContent: found.id }));
    row("number", element("span", { textContent: found.number }));
  }
  if (found.owner) row("on", link(found.owner.title, () => openObject(found.owner.id)));
  for (const [flag, value] of Object.entries(found.flags)) {
    const box = element("input", { type: "checkbox", id: `object-${flag}`, checked: value });
    box.disabled = flag === "hilite" && !found.here;
    box.addEventListener("change", () => setProperty(found, flag, box.checked));
    rows.append(element("label", { for: box.id, textContent: flag }), element("span", {}, box));
  }
  return rows;
}

function scriptLine(found) {
  const lines = found.script ? found.script.split("\n").length : 0;
  const row = element("p", { className: "bar" });
  row.append(button(`Script (${plural(lines, "line")})`, () => openScript(found.id), { id: "edit-script" }));
  const isPart = found.kind.includes(" ");
  if (isPart && found.here) {
    const names = { id: "click-object", "aria-label": `Click ${found.title}` };
    row.append(button("Click", () => clickPart(found.id), names));
  }
  if (found.kind === "card" || found.kind === "background") {
    row.append(button("Go there", () => tryAct("go", { id: found.id }), { id: "go-to-object" }));
  }
  return row;
}

function setProperty(found, property, value) {
  tryAct("set", { id: found.id, property, value }).then(() => renderObject());
}

// ---- The script editor ------------------------------------------------------------------------------------------

async function openScript(id, line, column) {
  if (!page.script || page.script.id !== id) {
    if (scriptIsChanged() && !confirm("The script in the editor isn't set. Leave it?")) return;
    const found = await look("object", { id }).catch((error) => notify(error.message));
    if (!found) return;
    takeScript(found);
  }
  choosePanel("script", false);
  if (line) selectPlace(line, column);
  byId("script").focus();
}

function takeScript(found) {
  page.script = { ...found, base: found.script };
  page.remarks = [];
  byId("script").value = found.script;
  byId("script").setSelectionRange(0, 0);
  byId("editor").hidden = false;
  byId("script").scrollTop = 0;
  byId("remarks").replaceChildren();
  showScript();
}

function scriptIsChanged() {
  return Boolean(page.script) && byId("script").value !== page.script.base;
}

function showScript() {
  byId("editor").hidden = !page.script;
  if (!page.script) {
    byId("script-title").textContent = "Choose an object first";
    return;
  }
  const changed = scriptIsChanged() ? ", not set yet" : "";
  const id = page.script.id ? ` (id ${page.script.id})` : "";
  byId("script-title").textContent = `Script of ${page.script.title}${id}${changed}`;
  const count = byId("script").value.split("\n").length;
  const wrong = new Set(page.remarks.filter((each) => each.column !== null).map((each) => each.line));
  const numbers = [];
  for (let line = 1; line <= count; line += 1) {
    numbers.push(wrong.has(line) ? element("b", { textContent: line }) : String(line), "\n");
  }
  byId("numbers").replaceChildren(...numbers);
  byId("numbers").scrollTop = byId("script").scrollTop;
  showScriptPlace();
}

function showScriptPlace() {
  const box = byId("script");
  const before = box.value.slice(0, box.selectionStart).split("\n");
  byId("script-place").textContent = `line ${before.length}, column ${before[before.length - 1].length + 1}`;
}

// After a change of the stack: a script that isn't being edited is read anew.
async function followScript() {
  showScript();
  if (!page.script) return;
  const found = await look("object", { id: page.script.id }).catch(() => null);
  if (!page.script || (found && found.id !== page.script.id)) return;
  if (!found) {
    const words = "This object is gone; its script stands here unset.";
    byId("remarks").replaceChildren(element("p", { className: "problem", textContent: words }));
  } else if (!scriptIsChanged() && found.script !== page.script.base) {
    takeScript(found);
  } else if (found.title !== page.script.title) {
    page.script.title = found.title;
    showScript();
  }
}

// Selects a line, or what stands at its column, which counts bytes.
function selectPlace(line, column) {
  const box = byId("script");
  const lines = box.value.split("\n");
  const at = Math.max(1, Math.min(line, lines.length));
  const start = lines.slice(0, at - 1).reduce((sum, each) => sum + each.length + 1, 0);
  const text = lines[at - 1];
  const inside = column ? Math.min(charactersOf(text, column - 1), text.length) : 0;
  box.focus();
  const length = column ? Math.min(inside + 1, text.length) : text.length;
  box.setSelectionRange(start + inside, start + length);
  const height = box.scrollHeight / Math.max(1, lines.length);
  box.scrollTop = Math.max(0, (at - 5) * height);
  byId("numbers").scrollTop = box.scrollTop;
  showScriptPlace();
}

function charactersOf(text, bytes) {
  if (page.state.stack.coding !== "utf-8") return bytes;
  let [count, used] = [0, 0];
  for (const character of text) {
    if (used >= bytes) break;
    used += new TextEncoder().encode(character).length;
    count += character.length;
  }
  return count;
}

async function checkScript() {
  const body = { id: page.script.id, text: byId("script").value };
  const failed = (error) => ({ checked: false, why: error.message, remarks: [] });
  const found = await post("check", body).catch(failed);
  page.remarks = found.remarks;
  const rows = found.remarks.map((each) => {
    const place = each.column === null ? `line ${each.line}` : `line ${each.line}, column ${each.column}`;
    const row = element("div", {}, link(`${place}: ${each.words}`, () => selectPlace(each.line, each.column)));
    if (each.shown.length) row.append(element("pre", { textContent: each.shown.join("\n") }));
    return row;
  });
  if (!found.checked) {
    rows.push(element("p", { className: "problem", textContent: `The script wasn't checked: ${found.why}` }));
  } else if (!rows.length) {
    rows.push(element("p", { textContent: "The script is in the grammar." }));
  }
  byId("remarks").replaceChildren(...rows);
  showScript();
  return found;
}

async function setScript() {
  const { id, base } = page.script;
  const text = byId("script").value;
  const answer = await tryAct("script", { id, text, was: base });
  if (!answer || !answer.ok) return;
  if (!page.script || page.script.id !== id) return;
  page.script.base = text;
  showScript();
  await checkScript();
}

async function reloadScript() {
  if (scriptIsChanged() && !confirm("Give up what was typed here, and read the script again?")) return;
  const found = await look("object", { id: page.script.id }).catch((error) => notify(error.message));
  if (found) takeScript(found);
}

// ---- The transcript ---------------------------------------------------------------------------------------------

const drawn = new Map(); // the entries that stand on the page, by their place in the session
let atEnd = true;        // whether the end of the lines was seen last

function renderLines() {
  const list = byId("lines");
  const looks = byId("looks").checked;
  const places = [...page.entries.keys()].sort((a, b) => a - b);
  for (const at of places.splice(0, Math.max(0, places.length - page.most))) page.entries.delete(at);
  for (const [at, made] of [...drawn]) {
    if (page.entries.get(at) !== made.entry || (made.entry.own && !looks)) {
      made.row.remove();
      drawn.delete(at);
    }
  }
  let next = null;
  for (const at of places.reverse()) {
    const entry = page.entries.get(at);
    if (entry.own && !looks) continue;
    if (!drawn.has(at)) {
      const row = entryRow(entry);
      drawn.set(at, { entry, row });
      list.insertBefore(row, next);
    }
    next = drawn.get(at).row;
  }
  const first = places.length ? places[places.length - 1] : 0;
  byId("earlier").hidden = first === 0;
  scrollLines();
}

// Whoever was at the end of the lines stays there.
function scrollLines() {
  const panel = byId("panel-lines");
  if (atEnd) panel.scrollTop = panel.scrollHeight;
}

function entryRow(entry) {
  const row = element("li", { className: entry.own ? "entry own" : "entry" });
  row.append(element("span", { className: "number", textContent: entry.own ? "look" : entry.number }));
  row.append(element("pre", { textContent: entry.line || " " }));
  const shown = entry.shown.map((text) => `> ${text}`).join("\n");
  if (shown) row.append(element("pre", { textContent: shown }));
  if (entry.more) row.append(link("The whole answer", () => wholeAnswer(entry, row)));
  row.append(ending(entry), ...explanation(entry));
  if (entry.messages.length) row.append(messagesOf(entry));
  return row;
}

async function wholeAnswer(entry, row) {
  const found = await look("answer", { at: entry.at }).catch((error) => notify(error.message));
  if (found) row.querySelectorAll("pre")[1].textContent = found.text;
}

// The messages that were sent, each with a link to the script of its object.
function messagesOf(entry) {
  const list = element("ol");
  for (const message of entry.messages) {
    list.append(element("li", {}, `${message.name} to `, link(message.title, () => openScript(message.id))));
  }
  if (entry.moreMessages) list.append(element("li", { textContent: `and ${plural(entry.moreMessages, "more")}` }));
  const count = entry.messages.length + entry.moreMessages;
  return element("details", {}, element("summary", { textContent: plural(count, "message") }), list);
}

async function earlierLines() {
  const first = Math.min(...page.entries.keys());
  const found = await look("transcript", { before: first }).catch((error) => notify(error.message));
  if (!found) return;
  for (const entry of found.entries) page.entries.set(entry.at, entry);
  page.most += found.entries.length;
  atEnd = false;
  renderLines();
}

async function copyLines() {
  const reply = await fetch("session", { cache: "no-store" });
  const bytes = await reply.arrayBuffer();
  const text = new TextDecoder(page.state.stack.coding === "utf-8" ? "utf-8" : "macintosh").decode(bytes);
  try {
    await navigator.clipboard.writeText(text);
    byId("copy").textContent = "Copied";
    setTimeout(() => { byId("copy").textContent = "Copy"; }, 2000);
  } catch (error) {
    notify("The browser doesn't let the page copy.");
  }
}

// ---- Globals and cells ------------------------------------------------------------------------------------------

async function renderValues() {
  let globals, cells;
  try {
    [globals, cells] = [await post("globals"), await post("cells")];
    refresh();
  } catch (error) {
    notify(error.message);
    return;
  }
  const data = (value) => element("dd", { textContent: value || "\u00a0" });
  const pair = (name, value) => [element("dt", { textContent: name }), data(value)];
  const rows = globals.rows.flatMap((row) => pair(row.name, row.value));
  byId("globals").replaceChildren(...(rows.length ? rows : [element("dd", { textContent: "There are none." })]));
  const cellsOf = (row) => row.cells.flatMap((cell, at) => pair(`${row.name} ${at}`, cell));
  byId("cells").replaceChildren(...cells.rows.flatMap(cellsOf));
}

// ---- Opening, saving --------------------------------------------------------------------------------------------

// Opens a file once the acts before it are done.
function openFile(file) {
  if (file) lastAct = lastAct.then(() => openNow(file)).catch((error) => notify(error.message));
}

async function openNow(file) {
  if (file.size > MOST_OF_STACK) {
    notify(`${file.name} has ${file.size} bytes, and ${MOST_OF_STACK} are the most here.`);
    return;
  }
  const text = await file.arrayBuffer();
  const open = (unsaved) => {
    const query = new URLSearchParams({ name: file.name, seen: page.state.revision, unsaved });
    return send(`open?${query}`, "application/octet-stream", text);
  };
  try {
    await open("").catch((error) => {
      const asks = error.answer && error.answer.unsaved;
      if (!asks || !confirm("There are changes that aren't saved. Open the other stack without them?")) throw error;
      return open("drop");
    });
    page.start = 0;
  } catch (error) {
    notify(`${file.name}: ${error.message}`);
  }
  await refresh();
}

function watchDrops() {
  let depth = 0;
  const show = (change) => { depth = Math.max(0, depth + change); byId("drop").hidden = depth === 0; };
  document.addEventListener("dragenter", (event) => { event.preventDefault(); show(1); });
  document.addEventListener("dragleave", () => show(-1));
  document.addEventListener("dragover", (event) => event.preventDefault());
  document.addEventListener("drop", (event) => {
    event.preventDefault();
    depth = 0;
    show(0);
    openFile(event.dataTransfer.files[0]);
  });
}

async function save() {
  const answer = await tryAct("line", { line: ".save" });
  if (answer && answer.ok && page.state.stack.dropped) byId("download").click();
}

// ---- The beginning ----------------------------------------------------------------------------------------------

function on(name, event, run) {
  byId(name).addEventListener(event, run);
}

function watchMessageBox() {
  on("say", "submit", (event) => { event.preventDefault(); sendLine(); });
  on("line", "keydown", keysOfLine);
  on("line", "input", fitLine);
  on("stop", "click", () => post("stop").catch((error) => notify(error.message)));
}

function watchStack() {
  on("undo", "click", () => tryAct("place", () => placeBy(-1)));
  on("redo", "click", () => tryAct("place", () => placeBy(1)));
  on("save", "click", save);
  on("open", "click", () => byId("file").click());
  on("file", "change", () => { openFile(byId("file").files[0]); byId("file").value = ""; });
  on("slider", "input", previewPlace);
  on("slider", "change", () => goToPlace(Number(byId("slider").value)));
  for (const each of document.querySelectorAll("[data-way]")) {
    each.addEventListener("click", () => tryAct("go", { way: each.dataset.way }));
  }
  for (const each of document.querySelectorAll("[data-item]")) {
    const { item } = each.dataset;
    each.addEventListener("click", () => tryAct("menu", { item, background: byId("on-background").checked }));
  }
  on("open-stack", "click", () => tryAct("line", { line: ".open" }));
  on("hidden-parts", "change", renderCard);
  on("parts-before", "click", () => { page.start = Math.max(0, page.start - 200); refresh(); });
  on("parts-after", "click", () => { page.start = page.state.card.start + page.state.card.parts.length; refresh(); });
}

function watchPanels() {
  for (const each of panels) on(`tab-${each}`, "click", () => choosePanel(each, false));
  on("tabs", "keydown", keysOfTabs);
  on("find", "input", () => { page.lists.cards = 0; renderList("cards"); });
  for (const name of ["cards", "backgrounds"]) {
    on(`${name}-before`, "click", () => moveList(name, -1));
    on(`${name}-after`, "click", () => moveList(name, 1));
  }
  on("choice", "change", () => { page.object = { id: Number(byId("choice").value) }; renderObject(); });
  on("script", "input", showScript);
  on("script", "keydown", (event) => {
    if (event.key === "Enter" && (event.ctrlKey || event.metaKey)) setScript();
  });
  on("script", "scroll", () => { byId("numbers").scrollTop = byId("script").scrollTop; });
  for (const event of ["keyup", "click"]) on("script", event, showScriptPlace);
  on("set-script", "click", setScript);
  on("check-script", "click", checkScript);
  on("reload-script", "click", reloadScript);
  on("looks", "change", renderLines);
  on("panel-lines", "scroll", () => {
    const seen = byId("panel-lines");
    atEnd = seen.scrollTop + seen.clientHeight >= seen.scrollHeight - 30;
  });
  on("earlier", "click", earlierLines);
  on("copy", "click", copyLines);
  on("compare", "submit", (event) => { event.preventDefault(); showDiff(); });
  on("values", "click", renderValues);
}

window.addEventListener("beforeunload", (event) => {
  if (page.drafts.size || scriptIsChanged()) event.preventDefault();
});

async function begin() {
  watchMessageBox();
  watchStack();
  watchPanels();
  watchDrops();
  await refresh();
  if (page.state) follow();
}

begin();
