// One line drawn: its texts, the sections, what it changed, and the lines around it.

// How many lines of the script are shown before and after the line.
const linesAround = 6;
// From so many rows on a section may show them side by side.
const manyRows = 12;

function byId(id) {
  return document.getElementById(id);
}

// An element with a class and children, which are elements or texts.
function make(tag, className, ...children) {
  const element = document.createElement(tag);
  if (className) element.className = className;
  element.append(...children);
  return element;
}

// Draws a line, counted from 1.
function draw(number) {
  const [form, reply, kind, meaning] = data.lines[number - 1];
  const before = stateAfter(number - 1);
  const after = stateFollowing(before, number);
  byId("line-title").textContent = `Line ${number}`;
  byId("form").textContent = form;
  byId("reply").textContent = reply;
  byId("line").className = kind;
  byId("meaning").textContent = meaning;
  const isNew = kind === "formatted";
  byId("changes").replaceChildren(...drawnChanges(before, after, isNew));
  byId("near").replaceChildren(...drawnLines(number));
  byId("sections").replaceChildren(
    ...data.titles.map((title, section) => drawnSection(title, isNew ? after[section] : before[section], after[section])),
  );
  drawArrows();
}

function drawnChanges(before, after, isNew) {
  if (isNew) return [make("li", "", "everything: a new file")];
  const changes = changesBetween(before, after);
  if (changes.length === 0) return [make("li", "none", "nothing")];
  return changes.map((change) =>
    make("li", "", make("span", "where", change.where), ": ", make("del", "", change.before), " → ", make("ins", "", change.after)),
  );
}

// The lines around one, as links.
function drawnLines(number) {
  const first = Math.max(1, Math.min(number - linesAround, lineCount - 2 * linesAround));
  const last = Math.min(lineCount, first + 2 * linesAround);
  const items = [];
  for (let line = first; line <= last; line++) {
    const [form, reply, kind] = data.lines[line - 1];
    const link = make("a", kind, make("span", "number", `${line}`), " ", make("code", "", form), " ", make("code", "reply", reply));
    link.href = `#line=${line}`;
    if (line === number) link.setAttribute("aria-current", "true");
    items.push(make("li", "", link));
  }
  return items;
}

// A name as a class: "waits for" is waits-for, "page 9" is page.
function classOf(name) {
  return name.toLowerCase().replace(/ lock$/, "").replace(/s? \d+.*$/, "").replace(/ /g, "-");
}

function drawnSection(title, before, after) {
  const id = classOf(title);
  const places = Object.keys(after);
  const rows = places.map((place) => drawnRow(place, before[place], after[place]));
  const heading = make("h2", "", title);
  heading.id = `${id}-title`;
  const list = make("div", "rows", ...(rows.length > 0 ? rows : [make("p", "none", "none")]));
  list.classList.toggle("many", rows.length >= manyRows);
  list.setAttribute("role", "list");
  const section = make("section", id, heading, list);
  section.setAttribute("aria-labelledby", heading.id);
  return section;
}

function drawnRow(place, oldNumbers, numbers) {
  const [old, now] = [rowOf(oldNumbers), rowOf(numbers)];
  const cells = now.cells.map((cell) => drawnCell(cell, old.cells.find((other) => other.name === cell.name)));
  const row = make("div", "row", make("span", "title", now.title), ...cells);
  row.setAttribute("role", "listitem");
  row.dataset.place = place;
  row.style.setProperty("--party", place);
  if (oldNumbers !== numbers) row.classList.add("changed");
  return row;
}

// The setting at an item's end stands back behind its key; an item without one is drawn as it is.
function drawnParts(item) {
  const [, key, setting] = /^(.*\d)(=\d+)$/.exec(item) || [];
  return setting ? [key, make("span", "setting", setting)] : [item];
}

// A cell; it is marked where it is new or has other items, and so are its items that are new.
function drawnCell(cell, old) {
  const items = cell.items.map((item) => {
    const drawn = make("span", old && old.items.includes(item) ? "item" : "item new", ...drawnParts(item));
    drawn.style.setProperty("--party", /\d*$/.exec(item)[0]);
    drawn.classList.toggle("empty", item === "empty" || item === "idle");
    return drawn;
  });
  const drawn = make("span", `cell ${classOf(cell.name)}`, make("span", "name", cell.name), ...items);
  if (valueOf(old) !== valueOf(cell)) drawn.classList.add("changed");
  return drawn;
}
