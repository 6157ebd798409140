// Moving along the lines: slider, buttons, keys, the number, and the fragment of the address (#line=N).

let current = 0;
let fragmentTimer = 0;

// Goes to a line; beyond the first or last, to that.
function goTo(number) {
  const line = Math.min(Math.max(Math.round(number) || 1, 1), lineCount);
  if (line === current) return;
  current = line;
  draw(line);
  byId("slider").value = byId("number").value = line;
  const [form, reply] = data.lines[line - 1];
  byId("slider").setAttribute("aria-valuetext", `line ${line}: ${form}, ${reply}`);
  byId("first").disabled = byId("back").disabled = line === 1;
  byId("last").disabled = byId("on").disabled = line === lineCount;
  clearTimeout(fragmentTimer);
  fragmentTimer = setTimeout(() => history.replaceState(null, "", `#line=${line}`), 200);
}

// The nearest line in a direction whose reply is not just "moved"; where there is none, the line itself.
function notable(direction) {
  let line = current + direction;
  while (line >= 1 && line <= lineCount && data.lines[line - 1][2] === "moved") line += direction;
  return line >= 1 && line <= lineCount ? line : current;
}

const keys = {
  ArrowLeft: () => current - 1,
  ArrowRight: () => current + 1,
  ArrowUp: () => current - 1,
  ArrowDown: () => current + 1,
  PageUp: () => current - 10,
  PageDown: () => current + 10,
  Home: () => 1,
  End: () => lineCount,
  p: () => notable(-1),
  n: () => notable(1),
};

// Up and down scroll the page, unless the slider has the focus.
function onKey(event) {
  const key = event.key.length === 1 ? event.key.toLowerCase() : event.key;
  const scrolls = /^Arrow(Up|Down)$/.test(key) && event.target.id !== "slider";
  if (!(key in keys) || scrolls || event.target.id === "number") return;
  if (event.ctrlKey || event.metaKey || event.altKey) return;
  event.preventDefault();
  goTo(keys[key]());
}

// The line that the address names.
function lineOfAddress() {
  const named = /^#line=(\d+)$/.exec(location.hash);
  return named ? Number(named[1]) : 1;
}

function start() {
  document.title = `${data.script}, line by line`;
  byId("script").textContent = data.script;
  byId("count").textContent = lineCount;
  if (lineCount === 0) {
    byId("meaning").textContent = "The script has no lines.";
    document.querySelectorAll("button, input").forEach((control) => (control.disabled = true));
    return;
  }
  byId("slider").max = byId("number").max = lineCount;
  byId("slider").addEventListener("input", (event) => goTo(event.target.value));
  byId("number").addEventListener("change", (event) => goTo(event.target.value));
  byId("first").addEventListener("click", () => goTo(1));
  byId("back").addEventListener("click", () => goTo(current - 1));
  byId("on").addEventListener("click", () => goTo(current + 1));
  byId("last").addEventListener("click", () => goTo(lineCount));
  addEventListener("keydown", onKey);
  addEventListener("hashchange", () => goTo(lineOfAddress()));
  goTo(lineOfAddress());
  drawStrip();
}

start();
