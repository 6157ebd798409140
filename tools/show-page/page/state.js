// What stands at each line, put together from the differences in the data. A state has for each section an object from
// a row's place to a list of cell numbers: the row's title, then its cells. Lists are never altered once they stand.

const data = JSON.parse(document.getElementById("data").textContent);
const lineCount = data.lines.length;

// States are kept after every so many lines; from the nearest one a line is a few differences away.
const keptEvery = 64;
const keptStates = [data.titles.map(() => ({}))];

// The state after so many lines.
function stateAfter(count) {
  let kept = Math.min(Math.floor(count / keptEvery), keptStates.length - 1);
  const state = copyOf(keptStates[kept]);
  for (let line = kept * keptEvery + 1; line <= count; line++) {
    enter(state, line);
    if (line % keptEvery === 0 && ++kept === keptStates.length) keptStates.push(copyOf(state));
  }
  return state;
}

// The state after a line, from the one before it. Rows that the line does not change are the same lists in both.
function stateFollowing(before, line) {
  const after = copyOf(before);
  enter(after, line);
  return after;
}

// Puts the differences of a line, counted from 1, into a state.
function enter(state, line) {
  for (const splice of data.splices[line - 1]) apply(state, splice);
}

function copyOf(state) {
  return state.map((section) => ({ ...section }));
}

// Puts one row's difference into a state: how many cells stay at the start, how many go after those, what comes there.
function apply(state, [section, place, start, gone, ...come]) {
  const row = state[section][place] || [];
  const next = [...row.slice(0, start), ...come, ...row.slice(start + gone)];
  if (next.length > 0) state[section][place] = next;
  else delete state[section][place];
}

// A row as it is shown: its title, and its cells that have a name.
function rowOf(numbers) {
  const [title, ...cells] = (numbers || []).map((number) => data.cells[number]);
  return {
    title: title ? title[0] : "",
    cells: cells.filter((cell) => cell[0] !== "").map(([name, ...items]) => ({ name, items })),
  };
}

// The items of a cell as text: with commas where one of them is of several words.
function valueOf(cell) {
  if (!cell) return "–";
  if (cell.items.length === 0) return "listed";
  return cell.items.join(cell.items.some((item) => item.includes(" ")) ? ", " : " ");
}

// Every cell that came, went or has other items; the words of the next step follow from its number and are left out.
function changesBetween(before, after) {
  const changes = [];
  data.titles.forEach((_, section) => {
    const places = Object.keys({ ...before[section], ...after[section] });
    for (const place of places) {
      const [old, now] = [before[section][place], after[section][place]];
      if (old !== now) changes.push(...rowChanges(rowOf(old), rowOf(now)));
    }
  });
  return changes;
}

function rowChanges(old, now) {
  const find = (row, name) => row.cells.find((cell) => cell.name === name);
  const gone = old.cells.filter((cell) => !find(now, cell.name));
  return [...now.cells, ...gone]
    .filter((cell) => cell.name !== "next")
    .map(({ name }) => ({
      where: `${now.title || old.title}, ${name}`,
      before: valueOf(find(old, name)),
      after: valueOf(find(now, name)),
    }))
    .filter((change) => change.before !== change.after);
}
