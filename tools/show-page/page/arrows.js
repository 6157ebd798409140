// The arrows from a party that waits to those that hold what it wants, drawn beside the rows of the parties.

const svgNames = "http://www.w3.org/2000/svg";

function makeSvg(tag, attributes) {
  const element = document.createElementNS(svgNames, tag);
  for (const [name, value] of Object.entries(attributes)) element.setAttribute(name, value);
  return element;
}

// Who waits for whom: pairs of the parties' rows.
function waitingPairs(rows) {
  const pairs = [];
  for (const row of rows) {
    for (const item of row.querySelectorAll(".waits-for .item")) {
      const holder = rows[Number(item.textContent.slice(1))];
      if (holder) pairs.push([row, holder]);
    }
  }
  return pairs;
}

// Draws the arrows anew, for the rows as they now stand.
function drawArrows() {
  const list = document.querySelector("section.parties .rows");
  list.querySelector("svg")?.remove();
  const pairs = waitingPairs([...list.querySelectorAll(".row")]);
  list.classList.toggle("with-arrows", pairs.length > 0);
  if (pairs.length === 0) return;
  const svg = makeSvg("svg", { class: "arrows", "aria-hidden": "true", width: 44, height: list.offsetHeight });
  pairs.forEach((pair, place) => svg.append(...arrow(...pair, place)));
  list.prepend(svg);
}

// One arrow: a bow to the left of the rows, and its head at the holder's row.
function arrow(waiting, holder, place) {
  const [from, to] = [middle(waiting) + 5, middle(holder) - 5];
  const left = Math.max(3, 34 - 7 * Math.abs(rowNumber(waiting) - rowNumber(holder)) - (place % 3) * 2);
  const bow = makeSvg("path", { class: "bow", d: `M 42 ${from} C ${left} ${from}, ${left} ${to}, 38 ${to}` });
  const head = makeSvg("path", { class: "head", d: `M 43 ${to} l -8 -4.5 v 9 z` });
  return [bow, head];
}

function middle(row) {
  return row.offsetTop + Math.min(row.offsetHeight / 2, 18);
}

function rowNumber(row) {
  return Number(row.dataset.place);
}

addEventListener("resize", drawArrows);
