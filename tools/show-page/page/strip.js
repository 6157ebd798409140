// The strip under the slider: where the script waits, ends or withdraws operations, takes the file up, is refused or
// cannot be read.

// The kinds of lines that the strip shows, the more notable later, with their colours in the style.
const stripKinds = {
  begun: "--begun",
  formatted: "--formatted",
  done: "--done",
  withdrawn: "--withdrawn",
  taken: "--taken",
  waiting: "--waiting",
  refused: "--refused",
  unread: "--unread",
};

function drawStrip() {
  const strip = byId("strip");
  const style = getComputedStyle(document.documentElement);
  const order = Object.keys(stripKinds);
  const width = (strip.width = Math.max(1, Math.round(strip.clientWidth * devicePixelRatio)));
  strip.height = 1;
  const brush = strip.getContext("2d");
  const notable = new Array(width).fill(-1);
  data.lines.forEach(([, , kind], line) => {
    const place = Math.floor((line * width) / lineCount);
    const end = Math.max(place + 1, Math.floor(((line + 1) * width) / lineCount));
    for (let at = place; at < end && at < width; at++) notable[at] = Math.max(notable[at], order.indexOf(kind));
  });
  notable.forEach((kind, at) => {
    if (kind < 0) return;
    brush.fillStyle = style.getPropertyValue(stripKinds[order[kind]]);
    brush.fillRect(at, 0, 1, 1);
  });
}

addEventListener("resize", drawStrip);
matchMedia("(prefers-color-scheme: dark)").addEventListener("change", drawStrip);
