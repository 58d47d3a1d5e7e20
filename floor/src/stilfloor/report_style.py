"""The look of a report, and the script by which its rows are filtered and sorted and its maps tell what lies under the pointer."""

import base64
import hashlib

STYLE = """
body { font: 15px/1.45 system-ui, sans-serif; margin: 2rem auto; max-width: 70rem; padding: 0 1rem; color: #222; }
h1, h2 { font-weight: 600; } h2 { margin-top: 2.2rem; border-bottom: 1px solid #ddd; padding-bottom: .2rem; }
h1, h2, h3, p, li, code, td.left, th.left, summary { overflow-wrap: anywhere; }
td.link, table.sites td { white-space: nowrap; }
nav ul { list-style: none; display: flex; flex-wrap: wrap; gap: .3rem 1.2rem; padding: 0; }
table { border-collapse: collapse; margin-bottom: 1rem; } th, td { padding: .2rem .8rem; text-align: right; border-bottom: 1px solid #eee; }
th:first-child, td:first-child, td.left, th.left, td.link { text-align: left; }
th { vertical-align: bottom; } table.sorted th { cursor: pointer; text-decoration: underline dotted; }
th[aria-sort="ascending"]::after { content: " \\2191"; } th[aria-sort="descending"]::after { content: " \\2193"; }
.figures { display: flex; flex-wrap: wrap; gap: 1rem; } .figures svg { max-width: 34rem; width: 100%; height: auto; }
.all svg { width: 100%; height: auto; }
.bar { display: inline-block; height: .7rem; background: #0072b2; min-width: 1px; }
form { display: flex; flex-wrap: wrap; gap: .4rem 1.2rem; margin: .6rem 0; position: sticky; top: 0; background: #fff; padding: .3rem 0; z-index: 1; }
form[hidden], tr[hidden], .die[hidden] { display: none; } input, select { font: inherit; max-width: 100%; }
.die { display: grid; grid-template-columns: 14rem minmax(0, 1fr); gap: 1rem; padding: .8rem 0; border-bottom: 1px solid #eee;
       content-visibility: auto; contain-intrinsic-size: auto 9rem; scroll-margin-top: 4rem; }
.die h3 { margin: 0; font-size: 1rem; } .die p { margin: .2rem 0; } .die ul { margin: .2rem 0; padding-left: 1.2rem; }
.framed { position: relative; width: 13rem; height: 8rem; border: 1px solid #999; background: #fff; }
.framed::after { content: ""; position: absolute; inset: 0; pointer-events: none; }
.map { width: 100%; height: 100%; image-rendering: pixelated; display: block; }
#tip { position: fixed; background: #222; color: #fff; padding: .2rem .5rem; font-size: .85rem; border-radius: .2rem; pointer-events: none; z-index: 2;
       max-width: 20rem; }
details, details[open]::details-content { display: inline; } details:not([open])::details-content { display: none; }
details[open] summary { display: none; } summary { display: inline; cursor: pointer; color: #0072b2; }
.none { color: #a33; } .note { color: #666; font-size: .9rem; } code { font-family: ui-monospace, monospace; }
@media (max-width: 40rem) {
  body { margin: 1rem auto; font-size: 14px; } th, td { padding: .2rem .25rem; font-size: .85rem; }
  table.sites th { font-size: .66rem; }
  table.sites td { font-size: .75rem; } th:has(.bars), .bars { display: none; } .die { grid-template-columns: minmax(0, 1fr); } ul { padding-left: 1.2rem; }
}
"""

SCRIPT = """
(() => {
  const find = (name) => document.getElementById(name);
  const form = find("filter");
  if (form) {
    const rows = [...document.querySelectorAll("#rows tr")];
    const choose = () => {
      const chosen = [...form.querySelectorAll("select")].filter((one) => one.value);
      const word = form.elements.suspect.value.trim();
      let count = 0;
      for (const row of rows) {
        const part = find(row.dataset.die);
        const fits = chosen.every((one) => row.dataset[one.name] === one.value) && (!word || part.textContent.includes(word));
        row.hidden = part.hidden = !fits;
        count += fits;
      }
      find("count").textContent = `${count} of ${rows.length} dies`;
    };
    form.hidden = false;
    form.addEventListener("input", choose);
    form.addEventListener("submit", (event) => event.preventDefault());
    choose();
  }
  const valued = (cell) => cell.dataset.value === undefined ? cell.textContent : Number(cell.dataset.value);
  const order = (head) => {
    const place = [...head.parentNode.children].indexOf(head), body = head.closest("table").tBodies[0];
    const sign = head.getAttribute("aria-sort") === "ascending" ? -1 : 1;
    for (const other of head.parentNode.children) other.removeAttribute("aria-sort");
    head.setAttribute("aria-sort", sign > 0 ? "ascending" : "descending");
    const keyed = [...body.rows].map((row) => [valued(row.cells[place]), row]);
    keyed.sort(([one], [other]) => sign * (typeof one === "number" ? one - other : one < other ? -1 : one > other ? 1 : 0));
    body.append(...keyed.map(([, row]) => row));
  };
  for (const head of document.querySelectorAll("table.sorted th")) {
    head.tabIndex = 0;
    head.addEventListener("click", () => order(head));
    head.addEventListener("keydown", (event) => { if (event.key === "Enter") order(head); });
  }
  const axes = find("axes") && JSON.parse(find("axes").dataset.axes), tip = find("tip"), whole = find("all");
  if (!axes) return;
  const span = (place, step, last) => [place * step, Math.min(place * step + step, last) - 1];
  const told = (row, column, down, right) => {
    const [left, until] = span(column, right, axes.columns.length), [top, bottom] = span(row, down, axes.rows);
    const cells = left === until ? axes.columns[left] : `${axes.columns[left]} to ${axes.columns[until]}`;
    return `${cells}, ${axes.row} ${top === bottom ? top : `${top} to ${bottom}`}`;
  };
  const counts = whole && Uint8Array.from(atob(whole.dataset.dies), (character) => character.charCodeAt(0));
  const overWhole = (event) => {
    const box = whole.querySelector("svg").getBoundingClientRect(), [left, top, right, bottom] = JSON.parse(whole.dataset.box);
    const { down, right: step, width, height, unit } = JSON.parse(whole.dataset.grid);
    const x = ((event.clientX - box.left) / box.width - left) / (right - left), y = ((event.clientY - box.top) / box.height - top) / (bottom - top);
    if (x < 0 || x >= 1 || y < 0 || y >= 1) return "";
    const column = Math.floor(x * width), row = Math.floor(y * height), place = 2 * (row * width + column);
    const dies = counts[place] + 256 * counts[place + 1];
    return `${told(row, column, down, step)}: ${dies || "no"} ${dies === 1 || !dies ? "die" : "dies"}${unit}`;
  };
  const pixels = new WeakMap();
  const within = (place, count) => Math.max(0, Math.min(count - 1, Math.floor(place * count)));
  const overMap = (map, event) => {
    const box = map.getBoundingClientRect(), width = map.naturalWidth, height = map.naturalHeight;
    if (!width) return "";
    const column = within((event.clientX - box.left) / box.width, width), row = within((event.clientY - box.top) / box.height, height);
    if (!pixels.has(map)) {
      const canvas = Object.assign(document.createElement("canvas"), { width, height }), context = canvas.getContext("2d");
      context.drawImage(map, 0, 0);
      pixels.set(map, context.getImageData(0, 0, width, height).data);
    }
    const level = pixels.get(map)[4 * (row * width + column)];
    return `${told(row, column, axes.down, axes.right)}: ${level < 100 ? "fails" : level < 250 ? "not known" : "no fail"}`;
  };
  document.addEventListener("mousemove", (event) => {
    const map = event.target.closest && event.target.closest("img.map");
    const text = map ? overMap(map, event) : whole && event.target.closest && event.target.closest("#all") ? overWhole(event) : "";
    tip.hidden = !text;
    tip.textContent = text;
    tip.style.left = `${Math.min(event.clientX + 14, innerWidth - tip.offsetWidth - 4)}px`;
    tip.style.top = `${Math.min(event.clientY + 14, innerHeight - tip.offsetHeight - 4)}px`;
  });
})();
"""


def policy() -> str:
    """What a browser may do with a page: show what is in it, and run this one script."""
    total = base64.b64encode(hashlib.sha256(SCRIPT.encode()).digest()).decode()
    return f"default-src 'none'; img-src data:; style-src 'unsafe-inline'; script-src 'sha256-{total}'"
