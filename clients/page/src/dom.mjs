// Elements of the page, and what all of its parts share: the story that is shown and the line it is shown at.

export const $ = id => document.getElementById(id);

export const page = { story: null, index: 0, view: null, chosen: null, firstRow: 0, name: "" };

export function make(tag, facts = {}, ...children) {
  const element = document.createElement(tag);
  for (const [name, value] of Object.entries(facts)) {
    if (name === "class") element.className = value;
    else if (name.startsWith("on")) element.addEventListener(name.slice(2), value);
    else if (value !== null && value !== undefined
      && value !== false) element.setAttribute(name, value === true ? "" : value);
  }
  element.append(...children.filter(child => child !== null && child !== undefined));
  return element;
}

export const link = (to, text) => make("a", { href: "../docs/" + to }, text);

// A link to words of a page: browsers go to the words and mark them, and else to the heading.
export function linkToWords(file, heading, words, text) {
  const found = encodeURIComponent(words).replace(/-/g, "%2D");
  return link(`${file}#${heading}` + (words ? `:~:text=${found}` : ""), text);
}

export function table(head, rows) {
  const heads = head.map(text => make("th", { scope: "col" }, text));
  return make("div", { class: "scroll" },
    make("table", {}, make("thead", {}, make("tr", {}, ...heads)), make("tbody", {}, ...rows)));
}

export const tableRow = (...cells) => make("tr", {}, ...cells.map(cell => make("td", {}, ...[cell].flat())));
export const redWords = text => make("strong", { style: "color:var(--bad)" }, text);
