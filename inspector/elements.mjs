// Elements made by script. All that is shown of a response goes into the page as text.

export function find(id) {
  return document.getElementById(id);
}

/** An element with these attributes and children, which are elements, texts, or lists of these. */
export function made(name, attributes = {}, ...children) {
  const element = document.createElement(name);
  for (const [key, value] of Object.entries(attributes)) element.setAttribute(key, value);
  element.append(...children.flat(Infinity));
  return element;
}

export function table(caption, rows) {
  const lines = rows.map(([head, ...cells]) => made("tr", {}, made("th", { scope: "row" }, head), cells.map((cell) => made("td", {}, cell))));
  return made("table", {}, made("caption", {}, caption), made("tbody", {}, lines));
}
