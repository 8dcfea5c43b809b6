
"use strict";
// Each section of the site: its address, its heading, its text.
const sections = [/* sections */];
const MOST = 50, AROUND = 90;

function count(text, word) {
  return text.split(word).length - 1;
}

// How well a section answers these words: 0 where it lacks one. A word of the heading counts as ten of the text.
function worth(section, words) {
  const each = words.map((word) => 10 * count(section.heading, word) + Math.min(9, count(section.text, word)));
  return each.includes(0) ? 0 : each.reduce((sum, one) => sum + one, 0);
}

// The text about the first word, which is marked.
function excerpt(text, word) {
  const at = Math.max(0, text.toLowerCase().indexOf(word)), begin = Math.max(0, at - AROUND), line = document.createElement("p"), mark = document.createElement("mark");
  mark.textContent = text.slice(at, at + word.length);
  line.append(begin > 0 ? "…" : "", text.slice(begin, at), mark, text.slice(at + word.length, at + word.length + AROUND), "…");
  return line;
}

function item([address, heading, text], words) {
  const line = document.createElement("li"), link = document.createElement("a");
  link.href = address;
  link.textContent = heading;
  line.append(link, excerpt(text, words[0]));
  return line;
}

const asked = (new URLSearchParams(location.search).get("q") ?? "").trim(), words = asked.toLowerCase().split(/\s+/).filter(Boolean);
document.querySelector("input[name=q]").value = asked;
if (words.length > 0) {
  const worths = sections.map((one) => [worth({ heading: one[1].toLowerCase(), text: one[2].toLowerCase() }, words), one]).filter(([worth]) => worth > 0);
  worths.sort(([a], [b]) => b - a);
  document.querySelector("#count").textContent = worths.length === 0 ? "Nothing has all of these words." : `${worths.length} ${worths.length === 1 ? "section" : "sections"}`;
  document.querySelector("#found").append(...worths.slice(0, MOST).map(([, one]) => item(one, words)));
}
