// Modules in CommonJS: of this package for Node, and of the inspector for its one file.

function named(names) {
  return names.split(",").map((name) => name.trim()).filter((name) => name !== "");
}

/** A module, whose imports and exports have the few forms that stand here, in CommonJS. `nameOf` tells the name of one that it imports
 *  from the name that stands in it. */
export function inCommonJs(text, nameOf) {
  const exported = [];
  const body = text
    .replace(/^import (\w+) from "(.*)";$/gm, (_, name, file) => `const ${name} = require("${nameOf(file)}");`)
    .replace(/^import \{([^}]*)\} from "(.*)";$/gm, (_, names, file) => `const {${names.replace(/ as /g, ": ")}} = require("${nameOf(file)}");`)
    .replace(/^export \{([^}]*)\} from "(.*)";$/gm, (_, names, file) =>
      named(names).map((name) => `exports.${name} = require("${nameOf(file)}").${name};`).join("\n"))
    .replace(/^export const \{([^}]*)\}/gm, (_, names) => `${(exported.push(...named(names)), "const")} {${names}}`)
    .replace(/^export ((?:async )?(?:class|function|const) (\w+))/gm, (_, words, name) => (exported.push(name), words))
    .replace(/\bimport\.meta\.url\b/g, 'require("node:url").pathToFileURL(__filename)')
    .replace(/"\.\/(passkey\.wasm|browser\.js)"/g, '"../$1"');
  if (/^(import|export)\b|\bimport\.meta\b/m.test(body)) throw new Error("a form of import or export that is not known");
  return `"use strict";\n${body}\n${exported.map((name) => `exports.${name} = ${name};`).join("\n")}\n`;
}
