// What Node's Intl answers for each line of the standard input, which is UTF-8.
//   node node.js locale      new Intl.Locale(text).toString()
//   node node.js canonical   Intl.getCanonicalLocales(text)[0]
//   node node.js version     the version
"use strict";
const fs = require("fs");

const CALLS = {
  locale: (text) => new Intl.Locale(text).toString(),
  canonical: (text) => Intl.getCanonicalLocales(text)[0],
};

function answer(call, text) {
  try {
    return call(text);
  } catch (refusal) {
    return "! " + refusal.name + ": " + refusal.message.replaceAll("\n", " ");
  }
}

const mode = process.argv[2];
if (mode === "version") {
  console.log("Node " + process.versions.node + ", ICU " + process.versions.icu);
} else {
  const lines = fs.readFileSync(0).toString("utf8").split("\n").slice(0, -1);
  for (const line of lines) {
    fs.writeSync(1, answer(CALLS[mode], line) + "\n");
  }
}
