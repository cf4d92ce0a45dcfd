#!/usr/bin/env node
// Takes a picture of the page with a run in its timeline.
//
//     page_picture.mjs PAGE.html DESIGN ARRIVALS FROM TO OUT.png
//
// The window is from tick FROM to TO. Exit status 2 means that there is no browser, and so no picture.
import { readFileSync } from "node:fs";
import { resolve } from "node:path";
import { pathToFileURL } from "node:url";
import { findBrowser, openBrowser } from "./browser.mjs";

const [file, design, arrivals, from, to, out] = process.argv.slice(2);
const found = findBrowser();
if (out === undefined) throw new Error("give it a page, a design, arrivals, two ticks and the picture to make");
if (found === null) {
  console.log(`page_picture: no Chromium is found on the path, so ${out} is not made`);
  process.exit(2);
}
const browser = await openBrowser(found);
try {
  const page = await browser.open(pathToFileURL(resolve(file)).href);
  await page.until("document.querySelector('#verdict.good')", 120);
  await page.size(1400, 900);
  await page.scheme("light");
  const texts = { design: readFileSync(design, "utf8"), arrivals: readFileSync(arrivals, "utf8") };
  await page.evaluate(`(async () => { choose(at("tab-timeline")); show(${JSON.stringify(texts)}); await again(); timeline.window(${Number(from)}, ${Number(to)}); })()`);
  await page.evaluate("new Promise((done) => setTimeout(done, 200))");
  await page.shoot(out);
} finally {
  await browser.close();
}
