// How long a page of headless Chromium takes from fetching the module to a document that can be typed into, and then for its first letters.
//
//     node bench/page.mjs [TIMES]        CHROMIUM may name the browser
import { spawn } from "node:child_process";
import { mkdtempSync, readFileSync, rmSync } from "node:fs";
import { createServer } from "node:http";
import { tmpdir } from "node:os";
import { join } from "node:path";

const times = Number(process.argv[2] ?? 5);
const page = `<!doctype html><title>egw</title><script type="module">
import { Document, load } from "./egw.js";
const began = performance.now();
await load();
const document = new Document();
const ready = performance.now() - began;
const then = performance.now();
for (let i = 0; i < 20000; i++) document.insert(i, "x");
const letter = (performance.now() - then) / 20;
await fetch("/told?ready=" + ready + "&letter=" + letter);
</script>`;
const types = { js: "text/javascript", wasm: "application/wasm" };

const told = [];
let heard = null;
const server = createServer((request, response) => {
  const url = new URL(request.url, "http://localhost"), name = url.pathname.slice(1);
  const answer = (type, body) => response.writeHead(200, { "content-type": type }).end(body);
  if (name === "told") {
    told.push({ ready: Number(url.searchParams.get("ready")), letter: Number(url.searchParams.get("letter")) });
    answer("text/plain", "");
    heard();
  } else if (name === "") answer("text/html", page);
  else if (/^\w+\.(js|wasm)$/.test(name)) answer(types[name.split(".")[1]], readFileSync(new URL(`../bindings/js/${name}`, import.meta.url)));
  else response.writeHead(404).end();
});
await new Promise((done) => server.listen(0, "127.0.0.1", done));
for (let i = 0; i < times; i++) {
  const folder = mkdtempSync(join(tmpdir(), "page"));
  const words = ["--headless=new", "--no-sandbox", "--disable-gpu", "--disable-dev-shm-usage", "--no-first-run", `--user-data-dir=${folder}`];
  const browser = spawn(process.env.CHROMIUM ?? "chromium", [...words, `http://127.0.0.1:${server.address().port}/`], { stdio: "ignore" });
  const gone = new Promise((done) => browser.on("exit", done));
  await new Promise((done, failed) => {
    heard = done;
    setTimeout(failed, 60000, new Error("the page tells nothing")).unref();
  });
  browser.kill();
  await gone;
  rmSync(folder, { recursive: true, force: true, maxRetries: 5 });
  console.log(`fetched and ready in ${told[i].ready.toFixed(1)} ms; then a letter in ${told[i].letter.toFixed(2)} µs`);
}
server.close();
server.closeAllConnections();
