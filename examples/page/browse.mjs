// node browse.mjs CHROMIUM PAGE [--picture FILE] SHEET PICKS RATE EDITION ...: opens the page in a browser without a
// window, puts each sheet in with its picks, rate and edition, presses the button, and prints what the page shows. It
// fails where the page asks for anything from outside, or has an error. The browser is led through two pipes.
import { spawn } from "node:child_process";
import { mkdtempSync, readFileSync, rmSync, writeFileSync } from "node:fs";
import { tmpdir } from "node:os";
import { join, resolve } from "node:path";

const [chromium, page, ...rest] = process.argv.slice(2);
const picture = rest[0] === "--picture" ? rest.splice(0, 2)[1] : null;
const room = mkdtempSync(join(tmpdir(), "page-"));
const browser = spawn(chromium, ["--headless", "--no-sandbox", "--disable-gpu", "--disable-dev-shm-usage",
  "--no-first-run", "--window-size=1000,1250", "--remote-debugging-pipe", `--user-data-dir=${room}`, "about:blank"],
  { stdio: ["ignore", "ignore", "ignore", "pipe", "pipe"] });

let last = 0, kept = "", session;
const waiting = new Map(), wrong = [], heard = new Map();

const described = ({ exception, text }) => exception?.description ?? text;

function take(message) {
  if (message.id) {
    const { done, failed } = waiting.get(message.id);
    waiting.delete(message.id);
    return message.error ? failed(new Error(message.error.message)) : done(message.result);
  }
  const { method, params } = message;
  if (method === "Network.requestWillBeSent" && !/^(file|blob|data):/.test(params.request.url)) {
    wrong.push(`the page asks for ${params.request.url}`);
  }
  if (method === "Runtime.exceptionThrown") wrong.push(described(params.exceptionDetails));
  if (method === "Log.entryAdded" && params.entry.level === "error") wrong.push(params.entry.text);
  heard.get(method)?.();
}

browser.stdio[4].on("data", (bytes) => {
  const parts = (kept + bytes).split("\0");
  kept = parts.pop();
  parts.forEach((part) => take(JSON.parse(part)));
});

function ask(method, params = {}) {
  last += 1;
  browser.stdio[3].write(JSON.stringify({ id: last, method, params, sessionId: session }) + "\0");
  return new Promise((done, failed) => waiting.set(last, { done, failed }));
}

async function inPage(action, ...words) {
  const expression = `(${action})(${words.map((word) => JSON.stringify(word)).join(",")})`;
  const answer = await ask("Runtime.evaluate", { expression, awaitPromise: true, returnByValue: true });
  if (answer.exceptionDetails) throw new Error(described(answer.exceptionDetails));
  return answer.result.value;
}

// What a person does, and what is shown once it is answered.
async function fill(sheet, picks, rate, edition) {
  const by = (id) => document.getElementById(id);
  const before = Number(document.body.dataset.answered ?? 0);
  for (const [id, text] of Object.entries({ sheet, picks, rate, edition })) by(id).value = text;
  document.querySelector("button").click();
  while (Number(document.body.dataset.answered ?? 0) <= before) await new Promise((done) => setTimeout(done, 5));
  const text = (id) => (by(id).innerText.replace(/\n$/, "") || "nothing").replace(/^/gm, "  ");
  return ["slip", "report", "where"].filter((id) => !by(id).hidden).map((id) => `${id}\n${text(id)}\n`).join("");
}

async function browse() {
  const { targetId } = await ask("Target.createTarget", { url: "about:blank" });
  ({ sessionId: session } = await ask("Target.attachToTarget", { targetId, flatten: true }));
  for (const part of ["Page", "Runtime", "Log", "Network"]) await ask(`${part}.enable`);
  const loaded = new Promise((done) => heard.set("Page.loadEventFired", done));
  await ask("Page.navigate", { url: `file://${resolve(page)}` });
  await loaded;
  await inPage(async () => {
    while (!document.body.dataset.answered) await new Promise((done) => setTimeout(done, 5));
  });
  for (; rest.length > 0; ) {
    const [file, picks, rate, edition] = rest.splice(0, 4);
    const shown = await inPage(fill, readFileSync(file, "utf8"), picks, rate, edition);
    process.stdout.write(`-- ${file} ${picks} ${rate}\n${shown}`);
  }
  if (picture) writeFileSync(picture, Buffer.from((await ask("Page.captureScreenshot")).data, "base64"));
}

const late = setTimeout(() => {
  console.error(["the page did not answer within a minute", ...wrong].join("\n"));
  browser.kill("SIGKILL");
  process.exit(1);
}, 60000);
await browse().catch((error) => wrong.push(error.message));
clearTimeout(late);
browser.kill("SIGKILL");
browser.on("exit", () => {
  rmSync(room, { recursive: true, force: true, maxRetries: 20 });
  wrong.forEach((line) => console.error(line));
  process.exit(wrong.length > 0 ? 1 : 0);
});
