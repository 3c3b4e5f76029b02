// The page's own part: it hands what is asked to a Worker, and shows what comes back.
const by = (id) => document.getElementById(id);

const bytes = Uint8Array.from(atob(by("box").textContent.replace(/\s/g, "")), (c) => c.charCodeAt(0));
const code = new Blob([by("code").textContent, by("worker").textContent], { type: "text/javascript" });
const worker = new Worker(URL.createObjectURL(code));
worker.postMessage(bytes);

// Each question has a number, so that an answer to an older one is not shown.
let turn = 0;

function ask() {
  const [picks, rate] = ["picks", "rate"].map((id) => by(id).value.trim());
  turn += 1;
  if (![picks, rate].every((word) => /^[0-9]+$/.test(word) && Number(word) <= 2147483647)) {
    return show({ report: "picks and rate are whole numbers from 0 to 2147483647" });
  }
  worker.postMessage({
    turn, sheet: by("sheet").value, picks: Number(picks), rate: Number(rate), edition: Number(by("edition").value),
  });
}

// Some browsers give a Worker less stack than a page: a sheet that is too deep there is answered here.
worker.onmessage = async ({ data: { asked, answer } }) => {
  if (asked.turn !== turn) return;
  answer ??= paid(await Grumpy.load(bytes), asked);
  show({
    slip: new TextDecoder().decode(answer.printed), report: report(answer), where: where(answer, asked),
    well: answer.number === 0 && answer.type === "int",
  });
};

function report({ number, type, value, units, most }) {
  if (number === 0 && type !== "int") return `pay gives ${type}, and a wage is an int`;
  const lines = [`number ${number}: ${MEANINGS[number]}`];
  if (type !== null) lines.push(`type ${type}`);
  if (number === 0) lines.push(`value ${value}`);
  if (units !== undefined) {
    lines.push(`units ${units} of ${SIZES.ALLOWANCE}` + (most === null ? "" : `, at most ${most} by the profile`));
  }
  return lines.join("\n");
}

// The line of the sheet with a mark under the place; the call is the second sheet, which nobody here wrote. A tab stays
// one, so that the mark stands where it should.
function where({ number, place, sheet, begin, end }, asked) {
  if (number === 0 || number === 10 || (number >= 40 && number < 50)) return "";
  if (sheet === 2) return `in the call pay(${asked.picks},${asked.rate})`;
  const bytes = new TextEncoder().encode(asked.sheet);
  const text = (from, to) => new TextDecoder().decode(bytes.subarray(from, to));
  const before = [...text(begin, place)];
  const line = text(0, begin).split("\n").length;
  const mark = before.map((c) => (c === "\t" ? c : " ")).join("") + "^";
  return `line ${line}, column ${before.length + 1}\n${text(begin, end)}\n${mark}`;
}

function show({ slip = "", report, where = "", well = false }) {
  by("slip").textContent = slip;
  by("report").textContent = report;
  by("report").classList.toggle("wrong", !well);
  by("where").textContent = where;
  by("where").hidden = by("where-head").hidden = where === "";
  document.body.dataset.answered = turn;
}

by("asked").addEventListener("submit", (event) => {
  event.preventDefault();
  ask();
});
ask();
