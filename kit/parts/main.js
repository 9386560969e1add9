// ---- The worker, which is asked and may be stopped; a tab that asks never freezes.

let worker = null;
let asked = 0;
const waiting = new Map(); // what is to be done with the answer of a number
let latest = 0; // the number of the question that was asked last of those that replace each other
let running = Promise.resolve(null); // such a question

function startWorker() {
  const source = `"use strict";\n${document.getElementById("core").textContent}`;
  const url = URL.createObjectURL(new Blob([source], { type: "text/javascript" }));
  worker = new Worker(url);
  worker.addEventListener("message", ({ data: { id, answer, fault } }) => {
    const { resolve, reject } = waiting.get(id) ?? {};
    waiting.delete(id);
    if (fault !== undefined) reject?.(new Error(fault));
    else resolve?.(answer);
  });
  worker.addEventListener("error", () => showFault("noworker"));
}

// Ends all that the worker does; whoever waits gets null.
function stopWorker() {
  worker?.terminate();
  for (const { resolve } of waiting.values()) resolve(null);
  waiting.clear();
  startWorker();
}

function ask(question) {
  asked += 1;
  const id = asked;
  return new Promise((resolve, reject) => {
    waiting.set(id, { resolve, reject });
    worker.postMessage({ id, ...question });
  });
}

// The answer to a question that replaces the one before it; null where another one replaced it.
async function askNewest(question) {
  latest += 1;
  const own = latest;
  await running.catch(() => null);
  if (own !== latest) return null;
  running = ask(question);
  const answer = await running;
  return own === latest ? answer : null;
}

// ---- The first part: a file is audited and shown.

const audited = { file: null, answer: null, others: 0, fault: null };
let turn = 0; // of the file that was chosen last

// Says that there is no answer, by the key of its words.
function showFault(key, values = {}) {
  Object.assign(audited, { answer: null, fault: { key, values } });
  showAnswer();
}

function showAnswer() {
  const { file, answer, others, fault } = audited;
  const name = file === null ? "" : plain(file.name);
  const note = others > 0 ? [paragraph(say("further", { file: name }), "soft")] : [];
  if (answer !== null) tell(byId("said"), answerLine(answer), isRight(answer) ? "good" : "bad");
  else if (fault !== null) tell(byId("said"), say(fault.key, fault.values), "bad");
  else tell(byId("said"), file === null ? "" : say("working", { file: name }));
  byId("answer").replaceChildren(...(answer === null ? [] : [...note, ...answerPart(audited)]));
}

async function takeFile(file, others) {
  turn += 1;
  const own = turn;
  Object.assign(audited, { file, answer: null, others, fault: null });
  startTrying(null);
  showTrying();
  showAnswer();
  byId("stop").hidden = false;
  try {
    if (waiting.size > 0) stopWorker();
    const answer = await ask({ kind: "audit", file });
    if (own !== turn) return;
    if (answer === null) {
      showFault("stopped");
    } else {
      audited.answer = answer;
      startTrying(isRight(answer) ? answer.told : null);
      showAnswer();
      showTrying();
    }
  } catch (fault) {
    if (own !== turn) return;
    showFault("failed", { why: plain(fault.message) });
  }
  byId("stop").hidden = true;
  showCompare();
}

// Files that were chosen or dropped: the first one is taken.
function takeFiles(files) {
  if (files.length > 0) takeFile(files[0], files.length - 1);
}

// ---- The whole page, in a language.

function setLanguage(chosen) {
  language = chosen;
  document.documentElement.lang = chosen;
  document.title = say("title");
  for (const place of document.querySelectorAll("[data-say]")) {
    place.textContent = say(place.dataset.say);
  }
  for (const button of document.querySelectorAll("[data-language]")) {
    button.setAttribute("aria-pressed", `${button.dataset.language === chosen}`);
  }
  const keys = Object.keys(WORDS[chosen]).filter((key) => key.startsWith("word."));
  byId("glossary").replaceChildren(...keys.flatMap((key) => [
    element("dt", {}, say(key)), element("dd", {}, say(key.replace("word.", "mean.")))]));
  showAnswer();
  showTrying();
  showCompare();
}

async function start() {
  for (const button of document.querySelectorAll("[data-language]")) {
    button.addEventListener("click", () => setLanguage(button.dataset.language));
  }
  const chosen = byId("file");
  chosen.addEventListener("change", () => {
    takeFiles([...chosen.files]);
    chosen.value = ""; // so that the same file may be chosen again
  });
  byId("stop").addEventListener("click", stopWorker);
  const place = byId("place");
  document.addEventListener("dragover", (event) => {
    event.preventDefault();
    place.classList.add("over");
  });
  document.addEventListener("dragleave", () => place.classList.remove("over"));
  document.addEventListener("drop", (event) => {
    event.preventDefault();
    place.classList.remove("over");
    takeFiles([...event.dataTransfer.files]);
  });
  startComparing();
  setLanguage(language);
  try {
    startWorker();
    const digest = await ask({ kind: "ready" });
    document.body.dataset.ready = digest;
  } catch {
    showFault("noworker");
  }
}

start();
