// ---- The third part: a digest is looked for in a list that was published.

const compared = { file: null, answer: null, list: "", salt: "", fault: null };
const LIST_MOST = 1048576; // bytes of a list
const SALT_MOST = 4096;

const hexOf = (bytes) => Array.from(bytes, (byte) => byte.toString(16).padStart(2, "0")).join("");

// The text of a small file, its bytes as hexadecimal digits where they are a bare salt.
async function textOf(file, most) {
  if (file.size > most) return null;
  const bytes = new Uint8Array(await file.arrayBuffer());
  return bytes.length === 32 && most === SALT_MOST ? hexOf(bytes) : new TextDecoder().decode(bytes);
}

function fileField(id, most) {
  const chosen = byId(`${id}file`);
  chosen.addEventListener("change", async () => {
    const file = chosen.files[0];
    if (file === undefined) return;
    const text = await textOf(file, most);
    chosen.value = "";
    compared.fault = text === null ? () => say("compare.toolong", { file: plain(file.name) }) : null;
    compared.answer = null;
    if (text !== null) byId(id).value = text;
    showCompare();
  });
}

async function compareNow() {
  const file = compared.file ?? audited.file;
  compared.fault = file === null ? () => say("compare.nofile") : null;
  compared.answer = null;
  showCompare();
  if (file === null) return;
  byId("stop-compare").hidden = false;
  try {
    const question = { kind: "compare", file, list: byId("list").value, salt: byId("salt").value };
    compared.answer = await ask(question);
    if (compared.answer === null) compared.fault = () => say("stopped");
  } catch (fault) {
    const why = plain(fault.message);
    compared.fault = () => say("failed", { why });
  }
  byId("stop-compare").hidden = true;
  showCompare();
}

function statementFound({ same, settlement, ofThis, all, digest }) {
  const key = same ? "compare.yes" : "compare.no";
  const says = same || ofThis > 0 ? `${key}.says` : "compare.none";
  return { key, isGood: same, parts: [
    paragraph(say(says, { settlement, all })),
    element("p", { class: "soft" }, `${say("compare.digest")} `, element("code", {}, digest)),
    paragraph(say("compare.binds")),
  ] };
}

function roundsFound({ rounds, without, digest }) {
  const rows = rounds.map(({ word, settlement, same, needsSalt }) => {
    const key = needsSalt ? "salt" : same ? "same" : "other";
    const says = element("b", { class: same ? "good" : "bad" }, say(`compare.is.${key}`));
    return { cells: [say(`compare.${word}`, { settlement }), says] };
  });
  const none = without.map((settlement) => ({
    cells: [say("compare.front", { settlement }), say("compare.is.none")] }));
  const heads = [say("head.what"), say("head.found")];
  const isKept = rounds.every(({ same }) => same);
  const wantsSalt = rounds.some(({ needsSalt }) => needsSalt);
  const key = rows.length === 0 ? "compare.noround" : wantsSalt ? "compare.fault.salt" :
    isKept ? "compare.kept" : "compare.changed";
  return { key, isGood: rows.length > 0 && isKept, parts: [
    rows.length + none.length > 0 ?
      table(say("compare.rounds"), heads, [...rows, ...none]) : "",
    none.length > 0 ? paragraph(say("compare.unbound")) : "",
    element("p", { class: "soft" }, "SHA-256 ", element("code", {}, digest)),
  ] };
}

function showCompare() {
  const { answer, fault, file } = compared;
  const own = audited.file;
  byId("same").textContent = file === null && own !== null ?
    say("compare.same", { file: plain(own.name) }) : file === null ? "" : plain(file.name);
  const shown = {
    statement: statementFound,
    journal: roundsFound,
    nothing: ({ fault: key }) => ({ key, isGood: false, parts: [] }),
  };
  const { key, isGood, parts } = answer === null ? { parts: [] } : shown[answer.of](answer);
  if (fault !== null) tell(byId("found"), fault(), "bad");
  else if (key === undefined) tell(byId("found"), "");
  else tell(byId("found"), say(key), isGood ? "good" : "bad");
  byId("compared").replaceChildren(...(fault === null ? parts : []));
}

function startComparing() {
  fileField("list", LIST_MOST);
  fileField("salt", SALT_MOST);
  byId("comparefile").addEventListener("change", ({ target }) => {
    compared.file = target.files[0] ?? null;
    compared.answer = null;
    showCompare();
  });
  for (const id of ["list", "salt"]) {
    byId(id).addEventListener("input", () => {
      Object.assign(compared, { answer: null, fault: null });
      showCompare();
    });
  }
  byId("compare-go").addEventListener("click", compareNow);
  byId("stop-compare").addEventListener("click", stopWorker);
}
