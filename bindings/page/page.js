// What the page shows: tabs with what the program prints of the tables that were dropped.

const TABS = [
  { name: "overview", words: ["html", "page.html"], saved: "overview.html", isPage: true },
  { name: "report", words: ["report", "-v"] },
  { name: "list", words: ["list"] },
  { name: "bodies", words: ["bodies"] },
  { name: "uses", words: ["uses"] },
  { name: "check", words: ["check"] },
  { name: "json", words: ["json"], saved: "tables.json" },
  { name: "diff", words: ["diff"], isDiff: true },
];
const MOST_SHOWN = 2_000_000; // characters: a browser lays out no more at ease
const LESS_DEPTH = ["--depth", "128"];
const $ = (id) => document.getElementById(id);

let program, shown = TABS[0], sets = { set: [], other: [] }, answers = new Map(), frame = "";

// ---- the files of a set

const FORMS = /^(dsdt|ssdt(\d*))(\.dat|\.aml)?$/i;
const lastName = (path) => path.slice(path.lastIndexOf("/") + 1);

// Where a file stands in its set: a DSDT, SSDTs by their numbers, others by their names.
function rank(path) {
  const found = FORMS.exec(lastName(path));
  if (!found) return [2, 0];
  return found[2] === undefined ? [0, 0] : [1, Number(found[2])];
}

function ordered(files) {
  const before = (a, b) => {
    const [x, y] = [rank(a.path), rank(b.path)], inFolder = a.path.split("/").length - b.path.split("/").length;
    return inFolder || x[0] - y[0] || x[1] - y[1] || (a.path < b.path ? -1 : 1);
  };
  return [...files].sort(before);
}

// The tables among the files of a folder: where one is the file of a DSDT, as `dsdt.dat`, it and the SSDTs of the same extension, those of
// the folder `dynamic` too; else all files.
function ofFolder(files) {
  const extension = (path) => (FORMS.exec(lastName(path))?.[3] ?? "").toLowerCase();
  const dsdts = files.filter((it) => !it.path.includes("/") && rank(it.path)[0] === 0);
  if (dsdts.length !== 1) return files.filter((it) => !lastName(it.path).startsWith("."));
  const isSsdt = (path) => rank(path)[0] === 1 && extension(path) === extension(dsdts[0].path);
  return [dsdts[0], ...files.filter((it) => isSsdt(it.path) && /^(dynamic\/)?[^/]*$/.test(it.path))];
}

// The files of a set with their bytes. Each has another name.
async function readSet(files) {
  const taken = new Set(["page.html"]), found = [];
  for (const it of ordered(files)) {
    let name = it.path;
    for (let i = 2; taken.has(name); i++) name = `${it.path} (${i})`;
    taken.add(name);
    found.push({ name, bytes: new Uint8Array(await it.file.arrayBuffer()) });
  }
  return found;
}

// What was dropped: files, and those of folders by their paths in them.
async function filesOf(entries) {
  const loose = [], folders = [];
  const fileOf = (entry) => new Promise((done, failed) => entry.file(done, failed));
  const walk = async (entry, front, into) => {
    if (entry.isFile) return void into.push({ path: front + entry.name, file: await fileOf(entry) });
    const reader = entry.createReader(), part = () => new Promise((done, failed) => reader.readEntries(done, failed));
    for (let found = await part(); found.length; found = await part())
      for (const it of found) await walk(it, it.isFile ? front : `${front}${it.name}/`, into);
  };
  for (const it of entries) {
    if (it.isFile) await walk(it, "", loose);
    else {
      const inside = [];
      await walk(it, "", inside);
      folders.push(...ofFolder(inside));
    }
  }
  return [...loose, ...folders];
}

// ---- runs

// The arguments, files and folders of a run: the files of a set, or, of two sets, a folder for each.
function runOf(tab) {
  if (!tab.isDiff) return [[...tab.words, "--", ...sets.set.map((it) => it.name)], sets.set, []];
  const names = (set) => set.map((_, i) => (i ? `SSDT${i}` : "DSDT"));
  const lent = (name, set) => set.map((it, i) => ({ name: `${name}/${names(set)[i]}`, bytes: it.bytes }));
  const folders = [{ name: "old", names: names(sets.set) }, { name: "new", names: names(sets.other) }];
  return [[...tab.words, "--", "old", "new"], [...lent("old", sets.set), ...lent("new", sets.other)], folders];
}

// What the program answers. Where the browser's stack ends, it is tried again with less depth.
function answerOf(tab) {
  const [words, files, folders] = runOf(tab), begun = performance.now();
  const told = (answer, note) => ({ ...answer, note, time: performance.now() - begun });
  try {
    return told(program.run(words, files, folders), "");
  } catch (fault) {
    try {
      const less = [words[0], ...LESS_DEPTH, ...words.slice(1)];
      return told(program.run(less, files, folders), `The browser gave up (${fault.message}); this is with ${LESS_DEPTH.join(" ")}. `);
    } catch (again) {
      return told({ status: 1, bytes: new TextEncoder().encode(`not done: ${again.message}\n`) }, "");
    }
  }
}

const MEANS = ["", "not done", "not done", "something in the tables is lost, refused, wrong or different"];

function show() {
  const isDiff = sets.other.length > 0;
  $("result").hidden = !sets.set.length;
  $("other").hidden = !sets.set.length;
  if (shown.isDiff && !isDiff) shown = TABS[0];
  for (const tab of TABS) {
    const button = $(`tab-${tab.name}`);
    button.hidden = Boolean(tab.isDiff) && !isDiff;
    button.setAttribute("aria-selected", tab === shown);
    button.tabIndex = tab === shown ? 0 : -1;
  }
  if (!sets.set.length) return;
  if (!answers.has(shown)) answers.set(shown, answerOf(shown));
  const { status, bytes, note, time } = answers.get(shown), isPage = Boolean(shown.isPage) && (status === 0 || status === 3);
  $("said").className = status === 1 || status === 2 ? "bad" : "";
  $("said").textContent = `${note}Status ${status}${MEANS[status] && `: ${MEANS[status]}`}. ${time.toFixed(0)} ms.`;
  $("page").hidden = !isPage;
  $("text").hidden = isPage;
  $("text").setAttribute("aria-labelledby", `tab-${shown.name}`);
  if (isPage) showPage(bytes);
  else showText(new TextDecoder().decode(bytes));
}

// The page stands in a frame without scripts, which has an address of its own for the links in it.
function showPage(bytes) {
  URL.revokeObjectURL(frame);
  frame = URL.createObjectURL(new Blob([bytes], { type: "text/html" }));
  $("page").src = frame;
}

function showText(text) {
  const more = text.length > MOST_SHOWN ? `\n.. and ${text.length - MOST_SHOWN} characters more: save it to see all\n` : "";
  $("text").textContent = text.slice(0, MOST_SHOWN) + more;
}

function save() {
  const link = document.createElement("a");
  link.href = URL.createObjectURL(new Blob([answers.get(shown).bytes]));
  link.download = shown.saved ?? `${shown.name}.txt`;
  link.click();
  URL.revokeObjectURL(link.href);
}

// ---- what a person does

async function take(id, files) {
  if (!program || !files.length) return;
  $("said").textContent = "reading ..";
  sets[id] = await readSet(files);
  const bytes = sets[id].reduce((sum, it) => sum + it.bytes.length, 0);
  $(id).querySelector(".holds").textContent = `${sets[id].map((it) => it.name).join(", ")}: ${bytes.toLocaleString("en")} bytes`;
  answers = new Map();
  if (id === "other") shown = TABS.find((it) => it.isDiff);
  await new Promise((done) => setTimeout(done));
  show();
}

function choose(tab) {
  shown = tab;
  show();
  $(`tab-${tab.name}`).focus();
}

function makeTabs() {
  for (const tab of TABS) {
    const button = document.createElement("button");
    Object.assign(button, { id: `tab-${tab.name}`, textContent: tab.name, onclick: () => choose(tab) });
    button.setAttribute("role", "tab");
    button.setAttribute("aria-controls", tab.isPage ? "page" : "text");
    $("tabs").append(button);
  }
  $("tabs").onkeydown = (event) => {
    const there = TABS.filter((it) => !$(`tab-${it.name}`).hidden), at = there.indexOf(shown);
    const to = { ArrowLeft: at - 1 + there.length, ArrowRight: at + 1, Home: 0, End: there.length - 1 }[event.key];
    if (to === undefined) return;
    event.preventDefault();
    choose(there[to % there.length]);
  };
}

function listen() {
  const loose = (list) => [...list].map((file) => ({ path: file.name, file }));
  const inFolder = (list) => ofFolder([...list].map((file) => ({ path: file.webkitRelativePath.replace(/^[^/]*\//, "") || file.name, file })));
  for (const [id, input, read] of [["set", "files", loose], ["set", "folder", inFolder], ["other", "other-files", loose], ["other", "other-folder", inFolder]])
    $(input).onchange = (event) => take(id, read(event.target.files));
  document.ondragover = (event) => event.preventDefault();
  document.ondrop = (event) => {
    event.preventDefault();
    const id = event.target.closest?.("#other") ? "other" : "set", { items, files } = event.dataTransfer;
    const entries = [...items].map((it) => it.webkitGetAsEntry?.()).filter(Boolean), lent = loose(files);
    return (entries.length ? filesOf(entries) : Promise.resolve(lent)).then((found) => take(id, found));
  };
  for (const set of document.querySelectorAll(".set")) {
    set.ondragenter = set.ondragover = () => set.classList.add("over");
    set.ondragleave = set.ondrop = () => set.classList.remove("over");
  }
  $("save").onclick = save;
}

async function start(base64) {
  makeTabs();
  listen();
  try {
    program = await Program.of(base64);
  } catch (fault) {
    $("said").className = "bad";
    $("said").textContent = "This browser has no 64-bit memories for WebAssembly (memory64), which the program needs. Chrome and Edge have "
      + `them from version 133, Firefox from 134. (${fault.message})`;
  }
}
