// The page: what is asked, the runs, and a look at their answers.
import { Refusal, ask } from "./asking.js";
import { Drawing } from "./draw.js";
import { Look, generationsOf } from "./look.js";
import { Question, empty, read, written } from "./question.js";

const part = (id) => document.getElementById(id);
const chosenIn = (name) => document.querySelector(`input[name=${name}]:checked`).value;

// What each option means, in a line.
const MEANINGS = {
  rule: "B/S or Hensel notation; B3/S23 without it", low: "the low rule", high: "the high rule",
  edge: "closed: the ring round the grid stays dead", symmetry: "about the middle of the grid",
  period: "P or P,DX,DY: there again P later, moved", exact: "yes: no shorter period along the same line",
  live: "T:LOW-HIGH, with commas between: live cells of generation T",
  differ: "A,B: two generations that differ", images: "one: of patterns that are images of one another, turned or in a mirror, one is looked for",
  formula: "the form of the formula",
  budget: "how many clauses may be learnt; 100000 without it", keep: "whether learnt clauses may go", manner: "by the question, without it",
  first: "a number that draws what is tried first: another way through the same question",
  as: "how the program prints patterns", crew: "how many searchers take turns", turns: "a number that draws the turns",
};
const CHOICES = {
  edge: ["", "closed", "open"], exact: ["", "yes", "no"], images: ["", "all", "one"], formula: ["", "1", "2"],
  keep: ["", "half", "all"], manner: ["", "restless", "steady", "both"],
};
const POSE_HELP = {
  still: "columns rows", oscillator: "columns rows period", rotor: "columns rows period, columns and rows of the rotor", spaceship: "columns rows period right down",
  glide: "columns rows generations right", copies: "columns rows generations X,Y X,Y ..", torus: "columns rows period",
  predecessor: "of the picture below; perhaps --back N", orphan: "of the picture below",
};
// The options that say the question, and stand on a search file's line `#!`.
const ASKING = ["rule", "low", "high", "edge", "symmetry", "period", "exact", "live", "differ", "images", "formula"];
// The options that only say how a run prints, which the page needs as rows.
const HIDDEN = ["as"];
const POLL = 1000;

const say = (text) => { part("said").textContent = text; };

class Page {
  constructor(about) {
    this.about = about;
    this.options = {};
    this.question = new Question(empty(2, 5, 5), () => this.changed());
    this.drawing = new Drawing(part("grids"), this.question, () => this.paint(), (text) => { part("cursor").textContent = text; });
    this.look = new Look(part);
    this.run = null;
    this.makeMenus();
    this.listen();
    const first = about.first;
    if (first) this.take(first);
    else this.options = { period: "1", live: "0:1-" };
    this.showFields();
    this.changed();
  }

  paint() {
    const paint = chosenIn("paint");
    const name = (part("negated").checked ? "-" : "") + (part("name").value || "a");
    return { paint: paint === "name" ? name : paint, mode: chosenIn("mode") };
  }

  makeMenus() {
    part("where").textContent = `in the folder ${this.about.folder}, on ${this.about.processors} processors`;
    part("command").replaceChildren(...Object.keys(this.about.commands).map((name) => new Option(name, name)));
    part("pose-kind").replaceChildren(...this.about.poses.map((name) => new Option(name, name)));
    this.helpWithPose();
    this.listFiles();
  }

  helpWithPose() {
    part("pose-help").textContent = `${part("pose-kind").value}: ${POSE_HELP[part("pose-kind").value]}`;
  }

  async listFiles() {
    const { files } = await ask("files");
    part("file").replaceChildren(...files.map((name) => new Option(name, name)));
  }

  listen() {
    const click = (id, act) => part(id).addEventListener("click", () => this.tried(act));
    click("undo", () => this.question.undo() || say("nothing to undo"));
    click("redo", () => this.question.redo() || say("nothing to redo"));
    click("to-all", () => this.question.copyToAll(this.drawing.cursor[0]));
    click("shift", () => this.question.shiftEach(this.drawing.cursor[0], Number(part("shift-x").value), Number(part("shift-y").value)));
    click("resize", () => this.resize());
    click("pose", () => this.pose());
    click("open", async () => this.opened(await ask("open", { name: part("file").value })));
    click("paste", () => this.paste());
    click("take", async () => {
      const read = await ask("picture", { text: part("picture").value });
      this.take(read.cells ? read : { cells: written([read.rows]), options: read.rule ? { rule: read.rule } : {} });
    });
    click("as-question", () => this.take(this.run.question));
    click("as-pattern", () => this.begin("judge", { pattern: this.patternText() }));
    click("check", () => this.begin("check", this.folder ? { folder: this.folder } : { of: this.run.name }));
    click("publish", () => this.publish());
    part("pose-kind").addEventListener("change", () => this.helpWithPose());
    part("command").addEventListener("change", () => { this.showFields(); this.changed(); });
    part("options").addEventListener("submit", (event) => { event.preventDefault(); this.tried(() => this.begin(part("command").value, this.inputs())); });
    part("single").addEventListener("change", () => this.layOut());
    part("which").addEventListener("input", () => { this.drawing.cursor[0] = Math.min(this.question.sizes[0] - 1, Number(part("which").value) || 0); this.layOut(); });
    part("zoom").addEventListener("input", () => { this.drawing.size = Number(part("zoom").value); this.drawing.draw(); });
    matchMedia("(prefers-color-scheme: dark)").addEventListener("change", () => this.drawing.draw());
  }

  async tried(act) {
    say("");
    try {
      await act();
    } catch (fault) {
      say(fault instanceof Refusal ? fault.message : `no answer: ${fault.message}`);
    }
  }

  layOut() {
    this.drawing.single = part("single").checked;
    part("which-label").hidden = !this.drawing.single;
    part("which").max = this.question.sizes[0] - 1;
    part("which").value = this.drawing.cursor[0];
    this.drawing.show();
  }

  // The fields of the options that the command takes.
  showFields() {
    const fields = this.about.commands[part("command").value].filter((name) => !HIDDEN.includes(name)).map((name) => {
      const label = document.createElement("label"), choices = name === "symmetry" ? ["", ...this.about.symmetries] : CHOICES[name];
      const field = document.createElement(choices ? "select" : "input"), help = document.createElement("small");
      if (choices) field.replaceChildren(...choices.map((value) => new Option(value || "(without)", value)));
      else field.spellcheck = false;
      field.id = `option-${name}`;
      field.value = this.options[name] ?? "";
      field.addEventListener("input", () => { this.options[name] = field.value.trim(); this.changed(); });
      help.textContent = MEANINGS[name];
      label.append(name, field, help);
      return label;
    });
    part("fields").replaceChildren(...fields);
  }

  asked() {
    const options = Object.fromEntries(Object.entries(this.options).filter(([name, value]) => value && this.about.commands[part("command").value].includes(name)));
    return { cells: written(this.question.cells), options };
  }

  // Behind each change: the grids, the text, and what the program says to the question.
  changed() {
    const [generations, rows, columns] = this.question.sizes;
    Object.entries({ generations, rows, columns }).forEach(([id, value]) => { part(id).value = value; });
    this.layOut();
    const { cells, options } = this.asked();
    const line = Object.entries(options).filter(([name]) => ASKING.includes(name));
    part("text").value = (line.length ? `#! ${line.map(([name, value]) => `--${name} ${value}`).join(" ")}\n` : "") + cells;
    clearTimeout(this.checking);
    this.checking = setTimeout(() => this.tried(() => this.checkQuestion()), 300);
  }

  async checkQuestion() {
    const found = await ask("check", { ...this.asked(), command: part("command").value });
    document.querySelectorAll(".wrong").forEach((field) => { field.classList.remove("wrong"); field.removeAttribute("aria-invalid"); field.removeAttribute("aria-errormessage"); });
    this.drawing.wrong = null;
    part("fault").textContent = found.status ? `${found.said}\n${found.why}` : "";
    const field = found.option && part(`option-${found.option}`);
    if (field) {
      field.classList.add("wrong");
      field.setAttribute("aria-invalid", "true");
      field.setAttribute("aria-errormessage", "fault");
    }
    if (found.line) this.drawing.wrong = this.placeOf(found.line, found.column);
    this.drawing.draw();
  }

  // The cell that stands in a line and a column of the search file's text, both counted from 1.
  placeOf(line, column) {
    const [, rows] = this.question.sizes, t = Math.floor((line - 1) / (rows + 1)), y = (line - 1) % (rows + 1);
    const before = this.question.cells[t]?.[y]?.join(" ").slice(0, column - 1);
    return before === undefined ? null : [t, y, before.split(" ").length - 1];
  }

  resize() {
    const [generations, rows, columns] = ["generations", "rows", "columns"].map((id) => Number(part(id).value));
    const [mostGenerations, mostSide, mostCells] = this.about.limits;
    const fits = [generations, rows, columns].every((number) => Number.isInteger(number) && number >= 1) && generations <= mostGenerations && rows <= mostSide && columns <= mostSide && generations * rows * columns <= mostCells;
    if (!fits) throw new Refusal(`at most ${mostGenerations} generations of ${mostSide} rows and columns, and ${mostCells} cells in all`);
    this.question.resize(generations, rows, columns);
  }

  take({ cells, options }) {
    this.options = { ...options };
    this.drawing.selected = null;
    this.question.replace(read(cells));
    this.showFields();
    this.changed();
  }

  async pose() {
    const kind = part("pose-kind").value, margin = part("pose-margin").value.trim();
    const numbers = part("pose-words").value.trim().split(/\s+/).filter(Boolean);
    const words = [kind, ...(["predecessor", "orphan"].includes(kind) ? numbers.filter((_, k) => numbers[0].startsWith("--")) : numbers), ...(margin ? ["--margin", margin] : [])];
    const posed = await ask("pose", { words, picture: part("picture").value });
    this.take(posed);
    part("notes").replaceChildren(...posed.notes.map((text) => Object.assign(document.createElement("p"), { className: "help", textContent: text })));
  }

  async paste() {
    const { rows, cells, notes } = await ask("picture", { text: part("picture").value });
    const [t, y, x] = this.drawing.cursor, chosen = this.drawing.selected;
    this.question.place(t, chosen?.top ?? y, chosen?.left ?? x, rows ?? read(cells)[0]);
    if (notes?.length) say(notes.join("; "));
  }

  opened(found) {
    this.folder = found.folder && found.has_proof ? found.folder : null;
    this.take(found);
    if (!found.folder) return;
    this.run = { name: null, command: null, question: { cells: found.cells, options: found.options }, pattern: found.pattern };
    this.showAnswer({ answer: found.pattern ?? "", says: `The published folder ${found.name}.`, leaves_out: [], told: found.told, said: "", proof: found.has_proof ? 1 : 0, command: null });
  }

  // What a command reads besides the question: a pattern is that of the menu's text, and a proof that of what is looked at.
  inputs() {
    const command = part("command").value;
    if (command === "judge") {
      const pattern = part("picture").value.trim();
      if (!pattern) throw new Refusal("the pattern to judge goes into the menu's text, as rows or as RLE");
      this.options.as = /^[01 \n]*$/.test(pattern) ? "" : "rle";
      return { pattern: `${pattern}\n` };
    }
    if (command === "check") {
      if (!this.folder && !this.run?.proof) throw new Refusal("choose a run that has a proof, or open a published folder");
      return this.folder ? { folder: this.folder } : { of: this.run.name };
    }
    return {};
  }

  async begin(command, more) {
    const question = command === part("command").value ? this.asked() : this.run?.question ?? this.asked();
    const options = command === "check" && this.run?.beyond ? { ...question.options, live: this.run.beyond } : question.options;
    const { run } = await ask("begin", { cells: question.cells, options, command, ...more });
    say(`run ${run} is under way`);
    this.chosen = run;
    await this.refresh();
  }

  patternText() {
    return this.run.pattern ?? written(generationsOf(this.run.answer));
  }

  // The runs, each second while one is under way.
  async refresh() {
    clearTimeout(this.polling);
    const { runs } = await ask("runs");
    part("no-runs").hidden = runs.length > 0;
    const state = JSON.stringify(runs.map(({ name, running, status }) => [name, running, status]).concat([[this.chosen]]));
    if (state !== this.state) {
      this.state = state;
      part("run-list").replaceChildren(...runs.map((run) => this.row(run)));
      this.listFiles();
    }
    for (const run of runs) part(`state-${run.name}`).textContent = this.stateOf(run);
    const chosen = runs.find((run) => run.name === this.chosen);
    if (chosen && !chosen.running && this.run?.name !== chosen.name) await this.showRun(chosen.name);
    if (runs.some((run) => run.running)) this.polling = setTimeout(() => this.tried(() => this.refresh()), POLL);
  }

  stateOf({ running, seconds, memory, status, how, answer }) {
    const time = seconds < 100 ? `${seconds.toFixed(1)} s` : `${Math.round(seconds / 60)} min`;
    if (running) return `running, ${time}, ${Math.round(memory / 1048576)} MB`;
    return `${how ?? (answer || `status ${status}`)} (${time})`;
  }

  row(run) {
    const row = document.createElement("li"), state = document.createElement("span");
    const button = (text, act) => {
      const made = Object.assign(document.createElement("button"), { type: "button", textContent: text });
      made.setAttribute("aria-label", `${text} run ${run.name}`);
      made.addEventListener("click", () => this.tried(act));
      return made;
    };
    const name = button(`${run.name} ${run.command}`, () => this.choose(run.name));
    name.setAttribute("aria-label", `Look at run ${run.name}, ${run.command}`);
    name.classList.toggle("chosen", run.name === this.chosen);
    state.id = `state-${run.name}`;
    row.append(name, state);
    if (run.running) row.append(button("Stop", async () => { await ask("stop", { run: run.name }); await this.refresh(); }));
    else row.append(button("Remove", async () => { await ask("forget", { run: run.name }); await this.refresh(); }));
    return row;
  }

  async choose(name) {
    this.chosen = name;
    this.run = null;
    await this.refresh();
  }

  async showRun(name) {
    this.run = await ask("run", { run: name });
    this.folder = null;
    const { command, answer, question } = this.run, number = answer.match(/^(least|most) (\d+)/);
    if (number && this.run.proof) {
      const bound = number[1] === "least" ? `0:-${Number(number[2]) - 1}` : `0:${Number(number[2]) + 1}-`;
      this.run.beyond = question.options.live ? `${question.options.live},${bound}` : bound;
    }
    await this.showAnswer(this.run, command);
  }

  async showAnswer(run, command) {
    part("no-answer").hidden = true;
    part("answer").hidden = false;
    part("says").textContent = run.says ?? (run.how ? `This run was ${run.how}, and left no answer.` : run.said);
    part("leaves-out").replaceChildren(...(run.leaves_out ?? []).map((text) => Object.assign(document.createElement("li"), { textContent: text })));
    part("left-out").hidden = !run.leaves_out?.length;
    part("printed").textContent = run.answer + (run.said ? `\n${run.said}` : "");
    part("told").textContent = run.told ?? "";
    part("publish-name").value = run.name ? `lls-${run.name}` : "";
    if (run.name) part("zip").href = `zip/${run.name}`;
    part("zip").hidden = part("publish").disabled = !run.says || !run.name;
    const generations = ["judge", "check"].includes(command) ? null : generationsOf(run.answer);
    part("player").hidden = part("as-pattern").hidden = !generations;
    // An open rule's proof is checked by its own command.
    part("check").hidden = !run.proof || command === "check" || command === "open";
    if (!generations) return this.look.pause();
    const rule = command === "open" ? run.answer.split("\n", 1)[0] : this.run.question.options.rule;
    const { table } = await ask("rule", { rule: rule ?? "" });
    this.look.show(generations, table);
  }

  async publish() {
    const { folder, files } = await ask("publish", { run: this.run.name, name: part("publish-name").value });
    say(`published in the folder ${folder}: ${files.join(", ")}`);
    await this.listFiles();
  }
}

const page = new Page(await ask("about"));
await page.refresh();
// For whoever drives the page: it is ready.
document.documentElement.dataset.ready = "yes";
