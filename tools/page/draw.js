// The grids that are painted: one canvas a generation, by pointer and by keys.
import { described, isNamed, painted } from "./question.js";

// The colour of a name: one hue for each, the same in each drawing.
function hue(name) {
  let sum = 7;
  for (const letter of name) sum = (sum * 31 + letter.codePointAt(0)) % 360;
  return sum;
}

const style = (name) => getComputedStyle(document.documentElement).getPropertyValue(name).trim();

export function colours() {
  return { dead: style("--dead"), live: style("--live"), unknown: style("--unknown"), line: style("--line"), accent: style("--accent"), fault: style("--fault") };
}

export function sized(canvas, width, height) {
  const ratio = window.devicePixelRatio || 1;
  canvas.width = Math.round(width * ratio);
  canvas.height = Math.round(height * ratio);
  canvas.style.width = `${width}px`;
  canvas.style.height = `${height}px`;
  const context = canvas.getContext("2d");
  context.scale(ratio, ratio);
  return context;
}

function drawCell(context, word, x, y, size, shades) {
  const bare = word.replace("'", "");
  const known = { 0: shades.dead, 1: shades.live, "*": shades.unknown };
  const name = bare.replace(/^-/, "");
  context.fillStyle = known[bare] ?? `hsl(${hue(name)} 65% ${bare.startsWith("-") ? 38 : 72}%)`;
  context.fillRect(x, y, size, size);
  if (isNamed(word) && size >= 12) {
    context.fillStyle = bare.startsWith("-") ? "#fff" : "#111";
    context.font = `${Math.floor(size * 0.5)}px ui-monospace, monospace`;
    context.textAlign = "center";
    context.textBaseline = "middle";
    context.fillText(bare.slice(0, 4), x + size / 2, y + size / 2, size - 2);
  }
  if (word.endsWith("'")) {
    context.fillStyle = shades.accent;
    context.fillRect(x + size * 0.7, y + 1, size * 0.25, size * 0.25);
  }
  context.strokeStyle = shades.line;
  context.lineWidth = 1;
  context.strokeRect(x + 0.5, y + 0.5, size - 1, size - 1);
}

export function drawRows(canvas, rows, size) {
  const context = sized(canvas, rows[0].length * size + 1, rows.length * size + 1), shades = colours();
  rows.forEach((row, y) => row.forEach((word, x) => drawCell(context, word, x * size, y * size, size, shades)));
  return context;
}

export class Drawing {
  // `chosen` gives the paint and the mode, and `say` says where the cursor stands.
  constructor(place, question, chosen, say) {
    Object.assign(this, { place, question, chosen, say, cursor: [0, 0, 0], selected: null, wrong: null, size: 22, single: false });
    this.canvases = [];
  }

  // Makes a canvas for each generation that is shown, and draws all.
  show() {
    const [generations, rows, columns] = this.question.sizes;
    this.cursor = this.cursor.map((at, k) => Math.min(at, [generations, rows, columns][k] - 1));
    const shown = this.single ? [this.cursor[0]] : [...Array(generations).keys()];
    if (shown.join() !== this.canvases.map((canvas) => canvas.dataset.generation).join()) {
      const hadFocus = this.place.contains(document.activeElement);
      this.place.replaceChildren(...shown.map((t) => this.figure(t)));
      this.canvases = [...this.place.querySelectorAll("canvas")];
      if (hadFocus) this.focus();
    }
    this.draw();
  }

  figure(t) {
    const figure = document.createElement("figure"), caption = document.createElement("figcaption"), canvas = document.createElement("canvas");
    caption.textContent = `generation ${t}`;
    canvas.dataset.generation = t;
    canvas.tabIndex = 0;
    canvas.setAttribute("role", "application");
    canvas.setAttribute("aria-describedby", "keys");
    canvas.addEventListener("keydown", (event) => this.key(event));
    canvas.addEventListener("focus", () => this.moveTo(t, this.cursor[1], this.cursor[2]));
    canvas.addEventListener("blur", () => this.draw());
    canvas.addEventListener("pointerdown", (event) => this.press(event, canvas, t));
    figure.append(caption, canvas);
    return figure;
  }

  draw() {
    for (const canvas of this.canvases) {
      const t = Number(canvas.dataset.generation), rows = this.question.cells[t], size = this.size;
      const context = drawRows(canvas, rows, size), shades = colours();
      canvas.setAttribute("aria-label", `Generation ${t}, ${rows.length} rows of ${rows[0].length} cells`);
      const frame = (y, x, height, width, colour, thick) => {
        context.strokeStyle = colour;
        context.lineWidth = thick;
        context.strokeRect(x * size + 1, y * size + 1, width * size - 2, height * size - 2);
      };
      if (this.selected && this.selected.t === t) {
        const { top, left, bottom, right } = this.selected;
        frame(top, left, bottom - top + 1, right - left + 1, shades.accent, 2);
      }
      if (this.wrong && this.wrong[0] === t) frame(this.wrong[1], this.wrong[2], 1, 1, shades.fault, 3);
      if (document.activeElement === canvas) frame(this.cursor[1], this.cursor[2], 1, 1, shades.accent, 3);
    }
  }

  focus() {
    const canvas = this.canvases.find((one) => Number(one.dataset.generation) === this.cursor[0]);
    if (canvas) canvas.focus();
  }

  moveTo(t, y, x) {
    this.cursor = [t, y, x];
    this.say(`generation ${t}, row ${y}, column ${x}: ${described(this.question.cells[t][y][x])}`);
    this.draw();
  }

  select(t, y, x, y2, x2) {
    this.selected = { t, top: Math.min(y, y2), bottom: Math.max(y, y2), left: Math.min(x, x2), right: Math.max(x, x2) };
  }

  paint(t, places, paint) {
    this.question.change((cells) => places.forEach(([y, x]) => { cells[t][y][x] = painted(cells[t][y][x], paint); }));
  }

  within({ t, top, bottom, left, right }) {
    const places = [];
    for (let y = top; y <= bottom; y++) for (let x = left; x <= right; x++) places.push([y, x]);
    return [t, places];
  }

  // Paints what the mode says, from the cursor: the selection where there is one and it holds the cursor.
  paintHere(paint = this.chosen().paint) {
    const [t, y, x] = this.cursor, chosen = this.selected;
    const inside = chosen && chosen.t === t && chosen.top <= y && y <= chosen.bottom && chosen.left <= x && x <= chosen.right;
    if (inside && (chosen.top !== chosen.bottom || chosen.left !== chosen.right)) this.paint(...this.within(chosen), paint);
    else if (this.chosen().mode === "fill") this.paint(t, this.question.area(t, y, x), paint);
    else this.paint(t, [[y, x]], paint);
    this.moveTo(t, y, x);
  }

  cellAt(event, canvas) {
    const box = canvas.getBoundingClientRect(), [, rows, columns] = this.question.sizes;
    const at = (place, most) => Math.max(0, Math.min(most - 1, Math.floor(place / this.size)));
    return [at(event.clientY - box.top, rows), at(event.clientX - box.left, columns)];
  }

  press(event, canvas, t) {
    if (event.button !== 0) return;
    event.preventDefault();
    canvas.focus();
    const { paint, mode } = this.chosen(), [y, x] = this.cellAt(event, canvas), done = new Set();
    this.selected = null;
    this.moveTo(t, y, x);
    if (mode === "fill") return this.paintHere();
    const before = this.question.cells.map((rows) => rows.map((row) => row.slice()));
    const move = (at) => {
      const [row, column] = this.cellAt(at, canvas);
      if (mode === "pen" && !done.has(`${row},${column}`)) {
        done.add(`${row},${column}`);
        this.question.cells[t][row][column] = painted(this.question.cells[t][row][column], paint);
      }
      if (mode !== "pen") this.select(t, y, x, row, column);
      this.moveTo(t, row, column);
    };
    const leave = () => {
      canvas.removeEventListener("pointermove", move);
      if (mode === "pen") {
        // What was painted in one stroke is one change.
        const after = this.question.cells;
        this.question.cells = before;
        this.question.change((cells) => after.forEach((rows, k) => { cells[k] = rows; }));
      }
      if (mode === "rectangle") {
        this.paint(...this.within(this.selected), paint);
        this.selected = null;
      }
      this.draw();
    };
    canvas.setPointerCapture(event.pointerId);
    canvas.addEventListener("pointermove", move);
    canvas.addEventListener("pointerup", leave, { once: true });
    move(event);
  }

  key(event) {
    const [t, y, x] = this.cursor, [generations, rows, columns] = this.question.sizes;
    const steps = { ArrowUp: [0, -1, 0], ArrowDown: [0, 1, 0], ArrowLeft: [0, 0, -1], ArrowRight: [0, 0, 1], PageUp: [-1, 0, 0], PageDown: [1, 0, 0] };
    const step = steps[event.key];
    if (event.ctrlKey || event.metaKey) {
      if (event.key === "z") this.question.undo();
      else if (event.key === "y") this.question.redo();
      else return;
    } else if (step) {
      const to = [t + step[0], y + step[1], x + step[2]];
      if (to.some((at, k) => at < 0 || at >= [generations, rows, columns][k])) return event.preventDefault();
      if (event.shiftKey && step[0] === 0) {
        this.from = this.selected ? this.from : [y, x];
        this.select(t, ...this.from, to[1], to[2]);
      } else {
        this.selected = null;
      }
      this.cursor = to;
      if (step[0]) this.show();
      this.moveTo(...to);
      if (step[0]) this.focus();
    } else if (event.key === " " || event.key === "Enter") this.paintHere();
    else if (event.key === "Delete" || event.key === "Backspace") this.paintHere("*");
    else if (/^[01*'a-zA-Z-]$/.test(event.key)) this.paintHere(event.key);
    else if (event.key === "Escape") {
      this.selected = null;
      this.draw();
    } else return;
    event.preventDefault();
  }
}
