// A pattern that moves: its own generations and what the rule makes behind them, on a plane with room round it.
import { colours, drawRows, sized } from "./draw.js";

const ROOM = 40;
const LATER = 400;
const PLOTTED = 200;

// The generations of an answer's text, without the line that stands above them.
export function generationsOf(answer) {
  const lines = answer.split("\n");
  const first = lines.findIndex((line) => /^[01]( [01])*$/.test(line));
  if (first < 0 || lines[0].startsWith("size ")) return null;
  const parts = lines.slice(first).join("\n").trim().split("\n\n");
  return parts.map((part) => part.split("\n").map((row) => row.split(" ")));
}

export class Look {
  // `part` gives an element by its id.
  constructor(part) {
    this.part = part;
    this.timer = null;
    part("play").addEventListener("click", () => (this.timer ? this.pause() : this.play()));
    part("step").addEventListener("click", () => { this.pause(); this.go(this.moment + 1); });
    part("back").addEventListener("click", () => { this.pause(); this.go(this.moment - 1); });
    part("speed").addEventListener("input", () => { if (this.timer) this.play(); });
    part("look-zoom").addEventListener("input", () => this.draw());
    matchMedia("(prefers-color-scheme: dark)").addEventListener("change", () => this.draw());
  }

  // Shows generations by a rule's table of 512 answers. No table: they alone are shown.
  show(generations, table) {
    this.pause();
    this.own = generations;
    this.table = table;
    const rows = generations[0];
    this.height = rows.length + 2 * ROOM;
    this.width = rows[0].length + 2 * ROOM;
    const first = { cells: new Uint8Array(this.height * this.width), ground: 0 };
    rows.forEach((row, y) => row.forEach((word, x) => { first.cells[(y + ROOM) * this.width + x + ROOM] = Number(word); }));
    this.planes = [first];
    this.moment = 0;
    this.part("strip").replaceChildren(...generations.map((one, t) => this.figure(one, t)));
    this.draw();
    this.plot();
  }

  figure(rows, t) {
    const figure = document.createElement("figure"), caption = document.createElement("figcaption"), canvas = document.createElement("canvas");
    const live = rows.flat().filter((word) => word === "1").length;
    caption.textContent = `generation ${t}: ${live} live`;
    canvas.setAttribute("role", "img");
    canvas.setAttribute("aria-label", caption.textContent);
    drawRows(canvas, rows, Math.max(3, Math.min(12, Math.floor(300 / rows[0].length))));
    figure.append(caption, canvas);
    return figure;
  }

  // The plane so many generations later, as far as there is a rule.
  plane(moment) {
    while (this.planes.length <= moment && this.table) this.planes.push(this.next(this.planes[this.planes.length - 1]));
    return this.planes[moment];
  }

  next({ cells, ground }) {
    const { width, height, table } = this, after = new Uint8Array(cells.length);
    const at = (y, x) => (y < 0 || x < 0 || y >= height || x >= width ? ground : cells[y * width + x]);
    for (let y = 0; y < height; y++) {
      for (let x = 0; x < width; x++) {
        let nine = 0;
        for (let down = -1; down <= 1; down++) for (let right = -1; right <= 1; right++) nine = nine * 2 + at(y + down, x + right);
        after[y * width + x] = table[nine];
      }
    }
    return { cells: after, ground: table[ground ? 511 : 0] };
  }

  population(moment) {
    const plane = this.plane(moment);
    return plane.cells.reduce((sum, cell) => sum + (cell !== plane.ground ? 1 : 0), 0);
  }

  go(moment) {
    if (moment < 0 || moment > LATER || !this.plane(moment)) return false;
    this.moment = moment;
    this.draw();
    return true;
  }

  play() {
    clearInterval(this.timer);
    this.part("play").setAttribute("aria-pressed", "true");
    this.part("play").textContent = "Pause";
    this.timer = setInterval(() => { if (!this.go(this.moment + 1)) this.go(0); }, 1000 / Number(this.part("speed").value));
  }

  pause() {
    clearInterval(this.timer);
    this.timer = null;
    this.part("play").setAttribute("aria-pressed", "false");
    this.part("play").textContent = "Play";
  }

  draw() {
    if (!this.planes) return;
    const { cells } = this.plane(this.moment), size = Number(this.part("look-zoom").value), shades = colours();
    // As much of the plane as is near the pattern's own grid.
    const around = Math.min(ROOM, Math.max(4, Math.floor(160 / size)));
    const rows = this.own[0].length + 2 * around, columns = this.own[0][0].length + 2 * around, from = ROOM - around;
    const context = sized(this.part("plane"), columns * size, rows * size);
    context.fillStyle = shades.dead;
    context.fillRect(0, 0, columns * size, rows * size);
    context.fillStyle = shades.live;
    for (let y = 0; y < rows; y++) for (let x = 0; x < columns; x++) if (cells[(y + from) * this.width + x + from]) context.fillRect(x * size, y * size, size - (size > 4 ? 1 : 0), size - (size > 4 ? 1 : 0));
    context.strokeStyle = shades.accent;
    context.strokeRect(around * size + 0.5, around * size + 0.5, this.own[0][0].length * size, this.own[0].length * size);
    this.part("moment").textContent = `generation ${this.moment}: ${this.population(this.moment)} live`;
  }

  plot() {
    const count = this.table ? PLOTTED : 1, numbers = Array.from({ length: count }, (_, t) => this.population(t));
    const width = 400, height = 80, most = Math.max(1, ...numbers), context = sized(this.part("plot"), width, height), shades = colours();
    context.strokeStyle = shades.accent;
    context.beginPath();
    numbers.forEach((number, t) => context.lineTo((t * width) / Math.max(1, count - 1), height - 2 - (number * (height - 16)) / most));
    context.stroke();
    context.fillStyle = shades.live;
    context.font = "12px system-ui, sans-serif";
    context.fillText(`at most ${most} live in ${count} generations`, 4, 12);
    this.part("plot").setAttribute("aria-label", `Live cells by generation: ${numbers[0]} at first, at most ${most} in ${count} generations`);
  }
}
