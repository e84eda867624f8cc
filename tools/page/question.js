// A question's cells: generations of rows of words, as a search file has them, with what may be done to them and undone.

export const UNKNOWN = "*";
const NAME = /^-?[A-Za-z][A-Za-z0-9]{0,31}$/;

export const isNamed = (word) => NAME.test(word.replace("'", ""));

// The cells of a search file's text.
export function read(text) {
  return text.replace(/\n+$/, "").split("\n\n").map((part) => part.split("\n").map((row) => row.trim().split(/\s+/)));
}

export const written = (generations) => generations.map((rows) => rows.map((row) => row.join(" ")).join("\n")).join("\n\n") + "\n";

export function empty(generations, rows, columns) {
  return Array.from({ length: generations }, () => Array.from({ length: rows }, () => Array(columns).fill(UNKNOWN)));
}

const copy = (generations) => generations.map((rows) => rows.map((row) => row.slice()));

// The cells, with all that came before and what was undone.
export class Question {
  constructor(generations, changed) {
    this.cells = generations;
    this.past = [];
    this.future = [];
    this.changed = changed;
  }

  get sizes() {
    return [this.cells.length, this.cells[0].length, this.cells[0][0].length];
  }

  // Makes a change, which can be undone as one.
  change(make) {
    const before = copy(this.cells);
    make(this.cells);
    if (written(before) === written(this.cells)) return;
    this.past.push(before);
    if (this.past.length > 200) this.past.shift();
    this.future = [];
    this.changed();
  }

  replace(generations) {
    this.past.push(this.cells);
    this.cells = copy(generations);
    this.future = [];
    this.changed();
  }

  undo() {
    if (!this.past.length) return false;
    this.future.push(this.cells);
    this.cells = this.past.pop();
    this.changed();
    return true;
  }

  redo() {
    if (!this.future.length) return false;
    this.past.push(this.cells);
    this.cells = this.future.pop();
    this.changed();
    return true;
  }

  resize(generations, rows, columns) {
    const old = this.cells;
    this.replace(empty(generations, rows, columns).map((grid, t) => grid.map((row, y) => row.map((word, x) => old[t]?.[y]?.[x] ?? word))));
  }

  copyToAll(t) {
    this.change((cells) => cells.forEach((rows, other) => { cells[other] = cells[t].map((row) => row.slice()); }));
  }

  // Each generation behind the given one becomes that one, moved so far for each generation; what comes in is dead.
  shiftEach(t, right, down) {
    this.change((cells) => {
      for (let later = t + 1; later < cells.length; later++) {
        const times = later - t;
        cells[later] = cells[t].map((row, y) => row.map((_, x) => cells[t][y - down * times]?.[x - right * times] ?? "0"));
      }
    });
  }

  // The cells that are reached from a place over neighbours with the same word.
  area(t, y, x) {
    const rows = this.cells[t], word = rows[y][x], found = [], seen = new Set([`${y},${x}`]), next = [[y, x]];
    while (next.length) {
      const [row, column] = next.pop();
      found.push([row, column]);
      for (const [down, right] of [[0, 1], [1, 0], [0, -1], [-1, 0]]) {
        const place = [row + down, column + right], key = place.join();
        if (rows[place[0]]?.[place[1]] === word && !seen.has(key)) {
          seen.add(key);
          next.push(place);
        }
      }
    }
    return found;
  }

  place(t, y, x, rows) {
    this.change((cells) => rows.forEach((row, down) => row.forEach((word, right) => {
      if (cells[t][y + down]?.[x + right] !== undefined) cells[t][y + down][x + right] = word;
    })));
  }
}

// A word with a paint laid over it: a mark turns on and off, and all else keeps the mark.
export function painted(word, paint) {
  const mark = word.endsWith("'") ? "'" : "";
  if (paint === "'") return mark ? word.slice(0, -1) : word + "'";
  if (paint === "-") return isNamed(word) ? (word.startsWith("-") ? word.slice(1) : "-" + word) : word;
  return paint + mark;
}

export function described(word) {
  const marked = word.endsWith("'") ? ", marked" : "", bare = word.replace("'", "");
  const kinds = { 0: "dead", 1: "live", "*": "unknown" };
  return (kinds[bare] ?? (bare.startsWith("-") ? `the opposite of ${bare.slice(1)}` : `named ${bare}`)) + marked;
}
