// Columns of numbers that grow, and searches in ascending ones.

export class Column {
  constructor(Type) {
    this.items = new Type(1024);
    this.length = 0;
  }

  push(value) {
    if (this.length === this.items.length) {
      const larger = new this.items.constructor(2 * this.length);
      larger.set(this.items);
      this.items = larger;
    }
    this.items[this.length++] = value;
  }

  // Returns the pushed values, in their own memory.
  taken() {
    return this.items.slice(0, this.length);
  }
}

// A table with a named column for each of `types`.
export class Table {
  constructor(types) {
    this.columns = Object.entries(types).map(([name, Type]) => [name, new Column(Type)]);
    for (const [name, column] of this.columns) this[name] = column;
  }

  get length() {
    return this.columns[0][1].length;
  }

  push(row) {
    for (const [name, column] of this.columns) column.push(row[name]);
  }
}

// The first place from `low` below `high` whose item is at or above the value, or `high` if there is none.
export function firstAtLeast(items, value, low, high) {
  while (low < high) {
    const middle = (low + high) >> 1;
    if (items[middle] < value) low = middle + 1;
    else high = middle;
  }
  return low;
}
