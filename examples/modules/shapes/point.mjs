export default class Point {
  #x; #y;
  constructor(x, y) { this.#x = x; this.#y = y; }
  length() { return Math.hypot(this.#x, this.#y); }
}
