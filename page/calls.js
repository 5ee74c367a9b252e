// The steps of calls of your words, and of what they call, among all steps of a line.

import { DATA } from "./data.js";

// Numbers of rows of the machine's table.
export const TABLE_ROWS = DATA.rows;

// What a step does to calls, and where a call continues. A code of 256 or more is a thread after DOES>.
export function effectOf(machine, codeField) {
  const row = machine.cell(codeField);
  if (row === TABLE_ROWS.colon) return { does: "call", target: codeField + 2, codeField };
  if (row >= 256) return { does: "call", target: row, codeField };
  return {
    does: row === TABLE_ROWS.exit || row === TABLE_ROWS.does
      ? "end"
      : row === TABLE_ROWS.clear ? "clear"
      : "other"
  };
}

export class Calls {
  constructor() { Object.assign(this, { frames: [], steps: [], ends: [], open: [], last: { does: "other" } }); }

  // Whether a step at this address begins a call that the step before made.
  begins(ip) { return this.last.does === "call" && ip === this.last.target; }

  // A step comes within a call, or begins one. `noteCall` is called with each call that begins.
  take(step, noteCall) {
    if (this.open.length) this.follow(step);
    if (this.begins(step.ip)) this.begin(step, noteCall);
    if (this.open.length) this.steps.push({ ...step, frame: this.open[this.open.length - 1] });
  }

  // Applies to the calls what the step before did. A fault empties the return stack, and leaves its number.
  follow(step) {
    const { does } = this.last, { data, returns } = step;
    if (
      !returns.length && data.length === 1 && this.frames[this.open[0]].base > 0 && does !== "end" && does !== "clear")
      this.leave(step, "faulted");
    else if (does === "clear") this.leave(step, "left");
    else if (does === "end") this.end(step);
  }

  begin(step, noteCall) {
    const { open, last } = this, parent = open.length ? open[open.length - 1] : -1;
    const frame = {
      parent,
      begins: step.ip,
      base: step.returns.length - 1,
      back: step.returns[step.returns.length - 1],
      codeField: last.codeField
    };
    this.frames.push(frame);
    open.push(this.frames.length - 1);
    noteCall(frame);
  }

  end(step) {
    const { open, frames } = this, root = open[0];
    while (open.length && frames[open[open.length - 1]].base >= step.returns.length) open.pop();
    if (!open.length) this.close(root, step, "returned");
  }

  leave(step, how) {
    const root = this.open[0];
    this.open = [];
    this.close(root, step, how);
  }

  // After a call of the line comes a step that does nothing, with what is on the stacks then.
  close(root, step, how) {
    this.steps.push({ ...step, ip: -1, frame: root });
    this.ends.push({ root, how });
  }

  // The film is over. A call that is open then has not ended.
  finish() {
    if (this.open.length) this.ends.push({ root: this.open[0], how: "cut" });
  }
}
