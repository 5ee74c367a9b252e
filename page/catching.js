// CATCH and THROW, as commands/served/catching.py has them: what CATCH found is put back when something is thrown, or
// when a fault happens.

import { SYSTEM } from "./cells.js";
import { cellBytes, cellsOf } from "./machine.js";

// The cell of the registers that counts the buffers; cells of a buffer; and those that say that nothing is pending or
// asked.
const BUFFER_COUNT = 10, BUFFER_CELLS = 4, UNASKED = Array(7).fill(0);

export class Catching {
  constructor(host) { Object.assign(this, { host, caught: [] }); }

  // CATCH asks: its word is on the stack, and two return addresses lead out of its service and out of itself.
  catch() {
    const { machine, places } = this.host, { values, returns } = machine;
    this.caught.push({
      stack: values.slice(0, -1),
      returns: returns.slice(0, -2),
      ip: returns[returns.length - 2],
      toIn: machine.cell(SYSTEM.toIn),
      blk: machine.cell(SYSTEM.blk),
      loads: machine.cell(places.loads) });
  }

  // The word has returned to CATCH.
  done() { this.caught.pop(); }

  // Goes on after the innermost CATCH, which leaves the number; whether there is one. LEFT is on the stack now: as
  // much of it stays as CATCH found cells; what was taken comes back.
  throw(number, left = []) {
    if (!this.caught.length) return false;
    const { host } = this, { stack, returns, ip, toIn, blk, loads } = this.caught.pop();
    const registers = cellsOf(host.machine.ask("G").bytes), count = registers[BUFFER_COUNT];
    const made = [...left.slice(0, stack.length), ...stack.slice(left.length), number];
    host.give(
      "P",
      cellBytes(
        ip, ...UNASKED, made.length, returns.length, count, ...made, ...returns,
        ...registers.slice(registers.length - BUFFER_CELLS * count)));
    for (const [address, cell] of [[SYSTEM.toIn, toIn], [SYSTEM.blk, blk], [host.places.loads, loads]])
      host.set(address, cell);
    return true;
  }
}
