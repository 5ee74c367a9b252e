// The step after this one, with its cells in motion.

function boxes(list) {
  return new Map([...document.querySelectorAll(`#${list} li[data-cell]`)].map(
    (one) => [Number(one.dataset.cell), one.getBoundingClientRect()]));
}

// Shows the step after this one with its cells in motion.
function showMoved(time) {
  const before = visible[at - 1], number = visible[at], step = steps[before];
  const isMoving = at > 0 && number === before + 1 && step[0] >= 0 && !isStill.matches && !isTimed && time > 60;
  if (!isMoving) return show();
  const old = { data: boxes("data"), returns: boxes("returns") };
  const name = film.places[step[0]][2].toUpperCase(), [data, returns] = stacks(before), [newData] = stacks(number);
  show();
  const from = origins(name, data, newData), top = newData.length - 1;
  for (const one of document.querySelectorAll("#data li[data-cell]")) {
    const place = Number(one.dataset.cell);
    const fromReturns = place === top && /^(R>|R@|I)$/.test(name) ? old.returns.get(returns.length - 1) : null;
    const box = fromReturns || (from[place] === null ? null : old.data.get(from[place]));
    if (box) fly(one, box, time);
    else appear(one, time);
  }
  const kept = document.querySelector("#returns li.top");
  if (name === ">R" && kept && old.data.has(data.length - 1)) fly(kept, old.data.get(data.length - 1), time);
}
