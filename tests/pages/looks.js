// What is seen of a page, for the cases of tests/cases/pages. It is evaluated in the page, and gives `looks`.
(() => {
  const channel = (part) => (part /= 255, part <= 0.03928 ? part / 12.92 : ((part + 0.055) / 1.055) ** 2.4);
  const numbers = (text) => (text.match(/[\d.]+/g) || [0, 0, 0, 0]).map(Number);
  const light = (color) => {
    const [r, g, b] = numbers(color).map(channel);
    return 0.2126 * r + 0.7152 * g + 0.0722 * b;
  };
  const ratio = (one, other) => {
    const [dark, bright] = [light(one), light(other)].sort((a, b) => a - b);
    return (bright + 0.05) / (dark + 0.05);
  };
  const ground = (one) => {
    for (; one; one = one.parentElement) {
      const color = getComputedStyle(one).backgroundColor, parts = numbers(color);
      if (parts.length === 3 || parts[3] > 0) return color;
    }
    return "rgb(255, 255, 255)";
  };
  const isText = (one) => one.offsetParent && !one.closest("[aria-hidden], option") &&
    [...one.childNodes].some((it) => it.nodeType === 3 && it.textContent.trim());
  // Texts whose color and background differ by less than 4.5 to 1, which WCAG 2.1 wants at level AA.
  const pale = () => {
    const low = [...document.querySelectorAll("body *")].filter(isText).map(
      (one) => [one, ratio(getComputedStyle(one).color, ground(one))]);
    return [...new Set(low.filter(([, found]) => found < 4.5)
      .map(([one, found]) => `${one.tagName} ${one.id} ${one.className} ${found.toFixed(1)}`))];
  };
  // The same of pairs of elements of a picture: those that differ too little in what fills them.
  const paleFills = (...pairs) => {
    const fill = (kind) => getComputedStyle(document.querySelector(kind)).fill;
    return pairs.filter(([one, other]) => ratio(fill(one), fill(other)) < 4.5).map(([one]) => one);
  };
  // The texts of a map that a line of the drawn chain crosses.
  const crossed = (shown) => {
    const rows = new Map(), found = new Set();
    for (const one of shown.querySelectorAll("text")) {
      const box = one.getBBox();
      for (let row = Math.floor(box.y / 16);
           row <= (box.y + box.height) / 16 && one.parentNode !== shown.lastElementChild; row++)
        rows.set(row, [...(rows.get(row) || []), [one.textContent, box]]);
    }
    for (const link of shown.querySelectorAll(".link.on"))
      for (let at = 0; at < link.getTotalLength(); at += 4) {
        const { x, y } = link.getPointAtLength(at);
        for (const [text, box] of rows.get(Math.floor(y / 16)) || [])
          if (x > box.x + 1 && x < box.x + box.width - 1 && y > box.y + 4 && y < box.y + box.height - 3)
            found.add(text);
      }
    return [...found].slice(0, 5);
  };
  // Of a film's window: how many steps were looked at, and what of them isn't seen. A box is seen if its corners,
  // moved in by two pixels, are in the window and nothing covers them.
  const hidden = ({ document, innerWidth, go, getComputedStyle }) => {
    const clips = (over, one, [x, y]) => {
      for (let up = one.parentElement; up && up !== over; up = up.parentElement) {
        const box = up.getBoundingClientRect(), is = getComputedStyle(up).overflowY;
        if (is !== "visible" && (x < box.left || x > box.right || y < box.top || y > box.bottom)) return false;
      }
      return true;
    };
    const within = (box, one) => [[2, 2], [-2, 2], [2, -2], [-2, -2]].every(([x, y]) => {
      const at = [x > 0 ? box.left + x : box.right + x, y > 0 ? box.top + y : box.bottom + y];
      const over = document.elementFromPoint(...at);
      return over && (one.contains(over) || over.contains(one) && at[0] >= 0 && at[1] >= 0 && clips(over, one, at));
    });
    const last = () => {
      const box = document.getElementById("output"), range = document.createRange();
      const texts = document.createTreeWalker(box, NodeFilter.SHOW_TEXT);
      let node = null;
      while (texts.nextNode()) if (texts.currentNode.data.trim()) node = texts.currentNode;
      if (!node) return [box.getBoundingClientRect(), box];
      const end = node.data.trimEnd().length;
      range.setStart(node, end - 1);
      range.setEnd(node, end);
      return [range.getBoundingClientRect(), box];
    };
    const lacks = [];
    // Of a film with very many steps some are looked at.
    const count = Number(document.getElementById("slider").max) + 1, stride = Math.max(1, Math.floor(count / 130));
    for (let at = 0; at < count; at += stride) {
      go(at);
      const now = document.querySelector("#source .now"), top = document.querySelector("#data li"), wrong = [];
      if (!now) wrong.push("no word is marked");
      else if (!within(now.getClientRects()[0], now)) wrong.push("the word is hidden");
      if (!top || !within(top.getBoundingClientRect(), top)) wrong.push("the top of the stack is hidden");
      if (!within(...last())) wrong.push("the output is hidden");
      if (document.documentElement.scrollWidth > innerWidth) wrong.push("the page is too wide");
      if (wrong.length) lacks.push(`step ${at + 1}: ${wrong.join(", ")}`);
    }
    return [Math.ceil(count / stride), lacks];
  };
  // What is cut off of the current column of a film's stack over time.
  const cutOff = () => {
    const column = document.querySelector("#columns [aria-current]");
    const list = document.getElementById("columns").getBoundingClientRect();
    const outside = ({ left, right, top, bottom }) => left < list.left - 1 || right > list.right + 1 ||
      top < list.top - 1 || bottom > list.bottom + 1;
    return [...column.children]
      .filter((one) => outside(one.getBoundingClientRect()) || one.offsetHeight < 8)
      .map((one) => one.textContent);
  };
  // The rows of a film on paper: how many they are, and which lack the word, the top of the stack or the output, or
  // are cut off.
  const onPaper = ({ film, steps, visible, stacks, described, text }) => {
    const rows = [...document.querySelectorAll("#sheet table:last-of-type tbody tr")];
    const isWrong = (row, at) => {
      const number = visible[at], step = steps[number], [data] = stacks(number);
      const texts = [...row.cells].map((cell) => cell.textContent);
      const name = step[0] < 0 ? "end of" : described(number).name, shown = text(film.begins, step[4]).trim();
      const top = data.length ? String(data[data.length - 1]) : "";
      const fits = [...row.cells].every((cell) => cell.scrollWidth <= cell.clientWidth + 1) &&
        row.getBoundingClientRect().right <= innerWidth + 1;
      return !texts[2].includes(name) || texts[3].split(" ").pop() !== top ||
        !texts[texts.length - 1].trim().endsWith(shown.slice(-20)) || !fits;
    };
    return [rows.length, rows.flatMap((row, at) => (isWrong(row, at) ? [at + 1] : []))];
  };
  // A film's steps as lines of a trace: the word, both stacks, and how much is shown, before each.
  const traced = (film) => {
    const stacks = [[], []];
    return film.steps.map(([place, , ...more]) => {
      stacks.forEach((cells, at) => cells.splice(more[at][0], Infinity, ...more[at].slice(1)));
      return {
        name: place < 0 ? null : film.places[place][2],
        data: [...stacks[0]],
        returns: [...stacks[1]],
        shown: more[2]
      };
    });
  };
  // The bytes of a variable before the first step of a word, and so many steps after it; before the last step without
  // a word.
  const held = (film, variable, word, more = 0) => {
    const one = film.memory.find(({ name }) => name === variable), bytes = [...one.bytes];
    const last = word ? traced(film).findIndex(({ name }) => name === word) + more : film.steps.length - 1;
    for (const [step, offset, value] of one.changes) if (step <= last) bytes[offset] = value;
    return bytes;
  };
  window.looks = { pale, paleFills, crossed, hidden, cutOff, onPaper, traced, held };
})()
