"use strict";
// Regions that run together over a slider of the pruning percent. All that decides is whole numbers: percents are
// thousandths, and each pit has the least percent at which it goes. Floats only place things on the screen.
(() => {
  const element = (id) => document.getElementById(id);
  const data = JSON.parse(element("data").textContent);
  const WHOLE = 100000;
  const { columns, profiles, least, greatest } = data;
  const points = columns * profiles;

  // ---- numbers that were packed in base64, seven bits a byte
  function* unpacked(text) {
    const bytes = atob(text);
    let number = 0, factor = 1;
    for (let at = 0; at < bytes.length; at++) {
      const byte = bytes.charCodeAt(at);
      number += (byte & 127) * factor;
      if (byte < 128) { yield number; number = 0; factor = 1; } else factor *= 128;
    }
  }

  function fillRuns(text, into) {
    let at = 0, value = -1;
    for (const number of unpacked(text)) {
      if (value < 0) { value = number; continue; }
      into.fill(value, at, at + number);
      at += number;
      value = -1;
    }
    return into;
  }

  function unfoldHeights(states) {
    const heights = new Float64Array(points);
    data.heights.forEach((text, plane) => {
      const factor = plane ? 67108864 : 1;
      let at = -1, value = 0;
      for (const number of unpacked(text)) {
        value += number % 2 ? -(number + 1) / 2 : number / 2;
        do at++; while (states[at]);
        heights[at] = plane ? least + value * factor + heights[at] : value;
      }
    });
    if (data.heights.length === 1) for (let at = 0; at < points; at++) heights[at] += least;
    return heights;
  }

  const states = fillRuns(data.states, new Uint8Array(points));
  const heights = unfoldHeights(states);

  // ---- exact numbers in units: a fraction as a decimal of so many digits, or of fewer where these are all of it
  function leadingPower(top, bottom) {
    if (top === 0n) return 0;
    const power = top.toString().length - bottom.toString().length;
    const reaches = power >= 0 ? top >= bottom * 10n ** BigInt(power) : top * 10n ** BigInt(-power) >= bottom;
    return reaches ? power : power - 1;
  }

  function rounded(top, bottom) {
    const whole = top / bottom, rest = 2n * (top % bottom);
    return rest > bottom || (rest === bottom && whole % 2n === 1n) ? whole + 1n : whole;
  }

  function decimal(top, bottom, digits = 6) {
    const size = top < 0n ? -top : top;
    let places = Math.max(0, digits - 1 - leadingPower(size, bottom));
    if (places && rounded(size * 10n ** BigInt(places), bottom) >= 10n ** BigInt(digits)) places--;
    const scaled = size * 10n ** BigInt(places), whole = rounded(scaled, bottom);
    let text = whole.toString().padStart(places + 1, "0");
    if (places) {
      text = `${text.slice(0, -places)}.${text.slice(-places)}`;
      if (scaled % bottom === 0n) text = text.replace(/0+$/, "").replace(/\.$/, "");
    }
    return top < 0n && whole ? `-${text}` : text;
  }
  const factorOf = (fraction) => fraction.map(BigInt);
  const stepFactor = factorOf(data.step), areaFactor = factorOf(data.area);
  const inUnits = (count, [top, bottom]) => decimal(BigInt(count) * top, bottom);
  const heightText = (steps) => `${inUnits(steps, stepFactor)} µm`;
  const counted = (count, word) => `${count} ${word}${count === 1 ? "" : "s"}`;
  const areaText = (count) => `${inUnits(count, areaFactor)} µm²`;

  // ---- the regions of one side at a percent
  const sides = {};
  for (const side of ["D", "H"]) {
    const given = data.sides[side];
    if (given) sides[side] = { ...given, labels: fillRuns(given.labels, new Uint16Array(points)) };
  }

  function regionsAt(side, percent) {
    const given = sides[side], count = given.pits.length;
    const owner = new Uint16Array(count + 1);
    for (let pit = 0; pit < count; pit++) owner[pit + 1] = pit + 1;
    for (let place = given.order.length - 1; place >= 0; place--) {
      const pit = given.order[place];
      if (given.goes[pit] <= percent) owner[pit + 1] = owner[given.into[pit] + 1];
    }
    const area = new Array(count).fill(0), number = new Array(count).fill(0), kept = [];
    for (let pit = 0; pit < count; pit++) {
      area[owner[pit + 1] - 1] += given.pits[pit][3];
      if (owner[pit + 1] === pit + 1) { kept.push(pit); number[pit] = kept.length; }
    }
    const joins = [], saddle = new Array(count).fill(null);
    for (const [height, ...members] of given.joins) {
      const remain = members.filter((pit) => number[pit]);
      if (remain.length < 2) continue;
      joins.push([height, remain]);
      for (const pit of remain) saddle[pit] ??= height;
    }
    const depth = (pit) => {
      const height = given.pits[pit][2];
      return side === "D" ? (saddle[pit] ?? greatest) - height : height - (saddle[pit] ?? least);
    };
    return { side, percent, owner, area, number, kept, joins, depth, pits: given.pits };
  }

  // ---- the map
  const mapCanvas = element("map"), lines = element("lines"), treeCanvas = element("tree");
  let columnAt, profileAt, state = null, pointed = null;

  function colourOf(at) {
    if (states[at]) return data.absent[states[at] - 1];
    const span = greatest - least;
    return data.colours[span ? Math.min(255, Math.floor((heights[at] - least) / span * 256)) : 0];
  }

  function places(pixels, count) {
    const at = new Int32Array(pixels);
    for (let pixel = 0; pixel < pixels; pixel++) at[pixel] = Math.min(count - 1, Math.floor(pixel * count / pixels));
    return at;
  }

  function fitCanvas(canvas) {
    const box = canvas.getBoundingClientRect(), dots = Math.min(window.devicePixelRatio || 1, 2);
    canvas.width = Math.max(1, Math.round(box.width * dots));
    canvas.height = Math.max(1, Math.round(box.height * dots));
    return dots;
  }

  function paintMap() {
    fitCanvas(mapCanvas);
    fitCanvas(lines);
    const { width, height } = mapCanvas, context = mapCanvas.getContext("2d");
    columnAt = places(width, columns);
    profileAt = places(height, profiles);
    const image = context.createImageData(width, height), pixels = image.data;
    for (let y = 0, to = 0; y < height; y++) {
      const row = profileAt[y] * columns;
      for (let x = 0; x < width; x++, to += 4) {
        const [red, green, blue] = colourOf(row + columnAt[x]);
        pixels[to] = red; pixels[to + 1] = green; pixels[to + 2] = blue; pixels[to + 3] = 255;
      }
    }
    context.putImageData(image, 0, 0);
  }

  // Borders are a dark line and a light one beside it, between the points of two regions; the pointed region is lighter.
  function paintLines() {
    const { width, height } = lines, context = lines.getContext("2d");
    const image = context.createImageData(width, height), ink = new Uint32Array(image.data.buffer);
    const labels = sides[state.side].labels, owner = state.owner;
    const chosen = pointed && pointed.region !== null ? pointed.region + 1 : -1;
    const bordered = element("borders").checked;
    const [dark, light, veil] = [0xff1a1a1a, 0xffffffff, 0x59ffffff];
    for (let y = 0; y < height; y++) {
      const row = profileAt[y] * columns, next = profileAt[Math.min(y + 1, height - 1)] * columns;
      for (let x = 0; x < width; x++) {
        const here = owner[labels[row + columnAt[x]]], to = y * width + x;
        if (here === chosen) ink[to] ||= veil;
        if (!bordered || !here) continue;
        const right = owner[labels[row + columnAt[Math.min(x + 1, width - 1)]]];
        const below = owner[labels[next + columnAt[x]]];
        if (right && right !== here) { ink[to] = dark; ink[to + 1] = light; }
        if (below && below !== here) { ink[to] = dark; ink[to + width] = light; }
      }
    }
    context.putImageData(image, 0, 0);
    markPits(context, width, height);
  }

  // Few pits have their numbers, more of them dots, and the chosen one has its number at any rate.
  function markPits(context, width, height) {
    const mostNumbers = 120, mostDots = 2000, count = state.kept.length;
    const dots = width / Math.max(1, lines.getBoundingClientRect().width);
    const at = (pit) => [(state.pits[pit][0] + 0.5) * width / columns, (state.pits[pit][1] + 0.5) * height / profiles];
    context.font = `bold ${11 * dots}px system-ui, sans-serif`;
    context.textAlign = "center";
    context.textBaseline = "middle";
    context.lineWidth = 3 * dots;
    context.strokeStyle = "#fff";
    context.fillStyle = "#1a1a1a";
    for (const pit of count > mostNumbers && count <= mostDots ? state.kept : []) {
      const [x, y] = at(pit);
      context.strokeRect(x - 0.5 * dots, y - 0.5 * dots, dots, dots);
      context.fillRect(x - dots, y - dots, 2 * dots, 2 * dots);
    }
    for (const pit of count <= mostNumbers ? state.kept : chosenPits()) {
      context.strokeText(state.number[pit], ...at(pit));
      context.fillText(state.number[pit], ...at(pit));
    }
  }

  const chosenPits = () => (pointed && pointed.region !== null ? [pointed.region] : []);

  // ---- the tree of the kept regions, laid out so that no two lines cross
  function leavesInOrder() {
    const following = {}, last = {}, isLater = new Set();
    for (const pit of state.kept) last[pit] = pit;
    for (const [, [first, ...others]] of state.joins) {
      for (const pit of others) {
        following[last[first]] = pit;
        last[first] = last[pit];
        isLater.add(pit);
      }
    }
    const order = [];
    for (const pit of state.kept) {
      if (isLater.has(pit)) continue;
      for (let here = pit; here !== undefined; here = following[here]) order.push(here);
    }
    return order;
  }

  function paintTree() {
    const dots = fitCanvas(treeCanvas), { width, height } = treeCanvas, context = treeCanvas.getContext("2d");
    const span = greatest - least || 1, up = (steps) => height - (0.09 + 0.82 * (steps - least) / span) * height;
    const order = leavesInOrder(), across = {}, foot = {};
    order.forEach((pit, place) => { across[pit] = (place + 0.5) * width / order.length; foot[pit] = state.pits[pit][2]; });
    context.clearRect(0, 0, width, height);
    context.strokeStyle = getComputedStyle(treeCanvas).color;
    context.lineWidth = order.length > 1000 ? 0.5 : dots;
    context.beginPath();
    for (const [saddle, members] of state.joins) {
      const at = members.map((pit) => across[pit]), top = up(saddle);
      members.forEach((pit, number) => { context.moveTo(at[number], up(foot[pit])); context.lineTo(at[number], top); });
      const left = Math.min(...at), right = Math.max(...at);
      context.moveTo(left, top);
      context.lineTo(right, top);
      across[members[0]] = (left + right) / 2;
      foot[members[0]] = saddle;
    }
    context.stroke();
    markLeaves(context, order, width, up, dots);
  }

  function markLeaves(context, order, width, up, dots) {
    const chosen = chosenPits()[0], all = order.length <= 60;
    context.font = `${11 * dots}px system-ui, sans-serif`;
    context.textAlign = "center";
    context.fillStyle = getComputedStyle(treeCanvas).color;
    order.forEach((pit, place) => {
      if (!all && pit !== chosen) return;
      const x = (place + 0.5) * width / order.length, y = up(state.pits[pit][2]);
      context.beginPath();
      context.arc(x, y, (pit === chosen ? 5 : 2.5) * dots, 0, 7);
      context.fill();
      if (all || pit === chosen) context.fillText(state.number[pit], x, y + (state.side === "D" ? 14 : -8) * dots);
    });
  }

  // ---- what is told in words
  const percentText = (thousandths) => {
    const part = String(thousandths % 1000).padStart(3, "0").replace(/0+$/, "");
    return `${Math.floor(thousandths / 1000)}${part ? "." + part : ""}%`;
  };

  function percentOf(text) {
    const found = /^\s*([0-9]{1,3})(?:\.([0-9]{1,3}))?\s*%?\s*$/.exec(text);
    if (!found) return null;
    const thousandths = Number(found[1]) * 1000 + Number((found[2] || "").padEnd(3, "0"));
    return thousandths <= WHOLE ? thousandths : null;
  }

  const words = { D: { many: "dales", one: "Dale", pit: "pit", deep: "depth" }, H: { many: "hills", one: "Hill", pit: "peak", deep: "height over saddle" } };

  function tellPointed() {
    const place = element("where"), region = element("region");
    if (!pointed) {
      place.textContent = "Point at the map, or move over it with the arrow keys.";
      region.textContent = "";
      return;
    }
    const { column, profile } = pointed, at = profile * columns + column;
    const named = `Column ${column}, profile ${profile}`;
    const absent = ["", "masked", "not measured"][states[at]];
    place.textContent = absent ? `${named}: ${absent}` : `${named}: ${heightText(heights[at])} (${counted(heights[at], "step")})`;
    region.textContent = pointed.region === null ? "" : regionText(pointed.region);
  }

  function regionText(pit) {
    const word = words[state.side], [x, y] = state.pits[pit], depth = state.depth(pit), area = state.area[pit];
    return `${word.one} ${state.number[pit]}: ${word.pit} at ${x} ${y}, ${word.deep} ${heightText(depth)} (${counted(depth, "step")}), ` +
      `area ${areaText(area)} (${counted(area, "point")})`;
  }

  const MOST_ROWS = 200;
  function fillTable() {
    const deepest = state.kept.slice().sort((one, other) => state.depth(other) - state.depth(one) || one - other);
    const rows = deepest.slice(0, MOST_ROWS).sort((one, other) => one - other).map((pit) => {
      const [x, y, height] = state.pits[pit], depth = state.depth(pit), area = state.area[pit];
      const row = document.createElement("tr");
      for (const text of [state.number[pit], x, y, inUnits(height, stepFactor), inUnits(depth, stepFactor), inUnits(area, areaFactor), area]) {
        row.appendChild(document.createElement("td")).textContent = text;
      }
      return row;
    });
    element("rows").replaceChildren(...rows);
    element("shown").textContent = state.kept.length > MOST_ROWS ? `The ${MOST_ROWS} of greatest depth of ${state.kept.length} are shown.` : "";
  }

  function tellAll() {
    const word = words[state.side];
    element("count").textContent = `${state.kept.length} ${state.kept.length === 1 ? word.one.toLowerCase() : word.many} kept at ${percentText(state.percent)}`;
    element("percent").value = percentText(state.percent);
    element("slider").value = Math.round(state.percent / 100);
    element("slider").setAttribute("aria-valuetext", percentText(state.percent));
    const first = sides[state.side].first;
    element("left-out").textContent = first ? `Below ${percentText(first)} more than ${data.most} ${word.many} are kept; this page leaves them out.` : "";
  }

  // For tests and other readers: what is kept, as text in the page.
  function told() {
    const rows = state.kept.map((pit) => [...state.pits[pit].slice(0, 3), state.area[pit], state.depth(pit)]);
    return { side: state.side, percent: percentText(state.percent), kept: state.kept.length, regions: rows,
      joins: state.joins.map(([height, members]) => [height, ...members.map((pit) => state.number[pit])]),
      texts: ["count", "where", "region", "left-out"].map((id) => element(id).textContent),
      table: Array.from(element("rows").rows, (row) => Array.from(row.cells, (cell) => cell.textContent)) };
  }

  // ---- what is done
  let awaited = 0;
  function show(side, percent) {
    if (!sides[side]) return;
    state = regionsAt(side, Math.max(percent, sides[side].first));
    if (pointed) point(pointed.column, pointed.profile, true);
    element(side === "D" ? "dales" : "hills").checked = true;
    tellAll();
    paintLines();
    paintTree();
    fillTable();
    tellPointed();
  }

  function point(column, profile, isSilent = false) {
    const label = sides[state.side].labels[profile * columns + column];
    const region = label ? state.owner[label] - 1 : null, before = pointed ? pointed.region : null;
    pointed = { column, profile, region };
    if (isSilent) return;
    tellPointed();
    if (region !== before) { paintLines(); paintTree(); }
  }

  function pointAt(event) {
    const box = lines.getBoundingClientRect();
    const column = Math.floor((event.clientX - box.left) * columns / box.width);
    const profile = Math.floor((event.clientY - box.top) * profiles / box.height);
    if (column >= 0 && column < columns && profile >= 0 && profile < profiles) point(column, profile);
  }

  function moveBy(event) {
    const moves = { ArrowLeft: [-1, 0], ArrowRight: [1, 0], ArrowUp: [0, -1], ArrowDown: [0, 1] }[event.key];
    if (!moves) return;
    event.preventDefault();
    const from = pointed || { column: 0, profile: 0 };
    point(Math.min(Math.max(from.column + moves[0], 0), columns - 1), Math.min(Math.max(from.profile + moves[1], 0), profiles - 1));
  }

  const soon = (work) => { cancelAnimationFrame(awaited); awaited = requestAnimationFrame(work); };
  const chosenSide = () => (element("hills").checked ? "H" : "D");
  const percentNow = () => (state ? state.percent : 5000);

  function listen() {
    lines.addEventListener("pointermove", pointAt);
    lines.addEventListener("pointerdown", pointAt);
    element("stage").addEventListener("keydown", moveBy);
    element("slider").addEventListener("input", () => { const to = Number(element("slider").value) * 100; soon(() => show(chosenSide(), to)); });
    element("percent").addEventListener("change", () => {
      const percent = percentOf(element("percent").value);
      element("percent").setAttribute("aria-invalid", String(percent === null));
      if (percent !== null) show(chosenSide(), percent);
    });
    for (const id of ["dales", "hills"]) element(id).addEventListener("change", () => show(chosenSide(), percentNow()));
    element("borders").addEventListener("change", paintLines);
    window.addEventListener("resize", () => soon(() => { paintMap(); show(state.side, state.percent); }));
  }

  // What stands after # in the address: dales=5% or hills=2.5%, point=COLUMN,PROFILE, and states=D5,H20 for a dump of each.
  function applyAddress() {
    const asked = new URLSearchParams(location.hash.slice(1).replace(/%/g, ""));
    const side = asked.has("hills") || !sides.D ? "H" : "D";
    const place = /^(\d+),(\d+)$/.exec(asked.get("point") || "");
    if (place && place[1] < columns && place[2] < profiles) pointed = { column: Number(place[1]), profile: Number(place[2]), region: null };
    show(side, percentOf(asked.get("hills") ?? asked.get("dales") ?? "5") ?? 5000);
    if (!asked.has("states")) return;
    const states = asked.get("states").split(",").map((text) => { show(text[0], percentOf(text.slice(1))); return told(); });
    element("state").textContent = JSON.stringify(states);
  }

  for (const hidden of document.querySelectorAll(".needs-script")) hidden.hidden = false;
  for (const side of ["D", "H"]) if (!sides[side]) element(side === "D" ? "dales" : "hills").disabled = true;
  paintMap();
  if (sides.D || sides.H) {
    listen();
    applyAddress();
    window.addEventListener("hashchange", applyAddress);
  } else element("left-out").textContent = `More than ${data.most} regions are kept at 100%; this page leaves all out.`;
})();
