"use strict";
(function () {
  const svg = document.getElementById("picture"), lines = document.getElementById("lines"), where = document.getElementById("where");
  const gutter = +svg.dataset.gutter, margin = +svg.dataset.margin, first = +svg.dataset.first, behind = +svg.dataset.behind;
  const ground = document.getElementById("ground"), clip = document.getElementById("clip"), axis = document.getElementById("axis");
  const boxes = [], marks = [], texts = [], wide = Array.from(svg.querySelectorAll(".wide"));
  for (const node of svg.querySelectorAll("[data-a]")) {
    const item = { node, a: +node.dataset.a, b: node.dataset.b === undefined ? NaN : +node.dataset.b };
    (node.tagName === "use" || node.tagName === "line" ? marks : node.tagName === "text" ? texts : boxes).push(item);
  }
  const arrivals = marks.filter(m => m.node.classList.contains("arrival")).sort((x, y) => x.a - y.a);
  const least = 8;
  // The picture is laid out by places: a unit is its own place, or, where idle stretches are folded, one of `bends`.
  let bends = null, start = first, whole = Math.max(least, behind - first), from = first, span = whole, width = 0, due = false;

  function along(value, one, other) {
    if (!bends) return value;
    let low = 0, high = bends.length - 1;
    while (high - low > 1) { const at = (low + high) >> 1; if (bends[at][one] <= value) low = at; else high = at; }
    const a = bends[low], b = bends[high], length = b[one] - a[one];
    return a[other] + (length ? (value - a[one]) * (b[other] - a[other]) / length : 0);
  }
  function place(unit) { return along(unit, 0, 1); }
  function unitOf(place) { return along(place, 1, 0); }

  // The stretches in which nobody runs, waits or is preempted.
  function idleStretches() {
    const busy = boxes.filter(box => /^(run|preempted|waiting|own)$/.test(box.node.getAttribute("class"))).sort((p, q) => p.a - q.a);
    const found = [];
    let at = first;
    for (const box of busy.concat([{ a: behind, b: behind }])) {
      if (box.a > at) found.push([at, box.a]);
      at = Math.max(at, box.b);
    }
    return found;
  }
  function fold() {
    const middle = unitOf(from + span / 2), all = span >= whole;
    if (bends) bends = null;
    else {
      const idle = idleStretches(), total = behind - first - idle.reduce((sum, s) => sum + s[1] - s[0], 0);
      const short = Math.max(6, Math.ceil(total / (4 * Math.max(1, idle.length))));
      const found = [[first, 0, false]];
      let saved = 0;
      for (const [a, b] of idle) if (b - a > 3 * short) {
        found.push([a, a - first - saved, true]);
        saved += b - a - short;
        found.push([b, b - first - saved, false]);
      }
      found.push([behind, behind - first - saved, false]);
      bends = found;
    }
    start = place(first);
    whole = Math.max(least, place(behind) - start);
    if (all) show(start, whole); else show(place(middle) - span / 2, span);
    document.getElementById("fold").setAttribute("aria-pressed", String(bends !== null));
  }

  function digits(n) { return String(n).replace(/\B(?=(\d{3})+$)/g, " "); }
  function milliseconds(u) { return String(u / 1000); }
  function x(unit) { return gutter + (place(unit) - from) * (width - gutter - margin) / span; }
  function tick(unit, top, height) {
    const at = x(unit).toFixed(1);
    return `<line class="grid" x1="${at}" x2="${at}" y1="${top}" y2="${height}"/><text x="${at}" y="${height + 15}" text-anchor="middle">${digits(unit)}</text>` +
      `<text class="faint" x="${at}" y="${height + 30}" text-anchor="middle">${milliseconds(unit)} ms</text>`;
  }
  // Where idle stretches are folded: these, and a number where each of the others begins, as far as there is room.
  function drawFolds(top, height) {
    let out = "", last = -1e9;
    for (let i = 0; i + 1 < bends.length; i++) {
      const a = bends[i][0], b = bends[i + 1][0], left = Math.max(x(a), gutter), right = Math.min(x(b), width - margin);
      if (right < left) continue;
      if (bends[i][2]) out += `<rect class="folded" x="${left.toFixed(1)}" width="${(right - left).toFixed(1)}" y="${top}" height="${height - top}"><title>idle: units ${a} to ${b - 1} (${b - a})</title></rect>`;
      else if (x(a) >= gutter - 1 && x(a) - last > 95) { out += tick(a, top, height); last = x(a); }
    }
    return out;
  }

  function drawAxis() {
    const height = +axis.dataset.y, top = +axis.dataset.top, most = Math.max(2, Math.floor((width - gutter - margin) / 95));
    const a = unitOf(from), b = unitOf(from + span);
    let step = 1, out = bends ? drawFolds(top, height) : "";
    while ((b - a) / step > most) step *= String(step)[0] === "2" ? 2.5 : 2;
    // Folded stretches have ticks of their own, unless none is in sight.
    if (!bends || !bends.some(bend => bend[0] > a && bend[0] < b)) for (let u = Math.ceil(a / step) * step; u <= b; u += step) out += tick(u, top, height);
    axis.innerHTML = out;
  }

  function draw() {
    due = false;
    const now = Math.max(320, svg.parentNode.clientWidth), low = unitOf(from), to = unitOf(from + span);
    if (now !== width) {
      width = now;
      svg.setAttribute("width", width);
      ground.setAttribute("width", width - gutter - margin);
      clip.setAttribute("width", width - gutter - margin + 10);
      for (const node of wide) node.setAttribute("x2", width - margin);
    }
    for (const { node, a, b } of boxes) {
      const on = b > low && a < to;
      node.style.display = on ? "" : "none";
      if (!on) continue;
      const left = Math.max(x(a), gutter - 20), right = Math.min(x(b), width + 20);
      node.setAttribute("x", left.toFixed(2));
      node.setAttribute("width", Math.max(0.8, right - left).toFixed(2));
    }
    for (const { node, a } of marks) {
      const on = a >= low && a <= to;
      node.style.display = on ? "" : "none";
      if (!on) continue;
      if (node.tagName === "line") { node.setAttribute("x1", x(a)); node.setAttribute("x2", x(a)); }
      else node.setAttribute("x", x(a).toFixed(2));
    }
    for (const { node, a, b } of texts) {
      const left = Math.max(x(a), gutter), right = Math.min(x(b), width - margin);
      const on = right - left > node.textContent.length * 6.3 + 6;
      node.style.display = on ? "" : "none";
      if (on) node.setAttribute("x", ((left + right) / 2).toFixed(1));
    }
    drawAxis();
    where.textContent = "units " + digits(Math.round(low)) + " to " + digits(Math.round(to)) + " (" + milliseconds(Math.round(to - low)) + " ms)";
  }

  function show(a, n) {
    span = Math.min(whole, Math.max(least, n));
    from = Math.min(Math.max(a, start), start + whole - span);
    if (!due) { due = true; requestAnimationFrame(draw); }
  }
  function zoom(factor, at) {
    const next = Math.min(whole, Math.max(least, span * factor));
    show(at - (at - from) * next / span, next);
  }
  function unitAt(event) {
    const inside = event.clientX - svg.getBoundingClientRect().left;
    return from + (Math.max(inside, gutter) - gutter) * span / (width - gutter - margin);
  }
  // The next or previous release; one that would be too small to be seen is shown larger.
  function step(forward) {
    const middle = span < whole ? from + span / 2 : forward ? start - 1 : start + whole + 1, slack = span * 1e-6;
    const next = forward ? arrivals.find(m => place(m.a) > middle + slack) : arrivals.filter(m => place(m.a) < middle - slack).pop();
    if (!next) return;
    const length = place(next.b) - place(next.a), room = length * 40 < span ? Math.max(40, length * 6) : span;
    show(place(next.a) - room / 2, room);
    tell(next.node);
  }

  svg.addEventListener("wheel", event => {
    if (event.clientX - svg.getBoundingClientRect().left < gutter) return;
    event.preventDefault();
    if (event.shiftKey || Math.abs(event.deltaX) > Math.abs(event.deltaY)) show(from + (event.deltaX || event.deltaY) * span / 800, span);
    else zoom(Math.exp(Math.max(-240, Math.min(240, event.deltaY)) * 0.0025), unitAt(event));
  }, { passive: false });
  let held = null;
  svg.addEventListener("pointerdown", event => {
    if (event.button === 0) held = { x: event.clientX, from, moved: false };
  });
  addEventListener("pointermove", event => {
    if (!held) return;
    if (Math.abs(event.clientX - held.x) > 3) held.moved = true;
    if (held.moved) { svg.classList.add("held"); show(held.from - (event.clientX - held.x) * span / (width - gutter - margin), span); }
  });
  addEventListener("pointerup", () => { held = null; svg.classList.remove("held"); });
  svg.addEventListener("dblclick", event => zoom(0.4, unitAt(event)));

  const keys = {
    "+": () => zoom(0.6, from + span / 2), "=": () => zoom(0.6, from + span / 2), "-": () => zoom(1 / 0.6, from + span / 2),
    "ArrowLeft": () => show(from - span / 5, span), "ArrowRight": () => show(from + span / 5, span),
    "0": () => show(start, whole), "Home": () => show(start, span), "End": () => show(start + whole, span), "f": () => document.getElementById("fold") && fold(), "n": () => step(true), "p": () => step(false),
  };
  addEventListener("keydown", event => {
    if (event.ctrlKey || event.metaKey || event.altKey || !keys[event.key]) return;
    event.preventDefault();
    keys[event.key]();
  });
  for (const button of document.querySelectorAll("button[data-key]")) button.addEventListener("click", () => keys[button.dataset.key]());
  for (const button of document.querySelectorAll("button.see")) button.addEventListener("click", () => {
    const a = place(+button.dataset.from), b = place(+button.dataset.to), more = Math.max(4, (b - a) * 0.15);
    show(a - more, b - a + 2 * more);
    svg.scrollIntoView({ block: "nearest" });
  });

  function tell(node) {
    const title = node.querySelector("title");
    if (title) lines.textContent = title.textContent;
  }
  for (const kind of ["pointerover", "click"]) svg.addEventListener(kind, event => {
    const node = event.target.closest("[data-a]");
    if (node && !(held && held.moved)) tell(node);
  });
  // Where most of the time nobody runs, the idle stretches are folded from the beginning.
  if (document.getElementById("fold") && idleStretches().reduce((sum, s) => sum + s[1] - s[0], 0) > 0.75 * (behind - first)) fold();
  addEventListener("resize", () => { if (!due) { due = true; requestAnimationFrame(draw); } });
  draw();
})();
