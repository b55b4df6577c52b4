"use strict";
// Boxes recolour a method, pointing tells the rule, and the slider shows each front. Without this script the page shows the
// basics at the `requires`, the lanes and the last state.
const basics = ["const", "mover", "atomic", "cmpd", "error"];
const valueOf = (tree, held) => typeof tree === "number" ? basics[tree] : valueOf(held[tree[0]] ? tree[1] : tree[2], held);

function recolour(form) {
  const held = [...form.querySelectorAll("input")].map(box => box.checked);
  for (const part of form.closest(".method").querySelectorAll("[data-t]")) {
    const basic = valueOf(trees[part.dataset.t], held);
    part.classList.remove(...basics);
    part.classList.add(basic);
    if (part.classList.contains("b")) part.textContent = basic;
  }
}

// The boxes of a method, made of the names of its locks.
function build(form) {
  const add = (parent, name, words, kind) => {
    const made = document.createElement(name);
    if (words) made.textContent = words;
    if (kind) made.className = kind;
    parent.append(made);
    return made;
  };
  add(form, "span", "where the caller holds ", "lead");
  for (const name of form.dataset.boxes.split(" ")) {
    const required = name.endsWith("*"), label = add(form, "label", "", required ? "required" : ""), box = add(label, "input");
    box.type = "checkbox";
    box.checked = box.disabled = required;
    add(label, "code", required ? name.slice(0, -1) : name);
  }
  add(form, "span", " it is ", "lead");
  const shown = add(form, "output", form.dataset.b, "b " + form.dataset.b);
  if (form.dataset.t) shown.dataset.t = form.dataset.t;
  form.removeAttribute("data-t");
  form.classList.add("built");
}

function heldBoxes(part) {
  const boxes = part.closest(".method")?.querySelectorAll(".boxes input:checked:not(:disabled)") ?? [];
  return [...boxes].map(box => box.parentNode.textContent);
}

const panel = document.getElementById("panel");

function paragraph(words) {
  const made = document.createElement("p");
  made.textContent = words;
  return made;
}

// The words of a title: the basic at the `requires`, what the part is, what is held, and the program's tree of it.
function tell(part) {
  document.querySelectorAll(".now.s, .now.p").forEach(other => other.classList.remove("now"));
  part.classList.add("now");
  if (part.title) { part.dataset.said = part.title; part.removeAttribute("title"); }
  const [, what, held, tree] = (part.dataset.said ?? said[part.dataset.w]).split("\n");
  const basic = paragraph(basics.find(name => part.classList.contains(name)));
  basic.className = "b " + basic.textContent;
  const caller = heldBoxes(part);
  const inside = [basic, paragraph(what), paragraph(held + (caller.length ? "; by the caller: " + caller.join(", ") : ""))];
  if (tree) { const shown = document.createElement("samp"); shown.textContent = tree; inside.push(shown); }
  panel.replaceChildren(...inside);
}

const PARTS = "[title], [data-said], [data-w]";

if (panel) {
  const listing = document.querySelector(".listing");
  for (const kind of ["mouseover", "click"]) listing.addEventListener(kind, event => {
    const part = event.target.closest(PARTS);
    if (part) tell(part);
  });
  listing.addEventListener("change", event => recolour(event.target.closest(".boxes")));
  listing.addEventListener("keydown", event => {
    const step = { ArrowRight: 1, ArrowLeft: -1 }[event.key];
    if (!step || event.target !== listing) return;
    const parts = [...listing.querySelectorAll(PARTS)];
    const at = parts.findIndex(part => part.classList.contains("now"));
    const next = parts[at < 0 ? 0 : Math.max(0, Math.min(parts.length - 1, at + step))];
    if (next) { tell(next); next.scrollIntoView({ block: "nearest" }); event.preventDefault(); }
  });
  // Boxes are made as their methods come into sight.
  const watch = new IntersectionObserver(seen => seen.filter(one => one.isIntersecting).forEach(one => {
    watch.unobserve(one.target);
    one.target.querySelectorAll(".boxes:not(.built)").forEach(build);
  }), { rootMargin: "600px" });
  const chunks = listing.querySelectorAll(".chunk");
  for (const part of chunks.length ? chunks : [listing]) watch.observe(part);
}

document.documentElement.classList.add("live");

// The slider: the state after so many columns, as the program wrote it.
const slider = document.getElementById("front");

// Behind a tab stands the source's line at which a thread stands, which is the page's own reading.
function listOf(kinds, now, before) {
  const list = document.createElement("ul");
  for (const line of now.filter(line => kinds.some(kind => line.startsWith(kind)))) {
    const item = document.createElement("li"), shown = document.createElement("samp");
    const [words, where] = line.split("\t");
    shown.textContent = words;
    item.classList.toggle("changed", !before.includes(line));
    item.append(shown);
    if (where) item.append(" ", Object.assign(document.createElement("small"), { textContent: where }));
    list.append(item);
  }
  return list;
}

// A line of the source, without the numbers of steps.
function lineText(number) {
  const line = document.querySelector(`#L${number} code`)?.cloneNode(true);
  line?.querySelectorAll(".step").forEach(step => step.remove());
  return line ? line.textContent.trim() : "";
}

// Scrolls lanes so far that the last of these cells that isn't folded away can be seen.
function bringUp(lanes, cells) {
  const cell = cells.reverse().find(one => one.offsetWidth > 0);
  if (cell) lanes.scrollLeft = Math.min(Math.max(lanes.scrollLeft, cell.offsetLeft + cell.offsetWidth - lanes.clientWidth + 40), cell.offsetLeft - 120);
}

function showFront(order, front, follow) {
  const run = runs.orders[order];
  const at = place => run.states[Math.max(0, place)].map(number => runs.lines[number]);
  const groups = document.querySelectorAll("#state section");
  [["object ", "lock "], ["thread "], ["print "]].forEach((words, k) =>
    groups[k].querySelector("ul").replaceWith(listOf(words, at(front), at(front - 1))));
  for (const lanes of document.querySelectorAll(".lanes")) {
    const shown = Number(lanes.dataset.order) === order, cells = [...lanes.querySelectorAll(".cell")];
    for (const cell of cells) {
      cell.classList.toggle("after-now", shown && Number(cell.dataset.k) >= front);
      cell.classList.toggle("now", shown && Number(cell.dataset.k) === front - 1);
    }
    if (shown && follow) bringUp(lanes, cells.filter(cell => Number(cell.dataset.k) < front));
  }
  const step = run.steps[front - 1];
  document.getElementById("where").textContent = step ? `${run.bounds[front]} entries: thread ${step[0]}, line ${step[1]}: ${lineText(step[1])}` : "no entry";
}

if (slider) {
  let order = 0;
  const fold = document.querySelector("[data-fold]");
  const foldLanes = () => document.querySelectorAll(".lanes").forEach(lanes => lanes.classList.toggle("folded", fold.getAttribute("aria-pressed") === "true"));
  const show = follow => showFront(order, Number(slider.value), follow);
  slider.addEventListener("input", () => show(true));
  for (const button of document.querySelectorAll(".slider button")) button.addEventListener("click", () => {
    if (button === fold) {
      fold.setAttribute("aria-pressed", fold.getAttribute("aria-pressed") !== "true");
      foldLanes();
    }
    if (button.dataset.go) slider.value = Number(slider.value) + Number(button.dataset.go);
    if (button.dataset.show) {
      order = Number(button.dataset.show);
      slider.max = runs.orders[order].steps.length;
      for (const other of document.querySelectorAll("[data-show]")) other.setAttribute("aria-pressed", other === button);
    }
    show(true);
  });
  for (const lanes of document.querySelectorAll(".lanes")) lanes.addEventListener("click", event => {
    const cell = event.target.closest(".cell");
    if (!cell) return;
    document.querySelector(`[data-show="${lanes.dataset.order}"]`)?.click();
    slider.value = Number(cell.dataset.k) + 1;
    show(false);
  });
  foldLanes();
  show(Number(slider.value) < Number(slider.max));
}
