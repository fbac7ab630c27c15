"use strict";
// Shows one step at a time. Without it all of them are below one another.
(function () {
  const steps = Array.from(document.querySelectorAll(".step"));
  const links = Array.from(document.querySelectorAll("nav a"));
  const slider = document.getElementById("slider");
  const said = document.getElementById("said");
  let at = 0;

  // The number in the address leads to a step without the browser's help: a step has the number as its id only where no script runs, so that
  // the browser doesn't scroll to it, and the page opens at its top.
  steps.forEach((step) => {
    step.dataset.number = step.id;
    step.removeAttribute("id");
  });

  // What a screen reader says of the step.
  function spoken(step) {
    const [reply, change] = [".reply", ".change"].map((it) => step.querySelector(it).textContent);
    const answer = step.querySelector(".answer p");
    const told = answer ? `. ${answer.textContent}` : "";
    return `Line ${step.querySelector("h2").textContent}` + (reply ? `, reply ${reply}` : "") + (change ? `: ${change}` : "") + told;
  }

  // Marks the step's line in the list, and scrolls the list alone, so that the line is in the window.
  function mark(step) {
    for (const link of links) {
      const isNow = link.hash === `#${step.dataset.number}`;
      link.classList.toggle("now", isNow);
      if (isNow) {
        link.setAttribute("aria-current", "step");
        const list = link.closest("nav");
        const [line, box] = [link, list].map((it) => it.getBoundingClientRect());
        const [top, bottom] = [Math.max(box.top, 0), Math.min(box.bottom, window.innerHeight)];
        if (line.top < top || line.bottom > bottom) {
          list.scrollTop += (line.top + line.bottom - top - bottom) / 2;
        }
      } else {
        link.removeAttribute("aria-current");
      }
    }
  }

  // On a large window a figure ends with the window, so that what it shows is in sight. A small one has its bound in the style.
  function bound(figure) {
    const isLarge = window.matchMedia("(min-width: 50rem)").matches;
    const top = figure.getBoundingClientRect().top + window.scrollY;
    figure.style.maxHeight = isLarge ? `${Math.max(240, window.innerHeight - top - 16)}px` : "";
  }

  // Scrolls the figure in its box to what the line names, as far as all of that fits in, and else to the line's own worker.
  function look(step) {
    const figure = step.querySelector("figure");
    if (!figure) {
      return;
    }
    bound(figure);
    const boxes = (which) => Array.from(step.querySelectorAll(which)).map((it) => it.getBoundingClientRect());
    const named = boxes("svg .n.bold, svg .l.bold, svg .n.red, svg .l.red");
    const own = boxes("svg .n.own");
    if (named.length === 0) {
      return;
    }
    const box = figure.getBoundingClientRect();
    for (const [side, end, scroll, size] of [["left", "right", "scrollLeft", "clientWidth"], ["top", "bottom", "scrollTop", "clientHeight"]]) {
      const room = figure[size];
      const reach = (all) => [Math.min(...all.map((it) => it[side])) - box[side], Math.max(...all.map((it) => it[end])) - box[side]];
      const [first, last] = reach(named);
      const [from, to] = last - first <= room || own.length === 0 ? [first, last] : reach(own);
      figure[scroll] += to - from <= room ? (from + to - room) / 2 : from;
    }
  }

  // Shows the step in this place, if there is one, and no other.
  function show(place) {
    if (place < 0 || place >= steps.length) {
      return;
    }
    at = place;
    steps.forEach((step, other) => step.classList.toggle("now", other === at));
    slider.value = String(at);
    slider.setAttribute("aria-valuetext", spoken(steps[at]));
    said.textContent = spoken(steps[at]);
    mark(steps[at]);
    look(steps[at]);
    if (document.readyState === "complete") {
      history.replaceState(null, "", `#${steps[at].dataset.number}`);
    }
  }

  const isDenied = (step) => step.classList.contains("denied") || step.classList.contains("refused");

  // The place of the step that the address names. Otherwise it is that of the first that was denied or refused, or of the last step.
  function named() {
    const place = steps.findIndex((step) => `#${step.dataset.number}` === location.hash);
    const denied = steps.findIndex(isDenied);
    return place >= 0 ? place : denied >= 0 ? denied : steps.length - 1;
  }

  // The place of the next line that was denied or refused, beginning anew after the last one.
  function nextDenial() {
    const later = steps.findIndex((step, place) => place > at && isDenied(step));
    return later < 0 ? steps.findIndex(isDenied) : later;
  }

  const keys = {
    ArrowLeft: () => show(at - 1),
    ArrowRight: () => show(at + 1),
    Home: () => show(0),
    End: () => show(steps.length - 1),
    d: () => show(nextDenial()),
  };

  document.addEventListener("keydown", (event) => {
    const isMine = event.target === slider && event.key !== "d";
    if (isMine || event.ctrlKey || event.altKey || event.metaKey || !Object.hasOwn(keys, event.key)) {
      return;
    }
    event.preventDefault();
    keys[event.key]();
  });
  slider.addEventListener("input", () => show(Number(slider.value)));
  document.getElementById("previous").addEventListener("click", () => show(at - 1));
  document.getElementById("next").addEventListener("click", () => show(at + 1));
  document.getElementById("denial").addEventListener("click", () => show(nextDenial()));
  // A picture fits its window, until its reader asks for its full size.
  const size = document.getElementById("size");
  size.addEventListener("click", () => {
    const isLarge = document.documentElement.classList.toggle("large");
    size.setAttribute("aria-pressed", String(isLarge));
    look(steps[at]);
  });
  window.addEventListener("hashchange", () => show(named()));

  // A click on a line keeps the page where it is.
  links.forEach((link) => link.addEventListener("click", (event) => {
    event.preventDefault();
    show(steps.findIndex((step) => `#${step.dataset.number}` === link.hash));
  }));

  document.documentElement.classList.add("stepped");
  show(named());
})();
