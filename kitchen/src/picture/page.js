"use strict";
const slider = document.getElementById("now");
const svg = document.querySelector("svg");
const line = document.createElementNS("http://www.w3.org/2000/svg", "line");
line.setAttribute("y1", day.top);
line.setAttribute("y2", day.bottom);
line.setAttribute("stroke", "#b00020");
line.setAttribute("stroke-width", "2");
svg.append(line);

// A step has come to a moment that is there and not behind this one.
const reached = (moment, now) => moment !== null && moment <= now;

function show(moment) {
  const now = Math.max(0, Math.min(day.moments.length - 1, moment));
  slider.value = now;
  const { x, told } = day.moments[now];
  line.setAttribute("x1", x);
  line.setAttribute("x2", x);
  document.getElementById("told").textContent = told;
  const lists = { waiting: [], booked: [], running: [], ended: [] };
  for (const [label, booked, started, ended] of day.steps) {
    const list = reached(ended, now) ? lists.ended
      : reached(started, now) ? lists.running
      : reached(booked, now) ? lists.booked
      : lists.waiting;
    list.push(label);
  }
  for (const [id, labels] of Object.entries(lists)) {
    document.getElementById(id).textContent = labels.join(", ");
  }
}

slider.addEventListener("input", () => show(Number(slider.value)));
document.getElementById("back").addEventListener("click", () => show(Number(slider.value) - 1));
document.getElementById("on").addEventListener("click", () => show(Number(slider.value) + 1));
document.addEventListener("keydown", (event) => {
  const moves = { ArrowLeft: -1, ArrowRight: 1, Home: -Infinity, End: Infinity };
  if (event.key in moves) {
    event.preventDefault();
    show(Number(slider.value) + moves[event.key]);
  }
});
show(0);
