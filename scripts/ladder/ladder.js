// The ladder's pages: a link's token joins, the table updates itself, own robots are marked, and a file may be dropped.
"use strict";

const POLL = 2000, FILM = 25000, OFTEN = 120000;
const at = document.querySelector("main").dataset.at;
const own = () => new Set((document.getElementById("own")?.dataset.own ?? "").split(" ").filter(Boolean));

/** Marks the rows of one's own robots. */
function mark() {
  const mine = own();
  for (const link of document.querySelectorAll("[data-robot]"))
    link.closest("tr")?.classList.toggle("own", mine.has(link.dataset.robot));
}

/** Joins by the token behind '#', which is taken out of the address at once. */
function join() {
  const form = document.querySelector("form.join");
  const token = location.hash.slice(1);
  if (!form || !token) return;
  history.replaceState(null, "", location.pathname);
  form.elements.token.value = token;
  form.submit();
}

/** Fetches the table when its tag is another one. */
async function poll(place, tag) {
  let now = tag;
  try {
    const answer = await fetch(`${at}tag`);
    now = answer.ok ? await answer.text() : tag;
    if (now !== tag) {
      place.innerHTML = await (await fetch(`${at}table`)).text();
      mark();
    }
    place.classList.remove("stale");
  } catch {
    place.classList.add("stale");
  }
  setTimeout(poll, POLL, place, now);
}

/** Shows films one after the other. Now and then the page is loaded anew, for the last battles. */
function show(frame) {
  const films = frame.dataset.films.split(" ").filter(Boolean);
  let next = 0;
  const turn = () => { if (films.length) frame.src = films[next++ % films.length]; };
  turn();
  setInterval(turn, FILM);
  setTimeout(() => location.reload(), OFTEN);
}

/** Refuses a file that has more bytes than are taken, before it is sent: a server that refuses it may close before it was read. */
function limit({file, source}) {
  file.addEventListener("change", () => {
    const size = file.files[0]?.size ?? 0;
    file.setCustomValidity(size > source.maxLength ? `This file has ${size} bytes, and ${source.maxLength} are taken.` : "");
    file.reportValidity();
  });
}

/** Takes a file that is dropped on the form. */
function drop(form) {
  form.addEventListener("dragover", (event) => { event.preventDefault(); form.classList.add("dropping"); });
  form.addEventListener("dragleave", () => form.classList.remove("dropping"));
  form.addEventListener("drop", (event) => {
    event.preventDefault();
    form.classList.remove("dropping");
    form.elements.file.files = event.dataTransfer.files;
    form.elements.file.dispatchEvent(new Event("change"));
  });
}

join();
mark();
const table = document.getElementById("table"), frame = document.getElementById("film"), form = document.querySelector("form.hand-in");
if (table) poll(table, "");
if (frame) show(frame);
if (form) {
  limit(form.elements);
  drop(form);
}
