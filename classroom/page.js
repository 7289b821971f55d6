// The page of a tape: pointing at a clock of a line by mouse, finger or keyboard, and the switch between the two views.
"use strict";
(() => {
  const given = JSON.parse(document.getElementById("given").textContent);
  const lines = Array.from(document.querySelectorAll(".line"));
  const picture = document.getElementById("picture");
  const beam = document.getElementById("beam");
  const says = document.getElementById("says");
  const view = document.getElementById("view");
  const rowsRun = lines.filter((line) => "runs" in line.dataset).length;
  const place = { row: -1, clock: -1, shown: [] };
  const cursors = { strip: cursor(), picture: cursor(), scales: [] };
  let mouse = "";

  // An element that shows the place pointed at.
  function cursor() {
    const element = document.createElement("div");
    element.className = "cursor";
    return element;
  }

  // The object byte and the colour byte of a column of a line that was run.
  function bytesAt(line, column) {
    const runs = line.dataset.runs;
    let end = 0;
    for (let at = 0; at < runs.length; at += 6) {
      const [objects, colour, length] = [0, 2, 4].map((digit) => parseInt(runs.slice(at + digit, at + digit + 2), 16));
      end += length;
      if (column < end) {
        return { objects, colour };
      }
    }
    throw new Error(`no column ${column}`);
  }

  // The marks of a line's writes at a clock.
  function marksAt(line, clock) {
    return Array.from(line.querySelectorAll(".marks i")).filter((mark) => clockOf(mark) === clock);
  }

  // The clock of a mark.
  function clockOf(mark) {
    return Number(mark.style.getPropertyValue("--c"));
  }

  // The objects that an object byte lights, in words.
  function litWords(byte) {
    if (byte & given.unshown) {
      return "blanked";
    }
    return given.objects.filter((_, bit) => (byte >> bit) & 1).join(" ") || "nothing";
  }

  // A cell of what pointing says: a caption, unless it is empty, and a value, with a swatch of a colour where one is given.
  function cell(kind, caption, value, colour) {
    const element = document.createElement("span");
    element.className = `cell ${kind}`;
    element.append(part("caption", caption), " ", part("value", value), " ");
    if (colour) {
      const swatch = part("swatch", "");
      swatch.style.background = `#${colour}`;
      element.lastElementChild.prepend(swatch, " ");
    }
    return element;
  }

  // A span of a class with a text.
  function part(kind, text) {
    const element = document.createElement("span");
    element.className = kind;
    element.textContent = text;
    return element;
  }

  // The cells for a clock of a line: what the column shows, or why there is none.
  function columnCells(line, clock) {
    if (clock >= given.clocks) {
      return [cell("whole", "", "past the line's end")];
    }
    if (clock < given.blank) {
      return [cell("whole", "", "horizontal blank")];
    }
    const column = clock - given.blank;
    if (!("runs" in line.dataset)) {
      return [cell("", "column", column), cell("whole", "", "not run")];
    }
    const bytes = bytesAt(line, column);
    const isBlanked = bytes.objects & given.unshown;
    const colour = isBlanked ? given.black : given.palette[bytes.colour >> 1];
    return [
      cell("", "column", column),
      cell("lit", "lit", litWords(bytes.objects)),
      cell("colour", "colour", `$${bytes.colour.toString(16).toUpperCase().padStart(2, "0")}`, colour),
    ];
  }

  // Points at a clock of a line, by its row among the lines shown: says it and shows it in every view.
  function point(row, clock) {
    if (row === place.row && clock === place.clock) {
      return;
    }
    place.shown.forEach((element) => element.classList.remove("pointed", "here"));
    const line = lines[row];
    const marks = marksAt(line, clock);
    Object.assign(place, { row, clock, shown: [line, ...marks] });
    line.classList.add("pointed");
    marks.forEach((mark) => mark.classList.add("here"));
    const cells = [cell("", "line", line.id.replace("line-", "")), cell("", "clock", clock), ...columnCells(line, clock)];
    if (marks.length > 0) {
      cells.push(cell("write", "write", marks.map((mark) => mark.textContent).join(", ")));
    }
    says.replaceChildren(...cells);
    showCursors(line, row, clock);
  }

  // Puts the cursors at a clock of a line.
  function showCursors(line, row, clock) {
    line.querySelector(".strip").append(cursors.strip);
    cursors.strip.hidden = clock >= given.clocks;
    cursors.strip.style.setProperty("--c", clock);
    cursors.scales.forEach((element, at) => {
      element.hidden = clock < at * given.blank || clock >= given.clocks;
      element.style.setProperty("--c", clock);
    });
    cursors.picture.hidden = clock < given.blank || clock >= given.clocks || row >= rowsRun;
    cursors.picture.style.setProperty("--c", clock);
    cursors.picture.style.setProperty("--n", row);
  }

  // The part of an element's width or height, counted in so many equal steps, at which a position stands.
  function step(position, start, size, steps) {
    return Math.min(steps - 1, Math.max(0, Math.floor(((position - start) / size) * steps)));
  }

  // Points where the mouse or a finger is; a mouse that has not moved says nothing, whatever scrolls below it.
  function follow(event) {
    const position = `${event.clientX} ${event.clientY}`;
    if (event.type === "pointermove" && position === mouse) {
      return;
    }
    mouse = position;
    if (event.currentTarget === picture) {
      const box = picture.getBoundingClientRect();
      const column = step(event.clientX, box.left, box.width, given.columns);
      point(step(event.clientY, box.top, box.height, rowsRun), given.blank + column);
      return;
    }
    const line = event.target.closest(".line");
    if (line === null) {
      return;
    }
    const mark = event.target.closest(".marks i");
    const strip = event.target.closest(".strip, .marks");
    if (mark !== null) {
      point(lines.indexOf(line), clockOf(mark));
    } else if (strip !== null) {
      const box = strip.getBoundingClientRect();
      point(lines.indexOf(line), step(event.clientX, box.left, box.width, given.clocks));
    }
  }

  // The place to which a key moves; nothing for any other key.
  function moved(key) {
    const { row, clock } = place;
    const places = {
      ArrowLeft: [row, clock - 1],
      ArrowRight: [row, clock + 1],
      ArrowUp: [row - 1, clock],
      ArrowDown: [row + 1, clock],
      PageUp: [row - 10, clock],
      PageDown: [row + 10, clock],
      Home: [row, 0],
      End: [row, given.clocks - 1],
    };
    return Object.prototype.hasOwnProperty.call(places, key) ? places[key] : null;
  }

  // Moves the place pointed at by a key, in the picture among the lines run, and keeps it in sight.
  function press(event) {
    const to = event.altKey || event.ctrlKey || event.metaKey ? null : moved(event.key);
    if (to === null) {
      return;
    }
    event.preventDefault();
    const rows = event.currentTarget === picture ? rowsRun : lines.length;
    const [row, clock] = to;
    point(Math.min(rows - 1, Math.max(0, row)), Math.min(given.clocks - 1, Math.max(0, clock)));
    if (event.currentTarget === beam) {
      lines[place.row].scrollIntoView({ block: "nearest" });
    }
  }

  // Begins at column 0 of the first line where nothing has been pointed at.
  function begin() {
    if (place.row < 0) {
      point(0, given.blank);
    }
  }

  // Says on the button which view is shown.
  function nameView() {
    const [shown, other] = document.body.classList.contains("television") ? ["television", "objects"] : ["objects", "television"];
    view.setAttribute("aria-label", `View: ${shown}. Switch to ${other}.`);
  }

  // Switches to the other view.
  function switchView() {
    document.body.classList.toggle("television");
    document.body.classList.toggle("objects");
    nameView();
  }

  document.querySelectorAll(".ruler .scale").forEach((scale) => {
    const element = cursor();
    element.hidden = true;
    scale.append(element);
    cursors.scales.push(element);
  });
  [picture, beam].filter(Boolean).forEach((element) => {
    element.addEventListener("pointermove", follow);
    element.addEventListener("pointerdown", follow);
    element.addEventListener("keydown", press);
    element.addEventListener("focus", () => element.matches(":focus-visible") && begin());
  });
  if (picture) {
    cursors.picture.hidden = true;
    picture.append(cursors.picture);
  }
  view.addEventListener("click", switchView);
  document.addEventListener("keydown", (event) => {
    if (event.key.toLowerCase() === "v" && picture && !event.altKey && !event.ctrlKey && !event.metaKey) {
      switchView();
    }
  });
  nameView();
})();
