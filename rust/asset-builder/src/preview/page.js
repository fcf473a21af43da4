"use strict";
(() => {
  // The words of a row, in the order of the library's table, then what is shown of it.
  const KIND = 0, FIRST = 1, LENGTH = 2, CHILDREN = 3, PARENT = 4, DETAIL = 5, ROWS = 6;
  const NAME = 7, VALUE = 8, NOTE = 9, PADDING = 10;
  const REFERENCE = 36;
  // So many rows are shown at once below a value.
  const CHUNK = 200;
  const LINE = 16, LINE_HEIGHT = 20;

  const count = (number) => number.toLocaleString("en-US");
  const counted = (number, one, many) => `${count(number)} ${number === 1 ? one : many}`;
  const hex = (number, width) => number.toString(16).toUpperCase().padStart(width, "0");

  function element(tag, className, text) {
    const made = document.createElement(tag);
    if (className) made.className = className;
    if (text !== undefined) made.textContent = text;
    return made;
  }

  function bytesOf(text) {
    const raw = atob(text);
    const bytes = new Uint8Array(raw.length);
    for (let at = 0; at < raw.length; at++) bytes[at] = raw.charCodeAt(at);
    return bytes;
  }

  /// The bytes of a file, of which those on the screen are there as elements.
  class Bytes {
    constructor(place, data, choose) {
      this.place = place;
      this.bytes = bytesOf(data.bytes);
      this.length = data.length;
      this.lit = [0, 0];
      this.sizer = element("div", "sizer");
      this.lines = element("div", "lines");
      this.sizer.append(this.lines);
      place.append(this.sizer);
      this.total = Math.max(1, Math.ceil(this.bytes.length / LINE));
      const cut = this.bytes.length < this.length;
      this.sizer.style.height = `${(this.total + (cut ? 1 : 0)) * LINE_HEIGHT}px`;
      place.addEventListener("scroll", () => this.draw(), { passive: true });
      new ResizeObserver(() => this.draw()).observe(place);
      this.lines.addEventListener("click", (event) => {
        const at = event.target.dataset ? event.target.dataset.at : undefined;
        if (at !== undefined) choose(Number(at));
      });
      this.draw();
    }

    light(first, length) {
      this.lit = [first, first + length];
      const top = Math.floor(first / LINE) * LINE_HEIGHT;
      const { scrollTop, clientHeight } = this.place;
      if (top < scrollTop || top + LINE_HEIGHT > scrollTop + clientHeight) {
        this.place.scrollTop = Math.max(0, top - 3 * LINE_HEIGHT);
      }
      this.draw();
    }

    draw() {
      const start = Math.max(0, Math.floor(this.place.scrollTop / LINE_HEIGHT) - 8);
      const end = Math.min(this.total, start + Math.ceil(this.place.clientHeight / LINE_HEIGHT) + 16);
      const lines = document.createDocumentFragment();
      for (let line = start; line < end; line++) lines.append(this.line(line));
      if (end === this.total && this.bytes.length < this.length) {
        const left = this.length - this.bytes.length;
        lines.append(element("div", "cut", `cut here: ${counted(left, "byte", "bytes")} more in the file`));
      }
      this.lines.replaceChildren(lines);
      this.lines.style.transform = `translateY(${start * LINE_HEIGHT}px)`;
    }

    line(number) {
      const at = number * LINE;
      const line = element("div", "line");
      line.append(element("span", "offset", hex(at, 8)));
      const numbers = element("span", "numbers");
      const letters = element("span", "letters");
      const end = Math.min(at + LINE, this.bytes.length);
      for (let place = at; place < end; place++) {
        const byte = this.bytes[place];
        const isLit = place >= this.lit[0] && place < this.lit[1];
        const shown = element("span", isLit ? "lit" : "", hex(byte, 2));
        const letter = element("span", isLit ? "lit" : "", byte >= 32 && byte < 127 ? String.fromCharCode(byte) : ".");
        shown.dataset.at = letter.dataset.at = place;
        numbers.append(shown);
        letters.append(letter);
      }
      line.append(numbers, letters);
      return line;
    }
  }

  /// The values of a file as a tree. Only what is unfolded is there as elements, one behind the other.
  class Tree {
    constructor(place, data, chosen) {
      this.place = place;
      this.rows = data.rows;
      this.kinds = data.kinds;
      this.chosen = chosen;
      this.selected = null;
      this.shown = new Map();
      place.addEventListener("click", (event) => this.click(event));
      place.addEventListener("keydown", (event) => this.key(event));
      const roots = this.childrenOf(-1);
      place.append(this.part(-1, roots, 0, 1));
      const first = this.shown.get(0);
      if (first) {
        first.tabIndex = 0;
        if (this.rows[0][CHILDREN] <= CHUNK) this.unfold(first);
      }
    }

    childrenOf(row) {
      const children = [];
      const total = row < 0 ? Infinity : this.rows[row][CHILDREN];
      for (let next = row + 1; next < this.rows.length && children.length < total; next += this.rows[next][ROWS]) {
        children.push(next);
      }
      return children;
    }

    /// The elements of some children, with what is left out before and behind them.
    part(parent, children, start, level) {
      const part = document.createDocumentFragment();
      const end = Math.min(children.length, start + CHUNK);
      if (start > 0) part.append(this.more(parent, start, level, true, children.length));
      for (let at = start; at < end; at++) part.append(this.item(children[at], level, at, children.length));
      if (end < children.length) part.append(this.more(parent, end, level, false, children.length));
      return part;
    }

    item(number, level, position, siblings) {
      const row = this.rows[number];
      const item = element("div", "row");
      item.setAttribute("role", "treeitem");
      item.setAttribute("aria-level", level);
      item.setAttribute("aria-posinset", position + 1);
      item.setAttribute("aria-setsize", siblings);
      item.setAttribute("aria-selected", "false");
      item.dataset.row = number;
      item.tabIndex = -1;
      item.style.paddingInlineStart = `${(level - 1) * 1.1 + 0.25}em`;
      if (row[CHILDREN] > 0) item.setAttribute("aria-expanded", "false");
      const twist = element("span", "twist");
      twist.setAttribute("aria-hidden", "true");
      item.append(twist);
      if (row[NAME] !== null) item.append(element("span", "name", row[NAME]), " ");
      item.append(element("span", "kind", this.kinds[row[KIND]]), " ");
      if (row[VALUE] !== null) {
        const value = element("bdi", "value", row[VALUE]);
        item.append(value, " ");
      }
      if (row[NOTE] !== null) item.append(element("span", "note", row[NOTE]), " ");
      if (row[PADDING] > 0) item.append(element("span", "padded", `padded by ${counted(row[PADDING], "byte", "bytes")}`), " ");
      item.append(element("span", "place", `${count(row[FIRST])} · ${counted(row[LENGTH], "byte", "bytes")}`));
      this.shown.set(number, item);
      return item;
    }

    more(parent, at, level, before, total) {
      const left = before ? at : total - at;
      const words = before ? `${counted(left, "row", "rows")} before, not shown` : `${counted(left, "row", "rows")} more, not shown`;
      const item = element("div", "row more", `${words}: show ${count(Math.min(left, CHUNK))}`);
      item.setAttribute("role", "treeitem");
      item.setAttribute("aria-level", level);
      item.setAttribute("aria-selected", "false");
      item.tabIndex = -1;
      item.style.paddingInlineStart = `${(level - 1) * 1.1 + 1.5}em`;
      item.dataset.parent = parent;
      item.dataset.at = at;
      item.dataset.before = before ? "1" : "";
      return item;
    }

    showMore(item) {
      const parent = Number(item.dataset.parent);
      const at = Number(item.dataset.at);
      const level = Number(item.getAttribute("aria-level"));
      const children = this.childrenOf(parent);
      const before = item.dataset.before === "1";
      const start = before ? Math.max(0, at - CHUNK) : at;
      const end = before ? at : Math.min(children.length, at + CHUNK);
      const part = document.createDocumentFragment();
      if (before && start > 0) part.append(this.more(parent, start, level, true, children.length));
      for (let next = start; next < end; next++) part.append(this.item(children[next], level, next, children.length));
      if (!before && end < children.length) part.append(this.more(parent, end, level, false, children.length));
      const first = children[before ? end - 1 : start];
      item.replaceWith(part);
      this.choose(first, true);
    }

    unfold(item, start = 0) {
      const row = Number(item.dataset.row);
      if (item.getAttribute("aria-expanded") !== "false") return;
      item.setAttribute("aria-expanded", "true");
      const level = Number(item.getAttribute("aria-level"));
      item.after(this.part(row, this.childrenOf(row), start, level + 1));
    }

    fold(item) {
      if (item.getAttribute("aria-expanded") !== "true") return;
      item.setAttribute("aria-expanded", "false");
      const level = Number(item.getAttribute("aria-level"));
      let next = item.nextElementSibling;
      while (next && Number(next.getAttribute("aria-level")) > level) {
        const behind = next.nextElementSibling;
        if (next.dataset.row !== undefined) this.shown.delete(Number(next.dataset.row));
        next.remove();
        next = behind;
      }
    }

    /// The element of a row, with all above it unfolded as far as that takes.
    reveal(number) {
      const known = this.shown.get(number);
      if (known) return known;
      const parent = this.rows[number][PARENT] - 1;
      const children = this.childrenOf(parent);
      const position = children.indexOf(number);
      const start = Math.floor(position / CHUNK) * CHUNK;
      if (parent < 0) {
        this.shown.clear();
        this.place.replaceChildren(this.part(-1, children, start, 1));
      } else {
        const above = this.reveal(parent);
        this.fold(above);
        this.unfold(above, start);
      }
      return this.shown.get(number);
    }

    choose(number, focus) {
      const item = this.reveal(number);
      if (this.selected && this.selected !== item) {
        this.selected.setAttribute("aria-selected", "false");
        this.selected.tabIndex = -1;
      }
      for (const other of this.place.querySelectorAll('[tabindex="0"]')) other.tabIndex = -1;
      this.selected = item;
      item.setAttribute("aria-selected", "true");
      item.tabIndex = 0;
      if (focus) item.focus({ preventScroll: true });
      const box = this.place.getBoundingClientRect();
      const own = item.getBoundingClientRect();
      if (own.top < box.top) this.place.scrollTop -= box.top - own.top + 40;
      if (own.bottom > box.bottom) this.place.scrollTop += own.bottom - box.bottom + 40;
      this.chosen(number);
    }

    click(event) {
      const item = event.target.closest(".row");
      if (!item) return;
      if (item.dataset.row === undefined) return this.showMore(item);
      if (event.target.classList.contains("twist")) this.turn(item);
      this.choose(Number(item.dataset.row), true);
    }

    turn(item) {
      if (item.getAttribute("aria-expanded") === "true") this.fold(item);
      else this.unfold(item);
    }

    key(event) {
      const item = event.target.closest(".row");
      if (!item || event.altKey || event.ctrlKey || event.metaKey) return;
      const go = (to) => {
        if (!to) return;
        if (to.dataset.row !== undefined) this.choose(Number(to.dataset.row), true);
        else {
          to.tabIndex = 0;
          item.tabIndex = -1;
          to.focus();
        }
      };
      const expanded = item.getAttribute("aria-expanded");
      switch (event.key) {
        case "ArrowDown": go(item.nextElementSibling); break;
        case "ArrowUp": go(item.previousElementSibling); break;
        case "ArrowRight":
          if (expanded === "false") this.unfold(item);
          else if (expanded === "true") go(item.nextElementSibling);
          break;
        case "ArrowLeft":
          if (expanded === "true") this.fold(item);
          else if (item.dataset.row !== undefined) {
            const above = this.rows[Number(item.dataset.row)][PARENT] - 1;
            if (above >= 0) this.choose(above, true);
          }
          break;
        case "Home": go(this.place.firstElementChild); break;
        case "End": go(this.place.lastElementChild); break;
        case "Enter":
        case " ":
          if (item.dataset.row === undefined) this.showMore(item);
          else this.turn(item);
          break;
        default: return;
      }
      event.preventDefault();
    }
  }

  /// The tree, the search and the bytes of one file.
  class Explorer {
    constructor(section) {
      this.section = section;
      this.data = JSON.parse(section.querySelector("script.data").textContent);
      const find = (name) => section.querySelector(name);
      this.about = find(".about");
      const bytes = find(".bytes");
      if (bytes) this.bytes = new Bytes(bytes, this.data, (at) => this.byteChosen(at));
      const tree = find(".tree");
      if (tree) {
        this.tree = new Tree(tree, this.data, (row) => this.rowChosen(row));
        this.search(find("input"), find(".found"), find(".back"), find(".forth"));
        if (this.data.rows.length) this.rowChosen(0, true);
      }
      if (this.data.lit && this.bytes) this.bytes.light(this.data.lit[0], this.data.lit[1]);
    }

    rowChosen(number, quiet) {
      const row = this.data.rows[number];
      if (this.bytes) this.bytes.light(row[FIRST], row[LENGTH]);
      const last = row[FIRST] + row[LENGTH] - 1;
      const place = row[LENGTH] === 0 ? `no byte, at byte ${count(row[FIRST])}`
        : row[LENGTH] === 1 ? `byte ${count(row[FIRST])}`
        : `bytes ${count(row[FIRST])} to ${count(last)}`;
      const parts = [`Row ${count(number)}`, this.data.kinds[row[KIND]], place];
      if (row[DETAIL] > 0) {
        const reader = this.data.readers[row[DETAIL] - 1];
        parts.push(row[KIND] === REFERENCE ? `shared object ${count(row[DETAIL])}` : `reader ${count(row[DETAIL])}, ${reader}`);
      }
      if (row[PADDING] > 0) parts.push(`its numbers have ${counted(row[PADDING], "byte", "bytes")} more than they need`);
      this.about.textContent = parts.join(" · ");
      if (!quiet) history.replaceState(null, "", `#${this.section.dataset.file}/row-${number}`);
    }

    /// The innermost value that has the byte.
    byteChosen(at) {
      if (!this.tree) return;
      let found = -1;
      this.data.rows.forEach((row, number) => {
        if (row[FIRST] <= at && at < row[FIRST] + row[LENGTH]) found = number;
      });
      if (found >= 0) this.tree.choose(found, false);
    }

    search(input, told, back, forth) {
      let matches = [], current = -1, wait = 0;
      const show = () => {
        back.disabled = forth.disabled = matches.length === 0;
        if (input.value.trim() === "") told.textContent = "";
        else if (matches.length === 0) told.textContent = "nothing found";
        else {
          told.textContent = `${count(current + 1)} of ${count(matches.length)}`;
          this.tree.choose(matches[current], false);
        }
      };
      const look = () => {
        const query = input.value.trim().toLowerCase();
        matches = [];
        if (query !== "") {
          this.data.rows.forEach((row, number) => {
            const text = `${row[NAME] || ""} ${this.data.kinds[row[KIND]]} ${row[VALUE] || ""} ${row[NOTE] || ""}${row[PADDING] ? " padded" : ""}`;
            if (text.toLowerCase().includes(query)) matches.push(number);
          });
        }
        current = 0;
        show();
      };
      const step = (by) => {
        if (matches.length === 0) return;
        current = (current + by + matches.length) % matches.length;
        show();
      };
      input.addEventListener("input", () => {
        clearTimeout(wait);
        wait = setTimeout(look, 120);
      });
      input.addEventListener("keydown", (event) => {
        if (event.key !== "Enter") return;
        event.preventDefault();
        clearTimeout(wait);
        if (matches.length === 0) look();
        else step(event.shiftKey ? -1 : 1);
      });
      back.addEventListener("click", () => step(-1));
      forth.addEventListener("click", () => step(1));
      show();
    }
  }

  const sections = [...document.querySelectorAll("section.file")];
  const links = new Map([...document.querySelectorAll("nav a[href]")].map((link) => [link.getAttribute("href").slice(1), link]));
  const explorers = new Map();

  /// Shows the file that the address names, or the first; and its row, if one is named.
  function show() {
    const [name, row] = location.hash.slice(1).split("/row-");
    const section = sections.find((it) => it.dataset.file === name) || sections[0];
    if (!section) return;
    if (section.hidden) scrollTo(0, 0);
    for (const other of sections) other.hidden = other !== section;
    for (const [id, link] of links) {
      if (id === section.dataset.file) link.setAttribute("aria-current", "true");
      else link.removeAttribute("aria-current");
    }
    if (!explorers.has(section) && section.querySelector("script.data")) {
      explorers.set(section, new Explorer(section));
    }
    const explorer = explorers.get(section);
    const number = Number(row);
    if (explorer && explorer.tree && row !== undefined && number < explorer.data.rows.length) explorer.tree.choose(number, false);
  }

  /// A filter over the index.
  const filter = document.querySelector("nav input");
  if (filter) {
    filter.addEventListener("input", () => {
      const query = filter.value.trim().toLowerCase();
      for (const item of document.querySelectorAll("nav li")) item.hidden = !item.textContent.toLowerCase().includes(query);
    });
  }

  addEventListener("hashchange", show);
  document.addEventListener("click", (event) => {
    const link = event.target.closest ? event.target.closest("a[data-row]") : null;
    if (!link) return;
    event.preventDefault();
    const explorer = explorers.get(link.closest("section"));
    if (!explorer || !explorer.tree) return;
    explorer.section.querySelector(".explorer").scrollIntoView({ block: "start" });
    explorer.tree.choose(Number(link.dataset.row), true);
  });
  show();
  document.documentElement.classList.add("ready");

  // A served page is loaded again when a file has changed.
  const version = document.body.dataset.version;
  if (version !== undefined) {
    setInterval(async () => {
      try {
        const answer = await fetch("/version", { cache: "no-store" });
        if (answer.ok && (await answer.text()) !== version) location.reload();
        delete document.body.dataset.away;
      } catch {
        document.body.dataset.away = "1";
      }
    }, 700);
  }
})();
