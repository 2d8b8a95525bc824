// What this device keeps: whether this window's work is kept, what else is, and how to get at it.

import { button, by } from "./dom.js";
import { tell, unsay } from "./notice.js";
import { download } from "./opening.js";
import { count, text } from "./text.js";

export class Device {
  constructor(page) {
    this.page = page;
    this.store = page.store;
    // What came of keeping the work.
    this.unkept = "kept";
    // The work of which it was told that another window goes on with it.
    this.shared = null;
  }

  // Whether a question is asked before the page goes.
  get losing() {
    return this.unkept === "none" || this.unkept === "gone";
  }

  // What came of keeping the work is told once.
  told(what, other) {
    if (what === "kept" && this.losing) unsay("store");
    if (what === "none" && this.unkept !== "none") tell("store", text("store.none"));
    if (what === "parted") this.other(other);
    if (what === "gone" && this.unkept !== "gone") this.gone();
    if (what !== this.unkept || what === "parted") this.list();
    this.unkept = what === "parted" ? "kept" : what;
  }

  // Another window has written or removed something.
  changed() {
    if (this.store.gone) {
      if (this.unkept !== "gone") this.gone();
      this.unkept = "gone";
    } else if (this.store.taken && this.shared !== this.store.id) this.other(this.store.id);
    this.list();
  }

  // It is told once of each work: the other window goes on and on.
  other(id) {
    this.shared = id;
    tell("store", text("store.other"), [{ words: text("store.there"), work: () => this.show(id) }]);
  }

  gone() {
    const here = { words: text("store.here"), work: () => this.page.save(true) };
    const forget = { words: text("store.away"), work: () => this.page.begin() };
    tell("store", text("store.gone"), [here, forget]);
  }

  // Other work in this window: what is drawn here is kept first.
  show(id) {
    this.page.save();
    if (this.losing) return;
    this.store.turnTo(id);
    this.page.begin();
  }

  // At the page's beginning: nothing that is kept is passed over without a word.
  opened() {
    const others = this.list();
    if (others.length === 0) return;
    const look = { words: text("others.look"), work: () => this.look() };
    const readable = others.every((other) => other.readable);
    tell("others", text(readable ? "others.told" : "others.unread"), [look], !readable);
  }

  look() {
    this.page.app.show("draw");
    by("others").scrollIntoView({ block: "center" });
    by("others").querySelector("button")?.focus();
  }

  list() {
    const others = this.store.others();
    by("others-box").hidden = others.length === 0;
    by("others").replaceChildren(...others.map((other) => this.row(other)));
    return others;
  }

  row({ id, readable, ...about }) {
    const row = document.createElement("li");
    const said = document.createElement("span");
    said.textContent = readable ? words(about) : text("others.other");
    const first = readable ? ["others.show", () => this.show(id)] : ["others.save", () => this.saved(id)];
    row.append(said, ...[first, ["others.remove", () => this.ask(id, said.textContent)]].map(([key, work]) => made(key, work)));
    return row;
  }

  // Bytes that this page cannot read, for one that can.
  saved(id) {
    download(new TextEncoder().encode(this.store.raw(id)), "robequarry-kept.json");
  }

  ask(id, what) {
    const remove = { words: text("others.remove"), work: () => (this.store.remove(id), this.list()) };
    tell("others", text("others.ask", { what }), [remove]);
  }
}

function made(key, work) {
  const button_ = button([text(key)]);
  button_.addEventListener("click", work);
  return button_;
}

// What is known of other work: a name, how many outlines, and when it was kept.
function words({ outlines, title, when }) {
  const key = when ? "others.row" : "others.older";
  const said = text(key, { outlines: count(outlines, "outline"), when: when ? date(when) : "" });
  return title ? text("others.title", { title, said }) : said;
}

function date(when) {
  const at = new Date(when);
  const two = (n) => String(n).padStart(2, "0");
  return `${at.getFullYear()}-${two(at.getMonth() + 1)}-${two(at.getDate())} ${two(at.getHours())}:${two(at.getMinutes())}`;
}
