// The tabs of the panels.

import { arrows, by } from "./dom.js";

export class Tabs {
  constructor(app) {
    this.app = app;
    this.tabs = [...by("tabs").children];
    for (const tab of this.tabs) tab.addEventListener("click", () => app.show(name(tab)));
    arrows(by("tabs"), (tab) => app.show(name(tab)));
  }

  show() {
    for (const tab of this.tabs) {
      const chosen = name(tab) === this.app.panel;
      tab.setAttribute("aria-selected", String(chosen));
      tab.tabIndex = chosen ? 0 : -1;
      by(`panel-${name(tab)}`).hidden = !chosen;
    }
  }

  // The panel that is chosen shows nothing.
  hide() {
    by(`panel-${this.app.panel}`).hidden = true;
  }
}

const name = (tab) => tab.id.slice("tab-".length);
