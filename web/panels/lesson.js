// A lesson: the training blocks in order, each with a task, and some that begin with an empty chart.

import { Cells } from "../chart.js";
import { by, write } from "../dom.js";
import { BLANK, ofOutline } from "../drawing.js";
import { judge } from "../judge.js";
import { blockName, count, text } from "../text.js";
import { shipped } from "./block.js";

const number = ({ kind, reply }) => (kind === "taken" ? 0 : kind === "refused" ? reply.refusal.number : -1);

// What each task asks for, of cells added and removed since it began and of the answer to the drawing.
const GOALS = {
  break: ({ added, removed, answer }) => number(answer) > 0 && removed === 1 && added === 0,
  fill: ({ added, removed, answer, need }) => number(answer) === 0 && removed === 0 && added === need,
  cut: ({ added, answer, cells, least }) => number(answer) === 0 && added === 0 && cells.count >= least,
  grow: ({ added, removed, answer }) => number(answer) === 0 && removed === 0 && added === 1,
  plus: ({ answer, cells }) => number(answer) === 0 && cells.count === 5 && answer.reply.edges.length === 4,
  corner: ({ drawing }) => drawing.faults.some(({ kind }) => kind === "corner"),
  ring: ({ drawing }) => drawing.faults.length === 1 && drawing.faults[0].kind === "hole",
};

const ON_BLOCKS = ["break", "fill", "fill", "cut", "grow"];
const ON_NOTHING = ["plus", "corner", "ring"];

export function lesson(page) {
  const { app, engine } = page;
  const tasks = [
    ...shipped("training").map(({ start, letters, name }, i) => {
      return { goal: ON_BLOCKS[i], base: ofOutline({ start, letters, name: blockName(name) }) };
    }),
    ...ON_NOTHING.map((goal) => ({ goal, base: BLANK })),
  ];
  // Which task is on the chart, if one is; which are done.
  const state = { at: 0, begun: false, done: new Set() };

  // What a task says, with the numbers that the library gives for its block.
  const values = ({ base }) => {
    const { added } = judge(engine, base);
    return { need: added?.count ?? 0, cells: count(added?.count ?? 0, "cell"), least: Math.ceil(base.cells.count * 0.6) };
  };

  const begin = (at) => {
    if (!tasks[at]) return;
    Object.assign(state, { at, begun: true });
    app.change({ ...app.state, practice: tasks[at].base, task: true });
    page.visit();
  };
  by("lesson-back").addEventListener("click", () => begin(state.at - 1));
  by("lesson-on").addEventListener("click", () => begin(state.at + 1));
  by("lesson-again").addEventListener("click", () => begin(state.at));

  const measured = (task, drawing, answer) => {
    const cells = drawing.cells ?? new Cells();
    const [added, removed] = [cells.minus(task.base.cells).count, task.base.cells.minus(cells).count];
    return { ...values(task), drawing, answer, cells, added, removed };
  };

  return {
    more: () => ({}),
    show(drawing, answer) {
      const task = tasks[state.at];
      // The task is on the sheet for practice, and not on the chart once that is put away.
      const begun = state.begun && app.state.practice !== null && app.state.task;
      by("lesson-back").disabled = state.at === 0;
      by("lesson-on").disabled = state.at === tasks.length - 1;
      write(by("lesson-again"), text(begun ? "lesson.again" : "lesson.begin"));
      write(by("lesson-title"), text("lesson.title", { n: state.at + 1, name: task.base.name || text("lesson.empty") }));
      write(by("lesson-task"), text(`task.${task.goal}`, values(task)));
      const found = measured(task, drawing, answer);
      const done = begun && GOALS[task.goal](found);
      if (done) state.done.add(state.at);
      const marks = { added: count(found.added, "cell"), removed: count(found.removed, "cell") };
      write(by("lesson-state"), begun ? text(done ? "lesson.done" : "lesson.open", marks) : text("lesson.waiting"));
      by("lesson-state").className = done ? "word inside" : "word";
      list(tasks, state);
    },
    kept: () => ({ at: state.at, begun: state.begun, done: [...state.done] }),
    restore({ at, begun, done }) {
      if (!tasks[at]) return;
      Object.assign(state, { at, begun: begun === true, done: new Set(done.filter((n) => tasks[n])) });
    },
  };
}

function list(tasks, { at, done }) {
  tasks.forEach((_, n) => {
    const row = by("lesson-list").children[n] ?? by("lesson-list").appendChild(document.createElement("li"));
    const name = tasks[n].base.name || text("lesson.empty");
    write(row, text(done.has(n) ? "lesson.row.done" : "lesson.row", { name, goal: text(`goal.${tasks[n].goal}`) }));
    row.className = done.has(n) ? "done" : "";
    row.toggleAttribute("aria-current", n === at);
  });
}
