// Starts the page of one run: reads the rows that are in it, and shows them.

import { byId } from "./dom.js";
import { makeLegend } from "./legend.js";
import { Page, tellCounts } from "./page.js";
import { readRows } from "./rows.js";

function start() {
  const notice = byId("notice");
  try {
    const model = readRows(JSON.parse(byId("steps").textContent ?? ""));
    document.title = `${model.name}: raftbench`;
    byId("name").textContent = model.name;
    tellCounts(model);
    if (model.steps.length === 0) {
      notice.textContent = "The script has no directives.";
      return;
    }
    byId("panes").hidden = false;
    byId("keys").hidden = false;
    byId("search").hidden = false;
    notice.hidden = true;
    makeLegend();
    new Page(model).chooseByAddress();
  } catch (fault) {
    notice.hidden = false;
    notice.textContent = `The page can't be shown: ${fault instanceof Error ? fault.message : fault}.`;
    throw fault;
  }
}

start();
