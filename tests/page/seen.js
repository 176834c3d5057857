// What a page shows, as values: the whole picture in pixels, and what stands after each step. A test evaluates this in the page.
(() => {
  const all = (selector, within = document) => [...within.querySelectorAll(selector)];
  const number = (it, name) => Number(it.getAttribute(name));
  const path = (it) => [it.getAttribute("class"), it.getAttribute("d")];
  const texts = (selector, within) => all(selector, within).map((it) => it.textContent);

  // Of a text that was cut, its title has all of it.
  const words = (it) => [it.getAttribute("class"), number(it, "x"), number(it, "y"), it.querySelector("title").textContent];

  const part = () => ({
    edges: all("#drawing .edge").map(path),
    places: all("#drawing .place").map((it) => [Number(it.textContent), number(it, "y")]),
    lines: all("#drawing .arrow").map(path),
    tips: all("#drawing .tip").map(path),
    crosses: all("#drawing .cross").map(path),
    labels: all("#drawing .label").map(words),
    marks: all("#drawing .mark").map(words),
    notes: all("#drawing .note, #drawing .bad:not(.head):not(.mark)").map(words),
    bands: all("#drawing .band").map((it) => [it.getAttribute("class"), ...["x", "y", "width", "height"].map((name) => number(it, name))]),
  });

  const drawn = () => new Promise((done) => requestAnimationFrame(() => requestAnimationFrame(done)));

  // The picture is drawn where it is in view: so it is gone through from its top to its bottom.
  const picture = async () => {
    const scroll = document.getElementById("scroll");
    const parts = [];
    for (let top = 0; top === 0 || top < scroll.scrollHeight; top += scroll.clientHeight) {
      scroll.scrollTop = top;
      await drawn();
      parts.push(part());
    }
    const columns = all("#heads .column").map((it) => parseFloat(it.style.left) + scroll.scrollLeft);
    return { columns, parts, width: parseFloat(document.getElementById("extent").style.width) };
  };

  // The logs side by side: by column its index, and by row the cells that hold something, each with its looks and its whole text.
  const cell = (it, at) => ({ at, looks: it.className.split(" "), whole: it.querySelector(".whole")?.textContent, struck: texts("del", it).join() });
  const row = (it) => all("td", it).map(cell).filter(({ whole }) => whole);
  const marks = (it) => all("td", it).slice(1).flatMap((td, at) => texts(".unseen", td).map((name) => [name, at]));
  const logs = () => ({
    columns: texts("#logs .indexes th[scope=col]").map(Number),
    more: document.querySelector("#logs .more")?.textContent ?? "",
    rows: all("#logs tr:not(.indexes):not(.marks)").map((it) => ({
      head: it.querySelector("th").textContent,
      cells: row(it),
      marks: it.nextElementSibling?.matches(".marks") ? marks(it.nextElementSibling) : [],
    })),
  });

  const node = (article) => ({
    id: article.querySelector("b").textContent,
    look: article.className,
    role: article.querySelector(".role").textContent,
    facts: texts(":scope > div", article),
    views: all("tr", article).map((it) => texts("td", it)).filter((cells) => cells.length > 0),
  });

  const state = () => {
    const [happened, pending] = all("#state ol");
    return {
      where: document.getElementById("where").textContent,
      count: document.querySelector("#state summary").textContent,
      happened: texts("li", happened),
      nodes: all("#state article").map(node),
      logs: logs(),
      pending: texts("li", pending),
    };
  };

  const press = (key) => document.dispatchEvent(new KeyboardEvent("keydown", { key }));

  // What stands after each of so many steps, from the first on.
  const states = (count) => {
    press("Home");
    const found = [];
    for (let place = 0; place < count; place += 1) {
      found.push(state());
      press("ArrowDown");
    }
    return found;
  };

  // Chooses a directive, or an event of it, by the address.
  const at = async (place) => {
    location.hash = place;
    await drawn();
    return state();
  };

  return { picture, states, state, at };
})()
