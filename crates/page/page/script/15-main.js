// Which view is shown: the part after # says it.

const VIEWS = {
  today: todayView, depositor: depositorView, receiving: receivingView, picking: pickingView,
  recount: recountView,
};
const ASK_EVERY = 20000;
let shownView = 0;

/** The view's name and what it is about, by the address. */
function whereTo() {
  const [name, who = "", number = ""] = location.hash.slice(1).split("/");
  return Object.hasOwn(VIEWS, name) ? { name, who, number }
    : { name: "today", who: "", number: "" };
}

/** Marks the tab of this view. @param {string} name */
function markTab(name) {
  for (const tab of document.querySelectorAll(".tabs a")) {
    const isIt = tab.getAttribute("data-view") === name;
    if (isIt) tab.setAttribute("aria-current", "page");
    else tab.removeAttribute("aria-current");
  }
  document.title = `${name[0].toUpperCase()}${name.slice(1)} \u00b7 whx12`;
}

/** Shows the view that the address names. What is late for an older one isn't shown. */
async function showView() {
  const mine = ++shownView;
  const main = byId("view");
  const { name, who, number } = whereTo();
  markTab(name);
  show(byId("sheet"));
  main.setAttribute("aria-busy", "true");
  if (main.dataset.view !== name) show(main, hint("Loading .."));
  main.dataset.view = name;
  try {
    await VIEWS[name]({ main, isCurrent: () => mine === shownView }, who, number);
  } catch (error) {
    if (mine !== shownView) return;
    show(main, el("h1", number || who || name), errorNote(error),
      el("p.row", button("Try again", () => void showView()),
        linkTo([name], "Back to the list", "button")));
  }
  if (mine === shownView) main.setAttribute("aria-busy", "false");
}

/** Asks now and then whether the server is there, while somebody looks. */
async function askHealth() {
  if (!document.hidden) await ask("/health", {}, WAIT_TO_READ).catch(() => {});
  setTimeout(() => void askHealth(), ASK_EVERY);
}

addEventListener("hashchange", () => void showView());
document.querySelector(".skip")?.addEventListener("click", (event) => {
  event.preventDefault();
  byId("view").focus();
});
startActs();
void showView();
void askHealth();
