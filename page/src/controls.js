// User input: files, the form, buttons.

export function base64Bytes(base64) {
  return Uint8Array.from(atob(base64), (it) => it.charCodeAt(0));
}

// `open` is called with a file that is chosen, dropped, or a sample.
export function listenToFiles(open, samples) {
  const field = document.getElementById("file");
  field.addEventListener("change", () => field.files[0] && open(field.files[0]));
  // After this the same file can be chosen again, for example when it has changed.
  field.addEventListener("click", () => (field.value = ""));
  listenToDrops(open);
  for (const [name, base64] of Object.entries(samples)) {
    const button = Object.assign(document.createElement("button"), { type: "button", textContent: name });
    button.addEventListener("click", () => open(new File([base64Bytes(base64)], name)));
    document.getElementById("samples").append(" ", button);
  }
}

function listenToDrops(open) {
  const target = document.querySelector(".drop");
  const over = { dragover: true, dragleave: false, drop: false };
  for (const [name, isOver] of Object.entries(over)) {
    document.addEventListener(name, (event) => {
      event.preventDefault();
      target.classList.toggle("over", isOver);
    });
  }
  document.addEventListener("drop", (event) => event.dataTransfer.files[0] && open(event.dataTransfer.files[0]));
}

export function listenToForm(fillInFamily, runAgain) {
  const form = document.getElementById("settings");
  form.addEventListener("submit", (event) => event.preventDefault());
  form.addEventListener("change", (event) => {
    if (event.target.name === "family") fillInFamily(event.target.value);
    runAgain();
  });
}

// Each button says by its data what it does: `data-save="listing"`.
export function listenToButtons(actions) {
  document.addEventListener("click", ({ target: { dataset } }) => {
    for (const [name, act] of Object.entries(actions)) if (dataset[name]) act(dataset[name]);
  });
}
