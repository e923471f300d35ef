"use strict";

// The slider shows the records of another change at once. Without this its button does.
const slider = document.getElementById("step");
if (slider) {
  const rows = document.getElementById("rows");
  let newest = 0;

  const show = async () => {
    const asked = ++newest;
    try {
      const answer = await fetch(`${slider.dataset.rows}?step=${slider.value}`);
      const text = await answer.text();
      if (asked !== newest) return;
      if (!answer.ok) throw new Error(answer.statusText);
      rows.innerHTML = text; // the server has escaped what the store holds
      history.replaceState(null, "", `?step=${slider.value}`);
      document.getElementById("at").value = rows.querySelector("time").textContent;
    } catch (why) {
      rows.textContent = `timestore-browse does not answer: ${why.message}`;
    }
  };

  slider.addEventListener("input", show);
  document.getElementById("show").hidden = true;
}
