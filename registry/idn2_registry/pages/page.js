"use strict";
// Searches in the variants while one types. Without it the button does the same.
const field = document.getElementById("find");
const table = document.getElementById("variants");
if (field && table) {
    const rows = Array.from(table.tBodies[0].rows);
    const count = document.getElementById("count");
    const total = Number(count.dataset.total);
    if (rows.length === total) {
        field.form.classList.add("live");
        field.addEventListener("input", () => {
            const text = field.value.toLowerCase();
            let shown = 0;
            for (const row of rows) {
                row.hidden = !row.textContent.toLowerCase().includes(text);
                shown += row.hidden ? 0 : 1;
            }
            count.textContent = `${shown.toLocaleString("en")} of ${total.toLocaleString("en")} shown`;
        });
        field.form.addEventListener("submit", (event) => event.preventDefault());
    }
}
