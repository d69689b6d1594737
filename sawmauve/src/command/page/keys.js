'use strict';
for (const table of document.querySelectorAll('table.grid')) {
  const rows = [...table.tBodies[0].rows].map(row => [...row.querySelectorAll('[aria-label]')]);
  const cells = rows.flat();
  if (cells.length === 0) continue;
  table.setAttribute('role', 'grid');
  for (const cell of cells) cell.tabIndex = -1;
  let current = cells[0];
  current.tabIndex = 0;
  const place = cell => {
    const row = rows.findIndex(row => row.includes(cell));
    return [row, row < 0 ? -1 : rows[row].indexOf(cell)];
  };
  table.addEventListener('focusin', event => {
    if (!event.target.hasAttribute('aria-label')) return;
    current.tabIndex = -1;
    current = event.target;
    current.tabIndex = 0;
    table.classList.remove('quiet');
  });
  table.addEventListener('pointermove', () => table.classList.remove('quiet'));
  table.addEventListener('keydown', event => {
    const [row, column] = place(event.target);
    if (row < 0) return;
    const to = {
      ArrowLeft: [row, column - 1], ArrowRight: [row, column + 1],
      ArrowUp: [row - 1, column], ArrowDown: [row + 1, column],
      Home: [event.ctrlKey ? 0 : row, 0],
      End: event.ctrlKey ? [rows.length - 1, rows.at(-1).length - 1] : [row, rows[row].length - 1],
      PageUp: [Math.max(0, row - 7), column], PageDown: [Math.min(rows.length - 1, row + 7), column],
    }[event.key];
    if (event.key === 'Escape') table.classList.add('quiet');
    if (to === undefined || event.altKey || event.metaKey) return;
    const next = rows[to[0]]?.[to[1]];
    if (next) next.focus();
    event.preventDefault();
  });
}
