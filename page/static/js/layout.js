// Which row of the grid each box stands in.

/**
 * The row of each box, from 0. Boxes of the first answer come first, so that the upper rows can be read as an answer;
 * each box goes into the first row where it has room.
 */
export function rowsOf(boxes) {
  const order = boxes.map((_, number) => number);
  order.sort((one, other) => compare(boxes[one], boxes[other]));
  const filled = [];
  const rows = new Array(boxes.length);
  for (const number of order) {
    const { start, end } = columnsOf(boxes[number]);
    let row = 0;
    while (filled[row]?.some((other) => start < other.end && other.start < end)) row += 1;
    (filled[row] ??= []).push({ start, end });
    rows[number] = row;
  }
  return rows;
}

function compare(one, other) {
  return (
    Number(other.inFirst) - Number(one.inFirst) ||
    one.start - other.start ||
    columnsOf(other).end - columnsOf(one).end
  );
}

/** The columns of a box. One whose end is not known is drawn by its form's length, and each has one column at least. */
export function columnsOf(box) {
  const end = box.end ?? box.start + box.form.length;
  return { start: box.start, end: Math.max(end, box.start + 1) };
}
