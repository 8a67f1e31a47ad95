// @ts-check
// Where pieces head, as small arrows on their cells: a bright one with a dark edge, of which one is seen on any ground.
const TURNS = { up: 0, right: 1, down: 2, left: 3 };
/** @type {[number, number][]} */
const TIP = [[0, -0.42], [0.17, -0.2], [-0.17, -0.2]]; // of an arrow upwards, from the middle of a cell and in its sides
const POINT_SIDE = 0.2; // of what marks a piece that heads nowhere: it was given the action

const turned = ([across, down], times) => (times === 0 ? [across, down] : turned([-down, across], times - 1));

function shapeAt(column, row, direction, size) {
  const half = POINT_SIDE / 2, box = [[-half, -half], [half, -half], [half, half], [-half, half]];
  const points = direction in TURNS ? TIP.map((point) => turned(point, TURNS[direction])) : box;
  return points.map(([across, down]) => [(column + 0.5 + across) * size, (row + 0.5 + down) * size]);
}

// Draws an arrow for each of what heads somewhere, [column, row, object, direction], on cells of so many pixels.
export function drawArrows(context, headings, size) {
  context.lineWidth = Math.max(1, size / 16);
  context.lineJoin = "round";
  for (const [column, row, , direction] of headings) {
    const [first, ...others] = shapeAt(column, row, direction, size);
    context.beginPath();
    context.moveTo(...first);
    for (const point of others) context.lineTo(...point);
    context.closePath();
    context.fillStyle = "white";
    context.fill();
    context.strokeStyle = "black";
    context.stroke();
  }
}
