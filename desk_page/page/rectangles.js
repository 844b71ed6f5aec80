// Rectangles of a page, in pixels: { left, top, width, height }. Both corners are inside, as the desks count.

export const sameRectangle = (a, b) =>
  a.left === b.left && a.top === b.top && a.width === b.width && a.height === b.height

export function between(a, b) {
  const left = Math.min(a.x, b.x)
  const top = Math.min(a.y, b.y)
  return { left, top, width: Math.abs(a.x - b.x) + 1, height: Math.abs(a.y - b.y) + 1 }
}

const within = (at, least, most) => Math.min(Math.max(at, least), most)

// moved by so many pixels, and kept on the page
export function moved(box, right, down, page) {
  return {
    ...box,
    left: within(box.left + right, 0, page.width - box.width),
    top: within(box.top + down, 0, page.height - box.height),
  }
}

// its lower right corner moved by so many pixels, and kept on the page
export function sized(box, right, down, page) {
  return {
    ...box,
    width: within(box.width + right, 1, page.width - box.left),
    height: within(box.height + down, 1, page.height - box.top),
  }
}

// whether two rectangles have a pixel in common
export const touches = (a, b) =>
  a.left < b.left + b.width && b.left < a.left + a.width && a.top < b.top + b.height && b.top < a.top + a.height

// the corner that stays where the one with this name is drawn: `nw`, `ne`, `sw` or `se`
export function opposite(box, corner) {
  return {
    x: corner.endsWith('w') ? box.left + box.width - 1 : box.left,
    y: corner.startsWith('n') ? box.top + box.height - 1 : box.top,
  }
}

export function cornersOf(box) {
  const right = box.left + box.width
  const bottom = box.top + box.height
  return { nw: [box.left, box.top], ne: [right, box.top], sw: [box.left, bottom], se: [right, bottom] }
}
