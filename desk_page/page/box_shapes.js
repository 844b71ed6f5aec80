// What is drawn of boxes and words over the page.
import { rectangle, shape } from './paper.js'
import { cornersOf, touches } from './rectangles.js'

const MARK = 16 // height of a box's mark on the screen

const strike = ({ left, top, width, height }) =>
  shape('line', { x1: left, x2: left + width, y1: top + height / 2, y2: top + height / 2, class: 'strike' })

// a word that a box touches goes with it, and is struck through
export const wordShapes = (words, boxes) => words.flatMap((word) =>
  boxes.some((box) => touches(box, word)) ? [rectangle(word, 'word gone'), strike(word)] : [rectangle(word, 'word')])

// a box and its mark, at so many points of the screen for a pixel
export function boxShapes(box, kind, scale) {
  const drawn = rectangle(box, kind)
  drawn.dataset.num = box.num
  // the mark stands above the box, so that it covers none of it; at the upper edge of the page inside
  const isInside = box.top * scale < MARK
  const place = { x: box.left, y: box.top, class: isInside ? 'mark inside' : 'mark' }
  return [drawn, shape('text', place, `${box.num} ${box.basis}`)]
}

export function draftShapes(box, scale) {
  const handles = Object.entries(cornersOf(box)).map(([corner, [cx, cy]]) =>
    shape('circle', { cx, cy, class: `handle ${corner}`, 'data-corner': corner }))
  return [...boxShapes(box, 'box draft', scale), ...handles]
}
