// The boxes that cover words: those that stand on one line in one box, which is some pixels wider, as letters may reach beyond
// what was read of them. It takes no other word by that, and stays on the page.
import { touches } from './rectangles.js'

const WIDER = 6 // pixels a side

export const wordsOfHit = (words, { place, count }) => words.slice(place - 1, place - 1 + count)

// a word goes out of the text where a box touches it
export const isCovered = (words, boxes) => words.every((word) => boxes.some((box) => touches(box, word)))

function linesOf(words) {
  const lines = []
  for (const word of words) {
    if (lines.at(-1)?.[0].line === word.line) lines.at(-1).push(word)
    else lines.push([word])
  }
  return lines
}

function around(words) {
  const left = Math.min(...words.map((word) => word.left))
  const top = Math.min(...words.map((word) => word.top))
  const width = Math.max(...words.map((word) => word.left + word.width)) - left
  const height = Math.max(...words.map((word) => word.top + word.height)) - top
  return { left, top, width, height }
}

const SIDES = [
  (box, by) => ({ ...box, left: box.left - by, width: box.width + by }),
  (box, by) => ({ ...box, top: box.top - by, height: box.height + by }),
  (box, by) => ({ ...box, width: box.width + by }),
  (box, by) => ({ ...box, height: box.height + by }),
]

const isOn = ({ left, top, width, height }, page) =>
  left >= 0 && top >= 0 && left + width <= page.width && top + height <= page.height

function widened(box, words, page) {
  const others = words.filter((word) => !touches(box, word))
  return SIDES.reduce((narrow, side) => {
    for (let by = WIDER; by > 0; by -= 1) {
      const wide = side(narrow, by)
      if (isOn(wide, page) && !others.some((word) => touches(wide, word))) return wide
    }
    return narrow
  }, box)
}

// The boxes for some words of a page, which stand in a row: each with its words, and how many others it takes, as where lines
// are skew. Where `page` isn't known, they may leave it by some pixels at the right or below.
export function boxesAround(chosen, words, page = { width: Infinity, height: Infinity }) {
  return linesOf(chosen).map((line) => {
    const box = widened(around(line), words, page)
    const others = words.filter((word) => !line.includes(word) && touches(box, word)).length
    return { ...box, words: line, others, text: line.map(({ text }) => text).join(' ') }
  })
}

// whether boxes are on the page for sure, as a word lies as far right, and one as far down
export function areInside(boxes, words) {
  const { left, top, width, height } = around(words)
  return boxes.every((box) => isOn(box, { width: left + width, height: top + height }))
}
