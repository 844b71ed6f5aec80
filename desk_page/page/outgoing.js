// A page as it will go out, by docs/FORMATS.md (bp_burn): its boxes black and lettered, below it the band with designation and label;
// or the slip sheet of a withheld document. Pages are { width, height, rows } with packed rows, 1 for black.
import { GLYPHS } from './glyphs.js'

const SCALE = 3 // pixels a side for each bit of a glyph
const PITCH = 18 // columns from one character to the next
const BITS = [16, 8, 4, 2, 1]
const BAND = { rows: 32, top: 5, margin: 16 }
const LETTERED = { width: 39, height: 27, inside: 3 }
const SLIP = { width: 1700, height: 2200, top: 1000, left: 200 }

const strideOf = (width) => (width + 7) >> 3
const columnsOf = (text) => PITCH * text.length - SCALE

// Rectangles are cut to the page.
function fill({ width, height, rows }, left, top, wide, high, isBlack) {
  const [from, to] = [Math.max(left, 0), Math.min(left + wide, width)]
  const stride = strideOf(width)
  for (let row = Math.max(top, 0); row < Math.min(top + high, height); row += 1) {
    for (let column = from; column < to;) {
      // whole bytes at once
      const isWhole = (column & 7) === 0 && to - column >= 8
      const mask = isWhole ? 0xff : 0x80 >> (column & 7)
      const at = row * stride + (column >> 3)
      rows[at] = isBlack ? rows[at] | mask : rows[at] & ~mask
      column += isWhole ? 8 : 1
    }
  }
}

function draw(page, text, left, top, isBlack = true) {
  for (const [place, character] of [...text].entries()) {
    for (const [row, bits] of (GLYPHS[character] ?? []).entries()) {
      for (const [column, bit] of BITS.entries()) {
        if ((bits & bit) === 0) continue
        fill(page, left + PITCH * place + SCALE * column, top + SCALE * row, SCALE, SCALE, isBlack)
      }
    }
  }
}

// in the order of their numbers, so that the last one decides
function cover(page, boxes) {
  for (const { left, top, width, height, basis } of [...boxes].sort((a, b) => a.num - b.num)) {
    fill(page, left, top, width, height, true)
    if (width < LETTERED.width || height < LETTERED.height) continue
    draw(page, basis, left + LETTERED.inside, top + LETTERED.inside, false)
  }
}

function putBand(page, height, designation, label) {
  draw(page, designation, BAND.margin, height + BAND.top)
  draw(page, label, page.width - BAND.margin - columnsOf(label), height + BAND.top)
}

// a scanned page with the boxes that stand on it
export function producedPage(image, boxes, designation, label) {
  const { width, height } = image
  const rows = new Uint8Array(strideOf(width) * (height + BAND.rows))
  rows.set(image.rows.subarray(0, strideOf(width) * height))
  const page = { width, height: height + BAND.rows, rows }
  cover(page, boxes)
  putBand(page, height, designation, label)
  return page
}

export function slipSheet(basis, designation, label) {
  const { width, height, left, top } = SLIP
  const page = { width, height: height + BAND.rows, rows: new Uint8Array(strideOf(width) * (height + BAND.rows)) }
  draw(page, `DOCUMENT WITHHELD - ${basis}`, left, top)
  putBand(page, height, designation, label)
  return page
}
