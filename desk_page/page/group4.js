// A strip of Group 4 (ITU-T T.6) to packed rows. It refuses what the desks' own reader refuses, with the same names, rows
// and bits (docs/FORMATS.md, bp_t6). Nothing here is proved: tests compare it with libtiff and with the program.
import { BLACK_RUNS, END_OF_BLOCK, EXTENSION, HORIZONTAL, MODE_CODES, PASS, WHITE_RUNS } from './codes.js'

// Why a file can't be read: the name of the rule, and its two values.
export class PageFault extends Error {
  constructor(rule, a = 0, b = 0) {
    super(`${rule} ${a} ${b}`)
    Object.assign(this, { rule, a, b })
  }
}

// The bits of a strip, from the high one of its first byte.
class Bits {
  constructor(strip) {
    // zeros behind the end, so that the bits ahead can always be looked up
    this.bytes = new Uint8Array(strip.length + 8)
    this.bytes.set(strip)
    this.end = strip.length * 8
    this.at = 0
    this.row = 0
  }

  // at most 25 bits
  ahead(count) {
    const { bytes, at } = this
    const i = at >> 3
    const word = (bytes[i] << 24) | (bytes[i + 1] << 16) | (bytes[i + 2] << 8) | bytes[i + 3]
    return (word << (at & 7)) >>> (32 - count)
  }

  fault(rule, at = this.at) {
    return new PageFault(rule, this.row, at)
  }

  // the value of the next code
  take(table) {
    const found = table.found[this.ahead(table.bits)]
    const length = found & 15
    if (length === 0 || this.at + length > this.end) throw this.noCode(table)
    this.at += length
    return found >> 4
  }

  // why no code of the table begins here
  noCode(table) {
    const count = Math.min(this.end - this.at, 24)
    const bits = count === 0 ? '' : this.ahead(count).toString(2).padStart(count, '0')
    if (table === MODE_CODES && bits.startsWith(EXTENSION)) return this.fault('T6Extension')
    if (table === MODE_CODES && bits === END_OF_BLOCK) return this.fault('T6EarlyEnd')
    return this.fault(table.codes.some((code) => code.startsWith(bits)) ? 'T6ShortData' : 'T6BadCode')
  }

  // a run of this colour, of at most so many pixels
  run(table, room) {
    let total = 0
    for (;;) {
      const { at } = this
      const part = this.take(table)
      total += part
      if (total > room) throw this.fault('T6BadPlace', at)
      if (part < 64) return total
    }
  }
}

// The columns at which the colour changes; the width stands behind them, as often as it is looked up.
class Line {
  constructor(width) {
    this.width = width
    this.changes = new Int32Array(width + 8)
    this.clear()
    this.end()
  }

  clear() {
    this.count = 0
  }

  // where two changes meet there is none
  turn(column) {
    if (this.count > 0 && this.changes[this.count - 1] === column) this.count -= 1
    else this.changes[this.count++] = column
  }

  end() {
    this.changes.fill(this.width, this.count, this.count + 4)
  }
}

// The next row, by the one above it.
function readLine(bits, above, line) {
  const { width } = line
  let a0 = -1
  let b = 0 // b1 is above.changes[b]
  line.clear()
  while (a0 < width) {
    while (above.changes[b] <= a0 && above.changes[b] < width) b += 2
    const { at } = bits
    const mode = bits.take(MODE_CODES)
    if (mode === PASS) {
      a0 = above.changes[b + 1]
    } else if (mode === HORIZONTAL) {
      const from = Math.max(a0, 0)
      const [first, second] = line.count & 1 ? [BLACK_RUNS, WHITE_RUNS] : [WHITE_RUNS, BLACK_RUNS]
      const a1 = from + bits.run(first, width - from)
      const a2 = a1 + bits.run(second, width - a1)
      if (a2 <= a0) throw bits.fault('T6BadPlace', at)
      line.turn(a1)
      line.turn(a2)
      a0 = a2
    } else {
      const a1 = above.changes[b] + mode
      if (a1 <= a0 || a1 > width) throw bits.fault('T6BadPlace', at)
      line.turn(a1)
      a0 = a1
      // a1 is at most 3 left of b1, so that the new b1 is at most one change back
      b = b > 0 ? b - 1 : 1
    }
  }
  line.end()
}

// The pixels of a row from one column up to another black; `base` is the row's first byte.
function blacken(out, base, from, to) {
  let i = base + (from >> 3)
  const last = base + (to >> 3)
  if (i === last) {
    out[i] |= (0xff >> (from & 7)) & ~(0xff >> (to & 7))
    return
  }
  out[i++] |= 0xff >> (from & 7)
  out.fill(0xff, i, last)
  if (to & 7) out[last] |= 0xff & ~(0xff >> (to & 7))
}

// Reads so many rows of a strip into packed rows, the first of them at row `first` of the page.
export function readStrip(strip, width, rows, out, first) {
  const bits = new Bits(strip)
  const stride = (width + 7) >> 3
  let above = new Line(width)
  let line = new Line(width)
  for (let row = first; row < first + rows; row += 1) {
    bits.row = row
    readLine(bits, above, line)
    for (let i = 0; i < line.count; i += 2) {
      blacken(out, row * stride, line.changes[i], i + 1 < line.count ? line.changes[i + 1] : width)
    }
    ;[above, line] = [line, above]
  }
}
