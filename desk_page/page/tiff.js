// A TIFF file of one bilevel page, plain or in Group 4 (TIFF 6.0), to packed rows. It reads and refuses what the desks' own
// reader does, in the same order and by the same names (docs/FORMATS.md, bp_tiff). Nothing here is proved.
import { PageFault, readStrip } from './group4.js'

export { PageFault }

const SHORT = 3
const LONG = 4
const RATIONAL = 5
const SIZE = { [SHORT]: 2, [LONG]: 4, [RATIONAL]: 8 }
const ALL_ROWS = 0xffffffff
const MOST_ACROSS = 20000
const MOST_DOWN = 20032
const MOST_PIXELS = 200640000

// The directory of a file: its numbers by their tags.
class Directory {
  constructor(file) {
    this.view = new DataView(file.buffer, file.byteOffset, file.byteLength)
    this.length = file.byteLength
    this.readHead()
    this.readEntries()
  }

  short(at) {
    return this.view.getUint16(at, this.little)
  }

  long(at) {
    return this.view.getUint32(at, this.little)
  }

  readHead() {
    if (this.length < 8) throw new PageFault('TiffHead')
    const order = this.view.getUint16(0)
    this.little = order === 0x4949
    if (!(this.little || order === 0x4d4d) || this.short(2) !== 42) throw new PageFault('TiffHead')
  }

  readEntries() {
    const at = this.long(4)
    const leaves = (bytes) => at + bytes > this.length
    if (leaves(2)) throw new PageFault('TiffBounds')
    const count = this.short(at)
    if (leaves(2 + 12 * count + 4)) throw new PageFault('TiffBounds')
    if (this.long(at + 2 + 12 * count) !== 0) throw new PageFault('TiffManyPages')
    this.entries = new Map()
    for (let k = 0; k < count; k += 1) {
      const entry = at + 2 + 12 * k
      const tag = this.short(entry)
      if (!this.entries.has(tag)) this.entries.set(tag, entry)
    }
  }

  // where the values of a tag stand, and of which type and how many they are
  valuesAt(tag, types, count, otherCount) {
    const entry = this.entries.get(tag)
    if (entry === undefined) throw new PageFault('TiffMissing', tag)
    const type = this.short(entry + 2)
    if (!types.includes(type)) throw new PageFault('TiffType', tag)
    if (this.long(entry + 4) !== count) throw otherCount
    const bytes = count * SIZE[type]
    const at = bytes > 4 ? this.long(entry + 8) : entry + 8
    if (at + bytes > this.length) throw new PageFault('TiffBounds', tag)
    return { at, type }
  }

  numbers(tag, count, otherCount = new PageFault('TiffType', tag)) {
    const { at, type } = this.valuesAt(tag, [SHORT, LONG], count, otherCount)
    return Array.from({ length: count }, (_, k) => (type === SHORT ? this.short(at + 2 * k) : this.long(at + 4 * k)))
  }

  number(tag, missing) {
    if (missing !== undefined && !this.entries.has(tag)) return missing
    return this.numbers(tag, 1)[0]
  }

  oneOf(tag, allowed, missing) {
    const value = this.number(tag, missing)
    if (!allowed.includes(value)) throw new PageFault('TiffMeaning', tag)
    return value
  }

  // a resolution says nothing of pixels; it may be refused
  knowResolution(tag) {
    if (this.entries.has(tag)) this.valuesAt(tag, [RATIONAL], 1, new PageFault('TiffType', tag))
  }
}

// What the directory says of the page, its tags in the order in which they are refused.
function readLayout(directory) {
  const width = directory.number(256)
  const height = directory.number(257)
  const fits = width > 0 && height > 0 && width <= MOST_ACROSS && height <= MOST_DOWN && width * height <= MOST_PIXELS
  if (!fits) throw new PageFault('PageLimit', width, height)
  for (const tag of [258, 277, 274]) directory.oneOf(tag, [1], 1)
  const compression = directory.number(259)
  if (![1, 4].includes(compression)) throw new PageFault('TiffCompression', compression)
  const zeroIsBlack = directory.oneOf(262, [0, 1]) === 1
  const lowFirst = directory.oneOf(266, [1, 2], 1) === 2
  const perStrip = directory.number(278, ALL_ROWS)
  if (perStrip === 0) throw new PageFault('TiffMeaning', 278)
  const strips = Math.ceil(height / perStrip)
  const offsets = directory.numbers(273, strips, new PageFault('TiffStrips'))
  const lengths = directory.numbers(279, strips, new PageFault('TiffStrips'))
  directory.knowResolution(282)
  directory.knowResolution(283)
  directory.oneOf(296, [1, 2, 3], 2)
  if (offsets.some((offset, k) => offset + lengths[k] > directory.length)) throw new PageFault('TiffBounds', 273)
  return { width, height, group4: compression === 4, zeroIsBlack, lowFirst, perStrip, offsets, lengths }
}

const REVERSED = Uint8Array.from({ length: 256 }, (_, byte) => {
  let turned = 0
  for (let bit = 0; bit < 8; bit += 1) if (byte & (1 << bit)) turned |= 0x80 >> bit
  return turned
})

// { width, height, rows }: packed rows from the top, the first pixel in the high bit of a byte, black as 1. Bits past the
// width may be either. Throws a PageFault.
export function readTiff(file) {
  const layout = readLayout(new Directory(file))
  const { width, height } = layout
  const stride = (width + 7) >> 3
  const rows = new Uint8Array(height * stride)
  layout.offsets.forEach((offset, k) => {
    const first = k * layout.perStrip
    const count = Math.min(layout.perStrip, height - first)
    let strip = file.subarray(offset, offset + layout.lengths[k])
    if (!layout.group4 && strip.length < count * stride) throw new PageFault('TiffStrips')
    if (!layout.group4) strip = strip.subarray(0, count * stride)
    if (layout.lowFirst) strip = strip.map((byte) => REVERSED[byte])
    if (layout.group4) readStrip(strip, width, count, rows, first)
    else rows.set(strip, first * stride)
  })
  if (layout.zeroIsBlack) for (let i = 0; i < rows.length; i += 1) rows[i] ^= 0xff
  return { width, height, rows }
}
